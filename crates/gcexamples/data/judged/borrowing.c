/* A wrong extension type: its tp_traverse visits a reference that it does not own.

   A Box owns its contents and borrows its label. The collector takes each reference that is visited off the in-degree of
   what it refers to, so a visit to what is not owned takes off somebody else's. */
#include <Python.h>

typedef struct {
    PyObject_HEAD
    PyObject *contents; /* owned */
    PyObject *label;    /* borrowed */
} Box;

static int
box_traverse(Box *box, visitproc visit, void *arg)
{
    Py_VISIT(box->contents);
    Py_VISIT(box->label); /* the mistake */
    Py_VISIT(Py_TYPE(box));
    return 0;
}

static int
box_clear(Box *box)
{
    Py_CLEAR(box->contents);
    box->label = NULL;
    return 0;
}

static void
box_dealloc(Box *box)
{
    PyTypeObject *type = Py_TYPE(box);
    PyObject_GC_UnTrack(box);
    box_clear(box);
    type->tp_free(box);
    Py_DECREF(type);
}

static int
box_init(Box *box, PyObject *args, PyObject *keywords)
{
    PyObject *contents, *label;
    if (!PyArg_ParseTuple(args, "OO", &contents, &label))
        return -1;
    Py_XSETREF(box->contents, Py_NewRef(contents));
    box->label = label;
    return 0;
}

static PyType_Slot box_slots[] = {
    {Py_tp_new, PyType_GenericNew},
    {Py_tp_init, box_init},
    {Py_tp_traverse, box_traverse},
    {Py_tp_clear, box_clear},
    {Py_tp_dealloc, box_dealloc},
    {0, NULL},
};

static PyType_Spec box_spec = {
    .name = "borrowing.Box",
    .basicsize = sizeof(Box),
    .flags = Py_TPFLAGS_DEFAULT | Py_TPFLAGS_HAVE_GC,
    .slots = box_slots,
};

static int
borrowing_exec(PyObject *module)
{
    PyObject *type = PyType_FromModuleAndSpec(module, &box_spec, NULL);
    if (type == NULL)
        return -1;
    int result = PyModule_AddObjectRef(module, "Box", type);
    Py_DECREF(type);
    return result;
}

static PyModuleDef_Slot borrowing_slots[] = {
    {Py_mod_exec, borrowing_exec},
    {0, NULL},
};

static PyModuleDef borrowing = {
    PyModuleDef_HEAD_INIT,
    .m_name = "borrowing",
    .m_slots = borrowing_slots,
};

PyMODINIT_FUNC
PyInit_borrowing(void)
{
    return PyModuleDef_Init(&borrowing);
}
