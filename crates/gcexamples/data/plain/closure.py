"""closure.script as a plain program: the serials of the instances are those of the script."""


class C:
    """Tells when it goes."""

    def __init__(self, serial):
        self.serial = serial

    def __del__(self):
        print(f"value #{self.serial}")


def function_of(a, b):
    """A function with two cells."""
    return lambda: (a, b)


f = function_of(C(2), C(3))
del f
