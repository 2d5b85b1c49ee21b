"""The command `gcscript`: see docs/BESIDE-CPYTHON.md."""
from .front import run


def main():
    """Runs it."""
    run("gcscript", ".beside.main")


if __name__ == "__main__":
    main()
