"""The command `gcrecord`: see docs/RECORDS.md."""
from .front import run


def main():
    """Runs it."""
    run("gcrecord", ".recorder.command")


if __name__ == "__main__":
    main()
