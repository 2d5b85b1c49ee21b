"""The command `gcplay`: a script beside what it prints. README.md has its columns."""
from .front import run


def main():
    """Runs it."""
    run("gcplay", ".play.command")


if __name__ == "__main__":
    main()
