"""Asks gccheck for its verdict on a file of records."""
import subprocess

from .files import Refused

RIGHT = "yes "


def verdict_on(name: str, gccheck: str) -> str:
    """The verdict of the built gccheck on a file."""
    with open(name, "rb") as file:
        done = subprocess.run([gccheck], stdin=file, capture_output=True, text=True)
    verdict = done.stdout.strip()
    if not verdict.startswith((RIGHT, "no ")):
        raise Refused(f"{gccheck} ended with status {done.returncode} on {name}: {verdict or done.stderr.strip()}")
    return verdict
