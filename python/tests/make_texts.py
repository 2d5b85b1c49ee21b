"""Makes what is stored again: `python3.12 -m tests.make_texts GCRUN`, in the folder `python`.

GCRUN is the built program, crates/gcrun/out/gcrun. The texts of the generated scripts go to tests/texts.jsonl and
tests/groups.jsonl, a line for each seed; and the points in which scripts differ from CPython, also those of the
examples, to tests/points.json. A difference that no point passes is printed: it is to be read, and goes with the point
that it follows from to tests/consequences.json, by hand.
"""
import json
import subprocess
import sys

from .generator import Generator
from .groups import Groups
from .running import GROUPS, POINTS, TEXTS, compare_all, example_cases, stored_cases, stored_consequences, stored_groups

SEEDS = 340
GROUP_SEEDS = 2000
# a bad script, and a run that ended for want of budget, have texts too
STATUSES = (0, 1, 6)


def text_of(program: str, script: str) -> str:
    """What gcrun prints for a script."""
    done = subprocess.run([program, "run"], input=script, capture_output=True, text=True, timeout=60)
    if done.returncode not in STATUSES:
        raise SystemExit(f"{program} ended with status {done.returncode}")
    return done.stdout


def main(program: str) -> None:
    """Makes all texts."""
    with TEXTS.open("w") as texts:
        for seed in range(SEEDS):
            script = Generator(seed).script()
            texts.write(json.dumps({"seed": seed, "script": script, "text": text_of(program, script)}) + "\n")
    with GROUPS.open("w") as texts:
        for seed in range(GROUP_SEEDS):
            texts.write(json.dumps({"seed": seed, "text": text_of(program, Groups(seed).script())}) + "\n")
    outcomes = list(compare_all(example_cases() + stored_cases() + stored_groups()))
    rows = [f'"{case.name}": {json.dumps(outcome.points)}' for case, outcome in outcomes if outcome.points]
    known = stored_consequences()
    for case, outcome in outcomes:
        if outcome.points is None and known.get(case.name, ["", ""])[1] != outcome.difference:
            print(f"{case.name}: {outcome.difference}")
    POINTS.write_text("{\n" + ",\n".join(rows) + "\n}\n")


if __name__ == "__main__":
    main(sys.argv[1])
