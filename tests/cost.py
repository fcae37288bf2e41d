#!/usr/bin/env python3
"""What a change costs: the tables of docs/BENCHMARKS.md, from what .ci/run printed. The checker does not tell the time of a single crate.

    .ci/run | tee LOG
    python3 tests/cost.py LOG
"""
import pathlib
import re
import subprocess
import sys

REPO = pathlib.Path(__file__).resolve().parent.parent


def lines_of_crates():
    """Each crate's lines of source, definitions and proof, by tests/lines.sh."""
    told = subprocess.run(["bash", "tests/lines.sh"], cwd=REPO, capture_output=True, text=True, check=True).stdout
    rows = [row.strip("| ").split(" | ") for row in told.split("\n") if row.startswith("| ")][1:]
    return {row[0].strip("`"): row[1:] for row in rows}


def crates(log):
    """A row a crate: lines, and its edits."""
    edits = re.findall(r"^rt: must-fail (\w+)/[\w.-]+: refused", log, re.M)
    yield "| Crate | Source | Definitions | Proof | Edits |"
    yield "|---|---|---|---|---|"
    for crate, lines in lines_of_crates().items():
        name, its = (crate, len(edits)) if crate == "all" else (f"`{crate}`", edits.count(crate))
        yield f"| {name} | {' | '.join(lines)} | {its} |"


def stages(log):
    """A row a stage of the gate."""
    yield "| Stage of `.ci/run` | Tests | Seconds |"
    yield "|---|---|---|"
    for name, tests, seconds in re.findall(r"^== ([^:\n]+): (\d+) passed(?:, \d+ failed)? \((\S+) s\)", log, re.M):
        yield f"| {name} | {tests} | {seconds} |"
    whole = re.search(r"^== all: (\S+) s\n(?:-- .*\n)*(\d+) passed", log, re.M)
    if whole:
        yield f"| all | {whole[2]} | {whole[1]} |"


def main():
    log = pathlib.Path(sys.argv[1]).read_text(encoding="utf-8")
    print("\n".join([*crates(log), "", *stages(log)]))


main()
