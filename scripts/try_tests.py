#!/usr/bin/env python3
"""Runs the tests of each crate that has some by `rt try --test`, without proof, as many crates at a time as there are cores.

Prints a line for each crate as it ends, and at last 'tests: N passed, M failed'. A crate of which no result comes counts as
one failure."""

import os
import re
import subprocess
import sys
from concurrent.futures import ThreadPoolExecutor, as_completed
from pathlib import Path

CRATES = Path(__file__).resolve().parent.parent / "crates"
RESULT = re.compile(r"^test result: \w+\. (\d+) passed; (\d+) failed", re.MULTILINE)


def has_tests(crate):
    return any("#[test]" in file.read_text(encoding="utf-8") for file in crate.glob("src/**/*.rt"))


def tried(crate):
    """Returns how many of a crate's tests passed and failed, and what was printed."""
    how = {"stdin": subprocess.DEVNULL, "stdout": subprocess.PIPE, "stderr": subprocess.STDOUT, "errors": "replace"}
    ran = subprocess.run(["rt", "try", "--test"], cwd=crate, check=False, **how)
    found = RESULT.search(ran.stdout)
    passed, failed = (int(found[1]), int(found[2])) if found else (0, 0)
    if failed == 0 and (ran.returncode != 0 or passed == 0):
        failed = 1
    return passed, failed, ran.stdout


def main():
    # A failed build or a killed run prints everything that it said.
    crates = sorted(filter(has_tests, CRATES.iterdir()), key=lambda it: -sum(f.stat().st_size for f in it.glob("src/**/*.rt")))
    total = [0, 0]
    with ThreadPoolExecutor(os.cpu_count()) as pool:
        running = {pool.submit(tried, crate): crate.name for crate in crates}
        for it in as_completed(running):
            passed, failed, said = it.result()
            total = [total[0] + passed, total[1] + failed]
            print(f"{said if failed else ''}{running[it]}: {passed} passed, {failed} failed", flush=True)
    print(f"tests: {total[0]} passed, {total[1]} failed")
    return total[1] > 0 or total[0] == 0


if __name__ == "__main__":
    sys.exit(main())
