#!/usr/bin/env python3
"""Tries the judge of refused runs: it breaks what programs wrote while memory was refused, in one place each.

Runs of the text cases, on the programs that the gate left in crates/*/out, with single requests refused and with all from
one on. The judge must accept each run as it is, and reject at least 99 in 100 of the broken ones. Prints how many of each
kind it accepted, and at last 'judge: N passed, M failed', by kinds of damage and one for all runs that are right."""

import os
import re
import sys
import tempfile
from concurrent.futures import ProcessPoolExecutor
from pathlib import Path

sys.dont_write_bytecode = True
import walk

# Every so manyth case is tried, and the requests that fail in turn.
STEP = 2
REQUESTS = (1, 2, 3, 5, 8, 13, 21, 34, 55)
LEAST_SHARE = 0.99


def other_digit(line):
    """Returns a line with its last digit changed."""
    found = re.search(rb"\d(?=\D*$)", line)
    return line[:found.start()] + b"%d" % ((int(found[0]) + 1) % 10) + line[found.end():] if found else None


def broken(run):
    """Yields the kind of damage, and a run with it: in one place of its output, in its message, or in its status."""
    lines = run.out.splitlines(True)
    for at, line in enumerate(lines):
        kinds = {
            "a line is missing": [],
            "a line comes twice": [line, line],
            "a digit is another": [other_digit(line)],
            "a letter is another": [line.replace(b"e", b"o", 1)],
            "a space is added": [line[:-1] + b" \n"],
            "a line feed is missing": [line[:-1]],
            "a failure is invented": [b"refused E1 memory acted 0\n" if line != b"refused E1 memory acted 0\n" else line],
        }
        for kind, there in kinds.items():
            if None not in there and there != [line]:
                yield kind, run._replace(out=b"".join(lines[:at] + there + lines[at + 1:]))
        if at > 0 and lines[at - 1] != line:
            yield "two lines are exchanged", run._replace(out=b"".join([*lines[:at - 1], line, lines[at - 1], *lines[at + 1:]]))
    yield "the status is another", run._replace(status={0: 2, 1: 0, 2: 0}.get(run.status, 0))
    yield "a message is another", run._replace(errors=run.errors + b"memory\n")


def is_right_too(run, plain):
    """A run that was out of memory may end after any whole answer, so the beginning of the plain output is no damage."""
    return run.status == 1 and plain.startswith(run.out) and (not run.out or run.out.endswith(b"\n"))


def tried(case):
    """Returns how many runs of a case were judged, those that were rejected, and by kind how many broken ones were accepted,
    of how many."""
    seen, wrong, counts = set(), [], {}
    with tempfile.TemporaryDirectory() as folder:
        room = Path(folder)
        (room / "refuse.so").symlink_to(os.environ["REFUSE_LIBRARY"])
        plain = case.run(room, "none", 0).out
        for how in ("once", "on"):
            for at in REQUESTS:
                run = case.run(room, how, at)
                if run.refused == 0:
                    break
                if (how, run.out, run.errors, run.status) in seen:
                    continue
                seen.add((how, run.out, run.errors, run.status))
                if case.judge(run, how):
                    wrong.append(f"{case.name} at request {at} ({how})")
                for kind, other in broken(run):
                    if other.errors == run.errors and is_right_too(other, plain):
                        continue
                    if (how, other.out, other.errors, other.status) in seen:
                        continue
                    accepted, total = counts.get(kind, (0, 0))
                    counts[kind] = accepted + (case.judge(other, how) is None), total + 1
    return len(seen), wrong, counts


def chosen():
    """Returns some of the cases whose answers the judge follows line by line."""
    found = [case for case in walk.walked_cases() if case.given and not case.fault.startswith((b"usage", b"error"))]
    return [case for case in found[::STEP] if os.access(walk.program_of(case), os.X_OK)]


def main():
    cases = chosen()
    with tempfile.TemporaryDirectory() as folder:
        os.environ["REFUSE_LIBRARY"] = walk.built_library(folder)
        with ProcessPoolExecutor(int(os.environ.get("JOBS", "4"))) as pool:
            found = list(pool.map(tried, cases))
    runs, wrong = sum(it[0] for it in found), [line for it in found for line in it[1]]
    counts = {}
    for _, _, of_case in found:
        for kind, (accepted, total) in of_case.items():
            was = counts.get(kind, (0, 0))
            counts[kind] = was[0] + accepted, was[1] + total
    for line in wrong:
        print(f"a run is rejected as it is: {line}")
    failed = int(bool(wrong) or runs == 0)
    for kind, (accepted, total) in sorted(counts.items()):
        is_bad = accepted > (1 - LEAST_SHARE) * total
        failed += is_bad
        print(f"{kind}: {total} broken, {accepted} accepted{' FAILED' if is_bad else ''}")
    print(f"{len(cases)} cases, {runs} runs, {sum(it[1] for it in counts.values())} broken ones")
    print(f"judge: {len(counts) + 1 - failed} passed, {failed} failed")
    return failed > 0


if __name__ == "__main__":
    sys.exit(main())
