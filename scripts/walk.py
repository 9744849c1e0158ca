#!/usr/bin/env python3
"""Runs text cases and tests with each request for memory failing in turn: the Nth alone (`once`), and all from the Nth on
(`on`), for N = 1, 2, 3, .. until no request of a run fails. From 400 on N grows by a fortieth of itself.

    walk.py [NAME ..]

The cases are those of cases/ and a few storms, on the programs that the gate left in crates/*/out; the tests are those of each
crate that has some, in crates/NAME/out/NAME_tests. With names it walks these groups of cases (`cases.py list` has them) and
these crates alone.
JOBS says how many run beside one another.

Prints a line for each run that failed and for each folder or crate, and at the end
'refusals: C cases, T tests, R runs, M requests refused: P passed, F failed', by cases and tests."""

import os
import re
import struct
import subprocess
import sys
import tempfile
from concurrent.futures import ProcessPoolExecutor
from itertools import groupby
from pathlib import Path
from signal import SIGABRT
from typing import NamedTuple

sys.dont_write_bytecode = True
import cases
import judge

HERE = Path(__file__).resolve().parent
TOP = HERE.parent
STORMS = ("storm 2 200 4", "storm 2 200 4 grow", "storm 3 100 1", "storm 1 0 1 grow")

# The last words of a test that was out of memory: by `?`, which ends it with status 101, or by `.expect(&rt, "out of memory")`,
# which aborts it.
WANTS = (
    r"Memory( \{ acted: \d+ \})?|PartlyAbsorbed \{ error: Memory, rows: \d+, samples: \d+ \}"
    r"|\(Memory, -?\d+\)|Memory\(\w+(\(\d+\))?\)|AllocError|AllocFailed( \{.*\})?"
)
NO_THREAD = r"Os \{ code: 1[12], .*\}|Kind\(OutOfMemory\)|SpawnError( \{.*\}|\(.*\))?"
# What a test's runner adds if the test returns an error.
ENDED_BY_RESULT = "the test failed: its result gives status 1"
OUT_OF_MEMORY = re.compile(rf"out of memory|(error|out of memory): (\w+\()*({WANTS}|{NO_THREAD})\)*")


class Run(NamedTuple):
    """How a run ended, and what the library counted."""

    status: object
    out: bytes
    errors: bytes
    refused: int
    counted: int
    marks: int


class Walked(NamedTuple):
    """The result of a case or a test."""

    runs: int
    refused: int
    faults: list


# In seconds. A test waits two seconds for a thread that a refusal keeps from starting, in 2,000 steps, each of which takes much
# longer where other processes have the cores.
HANGS_AFTER = 120


def run_once(command, given, room, how, at, counts_all):
    (room / "told").unlink(missing_ok=True)
    # The library is named from the folder of the run: its name may have no space.
    env = {"LD_PRELOAD": "./refuse.so", "REFUSE_TOLD": "told", "REFUSE_HOW": how, "REFUSE_AT": str(at)}
    if counts_all:
        env["REFUSE_ALL"] = "1"
    try:
        ended = subprocess.run(command, input=given, capture_output=True, cwd=room, env=env, timeout=HANGS_AFTER)
        status, out, errors = ended.returncode, ended.stdout, ended.stderr
    except subprocess.TimeoutExpired:
        status, out, errors = "hang", b"", b""
    told = room / "told"
    refused, counted, marks = struct.unpack("3Q", told.read_bytes()) if told.exists() else (0, 0, 0)
    return Run(status, out, errors, refused, counted, marks)


def numbers():
    at = 1
    while True:
        yield at
        at += 1 if at < 400 else at // 40


class Case(NamedTuple):
    """A text case: the input of a program, and its expected output (None for a storm)."""

    group: str
    name: str
    program: str
    words: list
    given: bytes
    wanted: object
    fault: bytes
    code: int

    kind = "case"

    def begun(self, _room):
        return self

    def run(self, room, how, at):
        return run_once([program_of(self), *self.words], self.given, room, how, at, True)

    def judge(self, run, how):
        if how == "none" and self.wanted is not None:
            is_right = (run.out, run.errors, run.status) == (self.wanted, self.fault, self.code)
            return None if is_right else f"status {run.status} with {run.errors!r} and another output with memory at hand"
        try:
            judge.judge(self.program, self.words, self.given, self.fault, self.code, how, run.status, run.out, run.errors)
        except judge.Wrong as wrong:
            return str(wrong)


def program_of(case):
    return TOP / "crates" / case.program / "out" / case.program


class Test(NamedTuple):
    """A test by its full name. One that sets marks counts between them, and continues after a failed request. Otherwise all is
    counted, up to a mark from which nothing is."""

    group: str
    name: str
    sets_marks: bool = False

    kind = "test"

    def begun(self, room):
        return self._replace(sets_marks=self.run(room, "none", 0).marks > 0)

    def run(self, room, how, at):
        return run_once([tests_of(self.group), self.name], b"", room, how, at, not self.sets_marks)

    def judge(self, run, how):
        said = run.errors.decode(errors="replace").strip().removesuffix(ENDED_BY_RESULT).rstrip()
        last = said.rpartition("\n")[2]
        if run.status == 0 and run.out.endswith(b"test result: ok\n"):
            return None
        may_stop = how != "none" and not self.sets_marks
        if may_stop and run.status in (101, -SIGABRT) and OUT_OF_MEMORY.fullmatch(last):
            return None
        return f"status {run.status}: {run.out.decode(errors='replace').strip()} {last}"


def walked(unit):
    """Goes through the runs of a case or a test, up to five that failed."""
    with tempfile.TemporaryDirectory() as folder:
        room = Path(folder)
        (room / "refuse.so").symlink_to(os.environ["REFUSE_LIBRARY"])
        unit = unit.begun(room)
        plain = unit.run(room, "none", 0)
        faults = [("none", 0, unit.judge(plain, "none"))]
        if plain.counted == 0 and (unit.kind == "case" or unit.sets_marks):
            faults.append(("none", 0, "no request was counted"))
        runs, refused = 1, 0
        for how in ("once", "on"):
            for at in numbers():
                run = unit.run(room, how, at)
                faults.append((how, at, unit.judge(run, how if run.refused else "none")))
                runs, refused = runs + 1, refused + run.refused
                if run.refused == 0 or sum(fault is not None for _, _, fault in faults) >= 5:
                    break
    return Walked(runs, refused, [fault for fault in faults if fault[2]])


# ---- what there is


def walked_cases():
    """Returns all text cases, and storms."""
    for case in cases.every_case():
        yield Case(case.group, case.name, case.program, case.words, case.given, case.prints, case.message, case.status)
    for storm in STORMS:
        yield Case("storms", storm, "metrics_tool", storm.split(" "), b"", None, b"", 0)


def tests_of(crate):
    return TOP / "crates" / crate / "out" / (crate + "_tests")


def tested_crates():
    """Returns the crates that have tests."""
    for crate in sorted((TOP / "crates").iterdir()):
        if any("#[test]" in file.read_text() for file in crate.glob("src/**/*.rt")):
            yield crate.name


def tests(crate):
    listed = subprocess.run([tests_of(crate), "--list"], capture_output=True, text=True, check=True).stdout
    return [Test(crate, name) for name in re.findall(r"^(\S+): test$", listed, re.MULTILINE)]


def units_of(names):
    """Returns the cases and tests, and what is missing."""
    units, missing = [], []
    for unit in walked_cases():
        program = program_of(unit)
        if (not names or unit.group in names) and program not in missing:
            units.append(unit) if os.access(program, os.X_OK) else missing.append(program)
    for crate in tested_crates():
        if not names or crate in names:
            found = tests(crate) if os.access(tests_of(crate), os.X_OK) else []
            units += found
            if not found:
                missing.append(tests_of(crate))
    return units, missing


def walk_all(units, jobs):
    """Walks the units in parallel, and yields their results in order."""
    with ProcessPoolExecutor(jobs) as pool:
        for group, found in groupby(zip(units, pool.map(walked, units)), lambda pair: pair[0].group):
            runs = refused = count = 0
            for unit, came in found:
                for how, at, fault in came.faults:
                    print(f"{unit.kind} {unit.name} of {group} FAILED at request {at} ({how}): {fault[:300]}")
                runs, refused, count = runs + came.runs, refused + came.refused, count + 1
                yield unit, came
            print(f"{group}: {count} {unit.kind}s, {runs} runs, {refused} requests refused", flush=True)


def built_library(folder):
    library, flags = folder + "/refuse.so", ["-O2", "-Wall", "-Wextra", "-Werror", "-shared", "-fPIC"]
    subprocess.run(["cc", *flags, "-o", library, HERE / "refuse.c"], check=True)
    return library


def main(names):
    units, missing = units_of(names)
    for program in missing:
        print(f"{program.relative_to(TOP)} is missing, or has nothing to walk")
    with tempfile.TemporaryDirectory() as folder:
        os.environ["REFUSE_LIBRARY"] = built_library(folder)
        came = list(walk_all(units, int(os.environ.get("JOBS", "4"))))
    kinds = [unit.kind for unit, _ in came]
    runs, refused = sum(w.runs for _, w in came), sum(w.refused for _, w in came)
    bad = sum(bool(w.faults) for _, w in came)
    failed = bad + len(missing) + (refused == 0)
    counts = f"{kinds.count('case')} cases, {kinds.count('test')} tests, {runs} runs, {refused} requests refused"
    print(f"refusals: {counts}: {len(came) - bad} passed, {failed} failed")
    return failed > 0


if __name__ == "__main__":
    sys.exit(main(sys.argv[1:]))
