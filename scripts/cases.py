#!/usr/bin/env python3
"""The text cases of cases/: inputs of the two programs, and what they print.

    cases.py run all     runs all cases on the two programs, which `rt try` builds without proof, and judges them. It prints a
                         line for each case that failed and for each group as it ends, and at last 'cases: N passed, M failed'
    cases.py run written the same without those that a rule generates
    cases.py list        prints the group and the name of each case
    cases.py of GROUP    lays out the inputs of a group in the present folder, as NAME and NAME.args

A case is a row of a table cases/*.txt, a pair of files in a folder of cases/, or made by a rule of scripts/grammar.py.
cases/README.md says how to write one.
"""

import os
import re
import signal
import subprocess
import sys
import tempfile
from concurrent.futures import ThreadPoolExecutor
from itertools import groupby
from pathlib import Path
from typing import NamedTuple

sys.dont_write_bytecode = True
import grammar

TOP = Path(__file__).resolve().parent.parent
CASES = TOP / "cases"
PROGRAMS = ("metrics_tool", "metrics_prometheus_tool")


class Case(NamedTuple):
    """A run of a program: its words and input, and what it prints, says on standard error, and ends with."""

    group: str
    name: str
    program: str
    words: list
    given: bytes
    prints: bytes
    message: bytes
    status: int


class BadTable(Exception):
    """A table can't be read."""


# ---- rows of tables

ESCAPES = {"\\": "\\", "n": "\n", "t": "\t", "r": "\r", "s": " ", "p": "|", "e": ""}


def plain(text):
    """Returns the bytes of a column: `\\xHH` is a byte, `\\e` nothing, and the rest is as in a string."""

    def one(found):
        if found[1] == "x":
            return chr(0xDC00 + int(found[2], 16)) if int(found[2], 16) > 127 else chr(int(found[2], 16))
        if found[0][1:] not in ESCAPES:
            raise BadTable(f"{found[0]} is no escape")
        return ESCAPES[found[0][1:]]

    return re.sub(r"\\(?:(x)([0-9a-f]{2})|.)", one, text).encode(errors="surrogateescape")


def lines_of(text):
    """Returns the lines of a column, which ` / ` parts. The last one has no line feed where `\\c` ends it."""
    if not text:
        return b""
    is_cut = text.endswith("\\c")
    lines = b"\n".join(plain(line) for line in text.removesuffix("\\c").split(" / "))
    return lines if is_cut else lines + b"\n"


def words_of(text):
    return [plain(word).decode(errors="surrogateescape") for word in text.split(" ")] if text else []


SECTION = {"program": "", "words": "", "names": "", "before": "", "after": "", "prints": "", "message": "", "status": "0"}


def case_of(group, section, row):
    """Returns the case of a row: what its columns don't have, its section has."""
    columns = section["columns"].split(", ")
    parts = row.split(" | ")
    if len(parts) != len(columns):
        raise BadTable(f"{len(parts)} columns, wanted {len(columns)}: {row}")
    said = {**section, **dict(zip(columns, parts))}
    if "{}" in section["message"] and "message" in columns:
        said["message"] = section["message"].replace("{}", said["message"])
    given = lines_of(said["before"]) + lines_of(said.get("line", "")) + lines_of(said["after"])
    return Case(group, said["names"] + said["name"], said["program"], words_of(said["words"]), given,
                lines_of(said["prints"]), lines_of(said["message"]), int(said["status"]))


def generated(group, section, row):
    """Yields the cases that follow from the form of a line. Those of metrics_prometheus_tool whose message has no rule are left
    to a table."""
    said = {**section, **dict(zip(section["columns"].split(", "), row.split(" | ")))}
    before, after = lines_of(said["before"]), lines_of(said["after"])
    for kind, line, flaw in grammar.bad_lines(said["form"]):
        message = grammar.message_of(flaw, said["usage"]) if "usage" in said else "bad line"
        if message is not None:
            end = said["message"].replace("{}", message) + "\n"
            yield Case(group, f"{said['names']}{said['name']}_{kind}", said["program"], words_of(said["words"]),
                       before + line + b"\n" + after, lines_of(said["prints"]), end.encode(), int(said["status"]))


def table(file):
    """Yields the cases of a table. `key: value` sets what the rows below have in common; an empty line ends a section."""
    section = dict(SECTION)
    with open(file, encoding="utf-8", newline="\n") as rows:
        for number, row in enumerate(rows, 1):
            row = row.removesuffix("\n")
            key = re.match(r"([a-z]+): ?", row)
            try:
                if not row:
                    section = dict(SECTION)
                elif key and key[1] in (*SECTION, "columns"):
                    section[key[1]] = row[key.end():]
                elif "form" in section.get("columns", "").split(", ") and not row.startswith("#"):
                    yield from generated(file.stem, section, row)
                elif not row.startswith("#"):
                    yield case_of(file.stem, section, row)
            except (BadTable, KeyError, ValueError) as error:
                raise BadTable(f"{file}:{number}: {error}") from None


# ---- pairs of files

ENDS = (".stdout", ".stderr", ".status")


def read(file):
    return file.read_bytes() if file.exists() else b""


def pair(group, program, words, file):
    beside = [file.with_name(file.name + end) for end in ENDS]
    if not beside[0].exists():
        raise BadTable(f"{file} has no {beside[0].name}")
    return Case(group, file.name, program, words, file.read_bytes(), read(beside[0]), read(beside[1]), int(read(beside[2]) or 0))


def inputs(folder):
    return [it for it in sorted(folder.iterdir()) if it.is_file() and it.suffix not in ENDS]


def pairs():
    """Yields the cases of `run`, and those of exporters, in folders that are named by the words of the command line."""
    for folder in sorted((CASES / "run").iterdir()):
        for file in inputs(folder):
            yield pair("run", PROGRAMS[0], ["run"], file)
    for group, program, first in (("export", PROGRAMS[0], ["export"]), ("prometheus", PROGRAMS[1], [])):
        for folder in sorted((CASES / group).iterdir()):
            for file in inputs(folder):
                yield pair(group, program, first + folder.name.split("_"), file)


def every_case():
    """Returns all cases, in groups. Their names are unique."""
    found = [case for file in sorted(CASES.glob("*.txt")) for case in table(file)] + list(pairs())
    names = set()
    for case in found:
        if case.name in names:
            raise BadTable(f"two cases are named {case.name}")
        names.add(case.name)
    return found


# ---- runs by `rt try`


def lay(folder, cases, name_of=lambda case: case.name):
    """Lays inputs out, each with its words beside it, as `rt try --cases` wants them."""
    folder.mkdir(parents=True, exist_ok=True)
    for case in cases:
        (folder / name_of(case)).write_bytes(case.given)
        words = "".join(word + "\n" for word in case.words)
        (folder / (name_of(case) + ".args")).write_bytes(words.encode(errors="surrogateescape"))


def label(case):
    """Returns a case's name among all inputs of its program, which run in the order of these names: group by group."""
    return f"{case.group}.{case.name}"


def outputs(text):
    """Returns what each case printed, by label."""
    found, name = {}, None
    for line in text.splitlines(True):
        if line.startswith(b"== "):
            name = line[3:].rstrip(b"\n").decode()
            found[name] = b""
        elif name is not None:
            found[name] += line
    return found


def fault_of(case, printed, ended):
    """Returns what is wrong with a run, or None."""
    if ended is None:
        return "it did not run"
    end, said, is_first = ended
    if end != f"run=ended status={case.status}":
        return f"{end}, wanted status {case.status}"
    if printed != case.prints:
        return f"it printed {printed!r}, wanted {case.prints!r}"
    if not said.endswith(case.message) or (said != case.message and not is_first):
        return f"it said {said[-300:]!r}, wanted {case.message!r}"
    return None


def judged(cases, printed, ended):
    """Prints a line for each case that failed and for their group, and returns the counts."""
    faults = [(case, fault_of(case, printed.get(label(case), b""), ended.get(label(case)))) for case in cases]
    for case, fault in faults:
        if fault:
            print(f"case {case.name} of {case.group} FAILED: {fault}")
    failed = sum(fault is not None for _, fault in faults)
    print(f"{cases[0].group}: {len(cases) - failed} passed, {failed} failed", flush=True)
    return len(cases) - failed, failed


def run_program(program, cases, room):
    """Runs the cases of a program, judges each group as it ends, and returns the counts. What is said before the line of a
    case is the case's; what `rt try` says itself comes before that of the first one."""
    lay(room / program, cases, label)
    groups = {}
    for case in cases:
        groups.setdefault(case.group, []).append(case)
    counts, ended, said, last, out = [], {}, b"", b"", room / f"{program}.out"
    with open(out, "wb") as to:
        command = ["rt", "try", "--cases", str(room / program)]
        ran = subprocess.Popen(command, cwd=TOP / "crates" / program, stdin=subprocess.DEVNULL, stdout=to, stderr=subprocess.PIPE)
        RUNNING.append(ran)
        for line in ran.stderr:
            end = re.match(rb"case=(\S+) (run=\S+) (status=\S+)", line)
            last, said = (last + line)[-2000:], said + line
            if end:
                name = end[1].decode()
                ended[name] = (end[2] + b" " + end[3]).decode(), said.removesuffix(line), not ended
                said = b""
                group = name.partition(".")[0]
                if all(label(case) in ended for case in groups.get(group, [])):
                    counts.append(judged(groups.pop(group), outputs(out.read_bytes()), ended))
        ran.wait()
    if groups:
        sys.stderr.buffer.write(last)
        sys.stderr.flush()
    return counts + [judged(left, outputs(out.read_bytes()), ended) for left in groups.values()]


RUNNING = []


def stop(number, _):
    for ran in RUNNING:
        ran.terminate()
    os._exit(128 + number)


def halves(cases):
    """Cuts many cases into two parts of whole groups, which are built and run in parallel."""
    parts = [[], []] if len(cases) > 500 and (os.cpu_count() or 1) >= 4 else [[]]
    for _, group in groupby(cases, lambda case: case.group):
        min(parts, key=len).extend(group)
    return parts


def run(is_whole):
    """Runs the cases of both programs in parallel: all, or those that aren't generated."""
    for number in (signal.SIGTERM, signal.SIGHUP, signal.SIGINT):
        signal.signal(number, stop)
    cases = [case for case in every_case() if is_whole or not case.group.endswith("_generated")]
    parts = [(program, part) for program in PROGRAMS for part in halves([it for it in cases if it.program == program])]
    with tempfile.TemporaryDirectory() as room, ThreadPoolExecutor() as pool:
        ran = [pool.submit(run_program, program, part, Path(room, str(at))) for at, (program, part) in enumerate(parts)]
        counts = [count for it in ran for count in it.result()]
    passed, failed = (sum(count[at] for count in counts) for at in (0, 1))
    print(f"cases: {passed} passed, {failed} failed")
    return failed > 0 or passed == 0


def main(words):
    try:
        match words:
            case ["run", "all" | "written" as which]:
                return run(which == "all")
            case ["list"]:
                for it in every_case():
                    print(it.group, it.name)
            case ["of", group]:
                lay(Path(), [it for it in every_case() if it.group == group])
            case _:
                print(__doc__, file=sys.stderr)
                return 2
    except BadTable as error:
        print(error, file=sys.stderr)
        return 2
    return 0


if __name__ == "__main__":
    sys.exit(main(sys.argv[1:]))
