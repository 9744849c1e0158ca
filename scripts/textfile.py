#!/usr/bin/env python3
"""What `metrics_prometheus_tool --textfile PATH --state PATH` does to files: no reader sees a torn or an empty text, whatever
happens, and what was held goes on at the next run.

    textfile.py PROGRAM

Prints a line for each case that failed, and how many passed. Its status is 0 if all did."""

import os
import random
import re
import resource
import signal
import subprocess
import sys
import tempfile
import time
from pathlib import Path

PROGRAM = Path(sys.argv[1]).resolve()
SMALL = b"increment 1 a\nscrape 1\n"


def run(folder, path, given=SMALL, before=None):
    ended = subprocess.run([PROGRAM, "--textfile", path], input=given, capture_output=True, cwd=folder, preexec_fn=before, timeout=60)
    return ended.returncode, ended.stdout, ended.stderr.decode()


def series(writer, count, number):
    """Lines that set all series of a writer to a number, and put them into the file."""
    return b"".join(b"set %d m%d writer=%s\n" % (number, i, writer) for i in range(count)) + b"scrape %d\n" % number


def is_whole(text, counts):
    """Whether the text has all series of one writer, all with one number."""
    found = re.findall(rb'^m(\d+)\{writer="(\w)"\} (\d+)$', text, re.MULTILINE)
    writers = {writer for _, writer, _ in found}
    return (len(writers) == 1 and len({number for _, _, number in found}) == 1 and len(found) == counts[writers.pop()]
            and text.endswith(b"\n"))


def beside(folder, kept):
    return sorted(set(os.listdir(folder)) - set(kept))


# ---- cases: each has a folder of its own, and returns what is wrong, or nothing


def modes(folder):
    """The file may be read by all, whatever the umask."""
    ended = run(folder, "a.prom", before=lambda: os.umask(0o077))
    mode = (folder / "a.prom").stat().st_mode & 0o777
    return ended == (0, b"", "") and mode == 0o644 and not beside(folder, ["a.prom"])


def names_taken(folder):
    """A folder, a link and a pipe at the names beside the file are left alone."""
    (folder / "victim").write_text("mine")
    (folder / "a.prom.0.tmp").mkdir()
    (folder / "a.prom.1.tmp").symlink_to("victim")
    (folder / "a.prom.2.tmp").symlink_to("nothing")
    os.mkfifo(folder / "a.prom.3.tmp")
    kept = os.listdir(folder) + ["a.prom"]
    ended = run(folder, "a.prom")
    return (ended[0] == 0 and (folder / "victim").read_text() == "mine" and "a 1" in (folder / "a.prom").read_text()
            and not beside(folder, kept) and not (folder / "a.prom").is_symlink())


def link_followed(folder):
    """A link is followed to the file that it names, also over links and to a file that is missing."""
    (folder / "data").mkdir()
    (folder / "near.prom").symlink_to("data/step.prom")
    (folder / "data" / "step.prom").symlink_to(folder / "data" / "far.prom")
    first = run(folder, "near.prom")
    second = run(folder, "near.prom", b"increment 5 a\n")
    return ((first[0], second[0]) == (0, 0) and (folder / "near.prom").is_symlink() and (folder / "data" / "step.prom").is_symlink()
            and "a 5" in (folder / "data" / "far.prom").read_text() and sorted(os.listdir(folder / "data")) == ["far.prom", "step.prom"])


def no_file_at(path):
    def case(folder):
        kept = os.listdir(folder)
        status, out, errors = run(folder, path)
        return (status, out) == (2, b"") and errors.count("\n") == 1 and not beside(folder, kept)
    return case


def folder_there(folder):
    (folder / "a.prom").mkdir()
    return no_file_at("a.prom")(folder)


def pipe_there(folder):
    os.mkfifo(folder / "a.prom")
    return no_file_at("a.prom")(folder) and (folder / "a.prom").is_fifo()


def link_to_pipe(folder):
    os.mkfifo(folder / "pipe")
    (folder / "a.prom").symlink_to("pipe")
    return no_file_at("a.prom")(folder) and (folder / "a.prom").is_symlink()


def links_in_a_circle(folder):
    (folder / "a.prom").symlink_to("b.prom")
    (folder / "b.prom").symlink_to("a.prom")
    status, out, errors = run(folder, "a.prom")
    return (status, out) == (1, b"") and "a.prom" in errors and not beside(folder, ["a.prom", "b.prom"])


def folder_missing(folder):
    """Each scrape fails, says what it could not make, and the program goes on."""
    status, out, errors = run(folder, "none/a.prom", b"increment 1 a\nscrape 1\nscrape 2\n")
    return (status, out) == (1, b"") and errors == "can't make none/a.prom.0.tmp: No such file or directory (os error 2)\n" * 2


def disk_full(folder):
    """A file that may not grow past a limit: the old one stays, nothing is left beside it, and the message says what failed."""
    def limited():
        signal.signal(signal.SIGXFSZ, signal.SIG_IGN)
        resource.setrlimit(resource.RLIMIT_FSIZE, (4096, 4096))
    (folder / "a.prom").write_text("old\n")
    status, out, errors = run(folder, "a.prom", series(b"x", 1000, 1), limited)
    return ((status, out) == (1, b"") and errors == "can't write a.prom.0.tmp: File too large (os error 27)\n"
            and (folder / "a.prom").read_text() == "old\n" and not beside(folder, ["a.prom"]))


def memory_short(folder):
    """Refused calls give status 1 and one message, and the output stays empty."""
    lines = b"".join(b"increment 1 c%d some=label_%d\n" % (i, i) for i in range(300_000))
    (folder / "a.prom").write_text("old\n")
    limit = 120_000 * 1024
    status, out, errors = run(folder, "a.prom", lines, lambda: resource.setrlimit(resource.RLIMIT_AS, (limit, limit)))
    return (status, out) == (1, b"") and re.fullmatch(r"(refused: \d+ updates, \d+ descriptions, \d+ scrapes\n)?((line \d+: )?memory\n)?", errors) and errors


def two_writers(folder):
    """3,000 scrapes of each of two writers, and two readers meanwhile."""
    counts = {b"x": 200, b"y": 50}
    path = folder / "a.prom"
    given = {writer: b"".join(series(writer, count, number) for number in range(3000)) for writer, count in counts.items()}
    for writer in counts:
        (folder / writer.decode()).write_bytes(given[writer])
    running = [subprocess.Popen([PROGRAM, "--textfile", path], stdin=open(folder / writer.decode()), stderr=subprocess.PIPE) for writer in counts]
    readers = [os.fork() for _ in range(2)]
    if 0 in readers:
        bad = 0
        while any(os.path.exists(f"/proc/{one.pid}/fd/0") for one in running):
            if path.exists():
                bad += not is_whole(path.read_bytes(), counts)
        os._exit(1 if bad else 0)
    told = [one.communicate()[1] for one in running]
    read = [os.waitpid(reader, 0)[1] for reader in readers]
    return (told == [b"", b""] and [one.returncode for one in running] == [0, 0] and read == [0, 0]
            and is_whole(path.read_bytes(), counts) and not beside(folder, ["a.prom", "x", "y"]))


def kills(folder):
    """60 kills at random moments: each time the file has one whole text, and the next run is not hindered."""
    counts = {b"x": 300}
    path = folder / "a.prom"
    (folder / "x").write_bytes(b"".join(series(b"x", 300, number) for number in range(1000)))
    for _ in range(60):
        one = subprocess.Popen([PROGRAM, "--textfile", path], stdin=open(folder / "x"))
        time.sleep(random.uniform(0.005, 0.1))
        one.kill()
        one.wait()
        if path.exists() and not is_whole(path.read_bytes(), counts):
            return False
    return run(folder, path, series(b"x", 300, 1))[0] == 0 and is_whole(path.read_bytes(), counts)


def state_run(folder, given, *options):
    ended = subprocess.run([PROGRAM, "--textfile", "a.prom", "--state", "a.state", *options], input=given, capture_output=True, cwd=folder, timeout=60)
    return ended.returncode, ended.stdout, ended.stderr.decode()


LINES = (b'describe counter hits count All hits.\nincrement 2 hits path="a \\"b\\""\nset 3 temp\nadd 4 temp\n'
         b"record 7 lat\nrecord 7000 lat\nrecord -9 lat\nincrement 0 none\n")
PLACED = b"describe histogram lat seconds Time.\nrecord 0.25 lat\nrecord 1e+01 lat\nset -3.5 temp\nincrement 3e+09 bytes\n"


# A histogram that is made before its name has a unit, one after, and one whose name's unit changes; so from run to run.
UNITS = (b"record 3 early\ndescribe histogram early seconds Time.\nrecord 400 early\n"
         b"describe histogram size bytes Size.\nrecord 5000000 size\ndescribe histogram size percent Part.\nrecord 70 size a=b\n")


def runs_add_up(lines, *options):
    """Three runs hold together what one run with all their lines holds."""
    def case(folder):
        for _ in range(3):
            if state_run(folder, lines, *options) != (0, b"", ""):
                return False
        together = (folder / "a.prom").read_text()
        ended = subprocess.run([PROGRAM, *options], input=lines * 3, capture_output=True, timeout=60)
        return together + "\n" == ended.stdout.decode() and not beside(folder, ["a.prom", "a.state"])
    return case


def other_order(folder):
    """The order of options doesn't matter to a state."""
    options = ["--bounds-of=a=1,2", "--bounds-of=b=3", "--places=x=1", "--places=y=2"]
    state_run(folder, b"record 2 a\n", *options)
    return state_run(folder, b"record 2 a\n", *reversed(options)) == (0, b"", "") and "a_count 2\n" in (folder / "a.prom").read_text()


def many_samples(folder):
    """A state with a histogram of ten million samples is read soon."""
    (folder / "a.state").write_text(
        "metrics_prometheus_tool state 1, bounds 5,10 2 lines\n10000000 - record 7 lat\n5 - record 11 lat\n")
    begun = time.monotonic()
    ended = state_run(folder, b"record 7 lat\n", "--bounds", "5,10")
    took = time.monotonic() - begun
    shown = (folder / "a.prom").read_text()
    return ended == (0, b"", "") and took < 2 and "lat_sum 70000062\n" in shown and "lat_count 10000006\n" in shown


NOT_WHOLE = "a.state: not whole\n"
FOREIGN = "a.state: not a state of this program with these bounds and decimal places\n"


def no_update(folder):
    """A run without updates keeps the state and the text as they are."""
    state_run(folder, b"increment 2 hits\n")
    before = (folder / "a.state").read_bytes(), (folder / "a.prom").read_bytes()
    return state_run(folder, b"") == (0, b"", "") and before == ((folder / "a.state").read_bytes(), (folder / "a.prom").read_bytes())


def bad_state(spoil, message, *options):
    """A state that a run can't begin with is reported before the first line, and stays."""
    def case(folder):
        state_run(folder, b"increment 2 hits\nrecord 7 lat\n")
        path = folder / "a.state"
        path.write_bytes(spoil(path.read_bytes()))
        before = path.read_bytes(), (folder / "a.prom").read_bytes()
        ended = state_run(folder, b"increment 1 hits\nbad\n", *options)
        return ended == (2, b"", message) and before == (path.read_bytes(), (folder / "a.prom").read_bytes())
    return case


def other_places(folder):
    """Names with other decimal places are another state, also where their bounds are the same in units of the last place."""
    state_run(folder, b"increment 2 hits\n", "--bounds-of", "hits=5")
    before = (folder / "a.state").read_bytes()
    ended = state_run(folder, SMALL, "--places", "hits=1", "--bounds-of", "hits=0.5")
    return ended == (2, b"", FOREIGN) and before == (folder / "a.state").read_bytes()


def each_cut_state(folder):
    """A state that is cut off at any byte is refused."""
    state_run(folder, b"describe counter hits count All hits.\nincrement 2 hits a=b\nrecord 7 lat\n")
    path = folder / "a.state"
    whole = path.read_bytes()
    for size in range(len(whole)):
        path.write_bytes(whole[:size])
        status, out, errors = state_run(folder, SMALL)
        if (status, out, path.read_bytes()) != (2, b"", whole[:size]) or errors not in (NOT_WHOLE, FOREIGN):
            return False
    path.write_bytes(whole)
    return state_run(folder, SMALL) == (0, b"", "")


def one_file(folder):
    """The state and the text can't be in one file, also behind a link."""
    (folder / "link").symlink_to("a.prom")
    for name in ("a.prom", "link"):
        ended = subprocess.run([PROGRAM, "--textfile", "a.prom", "--state", name], input=SMALL, capture_output=True, cwd=folder, timeout=60)
        message = "--state and --textfile name one file\n"
        if (ended.returncode, ended.stdout, ended.stderr.decode()) != (2, b"", message) or (folder / "a.prom").exists():
            return False
    return True


def state_unwritten(folder):
    """Where the state can't be written, the text isn't either."""
    (folder / "none").symlink_to("missing/a")
    ended = subprocess.run([PROGRAM, "--textfile", "a.prom", "--state", "none"], input=SMALL, capture_output=True, cwd=folder, timeout=60)
    message = "can't make ./missing/a.0.tmp: No such file or directory (os error 2)\n".replace("./", "")
    return (ended.returncode, ended.stdout, ended.stderr.decode()) == (1, b"", message) and not (folder / "a.prom").exists()


def clock_in_seconds(folder):
    """By the clock a series goes 3 seconds after its last update with --idle 1, and stays with --idle 60."""
    def shown(idle):
        with subprocess.Popen([PROGRAM, "--idle", idle], stdin=subprocess.PIPE, stdout=subprocess.PIPE) as one:
            one.stdin.write(b"increment 1 a\nscrape\n")
            one.stdin.flush()
            time.sleep(3)
            out, _ = one.communicate(b"increment 1 b\nscrape\n")
        return out.count(b"\na 1\n")
    return (shown("1"), shown("60")) == (1, 2)


def clock_by_itself(folder):
    """With --every 2 a line that comes 3 seconds after the start is in the file at once, and the next one only at the end."""
    with subprocess.Popen([PROGRAM, "--every", "2", "--textfile", "a.prom"], stdin=subprocess.PIPE, cwd=folder) as one:
        one.stdin.write(b"increment 1 a\n")
        one.stdin.flush()
        time.sleep(0.5)
        first = (folder / "a.prom").exists()
        time.sleep(2.5)
        one.stdin.write(b"increment 1 a\nincrement 1 a\n")
        one.stdin.flush()
        time.sleep(0.5)
        second = (folder / "a.prom").read_text()
        one.communicate()
    return (not first, second, (folder / "a.prom").read_text()) == (True, "# TYPE a counter\na 2\n", "# TYPE a counter\na 3\n")


CASES = {
    "modes": modes,
    "names taken": names_taken,
    "a link": link_followed,
    "an empty path": no_file_at(""),
    "a slash at the end": no_file_at("a/"),
    "standard output": no_file_at("/dev/stdout"),
    "a device": no_file_at("/dev/null"),
    "a folder": folder_there,
    "a pipe": pipe_there,
    "a link to a pipe": link_to_pipe,
    "links in a circle": links_in_a_circle,
    "no folder": folder_missing,
    "a full disk": disk_full,
    "little memory": memory_short,
    "two writers": two_writers,
    "kills": kills,
    "three runs": runs_add_up(LINES, "--prefix", "p", "--label", "host=x y"),
    "three runs with decimal places": runs_add_up(PLACED, "--prefix", "p", "--places", "lat=2", "--places", "te=1", "--recommended-names"),
    "another order of options": other_order,
    "many samples": many_samples,
    "no update": no_update,
    "a state without its last line": bad_state(lambda text: text[:text.rindex(b"\n", 0, -1) + 1], NOT_WHOLE),
    "a state with a line more": bad_state(lambda text: text + b"1 - increment 2 hits\n", NOT_WHOLE),
    "each cut state": each_cut_state,
    "an empty state": bad_state(lambda text: b"", FOREIGN),
    "a foreign state": bad_state(lambda text: b"# TYPE a counter\na 1\n", FOREIGN),
    "a changed line": bad_state(lambda text: text.replace(b"1 - increment 2 hits", b"1 - increment x hits"), "a.state: a line is not one of a state\n"),
    "other bounds": bad_state(lambda text: text, FOREIGN, "--bounds", "1,2"),
    "other bounds of a prefix": bad_state(lambda text: text, FOREIGN, "--bounds-of", "lat=1,2"),
    "other decimal places": bad_state(lambda text: text, FOREIGN, "--places", "hits=1"),
    "other decimal places at the same bounds": other_places,
    "three runs with units": runs_add_up(UNITS, "--prefix", "p"),
    "other bounds of a unit": bad_state(lambda text: text.replace(b"in seconds 1,2,", b"in seconds 1,3,"), FOREIGN),
    "one file": one_file,
    "a state that can't be written": state_unwritten,
    "seconds": clock_in_seconds,
    "a period": clock_by_itself,
}


def main():
    failed = []
    for name, case in CASES.items():
        with tempfile.TemporaryDirectory() as folder:
            if not case(Path(folder)):
                failed.append(name)
                print(f"{name}: FAILED")
    print(f"{len(CASES) - len(failed)} of {len(CASES)} cases")
    sys.exit(1 if failed else 0)


main()
