#!/usr/bin/env python3
"""Reads expositions by Prometheus's own parsers, and compares what was read with what was fed in.

    read_prometheus.py make N                     writes lines that make N series, and two scrapes
    read_prometheus.py check INPUT OUTPUT WORD..  judges what the program wrote for these words and lines
    read_prometheus.py access LOG OUTPUT          judges what came of an access log, by counts of its own

Each exposition goes to `promtool check metrics`, and to the text parser of the package prometheus_client. What a scrape is to
show follows here from the rules in docs/PROGRAM.md and the READMEs of metrics_exposition and metrics_prometheus, without the
program.
"""

import argparse
import copy
import re
import subprocess
import sys
from fractions import Fraction

KINDS = ("counter", "gauge", "histogram")
KIND_OF = {"increment": 0, "absolute": 0, "add": 1, "sub": 1, "set": 1, "record": 2}
LEAST, GREATEST = -(2**63), 2**63 - 1


class Wrong(Exception):
    """The output is not the expected one."""


# ---- what is kept


def updated(word, amount, value):
    """Returns the value of a series after an update; None is that of a series that isn't held."""
    if word == "increment":
        return ((value or 0) + amount) % 2**64
    if word == "absolute":
        return max(value or 0, amount)
    if word == "record":
        return (value or []) + [amount]
    level = {"add": (value or 0) + amount, "sub": (value or 0) - amount, "set": amount}[word]
    return min(max(level, LEAST), GREATEST)


NUMERAL = re.compile(r"-?(?P<whole>0|[1-9][0-9]*)(?:\.(?P<decimals>[0-9]{1,18}))?(?P<power>e[+-]?[0-9]{1,2})?")


def units_of(number, places):
    """Returns how many units of the last of so many decimal places a number is, or None: no number, or a place too many."""
    found = NUMERAL.fullmatch(number)
    if found is None or number == "-0" or int(found["whole"]) >= 2**64:
        return None
    if found["power"] is None and len(found["decimals"] or "") > places:
        return None
    units = Fraction(number) * 10**places
    return int(units) if units.denominator == 1 else None


def ascending(bounds, places=0):
    """Returns bounds in units of the last place, in order. They may have a plus and needless zeros."""
    units = {units_of(re.sub("^([+-]?)0*(?=[0-9])", r"\1", bound).lstrip("+"), places) for bound in bounds.split(",")}
    return sorted(bound for bound in units if LEAST <= bound <= GREATEST)


def longest(prefixes, name, default):
    """Returns what is set for the longest prefix of a name, or the default."""
    prefix = max(filter(name.startswith, prefixes), key=len, default=None)
    return default if prefix is None else prefixes[prefix]


# The series about the program itself: the kind and the name of each.
OWN = "metrics_prometheus_tool_"
OWN_SERIES = [(0, "lines_total"), (0, "bad_lines_total"), (0, "refused_calls_total")]
OWN_SERIES += [(1, "series"), (1, "left_out_series"), (1, "scrape_timestamp_seconds")]

# The bounds of names without a unit, and of those of a unit, where no bounds are given.
PLAIN = "5,10,25,50,100,250,500,1000,2500,5000,10000"
BY_UNIT = {
    "percent": "1,5,10,25,50,75,90,95,99,100",
    "seconds": "1,2,5,10,30,60,120,300,600,1800,3600",
    "microseconds": "100,250,500,1000,2500,5000,10000,25000,50000,100000,250000,500000,1000000,10000000",
    "nanoseconds": "1000,2500,5000,10000,25000,50000,100000,250000,500000,1000000,10000000,100000000,1000000000",
    "bytes": "256,1024,4096,16384,65536,262144,1048576,4194304,16777216,67108864,268435456,1073741824",
}


class Exporter:
    """The held series, and of each watched one at how many updates and at which moment it was seen."""

    def __init__(self, kinds, timeout, bounds):
        self.watched = [KINDS.index(k) for k in KINDS if k[0] in kinds]
        self.timeout = None if timeout == "-" else int(timeout)
        self.bounds = bounds
        self.made_in = {}
        self.prefixes = {}
        self.places = {}
        self.held = {}
        self.seen = {}
        self.helps = {}
        self.units = {}
        self.is_recommended = False
        self.labels = {}
        self.names = ("", [])
        self.max_series = None
        self.shows_self = False
        self.lines = self.bad_lines = self.refused_calls = 0
        self.last = None

    def own_series(self, left_out):
        """Returns the series about the program itself, where a text leaves so many series out."""
        numbers = (self.lines, self.bad_lines, self.refused_calls, len(self.held), left_out, self.last)
        return {
            (kind, OWN + name, in_order(self.labels)): (number if kind == 0 else min(number, GREATEST), 0)
            for (kind, name), number in zip(OWN_SERIES, numbers)
            if number is not None
        }

    def is_beyond(self, word, name, labels):
        """Whether an update would make one series too many."""
        if self.max_series is None or len(self.held) < self.max_series:
            return False
        return (KIND_OF[word], name, labels) not in self.held

    def places_of(self, name):
        """Returns the decimal places of the name of a line."""
        return longest(self.places, name, 0)

    def kept_places(self, name):
        """Returns the decimal places of a kept name, which has the prefix of all names. The program's own names have none."""
        if self.shows_self and name in [OWN + own for _, own in OWN_SERIES]:
            return 0
        return self.places_of(name[len(self.names[0]) :])

    def bounds_for(self, series):
        """Returns the bounds of a histogram, in units of its name's last place: those of the longest prefix of its kept name,
        otherwise the given ones, otherwise those of the unit that the name had when the series was made; that plays no part
        where a name has decimal places by an option."""
        name = series[1]
        bounds = PLAIN if self.bounds is None else self.bounds
        if self.bounds is None and longest(self.places, name[len(self.names[0]) :], None) is None:
            bounds = BY_UNIT.get(self.made_in.get(series), PLAIN)
        return ascending(longest(self.prefixes, name, bounds), self.kept_places(name))

    def describe(self, kind, name, unit, text):
        self.helps[kind, name] = text
        if unit != "-":
            self.units[kind, name] = unit

    def update(self, word, amount, name, labels):
        series = (KIND_OF[word], name, labels)
        value, updates = self.held.get(series, (None, 0))
        if updates == 0:
            self.made_in[series] = self.units.get(series[:2])
        self.held[series] = (updated(word, amount, value), updates + 1)

    def expire(self, now):
        if self.timeout is None:
            return
        for series in [s for s in self.held if s[0] in self.watched]:
            self.check(series, now)

    def check(self, series, now):
        updates, moment = self.seen.get(series, (None, now))
        if updates != self.held[series][1]:
            self.seen[series] = (self.held[series][1], now)
        elif now - moment > self.timeout:
            del self.held[series], self.seen[series], self.made_in[series]


# ---- what Prometheus is to be shown


def spelled(name, allowed):
    """Returns a name with an underscore for each character that isn't allowed; the empty name is one underscore."""
    other = re.sub(f"[^0-9{allowed}]", "_", name)
    return re.sub("^[0-9]", "_", other) or "_"


def shown_labels(labels):
    shown = [(spelled(key, "A-Za-z_"), value) for key, value in labels if value != ""]
    return sorted(shown, key=lambda l: (l[0].encode(), l[1].encode()))


# The end of a recommended name by its unit, and how many digits of a number follow the point.
BASE = {"percent": ("_ratio", 2), "seconds": ("_seconds", 0), "milliseconds": ("_seconds", 3), "bytes": ("_bytes", 0)}
BASE |= {"microseconds": ("_seconds", 6), "nanoseconds": ("_seconds", 9)}


def base_of(exporter, kind, name):
    return BASE.get(exporter.units.get((kind, name)), ("", 0)) if exporter.is_recommended else ("", 0)


def shown_name(exporter, kind, name):
    end, _ = base_of(exporter, kind, name)
    ends = (end, "_total" if exporter.is_recommended and kind == 0 else "")
    bare = spelled(name, "A-Za-z_:")
    while any(end and bare.endswith(end) for end in ends):
        for end in ends:
            bare = bare.removesuffix(end)
    return bare + "".join(ends)


def pointed(number, places):
    """Returns the shortest text of a number whose last so many digits follow the point."""
    digits = str(abs(number)).rjust(places + 1, "0")
    at = len(digits) - places
    decimals = digits[at:].rstrip("0")
    return ("-" if number < 0 else "") + digits[:at] + ("." + decimals if decimals else "")


def rows_of(exporter):
    """Returns name, kind and labels of each series as they are shown, and its own key; in order."""
    rows = [
        (shown_name(exporter, kind, name), kind, shown_labels(labels), (kind, name, labels))
        for kind, name, labels in exporter.held
    ]
    return sorted(rows, key=lambda row: in_bytes([row[0], row[1], row[2], row[3][1], row[3][2]]))


def in_bytes(value):
    """The same with texts as bytes, whose order is that of the program."""
    if isinstance(value, str):
        return value.encode()
    return tuple(map(in_bytes, value)) if isinstance(value, (list, tuple)) else value


def is_reserved(kind, key):
    return key.startswith("__") or (kind == 2 and key == "le")


def labels_reason(kind, labels):
    """Returns why labels can't be shown: a name occurs twice, or Prometheus reserves it."""
    keys = [key for key, _ in labels]
    if len(set(keys)) < len(keys):
        return "two labels of one name"
    return next((f"label {key}" for key in keys if is_reserved(kind, key)), None)


def whole_of(name, histograms):
    """Returns the histogram of which the name is that of a part, or None."""
    wholes = (name[: -len(end)] for end in ("_bucket", "_sum", "_count") if name.endswith(end))
    return next((whole for whole in wholes if whole in histograms), None)


def histograms_of(rows):
    """Returns the names of the histograms that are shown. Rows are in order, so a histogram comes before its parts."""
    fit = [(name, kind) for name, kind, labels, _ in rows if labels_reason(kind, labels) is None]
    others = {name for name, kind in fit if kind != 2}
    names = set()
    for name, kind in fit:
        if kind == 2 and name not in others and whole_of(name, names) is None:
            names.add(name)
    return names


def reason_of(row, last, histograms):
    """Returns why a row is left out, or None."""
    name, kind, labels, _ = row
    reason = labels_reason(kind, labels)
    if reason is not None:
        return reason
    whole = whole_of(name, histograms)
    if whole is not None:
        return "name of a part of histogram " + whole
    if last is None or last[0] != name:
        return None
    if last[1] != kind:
        return "name taken by a " + KINDS[last[1]]
    return "labels equal those of " + one_line(last[3][1]) if last[2] == labels else None


def one_line(text):
    """Returns a name as it is written in a line of its own."""
    return text.replace("\\", "\\\\").replace("\n", "\\n")


def left_out_line(row, reason):
    """Returns the line that says why a series is left out, by its own name and the labels as they are shown."""
    return "# left out: %s %s%s: %s" % (KINDS[row[1]], one_line(row[3][1]), braces(row[2]), reason)


def braces(labels):
    def escaped(value):
        return value.replace("\\", "\\\\").replace('"', '\\"').replace("\n", "\\n")

    return "{%s}" % ",".join('%s="%s"' % (name, escaped(value)) for name, value in labels) if labels else ""


def samples_of(exporter, row):
    """Returns the samples of a row: the end of each name, the labels, and the number as it is written."""
    _, kind, labels, key = row
    value, places = exporter.held[key][0], base_of(exporter, kind, key[1])[1] + exporter.kept_places(key[1])
    if kind != 2:
        return [("", labels, pointed(value, places))]
    buckets = [(pointed(bound, places), sum(1 for x in value if x <= bound)) for bound in exporter.bounds_for(key)]
    buckets.append(("+Inf", len(value)))
    parts = [("_bucket", labels + [("le", bound)], str(count)) for bound, count in buckets]
    return parts + [("_sum", labels, pointed(sum(value), places)), ("_count", labels, str(len(value)))]


def help_lines(exporter, row):
    """Returns the description of a family: that of its first row's own name."""
    text = exporter.helps.get((row[1], row[3][1]))
    return [] if text is None else [f"# HELP {row[0]} {one_line(text)}"]


def with_own(exporter):
    """Returns an exporter that holds the series about the program itself too, if they are shown."""
    if not exporter.shows_self:
        return exporter
    other = copy.copy(exporter)
    for left_out in (lambda: 0, lambda: len(families_of(other)[1])):
        other.held = exporter.held | exporter.own_series(left_out())
    return other


def expected(exporter):
    """Returns each expected family, the lines of the series that are left out, and those of descriptions."""
    return families_of(with_own(exporter))


def families_of(exporter):
    """The same of held series alone."""
    rows = rows_of(exporter)
    histograms = histograms_of(rows)
    families, left_out, helps, last = [], [], [], None
    for row in rows:
        reason = reason_of(row, last, histograms)
        if reason is not None:
            left_out.append(left_out_line(row, reason))
            continue
        if last is None or last[0] != row[0]:
            families.append((row[0], KINDS[row[1]], []))
            helps += help_lines(exporter, row)
        last = row
        for end, labels, number in samples_of(exporter, row):
            families[-1][2].append((row[0] + end, labels, number))
    return families, left_out, helps


# ---- what was written


def as_client(family):
    """Returns a family as the client shows it: a counter's samples end in _total, and its name does not; numbers are floats."""
    name, kind, samples = family
    end = ""
    if kind == "counter":
        name, end = (name[:-6], "") if name.endswith("_total") else (name, "_total")
    return name, kind, [(sample + end, labels, float(number)) for sample, labels, number in samples]


def as_read(text):
    """Returns the families that the client reads."""
    from prometheus_client.parser import text_string_to_metric_families

    return [
        (metric.name, metric.type, [(s.name, list(s.labels.items()), s.value) for s in metric.samples])
        for metric in text_string_to_metric_families(text)
    ]


def numbers_of(text):
    """Returns the numbers of the samples as written: a float can't distinguish all those of 64 bits."""
    return [line.rsplit(" ", 1)[1] for line in text.split("\n")[:-1] if line[0] != "#"]


def judge(text, families, left_out, helps, is_recommended=False):
    """Compares an exposition with the expected one. promtool has no advice on recommended names."""
    if text is None:
        raise Wrong("a scrape has no exposition")
    told = subprocess.run(["promtool", "check", "metrics"], input=text.encode(), capture_output=True)
    if told.returncode not in ((0,) if is_recommended else (0, 3)):  # 3 is advice on names alone
        raise Wrong(f"promtool: status {told.returncode}: {(told.stdout + told.stderr).decode().strip()}")
    read = as_read(text)
    for wanted, family in zip(map(as_client, families), read):
        if wanted != family:
            raise Wrong(f"read {family}, wanted {wanted}")
    if len(read) != len(families):
        raise Wrong(f"read {len(read)} families, wanted {len(families)}")
    if numbers_of(text) != [number for _, _, samples in families for _, _, number in samples]:
        raise Wrong("the numbers are others")
    lines = [line for line in text.split("\n") if line.startswith("# left out: ")]
    if lines != left_out:
        raise Wrong(f"{lines} say what is left out, wanted {left_out}")
    lines = [line for line in text.split("\n") if line.startswith("# HELP ")]
    if lines != helps:
        raise Wrong(f"{lines} describe, wanted {helps}")


def expositions(output):
    """Returns the texts before the empty lines."""
    texts, text = [], ""
    for line in output.split("\n")[:-1]:
        if line == "":
            texts.append(text)
            text = ""
        else:
            text += line + "\n"
    return texts


def amount_of(word, amount, places):
    """Returns the units of an update's amount, or None."""
    units = units_of(amount, places)
    least, greatest = (0, 2**64 - 1) if word in ("increment", "absolute") else (LEAST, GREATEST)
    return units if units is not None and least <= units <= greatest else None


def is_moment(text):
    return re.fullmatch("0|[1-9][0-9]*", text) is not None and int(text) < 2**64


# ---- lines

UNITS = ("-", "count", "percent", "seconds", "milliseconds", "microseconds", "nanoseconds", "bytes")
LABEL = re.compile(r' ([^ =]*)=(?:"((?:[^"\\]|\\["\\n])*)"|((?!")[^ ]*))(?= |\Z)')
# A byte that isn't UTF-8 is read as one of the last range.
CONTROL = re.compile("[\x00-\x1f\x7f\udc80-\udcff]")
# What a name can't have: also the characters of a series that is written with its labels.
UNFIT = re.compile('[\x00-\x1f\x7f\udc80-\udcff{}",=]')


def in_order(labels):
    return tuple(sorted(labels.items(), key=lambda label: label[0].encode()))


def unescaped(value):
    return re.sub(r"\\(.)", lambda found: "\n" if found[1] == "n" else found[1], value)


def labels_of(rest):
    """Returns the labels after a name in the order of their keys, or None if they can't be read."""
    labels, at = {}, 0
    while at < len(rest):
        found = LABEL.match(rest, at)
        if found is None or CONTROL.search(found[0]) or found[1] in labels or len(labels) == 1000:
            return None
        labels[found[1]] = found[3] if found[2] is None else unescaped(found[2])
        at = found.end()
    return in_order(labels)


def update_of(word, rest, places_of):
    found = re.fullmatch("([^ ]*) ([^ ]+)(.*)", rest, re.DOTALL)
    if word not in KIND_OF or found is None or UNFIT.search(found[2]):
        return None
    name = "" if found[2] == "-" else found[2]
    amount, labels = amount_of(word, found[1], places_of(name)), labels_of(found[3])
    return None if amount is None or labels is None else ("update", word, amount, name, labels)


def describe_of(rest):
    kind, name, unit, *text = [*rest.split(" ", 3), "", "", ""][: max(3, rest.count(" ") + 1)]
    if kind not in KINDS or name == "" or UNFIT.search(name) or unit not in UNITS or not text:
        return None
    if CONTROL.search(text[0]):
        return None
    return "describe", KINDS.index(kind), "" if name == "-" else name, unit, text[0]


def request_of(line, places_of):
    """Returns what a line asks for, or None if it is bad; names have decimal places."""
    line = line.removesuffix("\r")
    word, space, rest = line.partition(" ")
    if line == "" or line[0] == "#":
        return ("nothing",)
    if line == "scrape":
        return "scrape", None
    if word == "scrape":
        return ("scrape", int(rest)) if is_moment(rest) else None
    return describe_of(rest) if word == "describe" else update_of(word, rest, places_of)


def labelled(request, common):
    """A request with the labels of all series; a series' own label of the same key wins."""
    match request:
        case ("update", word, amount, name, labels):
            return "update", word, amount, name, in_order(common | dict(labels))
    return request


def named(request, names):
    """A request by the name that the series gets; of a dropped name nothing is asked."""
    front, drops = names
    match request:
        case ("update", word, amount, name, labels):
            return ("nothing",) if any(drop in name for drop in drops) else ("update", word, amount, front + name, labels)
        case ("describe", kind, name, unit, text):
            return ("nothing",) if any(drop in name for drop in drops) else ("describe", kind, front + name, unit, text)
    return request


def names_of(options):
    """Returns what is before each name, and the texts of dropped names."""
    return ("" if options.prefix is None else options.prefix + "."), options.drop


def asked(line, exporter):
    """Returns what a line asks of an exporter, or None if it is bad."""
    return named(labelled(request_of(line, exporter.places_of), exporter.labels), exporter.names)


def options_of(words):
    """Returns what the words of the command line ask for."""
    parser = argparse.ArgumentParser()
    parser.add_argument("--idle", default="-")
    parser.add_argument("--idle-kinds", default=",".join(KINDS))
    parser.add_argument("--bounds")
    parser.add_argument("--bounds-of", action="append", default=[])
    parser.add_argument("--places", action="append", default=[])
    parser.add_argument("--label", action="append", default=[])
    parser.add_argument("--prefix")
    parser.add_argument("--drop", action="append", default=[])
    parser.add_argument("--textfile")
    parser.add_argument("--state")
    parser.add_argument("--every")
    parser.add_argument("--max-series", type=int)
    parser.add_argument("--at-scrapes-only", action="store_true")
    parser.add_argument("--accept-partial", action="store_true")
    parser.add_argument("--skip-bad", action="store_true")
    parser.add_argument("--strict", action="store_true")
    parser.add_argument("--recommended-names", action="store_true")
    parser.add_argument("--self", action="store_true")
    return parser.parse_args(words)


def without_partial(lines, options):
    """Returns those of the pieces between line feeds that count as lines: the last one has no line feed."""
    return lines if lines[-1] and options.accept_partial else lines[:-1]


def common_labels(options):
    return dict(label.split("=", 1) for label in options.label)


def prefix_bounds(options):
    parts = [value.rpartition("=") for value in options.bounds_of]
    return {names_of(options)[0] + prefix: bounds for prefix, _, bounds in parts}


def prefix_places(options):
    parts = [value.rpartition("=") for value in options.places]
    return {prefix: int(places) for prefix, _, places in parts}


def exporter_of(options, made=Exporter):
    kinds = "".join(kind[0] for kind in options.idle_kinds.split(","))
    exporter = made(kinds, options.idle, options.bounds)
    exporter.is_recommended = options.recommended_names
    exporter.prefixes = prefix_bounds(options)
    exporter.places = prefix_places(options)
    exporter.labels = common_labels(options)
    exporter.names = names_of(options)
    exporter.at_scrapes_only = options.at_scrapes_only
    exporter.max_series = options.max_series
    exporter.shows_self = options.self
    return exporter


def moment_in(text):
    """Returns the moment that a text has, by the clock of its scrape."""
    found = re.search(f"^{OWN}scrape_timestamp_seconds.* ([0-9]+)$", text or "", re.MULTILINE)
    return int(found[1]) if found else 0


def check(lines, output, exporter, skips_bad):
    """Judges what was written for the lines; returns how many samples were read."""
    texts = iter(expositions(output))
    count, is_changed = 0, False

    def shown(text):
        wanted = expected(exporter)
        judge(text, *wanted, is_recommended=exporter.is_recommended)
        return sum(len(samples) for _, _, samples in wanted[0])

    for line in lines:
        exporter.lines += 1
        match asked(line, exporter):
            case None if not skips_bad:  # a bad line ends the run
                is_changed = False
                break
            case None:
                exporter.bad_lines += 1
            case ("update", word, _, name, labels) if exporter.is_beyond(word, name, labels):
                exporter.refused_calls += 1
            case ("update", *update):
                exporter.update(*update)
                is_changed = True
            case ("describe", *description):
                exporter.describe(*description)
                is_changed = True
            case ("scrape", moment):
                text = next(texts, None)
                exporter.last = moment_in(text) if moment is None else moment
                exporter.expire(moment or 0)
                count += shown(text)
                is_changed = False
    if is_changed and not exporter.at_scrapes_only:
        count += shown(next(texts, None))
    if next(texts, None) is not None:
        raise Wrong("more expositions than scrapes")
    return count


# ---- an access log

ACCESS = re.compile(r'\S+ - - \[[^]]*\] "(\S+) (.*) HTTP/1\.[01]" (\d+) (\d+) (\d+)')


def access(log, text):
    """Counts what an access log holds, and compares it with the samples that came of it; returns how many there are."""
    requests, sizes, times = {}, {}, {}
    for line in log.split("\n")[:-1]:
        method, path, code, size, milliseconds = ACCESS.fullmatch(line).groups()
        requests[code, method, path] = requests.get((code, method, path), 0) + 1
        sizes[path] = sizes.get(path, 0) + int(size)
        times.setdefault(method, []).append(int(milliseconds))
    wanted = {("http_requests_total", c, m, p): n for (c, m, p), n in requests.items()}
    wanted |= {("http_bytes_total", p): n for p, n in sizes.items()}
    for method, values in times.items():
        wanted |= {("http_duration_sum", method): sum(values), ("http_duration_count", method): len(values)}
        for bound in (5, 10, 25, 50, 100, 250, 500, 1000, 2500, 5000, 10000, "+Inf"):
            level = sum(value <= float(bound) for value in values)
            wanted["http_duration_bucket", str(bound), method] = level
    read = {}
    for _, _, samples in as_read(text):
        for name, labels, value in samples:
            read[name, *(part for _, part in sorted(labels))] = value
    if read != wanted:
        raise Wrong(f"read and not in the log: {read.items() - wanted.items()}; the other way: {wanted.items() - read.items()}")
    return len(read)


def make(number):
    """Yields lines that make so many series, a scrape, updates of one half of them, and a scrape that removes idle ones."""
    words = ("increment", "set", "record")
    lines = [f'{words[i % 3]} {i * 7919 % 100003} {KINDS[i % 3]}.{i % 97} host=h{i} path=C:\\{i}"' for i in range(number)]
    return "\n".join([*lines, "scrape 1", *lines[::2], "scrape 2", "scrape 7", ""])


def read(name):
    with open(name, encoding="utf-8", errors="surrogateescape", newline="") as file:
        return file.read()


def judged(arguments):
    if arguments[0] == "access":
        return access(read(arguments[1]), read(arguments[2]))
    options = options_of(arguments[3:])
    lines = without_partial(read(arguments[1]).split("\n"), options)
    return check(lines, read(arguments[2]), exporter_of(options), options.skip_bad)


def main(arguments):
    if arguments[0] == "make":
        sys.stdout.write(make(int(arguments[1])))
        return 0
    try:
        print(judged(arguments), "samples were read")
        return 0
    except (Wrong, ValueError, LookupError) as error:
        print(repr(error))
        return 1


if __name__ == "__main__":
    sys.exit(main(sys.argv[1:]))
