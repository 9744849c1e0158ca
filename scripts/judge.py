"""Judges what the programs wrote while requests for memory failed, by the rules of docs/PROGRAM.md.

Each answer is the expected one, or says that memory ran out; then the call reached its first n targets, and no
other. A run ends as it does with memory available, or out of memory after whole answers."""

import copy
import functools
import re
import sys

sys.dont_write_bytecode = True
import read_prometheus as model

# A tree is as deep as a thousand levels, and each is a call.
sys.setrecursionlimit(10000)

NAMES = {"c": "counter", "g": "gauge", "h": "histogram"}


class Wrong(Exception):
    """The output is impossible."""


# ---- trees: nested tuples, of which a walk notes what happens to a name on its way


def plain(word):
    return b"" if word == b"-" else word


def folded(text):
    return re.sub(rb"[A-Z]", lambda letter: letter[0].lower(), text)


def taken(stack, count):
    """Returns the last recorders of the stack, the deepest first."""
    children = stack[len(stack) - count:]
    del stack[len(stack) - count:]
    return children


def route_of(word):
    mask, target, pattern = word.split(b"/", 2)
    return [NAMES[kind] for kind in mask.decode()], int(target), plain(pattern)


def tree_of(lines):
    """Returns the tree that the lines make. Its books are numbered in the order of their lines."""
    stack, books = [], 0
    for line in lines:
        match line.split(b" "):
            case [b"book"]:
                stack.append(("book", books))
                books += 1
            case [b"noop"]:
                stack.append(("fanout", []))
            case [b"prefix", text]:
                stack.append(("prefix", plain(text), stack.pop()))
            case [b"filter", case, _, *patterns]:
                seen = folded if case == b"ci" else bytes
                stack.append(("filter", seen, [seen(plain(pattern)) for pattern in patterns], stack.pop()))
            case [b"fanout", count]:
                stack.append(("fanout", taken(stack, int(count))))
            case [b"router", count, *routes]:
                stack.append(("router", [route_of(route) for route in routes], taken(stack, int(count) + 1)))
    return stack[0], books


def winner(routes, kind, name):
    """Returns the child that a name goes to: 0 is the default."""
    fit = [(len(front), at, to) for at, (mask, to, front) in enumerate(routes) if kind in mask and name.startswith(front)]
    return max(fit)[2] + 1 if fit else 0


def walk(tree, kind, name, way):
    """Notes the way of a name: each name that a prefix makes, each target, and each list of addresses that is joined."""
    match tree:
        case ("book", number):
            way.append(("target", number, name))
        case ("prefix", text, below):
            way.append(("name",))
            walk(below, kind, text + b"." + name, way)
        case ("filter", seen, patterns, below):
            if not any(pattern in seen(name) for pattern in patterns):
                walk(below, kind, name, way)
        case ("fanout", children):
            walk_all(children, 0, kind, name, way)
        case ("router", routes, children):
            at = winner(routes, kind, name)
            walk_all(children[at:at + 1], at, kind, name, way)


def walk_all(children, first, kind, name, way):
    for child in children:
        before = len(way)
        walk(child, kind, name, way)
        # The addresses of a first child that is the only one stay as they are.
        if (first > 0 or len(children) > 1) and any(step[0] == "target" for step in way[before:]):
            way.append(("joined",))


# ---- calls on books


class Book:
    def __init__(self):
        self.series, self.described = {}, {}

    def rows(self):
        for (kind, name, labels), value in self.series.items():
            unit, text = self.described.get((kind, name), (b"-", None))
            if kind == "histogram":
                cuts = range(len(value) // 64 * 64, -1, -64)
                value = "[%s]" % ",".join(str(sample) for cut in cuts for sample in value[cut:cut + 64])
            row = [kind.encode(), name or b"-", *labels, b"unit", unit, b"value", str(value).encode()]
            yield b" ".join(row) + (b"" if text is None else b" text " + text)

    def describe(self, kind, name, unit, text):
        old = self.described.get((kind, name), (b"-", None))[0]
        self.described[kind, name] = (old if unit == b"-" else unit, text)

    def reset(self, keep):
        for series in self.series:
            if not (keep and series[0] == "gauge"):
                self.series[series] = new_value(series[0])


def new_value(kind):
    return [] if kind == "histogram" else 0


def kind_of(word):
    return model.KINDS[model.KIND_OF[word]]


def acted_of(said):
    found = re.fullmatch(rb"refused E1 memory, acted (0|[1-9]\d*)", said)
    return int(found[1]) if found else None


class Calls:
    """The books of a tree, and what register calls returned. `after` returns what follows a call line, by its answer."""

    def __init__(self, lines):
        self.tree, books = tree_of(lines)
        self.books, self.handles = [Book() for _ in range(books)], []

    def after(self, line, said):
        words = line.split(b" ")
        acted = acted_of(said[0]) if said else None
        call = {b"describe": self.describe, b"register": self.register, b"snapshot": self.snapshot}.get(words[0], self.update)
        owed = call(line, words, acted)
        if acted is not None and owed is None:
            owed = said[:1]
        if owed is None or said[:len(owed)] != owed:
            return
        yield self, len(owed), acted is not None

    def owes_end(self):
        return False

    def after_end(self, said):
        yield self, 0, False

    def seen_as(self):
        return None

    def way_of(self, words):
        way = []
        walk(self.tree, words[1].decode(), plain(words[2]), way)
        return way, [step[1:] for step in way if step[0] == "target"]

    def describe(self, line, words, acted):
        way, targets = self.way_of(words)
        stops = {sum(step[0] == "target" for step in way[:at]) for at, step in enumerate(way) if step[0] != "joined"}
        for book, name in self.front(targets, acted, stops):
            self.books[book].describe(words[1].decode(), name, words[3], line.split(b" ", 4)[4])
        return None if acted is not None else [b"described %d" % len(targets)]

    def register(self, line, words, acted):
        kind, labels = words[1].decode(), tuple(words[3:])
        way, targets = self.way_of(words)
        front = self.front(targets, acted, set(self.stops(way, kind, labels)))
        for book, name in front:
            self.books[book].series.setdefault((kind, name, labels), new_value(kind))
        self.handles.append((kind, [(book, (kind, name, labels)) for book, name in front]) if acted is None else None)
        return None if acted is not None else [b"registered %d %d" % (len(self.handles) - 1, len(targets))]

    def stops(self, way, kind, labels):
        """Returns how many targets a failed register call may have reached. One that holds the series counts from the start."""
        done = 0
        for what, *target in way:
            held = what == "target" and (kind, target[1], labels) in self.books[target[0]].series
            yield done + held
            done += what == "target"

    def front(self, targets, acted, stops):
        """Returns the first targets, which were reached."""
        if acted is not None and acted not in stops:
            raise Wrong("acted %d, where it may be one of %s" % (acted, sorted(stops)))
        return targets[:acted]

    def update(self, line, words, acted):
        number, amount = int(words[1]), int(words[2])
        handle = self.handles[number] if number < len(self.handles) else None
        if handle is None or handle[0] != kind_of(words[0].decode()):
            return [b"refused E18 bad handle"]
        stops = range(len(handle[1])) if handle[0] == "histogram" else ()
        for book, series in self.front(handle[1], acted, stops):
            values = self.books[book].series
            values[series] = model.updated(words[0].decode(), amount, values[series])
        return None if acted is not None else [b"updated %d" % len(handle[1])]

    def snapshot(self, line, words, acted):
        number = int(words[1])
        if number >= len(self.books):
            return [b"refused E3 no such book"]
        book = self.books[number]
        if acted is not None:
            self.front([], acted, {0} if book.series else ())
            return None
        rows = list(book.rows())
        book.reset(keep=len(words) > 2)
        return [b"snapshot %d %d" % (number, len(rows)), *rows]


# ---- the lines of an exporter

order_of = functools.lru_cache(maxsize=None)(model.in_bytes)


class Export(model.Exporter):
    """The held series. What a failed scrape has left may be one of several, so `after` returns several."""

    refusal = b"refused E1 memory"

    def __init__(self, words):
        _, kinds, timeout, bounds = words
        super().__init__(kinds, timeout, bounds)
        self.listed = [int(bound) for bound in bounds.split(",")]

    def copied(self):
        other = copy.copy(self)
        other.held, other.seen, other.made_in = self.held.copy(), self.seen.copy(), self.made_in.copy()
        return other

    def after(self, line, said):
        word, amount, *rest = line.decode().split(" ")
        is_refused = said[:1] == [self.refusal]
        if word == "scrape":
            if is_refused:
                yield from ((other, 1, True) for other in self.begun(int(amount)))
            else:
                self.expire(int(amount))
                text = self.text(int(amount))
                if said[:len(text)] == text:
                    yield self, len(text), False
            return
        name, labels = "" if rest[0] == "-" else rest[0], tuple(tuple(label.split("=", 1)) for label in rest[1:])
        if is_refused and (model.KIND_OF[word], name, labels) not in self.held:
            yield self.copied(), 1, True
        self.update(word, int(amount), name, labels)
        if said[:len(self.taken)] == self.taken:
            yield self, len(self.taken), False

    taken = [b"ok"]

    def owes_end(self):
        return False

    def after_end(self, said):
        yield self, 0, False

    def begun(self, now):
        """Yields what a failed expiry or text may leave: a failure meets only a new series, or an idle one."""
        left = self.copied()
        if self.held:
            yield left.copied()
        for series in self.in_order():
            if self.timeout is not None and series[0] in self.watched:
                before, is_new = left.copied(), series not in left.seen
                left.check(series, now)
                if is_new or series not in left.held:
                    yield before
        if left.held or self.shows_self:
            yield left

    def in_order(self):
        return sorted(self.held, key=order_of)

    def text(self, now):
        rows = [self.row(series) for series in self.in_order()]
        return [b"scrape %d %d" % (now, len(rows)), *rows]

    def row(self, series):
        kind, name, labels = series
        value = self.held[series][0]
        words = [model.KINDS[kind], name or "-", *("=".join(label) for label in labels)]
        if kind == 2:
            words += ["count", len(value), "sum", sum(value)]
            for bound in self.listed:
                words += ["le", bound, sum(sample <= bound for sample in value)]
        else:
            words += ["value", value]
        return " ".join(map(str, words)).encode()

    def seen_as(self):
        return repr((self.held, self.seen))


class Prometheus(Export):
    """The same in Prometheus's text. An update that was made prints nothing, so any of several may be the one that failed. The
    end of the input is a scrape without an expiry, unless nothing changed since the last one."""

    refusal = b"# refused E1 memory"
    limit = b"# refused too many series"
    taken = []

    def __init__(self, words, refused):
        """`refused` says how many updates, descriptions and scrapes were refused."""
        self.refused = dict(zip(("update", "describe", "scrape"), refused))
        options = model.options_of(words)
        kinds = "".join(kind[0] for kind in options.idle_kinds.split(","))
        super().__init__(["", kinds, options.idle, "0"])
        self.bounds = options.bounds
        self.is_changed, self.is_recommended = False, options.recommended_names
        self.prefixes = model.prefix_bounds(options)
        self.places = model.prefix_places(options)
        self.labels = model.common_labels(options)
        self.names = model.names_of(options)
        self.at_scrapes_only = options.at_scrapes_only
        self.max_series = options.max_series
        self.shows_self = options.self

    def refusing(self):
        """Returns a copy with one more refused call."""
        other = self.copied()
        other.refused_calls += 1
        return other

    def copied(self):
        other = super().copied()
        other.helps, other.units = self.helps.copy(), self.units.copy()
        return other

    def after(self, line, said):
        is_refused = said[:1] == [self.refusal]
        self.lines += 1
        match model.asked(line.decode(errors="surrogateescape"), self):
            case None:
                self.bad_lines += 1
                yield self, 0, False
            case ("scrape", moment):
                yield from self.after_scrape(moment or 0, said, is_refused and self.refused["scrape"])
            case ("update", word, _, name, labels) if self.is_beyond(word, name, labels):
                if said[:1] == [self.limit]:
                    yield self.refusing(), 1, False
            case ("update", word, amount, name, labels):
                if is_refused and self.refused["update"] and (model.KIND_OF[word], name, labels) not in self.held:
                    yield self.refusing(), 1, True
                self.update(word, amount, name, labels)
                self.is_changed = True
                yield self, 0, False
            case ("describe", *description):
                if is_refused and self.refused["describe"]:
                    yield self.refusing(), 1, True
                self.describe(*description)
                self.is_changed = True
                yield self, 0, False
            case _:
                yield self, 0, False

    def after_scrape(self, now, said, is_refused):
        self.last = now
        if is_refused:
            yield from ((other.refusing(), 1, True) for other in self.begun(now))
            return
        self.expire(now)
        self.is_changed = False
        yield from self.after_text(said)

    def after_text(self, said):
        text = self.text(0)
        if said[:len(text)] == text:
            yield self, len(text), False

    def owes_end(self):
        return self.is_changed and not self.at_scrapes_only

    def after_end(self, said):
        if not self.owes_end():
            yield self, 0, False
        elif said[:1] == [self.refusal] and (self.held or self.shows_self) and self.refused["scrape"]:
            yield self, 1, True
        else:
            yield from self.after_text(said)

    def text(self, now):
        shown = model.with_own(self)
        rows = model.rows_of(shown)
        histograms = model.histograms_of(rows)
        lines, last = [], None
        for row in rows:
            reason = model.reason_of(row, last, histograms)
            if reason is not None:
                lines.append(model.left_out_line(row, reason))
                continue
            if last is None or last[0] != row[0]:
                lines += model.help_lines(self, row)
                lines.append("# TYPE %s %s" % (row[0], model.KINDS[row[1]]))
            last = row
            for end, labels, number in model.samples_of(shown, row):
                lines.append("%s%s%s %s" % (row[0], end, model.braces(labels), number))
        return [line.encode() for line in lines] + [b""]

    def seen_as(self):
        counts = (self.lines, self.bad_lines, self.refused_calls, self.last)
        return repr((self.held, self.seen, self.made_in, self.helps, self.units, self.is_changed, counts))


# ---- runs


def lines_of(text):
    lines = text.split(b"\n")
    return lines if lines[-1] else lines[:-1]


def stop_of(status, errors, bad, code):
    """Returns whether the run was out of memory, and at which line if it says so."""
    if (status, errors) == (code, bad):
        return False, None
    found = re.fullmatch(rb"(?:line ([1-9]\d*): )?memory\n", errors)
    if status != 1 or not found:
        raise Wrong("status %d with %r" % (status, errors))
    return True, found[1] and int(found[1])


def after_all(states, step, said, most):
    """Yields what may follow a step, each once: the machine, how many lines were printed, how many failures are among them."""
    found = []
    for machine, at, refusals in states:
        for after, count, is_refused in step(machine, said[at:]):
            if refusals + is_refused <= most:
                found.append((after, at + count, refusals + is_refused))
    if len(found) < 2:
        return found
    return list({(*state[1:], state[0].seen_as()): state for state in found}.values())


def follow(machine, lines, said, most, is_short, is_ended):
    """Goes through lines and their answers, with at most so many failures. A short run answered some of the lines."""
    states = [(machine, 0, 0)]
    for line in lines:
        if is_short and any(at == len(said) for _, at, _ in states):
            return
        states = after_all(states, lambda machine, rest: machine.after(line, rest), said, most)
        if not states:
            raise Wrong("at %r" % line)
    if is_short and any(at == len(said) and machine.owes_end() for machine, at, _ in states):
        return
    if is_ended:
        states = after_all(states, lambda machine, rest: machine.after_end(rest), said, most)
    if is_short or not any(at == len(said) for _, at, _ in states):
        raise Wrong("other lines than those that the calls answer")


def judge_lines(first, machine_of, lines, bad, code, most, status, errors, said, partial=0):
    """Judges the answers to the lines from the one with the number `first` on, after which a `partial` one may be read."""
    is_stopped, number = stop_of(status, errors, bad, code)
    fault = re.match(rb"line (\d+): ", bad) if code == 2 else None
    last = int(fault[1]) - 1 if fault else len(lines)
    if number is not None and number > min(last + 1, len(lines) + partial):
        raise Wrong("line %d was not reached" % number)
    if said and said.pop():
        raise Wrong("a part of a line")
    most -= is_stopped
    is_short = is_stopped and number is None
    if last < first or (number is not None and number <= first) or (is_short and not said):
        if said:
            raise Wrong("a text before the first answer")
        return
    end = number - 1 if number is not None else last
    is_ended = not fault and number is None and not (is_short and is_stopped)
    follow(machine_of(), lines[first:end], said, most, is_short, is_ended)


def judge_storm(words, status, errors, said):
    is_stopped, _ = stop_of(status, errors, b"", 0)
    pushers, values = int(words[1]), int(words[2])
    count, total = pushers * values, pushers * (values * (values - 1) // 2)
    lines = [f"pushed {count} sum {total}", f"found {count} sum {total}", f"sampled {min(count, 16)} of {count} sum {total}", ""]
    if said != ([b""] if is_stopped else [line.encode() for line in lines]):
        raise Wrong("%r" % said)


MOST = {"none": 0, "once": 1, "on": sys.maxsize}


def judge_words(how, out, status, errors, bad, code):
    """Judges the reply to invalid words, or to those that ask for help. If memory runs out the text may be shorter."""
    if how == "none" and (status, errors) != (code, bad) or status not in (code, 1) or (code and out):
        raise Wrong("status %d with %r" % (status, errors))


def judge(program, words, given, bad, code, how, status, out, errors):
    """Raises Wrong if the run is impossible. `bad` is the text on standard error and `code` the status with memory
    available, and `how` says which requests failed: `none`, one (`once`), or all from one on (`on`)."""
    lines, said, most = lines_of(given), out.split(b"\n"), MOST[how]
    if bad.startswith(b"usage:"):
        is_stopped, number = stop_of(status, errors, bad, code)
        if out or number is not None or is_stopped > most:
            raise Wrong("an answer to wrong words")
    elif bad.startswith(b"error:") or words[:1] in (["--help"], ["--version"]):
        judge_words(how, out, status, errors, bad, code)
    elif words[:1] == ["storm"]:
        judge_storm(words, status, errors, said)
    elif words == ["run"]:
        end = (lines.index(b"end") if b"end" in lines else len(lines)) + 1
        judge_lines(end, lambda: Calls(lines[:end - 1]), lines, bad, code, most, status, errors, said)
    elif program == "metrics_tool":
        judge_lines(0, lambda: Export(words[1:]), lines, bad, code, most, status, errors, said)
    else:
        pieces = given.split(b"\n")
        lines = model.without_partial(pieces, model.options_of(words))
        partial = len(pieces) - len(lines) if pieces[-1] else 0
        errors, of_kinds = without_refusals(status, errors)
        refused = sum(of_kinds)
        shown = said.count(Prometheus.refusal) + said.count(Prometheus.limit)
        if REFUSED.search(bad):  # also with memory available there are too many series, and that alone gives the status
            bad = REFUSED.sub(b"", bad)
            code = 0 if not LEFT_OUT.sub(b"", bad) else 3 if "--skip-bad" in words else 2
        told, bad = without_text(errors, bad), LEFT_OUT.sub(b"", bad)
        if code == 3:
            told, bad = without_passed_over(told, bad), b""
        if refused < shown or (told == bad and refused != shown):
            raise Wrong("%d lines for %d refused calls" % (shown, refused))
        if refused and told == bad:
            status = code
        judge_lines(0, lambda: Prometheus(words, of_kinds), lines, bad, code, most, status, told, said, partial)


# The message for calls that were refused.
REFUSED = re.compile(rb"^refused: (\d+) updates, (\d+) descriptions, (\d+) scrapes\n", re.MULTILINE)


def without_refusals(status, errors):
    """Returns the other messages, and how many updates, descriptions and scrapes were refused: if some were, the status is 1, and
    one message counts them."""
    counts = [tuple(map(int, found)) for found in REFUSED.findall(errors)]
    if len(counts) > 1 or (0, 0, 0) in counts or (counts and status != 1):
        raise Wrong("status %d with %r" % (status, errors))
    return REFUSED.sub(b"", errors), (counts or [(0, 0, 0)])[0]


# The messages for a series that a text leaves out (a failed scrape prints none), and for a name that it spells otherwise (a line
# that isn't read has none).
LEFT_OUT = re.compile(rb"^(?:left out: .*|line \d+: (?:name|label) \".*\"(?:\.\. of \d+ bytes)? is spelled \".*)\n", re.MULTILINE)


def without_passed_over(errors, bad):
    """Returns the messages beside those for skipped bad lines, each of which is reported at once. Out of memory, their number at
    the end may be smaller."""
    is_short = errors.endswith(b"memory\n")
    others = [line for line in errors.splitlines(True) if line not in bad.splitlines(True)]
    return b"".join(line for line in others if not (is_short and re.fullmatch(rb"\d+ bad lines were skipped\n", line)))


def without_text(errors, bad):
    """Returns the message for the end: for a bad line the whole text, if memory ran out and its number was alone."""
    errors, bad = LEFT_OUT.sub(b"", errors), LEFT_OUT.sub(b"", bad)
    short = re.fullmatch(rb"(line \d+: )bad line\n", errors)
    return bad if short and bad.startswith(short[1]) else errors
