#!/usr/bin/env python3
"""Writes the man page of metrics_prometheus_tool from its help.

    metrics_prometheus_tool --help | man_page.py > metrics_prometheus_tool.1

The options, the lines of the input and the statuses are those that the program prints. By the lead word of a paragraph the rest
goes to a section of its own.
"""

import re
import sys

NAME = "metrics_prometheus_tool"
HEAD = '.TH METRICS_PROMETHEUS_TOOL 1 "" "%s" "User commands"\n.ad l\n.SH NAME\n%s \\- count what a script says, for Prometheus'


def roff(text):
    """Returns a text as roff has it: no character of it is a request or an escape."""
    text = text.replace("\\", "\\e").replace("-", "\\-").replace("'", "\\(aq")
    return "\\&" + text if text.startswith(".") else text


def option(first, more):
    """Yields the lines of an option: its words in bold, and what it does."""
    words, does = re.fullmatch(r" +(-.*?)(?: {2,}(.*))?", first).groups()
    yield ".TP"
    yield f".B {roff(words)}"
    yield from (roff(line) for line in filter(None, [does, *map(str.strip, more)]))


def options(lines):
    """Yields what each option does; the lines after its first one are further in."""
    starts = [at for at, line in enumerate(lines) if re.match(r" {2,6}-", line)]
    for start, end in zip(starts, [*starts[1:], len(lines)]):
        yield from option(lines[start], lines[start + 1:end])


def as_typed(lines):
    return [".nf", *map(roff, lines), ".fi"]


def page(text):
    """Returns the man page of a help text: what it is, its usage, its options, its lines, and how it ends."""
    about, usage, listed, *others = text.strip("\n").split("\n\n")
    section = {"A line": "INPUT", "A refused": "OUTPUT", "Status": "EXIT STATUS"}
    lines = [HEAD % (NAME, NAME), ".SH SYNOPSIS", f".B {roff(usage.removeprefix('Usage: '))}"]
    lines += [".SH DESCRIPTION", *map(roff, about.split("\n"))]
    lines += [".SH OPTIONS", *options(listed.split("\n")[1:])]
    for part in others:
        name = next((title for lead, title in section.items() if part.startswith(lead)), None)
        if name is None:
            raise ValueError("no section for: " + part.split("\n", 1)[0])
        lines += [".SH " + name, *as_typed(part.split("\n"))]
    return "\n".join(lines) + "\n"


if __name__ == "__main__":
    sys.stdout.write(page(sys.stdin.read()))
