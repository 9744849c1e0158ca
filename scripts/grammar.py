"""Bad lines that follow from the form of a line: a row of cases/tool_generated.txt describes a line, and gives some twenty cases.

A form is the line's words. `u64:1` and `i64:1` are numbers, for which 1 stands; `name:a`, a name; `word:counter`, one of a few
words; `text:t`, all the rest of the line; `..` says that labels may follow, and `...` that any words may. What is in
brackets at the end may be left out. After a second colon comes what a message calls the word.
"""

import re

GREATEST = {"u64": 2**64 - 1, "i64": 2**63 - 1}
LEAST = {"u64": 0, "i64": -(2**63)}
FIRST_WORDS = "increment, absolute, add, sub, set, record, describe or scrape"
NOT_UTF8 = b"\xff"


class Word:
    """A word of a form: its kind (`is` for the word itself), the text that stands for it, and what a message calls it."""

    def __init__(self, spelled, is_optional):
        kind, is_typed, rest = spelled.partition(":")
        self.kind = kind if is_typed else "is"
        self.text, _, self.called = (rest if is_typed else spelled).partition(":")
        self.is_optional = is_optional

    def is_number(self):
        return self.kind in GREATEST


def words_of(form):
    """Returns the words of a form, and what may follow them."""
    required, _, optional = form.removesuffix("]").partition(" [")
    words = [Word(it, False) for it in required.split(" ")] + [Word(it, True) for it in optional.split(" ") if it]
    tail = words.pop().text if words[-1].text in ("..", "...") else ""
    return words, "any" if words[-1].kind == "text" else {"": "", "..": "labels", "...": "any"}[tail]


def other_numbers(word):
    """Yields the spellings of a number that no line takes, each by a name."""
    yield "leading_zero", "0" + word.text
    yield "minus_zero", "-0"
    yield "plus", "+" + word.text
    yield "past_range", str(GREATEST[word.kind] + 1)
    if word.kind == "i64":
        yield "below_range", str(LEAST["i64"] - 1)
        yield "leading_zero_after_minus", "-0" + word.text
    else:
        yield "negative", "-1"


def bad_lines(form):
    """Yields for each bad line of a form a name, the line, and what is wrong: a kind, and the word and text that it concerns."""
    words, tail = words_of(form)
    texts = [word.text.encode() for word in words]
    first = texts[0]
    for count in range(1, len(words)):
        if not words[count].is_optional:
            yield f"of_{count}", b" ".join(texts[:count]), ("missing", words[count], "")
    if tail != "any":
        yield "more", b" ".join([*texts, b"x"]), ("more", tail, "x")
        yield "space_after", b" ".join([*texts, b""]), ("more", tail, "")
    yield "space_before", b" ".join([b"", *texts]), ("first_empty", None, "")
    yield "capital", b" ".join([first.capitalize(), *texts[1:]]), ("first", None, first.capitalize().decode())
    yield "longer", b" ".join([first + b"s", *texts[1:]]), ("first", None, first.decode() + "s")
    for at, word in enumerate(words):
        changed = lambda text: b" ".join([*texts[:at], text, *texts[at + 1:]])
        name = f"_{at + 1}" if at else ""
        if at and word.kind != "text":
            # What may be left out is the rest of its line.
            empty = " " + word.text if word.is_optional else ""
            yield "double_space" + name, changed(b" " + texts[at]), ("number" if word.is_number() else "empty", word, empty)
        yield "not_utf8" + name, changed(texts[at] + NOT_UTF8), ("bytes" if at else "first_bytes", word, "")
        for kind, text in other_numbers(word) if word.is_number() else ():
            yield kind + name, changed(text.encode()), ("number", word, text)


def number_reason(word, text):
    """Returns why a text is no number: an exporter's message says so."""
    if not text:
        return "is no number: one space stands between two words"
    if not re.fullmatch("-?[0-9]+", text):
        return "is not a whole number"
    return f"is not from {LEAST[word.kind]} to {GREATEST[word.kind]}, without needless zeros"


def bytes_reason(word):
    """What a line says of a word with a byte that isn't UTF-8. One of a few words has a table's row."""
    shown = f'"{word.text}\\xff"'
    if word.is_number():
        return f"{shown} is not a whole number"
    return f"{shown} is not UTF-8" if word.kind in ("name", "text") else None


def message_of(flaw, usage):
    """Returns the message of metrics_prometheus_tool after `line N: `, or None where it has another."""
    kind, word, text = flaw
    if kind == "first":
        return f'"{text}" is not {FIRST_WORDS}'
    if kind == "first_empty":
        return "a word is empty: one space stands between two words"
    said = {
        "missing": f"{word.called} is missing" if kind == "missing" else None,
        "more": f'"{text}" is not LABEL=VALUE' if word == "labels" else None,
        "number": f'"{text}" {number_reason(word, text)}' if kind == "number" else None,
        "empty": "a word is empty: one space stands between two words" if kind == "empty" and word.kind == "name" else None,
        "bytes": bytes_reason(word) if kind == "bytes" else None,
    }.get(kind)
    return said and f"{said} ({usage})"
