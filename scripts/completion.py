#!/usr/bin/env python3
"""Writes bash's completion for metrics_prometheus_tool from its help.

    metrics_prometheus_tool --help | completion.py > metrics_prometheus_tool.bash

The options are those that the program prints. After one with a PATH come files, after one with KINDs the kinds, and after any other
with a value nothing.
"""

import re
import sys

NAME = "metrics_prometheus_tool"
FORM = """\
_%(name)s() {
    local word=${COMP_WORDS[COMP_CWORD]} before=${COMP_WORDS[COMP_CWORD-1]}
    case $before in
        %(paths)s) compopt -o filenames; mapfile -t COMPREPLY < <(compgen -f -- "$word") ;;
        %(kinds)s) mapfile -t COMPREPLY < <(compgen -W "counter gauge histogram" -- "$word") ;;
        %(values)s) COMPREPLY=() ;;
        *) mapfile -t COMPREPLY < <(compgen -W "%(words)s" -- "$word") ;;
    esac
}
complete -F _%(name)s %(name)s
"""


def options(text):
    """Returns each option of a help text, and the form of its value, if it has one."""
    return re.findall(r"^ {2,6}(?:-\w, )?(--[\w-]+)(?: <([^>]*)>)?", text, re.MULTILINE)


def completion(text):
    """Returns the completion of a help text."""
    found = options(text)
    paths = [word for word, value in found if value == "PATH"]
    kinds = [word for word, value in found if value.startswith("KIND")]
    values = [word for word, value in found if value and word not in paths + kinds]
    if not (paths and kinds and values):
        raise ValueError("the help has no options of some form")
    parts = {"paths": "|".join(paths), "kinds": "|".join(kinds), "values": "|".join(values)}
    return FORM % {"name": NAME, "words": " ".join(word for word, _ in found), **parts}


if __name__ == "__main__":
    sys.stdout.write(completion(sys.stdin.read()))
