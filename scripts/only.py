#!/usr/bin/env python3
"""Checks a few functions of a crate over the sources of the libraries below it, so that none of these has to be proved first:
for whoever changes a function at the top. It takes what the libraries' contracts say on trust; `rt ci` is the verdict.

    only.py CRATE PATH ..

A PATH is a function, as `labels::shown_labels`, or a module or a type, which stands for each function in it. JOBS says how many
checks run beside one another."""

import os
import shutil
import subprocess
import sys
from pathlib import Path

ROOT = Path(__file__).resolve().parent.parent


def listed():
    """Returns the libraries that each crate of crates.txt depends on."""
    lines = [line.split(":", 1) for line in (ROOT / "crates.txt").read_text(encoding="utf-8").splitlines() if line and line[0] != "#"]
    return {name.split()[0]: libraries.split() for name, libraries in lines}


def below(crate, all_of, found):
    """Adds the repository's libraries that a crate stands on, each after those that it stands on."""
    for library in all_of[crate]:
        if library in all_of and library not in found:
            below(library, all_of, found)
            found.append(library)


def words(crate, paths):
    """Returns the command that checks these functions."""
    kit = Path(shutil.which("rt")).resolve().parent.parent
    all_of, ours = listed(), []
    below(crate, all_of, ours)
    theirs = {"core", "std"} | {it for name in [crate, *ours] for it in all_of[name] if it not in all_of}
    rlibs = [f"{it}={kit}/rlibs/{it}.rlib" for it in sorted(theirs) if (kit / f"rlibs/{it}.rlib").is_dir()]
    sources = [f"{it}:core,std,{','.join(all_of[it])}".rstrip(",") + f"={ROOT}/crates/{it}/src/lib.rt" for it in ours]
    top = "main" if (ROOT / f"crates/{crate}/src/main.rt").exists() else "lib"
    return [
        *["rattle", "check", "--crate-name", crate, f"src/{top}.rt", "-L", f"dependency={kit}/rlibs"],
        *[word for it in rlibs for word in ("--extern", it)],
        *[word for it in sources for word in ("--lib", it)],
        *["--antt-project", f"{kit}/rattle/logic/antt-project.json", "--logic-built", f"{kit}/logic_built"],
        *["--links", f"{crate}=", "--jobs", os.environ.get("JOBS", "2")],
        *[word for it in paths for word in ("--only", it)],
    ]


def main():
    if len(sys.argv) < 3 or sys.argv[1] not in listed():
        print(__doc__, file=sys.stderr)
        return 2
    return subprocess.run(words(sys.argv[1], sys.argv[2:]), cwd=ROOT / "crates" / sys.argv[1], check=False).returncode


if __name__ == "__main__":
    sys.exit(main())
