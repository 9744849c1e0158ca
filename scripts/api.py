#!/usr/bin/env python3
"""Writes docs/API.md: each public item that `metrics` and `metrics_util` export, with its signature, docs and contracts; and
docs/laws/, the theorems with the definitions that they cite.

    scripts/api.py          writes the pages
    scripts/api.py check    ends with status 1 if a page differs from what it would write

Bodies and private items are left out."""
import os
import re
import sys

from definitions import CRATES, TOP
from laws import Laws, anchor, files, held, write
from sources import ITEM, block_of, contracts_of, exported, head_of, indented, pieces, shown_type

PAGE = os.path.join(TOP, "docs", "API.md")
HEAD = """# Public items

Each public item with its signature and its docs, by the modules of `metrics_util`. *Contracts* unfolds what is proved of it: what a call requires and ensures, with links to the definitions, which [theorems](laws/README.md) shows how to read. What a doc comment says beyond that is tested or neither: the README of the crate says which. `scripts/api.py` writes this page from the sources.
"""


def members(block, is_public):
    """Returns the functions, types and constants of an impl or a trait."""
    lines = []
    for docs, _, text in pieces(block):
        if text.startswith("ghost") or not ITEM.match(text) or (is_public and not text.startswith("pub ")):
            continue
        lines += ["", *docs, head_of(text) + ";"]
    return lines[1:]


def shown(crate, name, exported_names):
    """Returns what the page shows of an item; impls of traits that nobody can name are left out."""
    kind, docs, attributes, text, _ = crate.items[name]
    lines = [*docs]
    derived = [it for it in attributes if it.startswith("#[derive(")]
    if kind in ("struct", "enum"):
        lines += [" ".join(it.split()) for it in derived] + shown_type(kind, text)
    elif kind == "trait":
        lines += [head_of(text) + " {", *indented(members(block_of(text), False)), "}"]
    else:
        lines += [head_of(text) + ";"]
    for head, item, _ in crate.impls.get(name, []) if kind != "trait" else []:
        if " for " in head:
            if not is_hidden(crate, head, exported_names):
                lines += ["", head + " { .. }"]
            continue
        inside = members(block_of(item), True)
        if inside:
            lines += ["", head + " {", *indented(inside), "}"]
    return lines


def trait_of(head):
    return re.match(r"\w*", head.rpartition(" for ")[0].split(" ")[-1].partition("<")[0])[0]


def is_hidden(crate, head, exported_names):
    """Returns whether an impl's trait is only for contracts, or one of the repository's that no module exports."""
    trait = trait_of(head)
    return trait == "Model" or (trait in TRAITS and trait not in exported_names)


def answered(lines):
    """Returns the names of types in the results of these signatures."""
    found = []
    for line in lines:
        if "->" in line and not line.lstrip().startswith("//"):
            found += re.findall(r"\b[A-Z]\w+", line.rpartition("->")[2])
    return found


class Page:
    def __init__(self, laws):
        self.laws, self.shown, self.lines, self.answers = laws, set(), [], []
        self.names, self.headings, self.modules = set(), {}, []

    def crate(self, name):
        return self.laws.crate(name)

    def find(self, within, path):
        """Returns the crate that defines what a path of another crate exports."""
        crate = path[0] if os.path.isdir(os.path.join(CRATES, path[0])) else within
        while path[-1] not in self.crate(crate).items:
            crate = self.crate(crate).exports[path[-1]][0]
        return crate

    def add(self, within, path):
        crate = self.find(within, path)
        heading = self.heading(crate, path[-1])
        if (crate, path[-1]) in self.shown:
            self.lines.append(f"`{path[-1]}`: [above](#{anchor(heading)}).\n")
            return
        self.shown.add((crate, path[-1]))
        lines = shown(self.crate(crate), path[-1], self.names)
        self.answers += answered(lines)
        self.lines.append(f"### {heading}\n\n```rust\n" + "\n".join(lines) + "\n```\n")
        theorems = [f"[{said}](laws/{page}.md)" for page, said in self.laws.carriers.get((crate, path[-1]), {}).items()]
        self.lines += [f"Theorems: {'; '.join(theorems)}.\n"] if theorems else []
        self.lines += self.contracts(crate, path[-1])

    def heading(self, crate, name):
        """Returns an item's heading, with its crate where an item of another crate has the name already."""
        first = self.headings.setdefault(name.lower(), (crate, name))
        return f"`{name}`" if first == (crate, name) else f"`{name}` of `{crate}`"

    def contracts(self, crate, name):
        """Returns the folded contracts of an item, with links to what they cite."""
        found = [it for it in contracts_of(self.crate(crate), name)
                 if " for " not in it.head or trait_of(it.head) == "Model" or not is_hidden(self.crate(crate), it.head, self.names)]
        found = [it for it in found if it.lines]
        if not found:
            return []
        lines = ["<details><summary>Contracts</summary>\n"]
        for it in found:
            notes = self.laws.notes(self.laws.cited_by(it), "", "laws/", preferred=tuple(self.laws.carriers.get((crate, name), ())))
            lines += ["```rust", it.head, *it.lines, "```", *notes, ""]
        return [*lines, "</details>\n"]

    def add_module(self, name, docs, text):
        said = " ".join(line.lstrip("/! ") for line in docs)
        self.modules.append(name)
        self.lines.append(f"## Module `{name}`\n\n{said}\n" if said else f"## Module `{name}`\n")
        inner, names = [], []
        for docs, _, item in pieces(text):
            module = re.match(r"pub mod (\w+)", item)
            if module and "{" in item:
                inner.append((f"{name}::{module[1]}", docs, block_of(item)))
            elif item.startswith("pub use "):
                names += exported(item)
        if names:
            self.lines.append("Items: " + ", ".join(self.link(name.split("::")[0], it) for it in names) + "\n")
        for path in names:
            self.add(name.split("::")[0], path)
        for module in inner:
            self.add_module(*module)

    def link(self, within, path):
        return f"[`{path[-1]}`](#{anchor(self.heading(self.find(within, path), path[-1]))})"

    def add_answered(self):
        """Adds the types that signatures answer and no module exports."""
        self.lines.append("## Types that calls return\n\nNo module of `metrics_util` exports them; the crate is named beside each.\n")
        for name in self.answers:
            crates = [it for it in LIBRARIES if name in self.crate(it).items and (it, name) not in self.shown]
            if crates and name not in {it for _, it in self.shown}:
                self.lines.append(f"From `{crates[0]}`:\n")
                self.add(crates[0], (crates[0], name))


def lib_of(crate):
    with open(os.path.join(CRATES, crate, "src", "lib.rt"), encoding="utf-8") as source:
        return source.read()


LIBRARIES = [it for it in sorted(os.listdir(CRATES)) if it.startswith(("metrics", "prefix_match")) and os.path.isfile(os.path.join(CRATES, it, "src", "lib.rt"))]
TRAITS = {name for it in LIBRARIES for name in re.findall(r"(?m)^(?:pub(?:\(\w+\))? )?trait (\w+)", "\n".join(
    open(os.path.join(folder, file), encoding="utf-8").read()
    for folder, _, files_ in os.walk(os.path.join(CRATES, it, "src")) for file in files_))}


def pages():
    """Returns the text of each page by its path."""
    laws = Laws()
    made = Page(laws)
    for crate in ("metrics", "metrics_util"):
        made.names |= {it[-1] for item in re.findall(r"(?s)pub use .*?;", lib_of(crate)) for it in exported(item)}
    for crate in ("metrics", "metrics_util"):
        text = lib_of(crate)
        made.add_module(crate, re.findall(r"(?m)^//!.*", text), re.sub(r"(?m)^(//!|#!\[).*", "", text))
    made.add_answered()
    modules = ", ".join(f"[`{it}`](#{anchor(f'Module `{it}`')})" for it in made.modules)
    text = "\n".join([HEAD, f"Modules: {modules}, and [types that calls return](#types-that-calls-return).\n", *made.lines])
    return text, files(laws), sorted(laws.unexplained)


def main():
    text, made, unexplained = pages()
    for it in unexplained:
        print(f"scripts/words.txt doesn't explain {it}")
    if sys.argv[1:] == ["check"]:
        with open(PAGE, encoding="utf-8") as page:
            wrong = (["docs/API.md"] if page.read() != text else []) + sorted(
                f"docs/laws/{it}" for it in {*made, *held()} if made.get(it) != held().get(it))
        for it in wrong:
            print(f"{it} is not what scripts/api.py writes")
        return 1 if wrong or unexplained else 0
    with open(PAGE, "w", encoding="utf-8") as to:
        to.write(text)
    write(made)
    return 0


if __name__ == "__main__":
    sys.exit(main())
