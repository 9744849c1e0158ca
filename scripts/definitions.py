"""Reads the definitions of specs/ and the clauses of src/, and finds which definitions a text cites."""
import os
import re

TOP = os.path.dirname(os.path.dirname(os.path.abspath(__file__)))
CRATES = os.path.join(TOP, "crates")
USE = re.compile(r"(?m)^\s*(?:ghost |pub )?use ([\w.]+)\.\{([^}]*)\}")
PASSED_ON = re.compile(r"(?m)^pub use ([\w.]+)\.\{([^}]*)\}")
ALIAS = re.compile(r"(?m)^\s*(?:ghost )?use ([\w.]+) as (\w+)")
HEADER = re.compile(r"^(\s*)(?:(?:abbrev|unfoldable) (?:pub )?|pub )(?:(record|data) )?(?!mutual\b)([^\s:({]+)")
PART = re.compile(r"^(\s+)([^\s:({-][^\s:({]*)[^:]* :")
LABEL = re.compile(r"([;{]\s*)[^\s{};=]+(?=\s*=[^=])|(?m:^(\s+pub )[^\s:({]+(?= :))")
WORD = re.compile(r"[^\s(){}\[\],;.=λ→×:∷]+(?:\.[^\s(){}\[\],;.]+)*|\S")


class Definition:
    """A definition of specs/: the names that it defines, those of its cases, its comment, and its text.

    `cited` has what the text names: for each module and name there the name that it has here."""

    def __init__(self, crate, module, names, cases, comment, text):
        self.crate, self.module, self.names, self.cases, self.comment, self.text = crate, module, names, cases, comment, text
        self.cited = {}

    @property
    def key(self):
        return self.module, self.names[0]

    @property
    def is_law(self):
        """Whether the text is lemmas, whose proofs no reader needs."""
        return re.match(r"(mutual\n(\s*--.*\n)*\s*)?pub (?!record\b|data\b)", self.text)

    def shown(self):
        """Returns the text; of a lemma its statement alone."""
        if not self.is_law:
            return self.text
        kept, deep = [], None
        for line in self.text.splitlines():
            indent = len(line) - len(line.lstrip())
            if line.lstrip().startswith("pub "):
                deep = indent
            elif line == "mutual" or (deep is not None and indent >= deep + 4):
                pass
            else:
                deep = None
                continue
            kept.append(line)
        return "\n".join(kept)


def imports_of(text):
    """Returns for each imported name the module that has it and its name there."""
    found = {}
    for module, names in USE.findall(text):
        for name in filter(None, (it.strip() for it in names.split(","))):
            there, _, here = name.partition(" as ")
            found[here.strip() or there.strip()] = (module, there.strip())
    for module, here in ALIAS.findall(text):
        found[here] = (module, "")
    return found


def blocks_of(text):
    """Returns the comment and the text of each block between blank lines; the parts of a mutual definition stay together."""
    blocks = re.split(r"\n\s*\n", text)
    joined = []
    for block in blocks:
        if joined and block.startswith("  ") and re.search(r"(?m)^(abbrev )?mutual$", joined[-1]):
            joined[-1] += "\n\n" + block
        else:
            joined.append(block)
    for block in joined:
        lines = block.strip("\n").splitlines()
        comment = []
        while lines and lines[0].startswith("--"):
            comment.append(lines.pop(0).lstrip("- ").strip())
        yield " ".join(comment), "\n".join(lines)


def names_of(block):
    """Returns the names that a block defines, and the names of the cases of its data types. Fields are none of them."""
    names, cases, inside = [], [], None
    for line in block.splitlines():
        head, part = HEADER.match(line), PART.match(line)
        if inside and len(line) - len(line.lstrip()) <= inside[0] and line.strip():
            inside = None
        if head and not inside:
            names.append(head[3])
            inside = (len(head[1]), head[2]) if head[2] else None
        elif inside and inside[1] == "data" and part:
            cases.append(part[2])
    return names, cases


class Specs:
    """All definitions of all crates, by module and name, those of their cases too."""

    def __init__(self):
        self.found, self.passed_on = {}, {}
        for crate in sorted(os.listdir(CRATES)):
            top = os.path.join(CRATES, crate, "specs")
            for folder, _, files in sorted(os.walk(top)):
                for file in sorted(files):
                    if file.endswith(".antt") and file != "Lib.antt":
                        self.read(f"Rattle.{crate}.specs.", top, os.path.join(folder, file))
        for here, there in self.passed_on.items():
            self.found[here] = self.found[there]
        while any([self.read_proofs(module) for module in sorted({module for it in self.found.values() for module, _ in it.cited})]):
            pass

    def read_proofs(self, module):
        """Reads a file of proofs/, whose definitions others may cite, once; returns whether it did."""
        found = re.match(r"Rattle\.(\w+)\.proofs\.([\w.]+)$", module)
        if not found or not os.path.isdir(os.path.join(CRATES, found[1])) or module in {there for there, _ in self.found}:
            return False
        top = os.path.join(CRATES, found[1], "proofs")
        self.read(f"Rattle.{found[1]}.proofs.", top, os.path.join(top, *found[2].split(".")) + ".antt")
        return True

    def read(self, prefix, top, path):
        crate = prefix.split(".")[1]
        module = prefix + os.path.relpath(path, top)[: -len(".antt")].replace(os.sep, ".")
        with open(path, encoding="utf-8") as it:
            text = it.read()
        imports, made = imports_of(text), []
        for there, names in PASSED_ON.findall(text):
            self.passed_on |= {(module, name.strip()): (there, name.strip()) for name in names.split(",")}
        for comment, body in blocks_of(text):
            names, cases = names_of(body)
            if names:
                made.append(Definition(crate, module, names, cases, comment, body))
        own = {name: (module, name) for it in made for name in (*it.cases, *it.names)}
        for it in made:
            it.cited = self.cites(it.shown(), {**imports, **own}, without=(*it.names, *it.cases))
            for name in (*it.cases, *it.names):
                self.found[module, name] = it

    @staticmethod
    def cites(text, imports, without=()):
        """Returns what a text names of the imports, in order: for each module and name there its first name here."""
        text = LABEL.sub(r"\1\2", re.sub(r"--.*", "", text))
        found = {}
        for word in words_of(text):
            word = f"◌{word}◌" if f"◌{word}◌" in imports and word.endswith("ℤ") else word
            module, name = imports.get(word.split(".")[0], ("", None))
            if name == "" and "." in word:
                found.setdefault((module, word.split(".")[1]), word)
            elif name and word in imports and word not in without:
                found.setdefault((module, name), word)
        return found

    def below(self, cited):
        """Returns these definitions and all that they cite, each once: after a definition come those that it uses first."""
        made, todo = {}, list(reversed(cited))
        while todo:
            it = self.found.get(todo.pop())
            if it and it.key not in made:
                made[it.key] = it
                todo += reversed(it.cited)
        return list(made.values())


def words_of(text):
    """Returns the words of a clause or a definition, each also without the fields or members that follow it."""
    for word in WORD.findall(text):
        yield word
        yield word.split(".")[0]
