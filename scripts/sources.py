"""Reads the items of `.rt` files: their docs, their signatures, and their clauses."""
import os
import re

from definitions import CRATES, imports_of

ITEM = re.compile(r"(?:pub(?:\([\w:]+\))? )?(?:unsafe )?(struct|enum|trait|fn|type|const)\s+(\w+)")


def skip(text, at):
    """Returns the place after the string, character or comment that begins here, or else the next one."""
    if text.startswith("//", at):
        end = text.find("\n", at)
        return len(text) if end < 0 else end
    if text[at] == '"':
        return re.compile(r'"(?:\\.|[^"\\])*"', re.S).match(text, at).end()
    letter = re.compile(r"'(?:\\.[^']*|[^'\\])'").match(text, at)
    return letter.end() if letter else at + 1


def behind(text, at):
    """Returns the place after the bracket that closes the one here."""
    depth = 0
    while True:
        depth += (text[at] in "([{") - (text[at] in ")]}")
        at = skip(text, at)
        if depth == 0:
            return at


CLAUSE = re.compile(r"(?<!\w)(requires|ensures|where)\b")


def end_of_item(text, at):
    """Returns where the item that begins here has its block or its semicolon, and where it ends."""
    while text[at] not in "{;":
        clause = CLAUSE.match(text, at)
        if clause and clause[1] != "where":
            at = text.index("{", at)
        at = behind(text, at) if text[at] in "([{" else skip(text, at)
    return (at, at + 1) if text[at] == ";" else (at, behind(text, at))


def len_of_head(text):
    at = 0
    while at < len(text) and text[at] not in "{;" and not re.match(r"(requires|ensures)\b|//", text[at:at + 9]):
        at = behind(text, at) if text[at] in "([" else skip(text, at)
    return at


def head_of(text):
    """Returns an item's text up to its clauses, body or semicolon."""
    at = len_of_head(text)
    return " ".join(text[:at].split()).replace("( ", "(").replace(", )", ")").rstrip(",")


def without_generics(text):
    """Returns the text after the generic parameters that it may begin with."""
    depth = 0
    for at, letter in enumerate(text):
        depth += (letter == "<") - (letter == ">" and text[at - 1] != "-")
        if depth == 0:
            return text[at + (letter == ">"):]
    return text


def pieces(text):
    """Returns the items of a file or a block: for each its docs, its attributes and its text."""
    at, docs, attributes = 0, [], []
    while at < len(text):
        if text[at].isspace():
            at += 1
        elif text.startswith("///", at):
            docs.append(text[at:skip(text, at)])
            at = skip(text, at)
        elif text.startswith("//", at):
            at = skip(text, at)
        elif text.startswith("#", at):
            end = behind(text, text.index("[", at))
            attributes.append(text[at:end])
            at = end
        else:
            _, end = end_of_item(text, at) if not re.match(r"ghost\b", text[at:]) else end_of_ghost(text, at)
            yield docs, attributes, text[at:end]
            at, docs, attributes = end, [], []


def end_of_ghost(text, at):
    while text[at] != ";":
        at = behind(text, at) if text[at] in "([{" else skip(text, at)
    return at, at + 1


def parts(block):
    """Returns a list of fields or variants, cut at its commas, each with its docs."""
    at, start = 0, 0
    while at < len(block):
        if block[at] in "([{":
            at = behind(block, at)
        elif block[at] == ",":
            yield block[start:at]
            at = start = at + 1
        else:
            at = skip(block, at)
    yield block[start:]


def block_of(text):
    begin, end = end_of_item(text, 0)
    return text[begin + 1:end - 1] if text[begin] == "{" else None


def skip_space(text, at):
    while at < len(text) and text[at].isspace():
        at += 1
    return at


def clauses_of(text):
    """Returns the clauses of a function, in order, each with the comments before it: (comments, words, fact)."""
    at, found, comments = len_of_head(text), [], []
    while at < len(text) and text[at] not in "{;":
        clause = CLAUSE.match(text, at)
        if text.startswith("//", at):
            comments.append(text[at:skip(text, at)].lstrip("/ "))
            at = skip(text, at)
        elif clause and clause[1] != "where":
            begin = text.index("{", at)
            end = behind(text, begin)
            found.append((comments, " ".join(text[at:begin].split()), text[begin + 1:end - 1].strip()))
            at, comments = end, []
        elif clause or not text[at].isspace():
            at = behind(text, at) if text[at] in "([" else skip(text, at)
        else:
            at = skip_space(text, at)
    return found


def ghosts_of(block):
    """Returns the ghost members of a trait or an impl: a name, and what is said of it."""
    found = []
    for _, _, text in pieces(block):
        member = re.match(r"ghost (?!use\b)(\w+)\s*([=:])\s*\{(.*)\}\s*;$", text, re.S)
        if member:
            found.append((member[1], member[2], member[3].strip()))
    return found


def shown_part(part):
    """Returns the docs of a field or a variant, and its text; None for a ghost one."""
    docs = [line.strip() for line in part.splitlines() if line.strip().startswith("///")]
    rest = " ".join(line.strip() for line in part.splitlines() if not line.strip().startswith(("///", "//", "#")))
    rest = " ".join(rest.split())
    return None if not rest or rest.startswith("ghost") else (docs, rest)


def indented(lines):
    return [f"    {line}" if line else "" for line in lines]


def shown_type(kind, text, is_whole=False):
    """Returns a struct with its public fields, or with all of them, or an enum with its variants."""
    head, block = head_of(text), block_of(text)
    if block is None:
        return [head + ";"] if "(" not in head else [re.sub(r"\(.*\)", "(..)", head) + ";"]
    lines = []
    for docs, rest in filter(None, map(shown_part, parts(block))):
        if is_whole or kind == "enum" or rest.startswith("pub "):
            lines += [*docs, rest + ","]
    return [head + " {", *indented(lines), "}"] if lines else [head + " { .. }"]


class Crate:
    """The items of a crate's sources by name, the impls of its types, and what its files import for clauses."""

    def __init__(self, name):
        self.name, self.items, self.impls, self.exports = name, {}, {}, {}
        # Private ones too; and what the files import, by the names that it has there.
        self.types, self.functions, self.traits, self.uses = {}, {}, {}, {}
        for folder, _, files in sorted(os.walk(os.path.join(CRATES, name, "src"))):
            for file in sorted(files):
                with open(os.path.join(folder, file), encoding="utf-8") as source:
                    self.read(source.read())

    def read(self, text):
        imports = imports_of(text)
        for docs, attributes, item in pieces(text):
            found = ITEM.match(item)
            if found and found[1] in ("struct", "enum"):
                self.types.setdefault(found[2], (found[1], docs, item))
            if found and found[1] == "trait":
                self.traits.setdefault(found[2], item)
            if found and found[1] == "fn":
                self.functions.setdefault(found[2], ("fn", docs, attributes, item, imports))
            if found and item.startswith("pub ") and not item.startswith("pub("):
                self.items.setdefault(found[2], (found[1], docs, attributes, item, imports))
            elif item.startswith("impl"):
                head = head_of(item)
                named = without_generics(head[len("impl"):]).strip()
                name = re.match(r"&?(?:mut )?([\w:]+)", named.rpartition(" for ")[2])
                if name:
                    self.impls.setdefault(name[1].split("::")[-1], []).append((head, item, imports))
            elif item.startswith("pub use "):
                for path in exported(item):
                    self.exports[path[-1]] = path
            elif item.startswith("use "):
                for path in exported(item):
                    *front, name = path
                    there, _, here = name.partition(" as ")
                    self.uses.setdefault(here or there, (*front, there))

    def trait_members(self, name, laws):
        """Returns the ghost members of a trait that this crate's sources name: each with its type, its docs, and what each
        implementation in this crate has for it, if the trait is of this crate too."""
        crate = self.uses.get(name, (self.name,))[0]
        made = laws.crate(crate) if os.path.isdir(os.path.join(CRATES, crate)) else self
        while name not in made.traits and name in made.exports and os.path.isdir(os.path.join(CRATES, made.exports[name][0])):
            made = laws.crate(made.exports[name][0])
        if name not in made.traits:
            return []
        found = []
        for docs, _, text in pieces(block_of(made.traits[name])):
            for member, sign, said in ghosts_of(text):
                if sign == ":":
                    inside = self.members_here(name, member) if made is self else []
                    found.append((member, " ".join(said.split()), [it.lstrip("/ ") for it in docs], inside))
        return found

    def associated(self, trait):
        """Returns the types that a trait of this crate asks of an implementation, each with its bounds."""
        return re.findall(r"\btype (\w+): ([\w+ ]+);", self.traits.get(trait, ""))

    def members_here(self, trait, member):
        """Returns the types that implement a trait in this crate, each with what it has for a ghost member, and its imports."""
        found = []
        for head, block, imports in (it for impls in self.impls.values() for it in impls):
            kind = re.search(rf"\b{trait} for (.*?)(?: where .*)?$", head)
            here = [said for own, sign, said in ghosts_of(block_of(block)) if own == member] if kind else []
            if here:
                found.append((kind[1], " ".join(here[0].split()), imports))
        return found


def exported(item):
    """Returns the paths that a `use` or a `pub use` names."""
    path = " ".join(item.removeprefix("pub ")[len("use "):].rstrip(";").split())
    found = re.match(r"(.*?)::\{(.*)\}$", path)
    names = [it.strip() for it in found[2].split(",") if it.strip()] if found else [path.rpartition("::")[2]]
    front = found[1] if found else path.rpartition("::")[0]
    return [(*front.split("::"), name) for name in names]


class Contract:
    """What a function promises, or a ghost member: its signature, its docs, its clauses as lines, and what they import.

    `around` is the head of the impl or the trait that it is in."""

    def __init__(self, docs, head, lines, imports, around=""):
        self.docs, self.head, self.lines, self.imports, self.around = docs, head, lines, imports, around


def lines_of_clauses(text):
    lines = []
    for comments, words, fact in clauses_of(text):
        lines += [f"    // {it}" for it in comments]
        lines.append("    " + words + " { " + "\n".join(fact.splitlines()) + " }")
    return lines


def contracts_of_block(head, block, is_public, imports):
    """Returns the contracts of an impl's or a trait's members: one for its ghost members, and one for each function with clauses."""
    found = []
    ghosts = [f"    ghost {name}{' =' if sign == '=' else ':'} {{ {said} }}" for name, sign, said in ghosts_of(block)]
    if ghosts:
        found.append(Contract([], head, ghosts, imports))
    for docs, _, text in pieces(block):
        item = ITEM.match(text)
        if item and item[1] == "fn" and (text.startswith("pub ") or not is_public):
            lines = lines_of_clauses(text)
            if lines:
                found.append(Contract(docs, head_of(text), lines, imports, head))
    return found


def contracts_of(crate, name):
    """Returns the contracts of an item: of a function its own, of a type or a trait those of its members. `Type::method` has one."""
    owner, _, method = name.partition("::")
    if method:
        return [it for it in contracts_of(crate, owner) if re.search(rf"\bfn {method}\b", it.head)]
    kind, docs, _, text, imports = crate.items.get(name) or crate.functions[name]
    if kind == "fn":
        return [Contract(docs, head_of(text), lines_of_clauses(text), imports)]
    found = contracts_of_block(head_of(text), block_of(text), False, imports) if kind == "trait" else []
    for head, item, there in crate.impls.get(name, []) if kind != "trait" else []:
        found += contracts_of_block(head, block_of(item), " for " not in head, there)
    return found
