"""The pages of docs/laws/: for each theorem of docs/ARCHITECTURE.md its contract, and every definition that it cites.

`definitions.md` has the definitions that only other contracts of docs/API.md cite. `scripts/api.py` writes the pages."""
import os
import re

from definitions import CRATES, TOP, Specs
from sources import Crate, block_of, contracts_of, ghosts_of, parts, shown_part, shown_type

FOLDER = os.path.join(TOP, "docs", "laws")
TABLE = os.path.join(TOP, "docs", "ARCHITECTURE.md")
WORDS = os.path.join(TOP, "scripts", "words.txt")
ROW = re.compile(r"^\| (.+?) \| (.+?) \| (.+?) \|$")
DECLARED = re.compile(r"Rattle\.(\w+)\.specs\.declared\.(?:\w+\.)*?(\w+)(\.TheVariants|\.TheInside)?$")
TABLE_OF_WORDS = ["| Word of the language's library | What it is |", "|---|---|"]
NOTATION = """<details><summary>How to read this page</summary>

- `requires { .. }` is what a caller owes, `ensures { .. }` what the call promises, in every case in which it returns. A word before the brace names the clause.
- `result` is what the call returns. `x.now` is what a `&` refers to; `x.old` and `x.new` are what a `&mut` refers to before and after the call.
- Clauses speak of values: a number is a whole number without end, a text its bytes, a `Vec` the list `.items`. *The types* says how a clause sees each type.
- `f x y` is a call, `λ x. e` a closure. `A → B` is a function, or "if A then B", or "for every x" in `(x : A) → B`. `A × B` is a pair, or "both", or "there is an x" in `(x : A) × B`; its halves are `.0` and `.1`. `A ⊎ B` is "either".
- `a ≡ b` says that two values are equal, `a ≢ b` that they differ, `A ↔ B` that both statements hold or neither. `⊤` and `Unit {0}` always hold, `⊥` never. `Type 0` is what a statement is, as `Bool` is what a test answers.
- `[]` is the empty list, `x ∷ xs` a first item and the rest, `xs ++ ys` both lists. A definition by several lines is a `match`: the first that fits counts.
- `record` is a struct, `data` an enum. `record x { f = v }` is `x` with another `f`. `abbrev pub` begins a definition, `{A : Type 0}` is a type parameter, and `tt` is `()`.
- `F.IsAlwaysCallable f` says that the closure `f` may be called with any argument; `F.FnMut` and the like are how it is called. `R.name`, with a type parameter `R`, is a ghost member of a trait: what an implementation says of itself, for contracts alone.
- Each definition is followed by links to those that it uses. *Words of the language's library* explains the rest.

</details>"""


def theorems():
    """Returns the rows of the table of theorems: what is proved, and the crates with the items that carry it."""
    with open(TABLE, encoding="utf-8") as page:
        part = page.read().split("## Which theorem is which contract", 1)[1]
    for line in part.splitlines():
        row = ROW.match(line)
        if row and row[1] != "Theorem" and "`" in row[2]:
            yield row[1], [carriers(it) for it in row[2].split(";")]


def carriers(text):
    crate, _, items = text.partition(":")
    return crate.strip(" `"), re.findall(r"`([\w:]+)`", items)


def section(path, head):
    """Returns the section of a page under a heading, if it has one."""
    with open(path, encoding="utf-8") as page:
        found = re.search(rf"(?ms)^## {re.escape(head)}\n(.*?)(?=^## |\Z)", page.read())
    return found[1].strip() if found else ""


def as_written(word):
    """Returns a word as a clause has it: an operator between its arguments."""
    return re.sub(r"^◌(.+)◌$", r"x \1 y", word)


def in_words(said, crate):
    """Returns what docs/ARCHITECTURE.md says of a theorem in a section of its own, and what the crate's README says of all that
    is proved there."""
    parts = [section(TABLE, said.partition(":")[0])]
    for head in ("What a contract sees", "What is proved", "What is only tested", "What no clause says"):
        found = section(os.path.join(CRATES, crate, "README.md"), head)
        found = re.sub(r"With all definitions on one page.*\n\n", "", found)
        found = re.sub(r"\]\(\.\./(\w+/)", r"](../../crates/\1", found).replace("](../../docs/laws/", "](").replace("](../../docs/", "](../")
        parts.append(f"### {head}, in `{crate}`\n\n{found}" if found else "")
    return "\n\n".join(filter(None, parts))


class Laws:
    """The pages by their names, and for each definition the page that has it."""

    def __init__(self):
        self.specs, self.crates, self.places, self.pages, self.carriers = Specs(), {}, {}, {}, {}
        with open(WORDS, encoding="utf-8") as lines:
            self.words = dict(line.rstrip("\n").split(" | ", 1) for line in lines if " | " in line)
        self.unexplained = set()
        for said, rows in theorems():
            self.add(upper(said), rows)

    def crate(self, name):
        if name not in self.crates:
            self.crates[name] = Crate(name)
        return self.crates[name]

    def add(self, said, rows):
        carried = [(crate, item) for crate, items in rows for item in self.named(crate, items)]
        if not carried:
            return
        contracts = [(crate, item, contracts_of(self.crate(crate), item)) for crate, item in carried]
        cited, types, implied = {}, {}, {}
        for crate, _, found in contracts:
            for it in found:
                cited.update({there: here for there, here in self.cited_by(it).items() if there not in cited})
                types.update(dict.fromkeys(self.types_in(crate, it.head)))
                for *_, inside in self.members(crate, it):
                    for _, value, imports in inside:
                        implied.update(Specs.cites(value, imports))
        definitions, types = self.closed(cited, types, implied)
        page = Page(self, page_name(carried), definitions, types)
        for it in definitions:
            for own in (*it.cases, *it.names):
                self.places.setdefault((it.module, own), {})[page.name] = len(definitions)
        for crate, item in carried:
            self.carriers.setdefault((crate, item.partition("::")[0]), {})[page.name] = said
        self.pages[page.name] = (said, page, rows, contracts)

    @staticmethod
    def cited_by(contract):
        return Specs.cites("\n".join(contract.lines), contract.imports)

    def members(self, crate, contract):
        """Returns the ghost members of bounds' traits that the clauses name, as `R.meaning`: the name, the type, the trait, the
        docs, and what implementations have for it."""
        clauses, found = "\n".join(contract.lines), []
        bounds = re.findall(r"\b(\w+): ([\w+ ]+)", contract.around + " " + contract.head)
        for bound, traits in bounds:
            for trait in re.findall(r"\w+", traits):
                bounds += [(f"{bound}.{inner}", own) for inner, own in self.crate(crate).associated(trait)]
                for member, said, docs, inside in self.crate(crate).trait_members(trait, self):
                    if re.search(rf"\b{bound}\.{member}\b", clauses):
                        found.append((f"{bound}.{member}", said, trait, " ".join(docs), inside))
        return found

    def closed(self, cited, types, implied):
        """Returns the definitions that these names lead to, and the types that the definitions and these types name.

        What is implied comes last: what implementations have for a ghost member, and how clauses see types."""
        types, views = dict(types), dict(implied)
        while True:
            definitions = list({it.key: it for it in self.specs.below([*cited]) + self.specs.below([*views])}.values())
            for there in [*cited, *(it for one in definitions for it in one.cited)]:
                found = self.declared(there[0])
                if found:
                    types[found] = True
            todo = list(types)
            for crate, name in todo:
                for inner in self.types_below(crate, name):
                    if inner not in types:
                        types[inner] = None
                        todo.append(inner)
            seen = [there for crate, name in types for there in self.view_of(crate, name)[1]]
            new = [it for it in seen if it in self.specs.found and it not in views]
            if not new:
                return definitions, types
            views.update(dict.fromkeys(new))

    def declared(self, module):
        """Returns the type of the sources that a module of definitions stands for."""
        found = DECLARED.match(module)
        if found and os.path.isdir(os.path.join(CRATES, found[1])) and found[2] in self.crate(found[1]).types:
            return found[1], found[2]
        return None

    def type_named(self, crate, name):
        """Returns the crate that defines what is a type under this name in a crate's sources."""
        for _ in range(9):
            made = self.crate(crate)
            path = made.uses.get(name, made.exports.get(name))
            if name in made.types and not (path and os.path.isdir(os.path.join(CRATES, path[0]))):
                return crate, name
            if not path:
                return None
            crate, name = path[0] if os.path.isdir(os.path.join(CRATES, path[0])) else crate, path[-1]
            if crate == made.name:
                return (crate, name) if name in made.types else None
        return None

    def types_in(self, crate, text):
        names = dict.fromkeys(re.findall(r"\b[A-Z]\w+", text))
        return list(dict.fromkeys(filter(None, (self.type_named(crate, it) for it in names))))

    def types_below(self, crate, name):
        """Returns the types in an enum, or in a struct without private fields; of another one clauses see what it stands for."""
        kind, _, text = self.crate(crate).types[name]
        block = block_of(text)
        if block is None or self.view_of(crate, name)[0] or (kind == "struct" and is_private(block)):
            return []
        return list(dict.fromkeys(self.type_named(crate, it) for it in self.names_within(crate, kind, block)))

    def names_within(self, crate, kind, block):
        """Returns the names of types in the fields of a struct, or in those of an enum's variants."""
        fields = [it[1] for it in map(shown_part, parts(block)) if it]
        if kind == "enum":
            fields = [re.sub(r"^\w+", "", it) for it in fields]
        names = dict.fromkeys(name for it in fields for name in re.findall(r"\b[A-Z]\w+", it))
        return [it for it in names if self.type_named(crate, it)]

    def aliases_within(self, crate, name):
        """Returns the names that a type's fields have for types of other names."""
        kind, _, text = self.crate(crate).types[name]
        found = {it: self.type_named(crate, it)[1] for it in self.names_within(crate, kind, block_of(text) or "")}
        return [f"`{here}` is `{there}`" for here, there in found.items() if here != there]

    def view_of(self, crate, name):
        """Returns how a clause sees a type, and what that cites."""
        for head, item, imports in self.crate(crate).impls.get(name, []):
            if " Model for " in head or head.startswith("impl Model for"):
                for member, _, said in ghosts_of(block_of(item)):
                    if member == "Value":
                        return said, Specs.cites(said, imports)
        return "", {}

    def named(self, crate, items):
        """Returns the items that a crate has; a method after one of its type, as in `Type::first`, `second`, belongs to that type."""
        made, owner = self.crate(crate), None
        for item in items:
            first = item.partition("::")[0]
            if "::" in item and first in made.items:
                owner = first
                yield item
            elif item in made.items or item in made.functions:
                yield item
            elif owner and contracts_of(made, f"{owner}::{item}"):
                yield f"{owner}::{item}"

    def link(self, there, preferred=()):
        """Returns the page and the anchor of a definition: one of these pages, or else the shortest that has it.

        What no theorem cites goes on the page of the rest."""
        if there not in self.specs.found:
            return None
        pages = self.places.setdefault(there, {"definitions": 0})
        name = next((it for it in preferred if it in pages), None) or min(pages, key=lambda it: (pages[it], it))
        return name, anchor(heading(self.specs.found[there]))

    def rest(self):
        """Returns the page of definitions that contracts cite and no theorem does, with all that they cite, each once."""
        asked = [it for it, pages in self.places.items() if "definitions" in pages]
        lines = ["# Other definitions", "", "Those that contracts of [API](../API.md) cite and no theorem does.", "", NOTATION]
        made = self.specs.below(asked)
        for it in made:
            if any("definitions" in self.places.setdefault((it.module, own), {"definitions": 0}) for own in it.names):
                lines += shown(it) + self.notes(it.cited, "definitions")
        return "\n".join(lines + self.words_among(made)) + "\n"

    def contents(self):
        notation = NOTATION.splitlines()[2:-2]
        lines = ["# Theorems", "", "Each page has the contract that carries a theorem, and every definition that it cites: a reader needs no other. `scripts/api.py` writes them.", ""]
        lines += [f"- [{said}]({name}.md)" for name, (said, *_) in self.pages.items()]
        lines += ["", "[Other definitions](definitions.md) has those that only other contracts cite.", "", "## How to read them", "", *notation, ""]
        lines += [*TABLE_OF_WORDS, *(f"| `{as_written(word)}` | {said} |" for word, said in self.words.items())]
        return "\n".join(lines) + "\n"

    def notes(self, cited, page, up="", types=None, preferred=()):
        """Returns a line with links to what a text cites, and with what its names of types and of their variants stand for."""
        said = [self.note(there, here, page, up, types, preferred or (page,)) for there, here in cited.items()]
        links = [*dict.fromkeys(filter(None, said))]
        here = [it for it in links if " is " in it]
        uses = [it for it in links if it not in here]
        parts = [f"{head} {', '.join(them)}." for head, them in (("Uses", uses), ("Here", here)) if them]
        return ["", " ".join(parts)] if parts else []

    def note(self, there, here, page, up, types, preferred):
        place, found = self.link(there, preferred), self.declared(there[0])
        if place:
            name, at = place
            link = f"[`{there[1]}`]({'' if name == page else f'{up}{name}.md'}#{at})"
            return link if here.rpartition(".")[2] == there[1] else f"`{here}` is {link}"
        if found and there[0].endswith(".TheVariants"):
            return f"`{here}` is `{found[1]}::{there[1]}`" if here != there[1] else None
        if found:
            link = f"[`{found[1]}`](#{anchor(type_heading(*found))})" if types and found in types else f"`{found[1]}`"
            return link if here == found[1] and types else f"`{here}` is {link}" if here != found[1] else None
        if is_ours(there[0]) and not re.search(r"\.specs\.(contracts|declared)\.", there[0]):
            self.unexplained.add(".".join(there))
        return None

    def words_among(self, definitions, cited=()):
        """Returns a table of the words of the language's own library that these use."""
        used = {}
        for named in [*(it.cited for it in definitions), *cited]:
            used.update({here: there[1] for there, here in named.items() if not is_ours(there[0])})
        self.unexplained |= {it for it in used.values() if it not in self.words}
        rows = [f"| `{as_written(here)}` | {self.words.get(used[here], '')} |" for here in sorted(used, key=lambda it: (it.lower(), it))]
        return ["", "## Words of the language's library", "", *TABLE_OF_WORDS, *rows] if rows else []


class Page:
    """A theorem's page."""

    def __init__(self, laws, name, definitions, types):
        self.laws, self.name, self.definitions, self.types = laws, name, definitions, types

    def text(self, said, rows, contracts):
        where = "; ".join(f"`{crate}`" + (": " + ", ".join(f"`{it}`" for it in items) if items else "") for crate, items in rows)
        readme = f"../../crates/{rows[0][0]}/README.md"
        lines = [f"# {said}", "", f"Carried by the contract of {where}. The crate is [{rows[0][0]}]({readme}).", ""]
        words = in_words(said, rows[0][0])
        if words:
            lines += ["## In words", "", re.sub(r"`(\w+)`", self.linked, words), ""]
        lines += [NOTATION, "", "## The contract"]
        cited = []
        for crate, item, found in contracts:
            lines += ["", f"### {item}, of `{crate}`"]
            for it in found:
                lines += ["", "```rust", *it.docs, it.head, *it.lines, "```", *self.members(crate, it)]
                cited.append(self.laws.cited_by(it))
                lines += self.laws.notes(cited[-1], self.name, types=self.types)
        lines += ["", "## The definitions"]
        for it in self.definitions:
            lines += shown(it) + self.laws.notes(it.cited, self.name, types=self.types)
        return "\n".join([*lines, *self.types_shown(), *self.laws.words_among(self.definitions, cited)]) + "\n"

    def linked(self, name):
        """Returns a name in backticks, as a link where the page has a definition of that name."""
        found = [it for it in self.definitions if name[1] in it.names]
        return f"[{name[0]}](#{anchor(heading(found[0]))})" if len(found) == 1 else name[0]

    def members(self, crate, contract):
        """Returns a line for each ghost member of a bound's trait that the clauses name."""
        lines = []
        for name, said, trait, docs, inside in self.laws.members(crate, contract):
            docs = f": {docs[:1].lower()}{docs[1:]}" if docs else "."
            lines.append(f"- `{name} : {said}`, of the trait `{trait}`{docs}")
            for kind, value, imports in inside:
                cites = self.laws.notes(Specs.cites(value, imports), self.name, types=self.types)
                lines.append(f"  - of `{kind}` it is `{value}`" + (f". {cites[1]}" if cites else ""))
        return ["", *dict.fromkeys(lines)] if lines else []

    def types_shown(self):
        lines = ["", "## The types"] if self.types else []
        for (crate, name), is_cited in self.types.items():
            kind, docs, text = self.laws.crate(crate).types[name]
            view = self.laws.view_of(crate, name)[0]
            whole = bool(is_cited) and not view
            lines += ["", f"### {type_heading(crate, name)}", "", "```rust", *docs, *shown_type(kind, text, whole), "```"]
            if view:
                lines += ["", f"A clause sees it as `{' '.join(view.split())}`."]
            elif self.laws.aliases_within(crate, name):
                lines += ["", "Here " + ", ".join(self.laws.aliases_within(crate, name)) + "."]
        return lines


def is_private(block):
    return any(not it.split("///")[-1].strip().split("\n")[-1].strip().startswith("pub ") for it in parts(block) if it.strip())


def upper(said):
    return said[0].upper() + said[1:]


def page_name(carried):
    return f"{carried[0][0]}-{carried[0][1]}".lower().replace("::", "-")


def heading(it):
    """Returns the heading of a definition: its names, its crate, and its file there."""
    names = ", ".join(f"`{name}`" for name in it.names)
    return f"{names} of `{it.crate}`, {it.module.rpartition('.')[2]}"


def type_heading(crate, name):
    return f"The type `{name}`, of `{crate}`"


def anchor(head):
    """Returns the anchor that a page's reader makes of a heading."""
    return re.sub(r"[^\w\- ]", "", head.lower()).replace(" ", "-")


def shown(it):
    said = f"{upper(it.comment)}." if it.comment and not it.comment.endswith(".") else it.comment
    return ["", f"### {heading(it)}", "", *([said, ""] if said else []), "```", it.shown(), "```"]


def is_ours(module):
    parts_of = module.split(".")
    return parts_of[0] == "Rattle" and os.path.isdir(os.path.join(CRATES, parts_of[1]))


def files(laws):
    made = {f"{name}.md": page.text(said, *rest) for name, (said, page, *rest) in laws.pages.items()}
    return {**made, "README.md": laws.contents(), "definitions.md": laws.rest()}


def held():
    if not os.path.isdir(FOLDER):
        return {}
    found = {}
    for name in os.listdir(FOLDER):
        with open(os.path.join(FOLDER, name), encoding="utf-8") as page:
            found[name] = page.read()
    return found


def write(made):
    os.makedirs(FOLDER, exist_ok=True)
    for name in set(held()) - set(made):
        os.remove(os.path.join(FOLDER, name))
    for name, text in made.items():
        with open(os.path.join(FOLDER, name), "w", encoding="utf-8") as to:
            to.write(text)
