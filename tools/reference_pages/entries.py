"""What a page of the reference has: sections by modules, entries of items with the calls of each, and what is written of an item."""
import re
import textwrap
from dataclasses import dataclass, field

from .names import Module
from .sources import Item, cut, path_of

LAST = "parts"  # the module that comes last: what stands under locks
SHOWN = ("#[must_use", "#[error")


@dataclass(eq=False)
class Entry:
    """An item under a heading of its own."""

    title: str
    name: str
    item: Item
    block: str
    members: list = field(default_factory=list)
    traits: list = field(default_factory=list)  # pairs of impl and what its head says, for each that is implemented
    remarks: list = field(default_factory=list)  # comments of impls
    ghosts: list = field(default_factory=list)  # where the names of its contracts may come from
    alias_of: object = None
    is_made: bool = False  # by a call of its own

    def rank(self):
        """Returns where a user looks for it, where the sources leave that to the names of files."""
        if self.name.endswith("Error"):
            return 6
        if self.item.kind in ("struct", "enum"):
            return 1 if self.is_made else 2 if self.members else 4
        return {"fn": 0, "trait": 3, "type": 5}.get(self.item.kind, 7)


@dataclass(eq=False)
class Section:
    """A module under a heading of its own."""

    path: str
    doc: str
    entries: list = field(default_factory=list)
    also: list = field(default_factory=list)  # pairs of path and item or path of elsewhere, that stand on another page or above


class Sections:
    """The sections of a crate."""

    def __init__(self, crates, crate, product):
        self.crates, self.crate, self.product = crates, crate, product
        self.homes, self.sections = {}, []
        self.find_homes([(crates.root_of(crate), crate)])
        self.add(crates.root_of(crate), crate)
        self.sections.sort(key=lambda it: LAST in it.path.split("::"))

    def find_homes(self, level):
        """Finds the shortest path of each item."""
        while level:
            below = []
            for module, path in level:
                for name, it in self.crates.public(module):
                    if isinstance(it, Module):
                        below.append((it, f"{path}::{name}"))
                    elif isinstance(it, Item) and self.is_own(it):
                        self.homes.setdefault(it, f"{path}::{name}")
            level = below

    def is_own(self, item):
        """Says whether an item stands on the pages of this crate: those of crates of the product stand on their own."""
        return item.module.crate == self.crate or item.module.crate not in self.product

    def add(self, module, path):
        section, below = Section(path, module.doc), []
        self.sections.append(section)
        for name, it in self.crates.public(module):
            at = f"{path}::{name}"
            if isinstance(it, Module):
                below.append((it, at))
            elif self.homes.get(it) == at:
                section.entries.append(self.entry(it, at))
            else:
                section.also.append((at, it))
        if any(it.item.module is not module for it in section.entries):
            section.entries.sort(key=lambda it: (it.rank(), it.item.module.crate != module.crate))
        for it, at in below:
            self.add(it, at)

    def entry(self, item, path):
        entry = Entry(f"`{path}`", path.split("::")[-1], item, "")
        impls = sorted(self.crates.impls(item.module.crate).get(item, []), key=lambda it: it[0].module is not item.module)
        own = [it for it in impls if not it[1].trait]
        entry.traits = [it for it in impls if it[1].trait and self.is_nameable(it)]
        entry.block = "\n\n".join([block_of(item), *groups_of(own), *(view_of(it) for it, said in impls if said.trait == "Model")])
        entry.remarks = [it.doc for it, _ in own if it.doc and calls_of(it)]
        entry.ghosts = [*item.module.items, *(ghost for it, _ in impls for ghost in (*it.module.items, *it.items))]
        entry.alias_of = self.crates.target(item) if item.kind == "type" else None
        entry.members = [in_trait(path, it) for it in item.items if it.kind == "fn"] if item.kind == "trait" else []
        for found, said in own:
            entry.members += [member(path, it, found) for it in calls_of(found)]
        entry.members.sort(key=lambda it: is_of_value(it.item))
        entry.is_made = any(it.item.kind == "fn" and not is_of_value(it.item) for it in entry.members)
        for found, said in entry.traits:
            entry.members += [of_trait(path, it, found, said) for it in found.items if it.kind == "fn" and (it.doc or it.has_clauses)]
        for it, said in named_twice(entry.members, own):
            it.title += f" of `{said.type}`"
        return entry

    def is_nameable(self, implementation):
        """Says whether a user can name the trait of an impl, as far as it is of the crate itself."""
        found, said = implementation
        trait = self.crates.resolve(found.module, path_of(said.trait))
        return not isinstance(trait, Item) or trait.module.crate != found.module.crate or trait in self.homes


def calls_of(found):
    """Returns what a user can call of an impl."""
    return [it for it in found.items if it.is_public and it.kind in ("fn", "const")]


def is_of_value(item):
    """Says whether a call is of a value that is there: those that make one come first."""
    return bool(re.search(r"\(\s*(&('\w+ )?)?(mut )?self\b", item.head))


def member(path, item, found):
    return Entry(f"`{path}::{item.name}`", item.name, item, attributes_of(item) + item.head, ghosts=[*found.module.items, *found.items])


def in_trait(path, item):
    """Returns the entry of a call of a trait; one that types needn't write ends with `{ .. }`."""
    end = "" if item.head.endswith(";") else " { .. }"
    return Entry(f"`{path}::{item.name}`", item.name, item, attributes_of(item) + item.head + end, ghosts=item.module.items)


def named_twice(members, own):
    """Returns the calls of a type's own impls whose name another one of these has, each with what the head of its impl says."""
    impl_of = {it: said for found, said in own for it in found.items}
    mine = [it for it in members if it.item in impl_of]
    return [(it, impl_of[it.item]) for it in mine if [other.name for other in mine].count(it.name) > 1]


def of_trait(path, item, found, said):
    """Returns the entry of a call that a trait has, with the impl in which it stands."""
    lines = [it.head for it in found.items if it.kind == "type"] + [it.head for it in definitions_of(found)]
    block = opened(found.head) + textwrap.indent("\n".join([*lines, *([""] if lines else []), item.head]), "    ") + "\n}"
    return Entry(f"`{path}::{item.name}` of `{said.trait}`", item.name, item, block, ghosts=[*found.module.items, *found.items])


# Blocks


def block_of(item):
    """Returns an item as it stands, without what isn't public."""
    before = attributes_of(item)
    if item.kind == "enum":
        body = textwrap.indent(textwrap.dedent(item.body.strip("\n")).strip(), "    ")
        return before + opened(item.head).rstrip("\n") + "\n" + body + "\n}"
    if item.kind == "struct":
        return before + struct_of(item)
    if item.kind == "trait":
        return before + trait_of(item)
    return before + item.head


def attributes_of(item):
    return "".join(f"{it}\n" for it in item.attributes if it.startswith(SHOWN))


def opened(head):
    """Returns a head with the bracket behind it, on a line of its own as rt fmt has it where bounds stand above."""
    return head + ("\n{\n" if "\nwhere" in head else " {\n")


def struct_of(item):
    if item.head.endswith(";"):
        return tuple_of(item.head)
    fields = fields_of(item.body)
    shown = [it for it in fields if is_public(it)]
    if not [it for it in fields if not is_public(it) and not is_ghost(it)]:
        shown = fields
    if not shown:
        return opened(item.head).rstrip("\n") + (" .. }" if fields else "}")
    rest = [] if len(shown) == len(fields) else [".."]
    return opened(item.head) + textwrap.indent("\n".join([*shown, *rest]), "    ") + "\n}"


def tuple_of(head):
    """Returns a struct whose fields have no names, with `..` for those that aren't public."""
    opening = re.search(r"\(", re.sub(r"<.*?>", lambda it: " " * len(it[0]), head.partition("\nwhere")[0]))
    if not opening:
        return head
    before, inside = head[: opening.start()], head[opening.start() + 1 : head.rindex(")")]
    fields = [it.strip() if it.strip().startswith("pub ") else ".." for it in cut(inside, ",") if it.strip()]
    return f"{before}({', '.join(fields)}){head[head.rindex(')') + 1 :]}"


def fields_of(body):
    """Returns the fields of a struct, each with its comment."""
    fields, comment = [], []
    for line in textwrap.dedent(body.strip("\n")).rstrip().split("\n"):
        if line.startswith(("//", "#[")):
            comment += [line] if line.startswith("///") else []
        elif re.match(r"(pub(\([^)]*\))? )?(ghost )?\w+:", line):
            fields.append("\n".join([*comment, line]))
            comment = []
        elif fields and line.strip():
            fields[-1] += f"\n{line}"
    return fields


def is_public(written):
    return bool(re.search(r"^pub (?!\()", written, re.M))


def is_ghost(written):
    return bool(re.search(r"^ghost ", written, re.M))


def trait_of(item):
    """Returns a trait with its types and what contracts define by it, and the names of its calls."""
    lines = [f"{comment_of(it)}{it.head}" for it in item.items if it.kind in ("type", "const") or it in definitions_of(item)]
    calls = ", ".join(it.name for it in item.items if it.kind == "fn")
    lines += [calls] if calls else []
    return opened(item.head) + textwrap.indent("\n".join(lines), "    ") + "\n}" if lines else item.head + " {}"


def comment_of(item):
    return "".join(f"/// {it}".rstrip() + "\n" for it in item.doc.split("\n")) if item.doc else ""


def groups_of(own):
    """Returns the heads of a type's own impls, each with the names of the calls in it."""
    groups = {}
    for found, _ in own:
        groups.setdefault(found.head, []).extend(calls_of(found))
    return [with_names(head, sorted(calls, key=is_of_value)) for head, calls in groups.items() if calls]


def with_names(head, calls):
    return opened(head) + textwrap.fill(", ".join(it.name for it in calls), 100, initial_indent="    ", subsequent_indent="    ") + "\n}"


def view_of(found):
    """Returns what contracts see of a type."""
    return opened(found.head) + textwrap.indent("\n".join(it.head for it in definitions_of(found)), "    ") + "\n}"


def definitions_of(found):
    """Returns what an impl defines for contracts, or a trait asks for."""
    return [it for it in found.items if it.kind == "ghost" and it.name != "use"]
