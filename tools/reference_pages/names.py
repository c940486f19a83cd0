"""The modules of crates: which item a path names, which items a user can name, and the impls of each type."""
import os
import re
from dataclasses import dataclass, field
from functools import cache

from .sources import Implementation, Item, cut, first_comment, items_of, leaves_of, path_of

TYPES = ("struct", "enum", "trait", "type")
NAMED = (*TYPES, "fn", "const", "static")


@dataclass(eq=False)
class Module:
    crate: str
    path: tuple  # below the crate
    above: object = field(repr=False)
    doc: str = ""
    file: str = ""
    items: list = field(default_factory=list, repr=False)
    inside: dict = field(default_factory=dict, repr=False)  # modules by name

    @property
    def name(self):
        return "::".join([self.crate, *self.path])


class Crates:
    """The crates of a repository, each read where it is asked for."""

    def __init__(self, root):
        self.root = root
        self.names = {*os.listdir(f"{root}/crates")}

    @cache
    def root_of(self, crate):
        return self.module(Module(crate, (), None), f"{self.root}/crates/{crate}/src/lib.rt", f"{self.root}/crates/{crate}/src")

    def module(self, module, file, folder):
        """Reads a module from its file, and those inside of it."""
        with open(file, encoding="utf-8") as source:
            text = source.read()
        module.doc, module.file = first_comment(text), file
        return self.fill(module, items_of(text, module), folder)

    def fill(self, module, items, folder):
        module.items = items
        for it in items:
            if it.kind == "mod" and not it.has("cfg(test)"):
                inner = Module(module.crate, (*module.path, it.name), module, it.doc, module.file)
                if it.body:
                    self.fill(inner, items_of(it.body, inner), f"{folder}/{it.name}")
                else:
                    self.module(inner, f"{folder}/{it.name}.rt", f"{folder}/{it.name}")
                module.inside[it.name] = inner
        return module

    def modules(self, module):
        """Returns a module and all inside of it."""
        return [module, *(below for it in module.inside.values() for below in self.modules(it))]

    # Paths

    def lookup(self, module, name, seen=()):
        """Returns the item or module that a module has under a name, or nothing where it is of no crate of the repository."""
        if (module, name) in seen:
            return None
        for it in module.items:
            if it.kind in NAMED and it.name == name:
                return it
        if name in module.inside:
            return module.inside[name]
        for path, leaf in uses_of(module):
            if leaf == name:
                return self.resolve(module, path, (*seen, (module, name)))
        return None

    def resolve(self, module, path, seen=()):
        """Returns the item or module that a path in a module names, or nothing."""
        first, *rest = path
        at = {"crate": self.root_of(module.crate), "self": module, "super": module.above}.get(first) or self.lookup(module, first, seen)
        if at is None and first in self.names and first != module.crate:
            at = self.root_of(first)
        for name in rest:
            if name == "self":
                continue
            if not isinstance(at, Module):
                return None
            at = at.above if name == "super" else self.lookup(at, name, seen)
        return at

    # What is public

    def public(self, module):
        """Returns what a user can name in a module: pairs of name and item or module, or path where it is of no crate of the repository."""
        for it in module.items:
            if it.is_public and it.kind == "mod":
                yield it.name, module.inside[it.name]
            elif it.is_public and it.kind in NAMED:
                yield it.name, it
            elif it.is_public and it.kind == "use":
                for path, name in paths_in(it):
                    yield name, self.resolve(module, path) or "::".join(path)

    @cache
    def impls(self, crate):
        """Returns the impls of a crate by the type, each with what its head says. Of a type of elsewhere they stand with the first of the
        crate's own in its trait."""
        found = {}
        for module in self.modules(self.root_of(crate)):
            for it in module.items:
                if it.kind == "impl":
                    said = Implementation.of(it.head)
                    found.setdefault(self.owner(module, said), []).append((it, said))
        return found

    def owner(self, module, said):
        for text in [said.type, said.trait, *re.findall(r"[\w:]+", said.trait.partition("<")[2])]:
            found = text and self.target(self.resolve(module, path_of(text)))
            if isinstance(found, Item) and found.module.crate == module.crate:
                return found
        return None

    def target(self, item):
        """Returns the type that an alias stands for, where that is one of the repository."""
        while isinstance(item, Item) and item.kind == "type":
            said = cut(item.head, " =")
            path = path_of(said[1].strip(" ;\n")) if len(said) > 1 else [""]
            under = self.resolve(item.module, path) if path != [""] else None
            if not isinstance(under, Item):
                return item
            item = under
        return item


@cache
def uses_of(module):
    """Returns the paths that a module uses, each with the name that it has there."""
    return [it for item in module.items if item.kind == "use" for it in paths_in(item)]


def paths_in(use):
    tree = re.sub(r"\s+", " ", use.head.partition("use ")[2].rstrip(" ;"))
    found = [([it for it in path if it != "self"], name) for path, name in leaves_of(tree)]
    return [(path, path[-1] if name == "self" else name) for path, name in found]
