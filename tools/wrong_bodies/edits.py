"""The edits crates/NAME/wrong/*.edit, the functions that they change, and what must fail for them."""
import os
import re
from dataclasses import dataclass, field

from .crates import TEXTS, text_of


@dataclass(frozen=True)
class Function:
    """A function of the source: its name as the check may print it, and its place in its file."""

    module: str
    type: str  # of its impl, or empty
    trait: str
    name: str
    start: int
    body: int
    end: int

    def is_named(self, path):
        """Says whether the check means this function by `path`, a path below the crate."""
        *above, of_type, name = ["", "", *path.split("::")]
        if name != self.name:
            return False
        if not self.type:
            return path == "::".join(filter(None, [self.module, name]))
        return of_type == self.type or bool(self.trait) and of_type.startswith(self.type) and self.trait in of_type


@dataclass
class Edit:
    label: str
    text: str = ""
    pairs: list = field(default_factory=list)  # of file, old text, new text
    demanded: list = field(default_factory=list)  # paths of the functions that must fail
    changed: list = field(default_factory=list)
    places: list = field(default_factory=list)  # of file, first and last line of each function that it changes
    is_outside: bool = False
    guards: str = ""  # in a word, what it guards
    compiler: str = ""  # the error by which the compiler refuses it, where the prover is not reached
    breaks: str = ""  # the law that it breaks, with its clause, where the edit proves the law's opposite
    proof: str = ""  # of that opposite
    opposite: str = ""  # what was said of it once it was proved
    fault: str = ""

    def guarded(self):
        return f" (guards: {self.guards})" if self.guards else ""


def edits_of(folder):
    names = sorted(os.listdir(f"{folder}/wrong")) if os.path.isdir(f"{folder}/wrong") else []
    return [read_edit(f"{folder}/wrong/{it}") for it in names if it.endswith(".edit")]


def read_edit(path):
    edit, file, old = Edit(os.path.basename(path)[: -len(".edit")], text_of(path)), "", ""
    head, _, opposite = edit.text.partition("\nfalse: ")
    edit.breaks, _, edit.proof = opposite.partition("\n")
    for line in head.split("\n"):
        word, _, text = line.partition(": ")
        if word == "file":
            file = text.strip()
        elif word == "old":
            old = text
        elif word == "new":
            edit.pairs.append((file, old, text))
        elif word == "new:":
            edit.pairs.append((file, old, ""))
        elif word == "function":
            edit.demanded.append(text.strip())
        elif word == "compiler":
            edit.compiler = text.strip()
        elif word == "guards":
            edit.guards = text.strip()
    return edit


def functions_of(file, text):
    """Returns the functions of a source file. By the layout of rt fmt an item ends at the brace below its first letter."""
    module, found, owner, end_of_owner = module_of(file), [], ("", ""), 0
    for head in re.finditer(r"^( *)(?:pub(?:\([\w: ]+\))? )?(?:const |unsafe |extern \"C\" )*(fn|impl)\b(.*)$", text, re.M):
        start, indent, kind, rest = head.start(), head[1], head[2], head[3]
        end = start if rest.endswith("}") else text.find(f"\n{indent}}}", start)
        end = text.find("\n", end + 1) if end >= 0 else len(text)
        if kind == "impl":
            owner, end_of_owner = parts_of_impl(text[start : text.index("{", start)]), end
        else:
            name = re.match(r"\s*(\w+)", rest)[1]
            opening = text.find(f"\n{indent}{{\n", start, end)
            if opening < 0:
                opening = start if rest.endswith("}") else text.find("{\n", start, end)
            body = opening if opening >= 0 else end
            of_type, trait = owner if start < end_of_owner else ("", "")
            found.append(Function(module, of_type, trait, name, start, body, end))
    return found


def parts_of_impl(head):
    """Returns the names of the type and of the trait of an impl, the trait's empty where there is none."""
    while re.search(r"<[^<>]*>", head.replace("->", "  ")):
        head = re.sub(r"<[^<>]*>", " ", head.replace("->", "  "))
    head = re.sub(r"^\s*impl\b|\bwhere\b.*|\b(requires|ensures)\b.*", " ", head, flags=re.S)
    trait, _, of_type = head.rpartition(" for ")
    last = lambda words: (re.findall(r"\w+", words) or [""])[-1]
    return last(of_type), last(trait)


def module_of(file):
    return "::".join(re.sub(r"^src/|(/?\b(lib|main|mod))?\.rt$", "", file).split("/"))


def place(edit, folder):
    """Finds the functions that an edit changes, or its fault."""
    for file, old, new in edit.pairs:
        is_there = file.split("/")[0] in TEXTS and os.path.isfile(f"{folder}/{file}")
        text = text_of(f"{folder}/{file}") if is_there else ""
        if text.count(old) != 1 or not old:
            edit.fault = f"its old text stands in {file} {text.count(old)} times, and not once: {old.strip()[:60]}"
            return
        at = text.index(old)
        around = [it for it in functions_of(file, text) if file.endswith(".rt") and it.body <= at < it.end]
        edit.changed += [it for it in around[-1:] if it not in edit.changed]
        edit.places += [(file, *(1 + text.count("\n", 0, at) for at in (it.start, it.end))) for it in around[-1:]]
        edit.is_outside = edit.is_outside or not around
    if not edit.pairs:
        edit.fault = "it has no line 'new:'"


def changed_below(edits, name):
    """Returns the crates below whose texts edits of a crate change, as those of a model change what a law is about."""
    folders = [os.path.normpath(f"{name}/{file}").split("/")[0] for edit in edits for file, _, _ in edit.pairs]
    return {it for it in folders if it != name}


def name_demanded(edit, known):
    """Turns what must fail into names as the check prints them, by the functions that the check knows."""
    wanted = [lambda path, it=it: path == it or path.endswith(f"::{it}") for it in edit.demanded]
    wanted = wanted or [it.is_named for it in edit.changed]
    edit.demanded = []
    for is_meant in wanted:
        fitting = [it for it in known if is_meant(it)]
        near = [it for it in fitting if any(f.module and it.startswith(f"{f.module}::") for f in edit.changed)]
        fitting = near if len(fitting) > 1 and near else fitting
        if len(fitting) != 1:
            of = ", ".join(fitting[:4]) or "the functions of the crate"
            edit.fault = edit.fault or f"a line 'function:' has to say what must fail, of {of}"
        edit.demanded += fitting[:1]
    if not wanted:
        edit.fault = edit.fault or "it changes no function's body, and no line 'function:' says what must fail"
