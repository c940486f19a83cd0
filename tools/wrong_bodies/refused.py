"""The files crates/NAME/wrong/refused: which edits were refused, at which goal, of which texts, and by which toolchain.

Under a line 'judged by ..' stand the edits that this toolchain and this tool refused, one a line: its name, the sum of what
the check read, and the goal, which is left out where it isn't known. Where a file has several such heads, the newest is first.
"""
import functools
import glob
import hashlib
import os
import re
import subprocess
from dataclasses import dataclass

from .crates import TEXTS, below, replace, rows_of, text_of
from .edits import changed_below

HEAD = "judged by "
# What judges, of this tool.
JUDGES = ("edits.py", "copies.py", "judging.py", "opposites.py")


@dataclass
class Line:
    """What stands of an edit in its crate's file."""

    judge: str
    sum: str
    goal: str


def read_lines(folder):
    """Returns the lines of a crate by the names of the edits; there are none where it has no file."""
    path, judge, found = f"{folder}/wrong/refused", "", {}
    for row in text_of(path).split("\n") if os.path.isfile(path) else []:
        if row.startswith(HEAD):
            judge = row[len(HEAD) :]
        elif row:
            label, sum, goal = [*row.split(" ", 2), "", ""][:3]
            found[label] = Line(judge, sum, goal)
    return found


def write_lines(folder, lines):
    """Writes them, what was judged today before what was judged before."""
    rows = []
    for judge in sorted({it.judge for it in lines.values()}, key=lambda it: (it != judge_now(), it)):
        rows += [f"{HEAD}{judge}", *(f"{label} {it.sum} {it.goal}".rstrip() for label, it in sorted(lines.items()) if it.judge == judge)]
    replace(f"{folder}/wrong/refused", "".join(f"{it}\n" for it in rows))


@functools.lru_cache(maxsize=None)
def judge_now():
    """Returns what judges today: the toolchain, and a sum of what judges in this tool."""
    version = subprocess.run(["rt", "version"], stdout=subprocess.PIPE, text=True, check=True).stdout.strip()
    here = os.path.dirname(os.path.realpath(__file__))
    return f"{version}, tool {sum_of_text(text_of(f'{here}/{it}') for it in JUDGES)}"


def sum_of_text(texts):
    found = hashlib.sha256()
    for it in texts:
        found.update(repr(it).encode())
    return found.hexdigest()[:16]


# What a check of an edit reads


def sum_of(root, crates, name, edit):
    """Returns a sum of an edit, of its crate's text, and of the contracts and definitions that a check of the crate reads from below. A crate
    below that the edit itself changes is proved anew with it, so of that all counts."""
    under, whole = below(crates, name), {name, *changed_below([edit], name)}
    cited = proofs_cited(root, (*under, name))
    parts = [judged_text(edit), sorted(rows_of(root, [*under, name]))]
    for it in [*under, name]:
        parts.append(text_of_crate(root, it) if it in whole else contracts_of(root, it))
        parts += [statements_of(root, it)] * (it in cited)
    return sum_of_text(parts)


def judged_text(edit):
    return re.sub(r"^guards: .*\n?", "", edit.text, flags=re.M)


def sum_of_tree(root):
    """Returns a sum of all that stands in the repository but the files of refused edits, and what checks leave."""
    paths = [f"{at}/{file}" for at, _, files in os.walk(root) for file in files]
    paths = [it for it in paths if not re.search(r"/(\.git|out|__pycache__)(/|$)|/wrong/refused$", it[len(root) :])]
    found = hashlib.sha256()
    for path in sorted(paths):
        with open(path, "rb") as file:
            found.update(repr((os.path.relpath(path, root), hashlib.sha256(file.read()).hexdigest())).encode())
    return found.hexdigest()


@functools.lru_cache(maxsize=None)
def text_of_crate(root, name):
    """Returns a sum of a crate's whole text."""
    return sum_of_text((path, without_comments(text)) for path, text in texts_of(root, name, TEXTS))


@functools.lru_cache(maxsize=None)
def contracts_of(root, name):
    """Returns a sum of what crates above read: its definitions, and its source without the bodies of functions and its own functions."""
    sources = ((path, without_bodies(without_comments(text))) for path, text in texts_of(root, name, ("src",)))
    return sum_of_text([*sources, *((path, without_comments(text)) for path, text in texts_of(root, name, ("specs",)))])


@functools.lru_cache(maxsize=None)
def statements_of(root, name):
    """Returns a sum of what a crate's lemmas state, for crates above that cite them."""
    return sum_of_text((path, without_proofs(without_comments(text))) for path, text in texts_of(root, name, ("proofs",)))


@functools.lru_cache(maxsize=None)
def proofs_cited(root, names):
    """Returns the crates whose lemmas another one of these crates cites."""
    found = set()
    for name in names:
        for _, text in texts_of(root, name, TEXTS):
            found |= {it for it in re.findall(r"\bRattle\.(\w+)\.proofs\b", text) if it != name}
    return found & {*names}


@functools.lru_cache(maxsize=None)
def texts_of(root, name, parts):
    """Returns the paths in a crate's folder, and the texts, of these parts of it."""
    folder = f"{root}/crates/{name}"
    paths = [it for part in parts for it in sorted(glob.glob(f"{folder}/{part}/**/*", recursive=True)) if os.path.isfile(it)]
    return [(os.path.relpath(it, folder), text_of(it)) for it in paths]


def without_comments(text):
    """Leaves out lines that are a comment, or empty."""
    return "".join(f"{it}\n" for it in text.split("\n") if it.strip() and not it.lstrip().startswith(("//", "--")))


def without_bodies(text):
    """Leaves out the bodies of functions and what is no function of a crate above's: by the layout of rt fmt a body begins at a brace that ends
    a line of its function's indentation, and ends at one below."""
    kept, lines, at = [], text.split("\n"), 0
    while at < len(lines):
        head = re.match(r"( *)(pub(?:\([\w: ]+\))? )?(?:const |unsafe |extern \"C\" )*fn\b", lines[at])
        body = body_of(lines, at, head[1]) if head else None
        is_own = head and (not head[2] and not head[1] or "(" in (head[2] or ""))
        kept += [] if is_own and body else lines[at : body[0] + 1 if body else at + 1]
        at = body[1] if body else at + 1
    return "\n".join(kept)


def body_of(lines, head, indent):
    """Returns the line at which the body of a function opens, and the one at which it closes, or None where it has none of several lines."""
    for at in range(head, len(lines)):
        inside = lines[at].startswith(f"{indent} ")
        if at > head and not inside and not re.match(rf"{indent}(where|[{{)])", lines[at]):
            return None
        if lines[at].endswith("{") and not inside:
            closing = [it for it in range(at, len(lines)) if lines[it].rstrip() == f"{indent}}}"]
            return (at, closing[0]) if closing else None
    return None


def without_proofs(text):
    """Leaves out how lemmas are proved: the clauses of names that the file declares by a type alone."""
    entries = re.split(r"\n(?=\S)", text)
    lemmas = {it[2] for it in map(re.compile(r"(pub )?(\S+) :(?= |\n)").match, entries) if it}
    return "\n".join(it for it in entries if it.split(None, 1)[0:1] == [] or it.split(None, 1)[0] not in lemmas or is_type(it))


def is_type(entry):
    return bool(re.match(r"\S+ :(?= |\n)", entry))
