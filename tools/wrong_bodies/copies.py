"""Copies of a crate with several edits each, and their checks over what was proved of the unchanged crate."""
import os
import shutil
import subprocess
import threading

from .crates import TEXTS, below, copy, link_or_copy, link_proved, text_of, write
from .edits import changed_below


def packs_of(edits, apart=()):
    """Packs the edits into few copies, each into the first in which it clashes with no other, nor stands in `apart` with one."""
    packs = []
    for edit in edits:
        fitting = [it for it in packs if not any((edit.label, other.label) in apart or clash(edit, other) for other in it)]
        if fitting:
            fitting[0].append(edit)
        else:
            packs.append([edit])
    return packs


def clash(one, other):
    """Says whether two edits want copies of their own: for one function, for their texts, or since the compiler stops before it comes to
    one of them. Of what is outside of functions nobody knows which lemma fails for what, so there only edits go together that make
    one change."""
    if stage_of(one) != stage_of(other) or {*one.demanded} & {*other.demanded}:
        return True
    if one.is_outside or other.is_outside:
        return one.pairs != other.pairs
    if any(old in new for a, b in ((one, other), (other, one)) for _, old, _ in a.pairs for _, _, new in b.pairs):
        return True
    return bool({*one.changed} & {*other.changed})


def stage_of(edit):
    """Returns what refuses an edit: the compiler by its types, by what is let go, or by its borrows, each of which it looks at in all functions
    before the next, or the prover."""
    own = ("", "linear-value-let-go")
    return edit.compiler if edit.compiler in own else "borrows" if edit.compiler.startswith("borrow-") else "types"


def rt(folder, *words):
    how = {"cwd": folder, "stdin": subprocess.DEVNULL, "stdout": subprocess.PIPE, "stderr": subprocess.STDOUT, "errors": "replace"}
    return subprocess.run(["rt", *words, "--jobs", "1"], **how).stdout


def try_pack(room, number, pack, crates, name):
    """Checks a copy of a crate with the edits of a pack, over what was kept of the unchanged one, and returns what the check said."""
    at = f"{room}/{name}/copies/{number}"
    folder = f"{at}/crates/{name}"
    for it in [*below(crates, name), name]:
        for part in TEXTS:
            copy(f"{room}/{name}/crates/{it}/{part}", f"{at}/crates/{it}/{part}")
        copy(f"{room}/{name}/crates/{it}/out/rlib", f"{at}/crates/{it}/out/rlib", by=link_or_copy)
    for it in [*changed_below(pack, name), name]:
        begin_over(room, it, f"{at}/crates/{it}")
    write(f"{at}/crates.txt", text_of(f"{room}/{name}/crates.txt"))
    for file, old, new in dict.fromkeys(pair for edit in pack for pair in edit.pairs):
        write(f"{folder}/{file}", text_of(f"{folder}/{file}").replace(old, new, 1))
    said = rt(folder, "check", *[word for edit in pack for it in edit.demanded for word in ("--only", it)])
    leave_work(room, name, folder)
    shutil.rmtree(at, ignore_errors=True)
    return said


# Held by whoever reads or replaces the work that copies of a crate begin with.
WORK = threading.Lock()


def begin_over(room, name, folder):
    """Has the check of a copy begin with what was kept of the crate: with what its whole proof left, or else with what another copy's check did."""
    with WORK:
        copy(f"{room}/{name}/crates/{name}/kept", f"{folder}/out/incremental", by=link_proved)


def leave_work(room, name, folder):
    """Leaves what a copy's check proved for the next ones, where no whole proof of the crate stands there, nor more work of
    another copy. A check takes of it what is of its own text."""
    top, work = f"{room}/{name}/crates/{name}", f"{folder}/out/incremental"
    with WORK:
        if not os.path.isfile(f"{top}/whole") and number_of_files(work) > number_of_files(f"{top}/kept"):
            shutil.rmtree(f"{top}/kept", ignore_errors=True)
            os.rename(work, f"{top}/kept")


def number_of_files(folder):
    return sum(len(files) for _, _, files in os.walk(folder))
