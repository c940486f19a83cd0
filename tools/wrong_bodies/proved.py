"""What was proved of the texts that stand, as rt keeps it on this machine or leaves it in the crates' out/."""
import contextlib
import functools
import hashlib
import importlib.machinery
import importlib.util
import io
import json
import os
import re
import shutil
import sys

from .crates import copy, lay_out, link_or_copy, replace, text_of, write
from .edits import functions_of, module_of

# Where the sums of the texts are noted that stand when `rt ci` begins.
KEPT = os.path.expanduser(os.environ.get("WRONG_BODIES_KEPT", "~/.cache/davnurth/wrong-bodies"))


@functools.lru_cache(maxsize=None)
def program_of_rt():
    """Returns rt's own program, which knows where it keeps what was proved, and by which sums."""
    path = os.path.realpath(shutil.which("rt"))
    sys.path.insert(0, os.path.dirname(path))
    sys.dont_write_bytecode = True
    spec = importlib.util.spec_from_loader("program_of_rt", importlib.machinery.SourceFileLoader("program_of_rt", path))
    program = importlib.util.module_from_spec(spec)
    spec.loader.exec_module(program)
    return program


def take_proved(root, room, names):
    """Lays out in a room what was proved of the very texts of these crates, and returns of each such crate the names of its functions, in the
    order of the names, each of which stands after those below it. Where rt doesn't keep or leave it as is known here, there are none."""
    lay_out(root, room, names)
    found = {}
    with contextlib.suppress(Exception, SystemExit), contextlib.redirect_stderr(io.StringIO()):
        rt = program_of_rt()
        take = take_kept if hasattr(rt, "Kept") else take_left
        take(rt, root, room, names, found)
    return found


def take_kept(rt, root, room, names, found):
    """The same, of what rt keeps of all its runs on this machine, by the sum of all that a proof read."""
    rt.Crate.allowed = rt.handles_of(root)
    crates = rt.crates_of(room)
    kept = rt.Kept(crates)
    for it in crates:
        if all(under.name in found for under in it.below()) and kept.give(it, False, kept.key(it)):
            if it.is_program:
                found[it.name] = functions_named_in(it.folder)
                continue
            kept.is_built(it)
            write(f"{it.folder}/out/rlib/stamp", it.stamp())
            found[it.name] = functions_in(it.rlib, it.name)


def take_left(rt, root, room, names, found):
    """The same, of what stands in out/ of the crates. What was made with stamps and what `rt ci` made don't go together."""
    crates = {it.name: it for it in rt.rtlib.crates_below(f"{root}/crates")}
    noted, began = read_note(root)
    stamped = {}
    for name in names:
        it, stamp = crates[name], crates[name].stamp()
        made = f"{it.folder}/out/{name}" if it.is_program else f"{it.rlib}/format"
        has_stamp = os.path.isfile(f"{it.folder}/out/rlib/stamp")
        is_noted = noted.get(name) == stamp and not has_stamp and os.path.isfile(made) and os.path.getmtime(made) > began
        if not (is_noted or not it.is_program and it.is_built()) or any(stamped.get(under.name) != has_stamp for under in it.below()):
            continue
        stamped[name] = has_stamp
        if it.is_program:
            found[name] = functions_named_in(it.folder)
            continue
        copy(f"{it.folder}/out/rlib", f"{room}/crates/{name}/out/rlib", by=link_or_copy)
        replace(f"{room}/crates/{name}/out/rlib/stamp", stamp)
        found[name] = functions_in(it.rlib, name)


def functions_in(rlib, name):
    """Returns the functions of a library that was built, as the check prints them, below their crate."""
    functions = [row[0] for row in json.loads(text_of(f"{rlib}/toolchain/mir.json"))]
    return [path[len(name) + 2 :] for path in functions if path.startswith(f"{name}::")]


def functions_named_in(folder):
    """The same of a program, of which no library is built: of the functions that its files name. A method stands under the module of its type."""
    files = [f"{at}/{file}" for at, _, found in os.walk(f"{folder}/src") for file in found if file.endswith(".rt")]
    texts = {module_of(os.path.relpath(path, folder)): text_of(path) for path in files}
    homes = {it[1]: module for module, text in texts.items() for it in re.finditer(r"^(?:pub(?:\([\w: ]+\))? )?(?:struct|enum) (\w+)", text, re.M)}
    functions = [it for path in files for it in functions_of(os.path.relpath(path, folder), text_of(path))]
    home = lambda it: it.module if it.trait else homes.get(it.type, it.module)
    return ["::".join(filter(None, [home(it), it.type + it.trait, it.name])) for it in functions]




def place_of_note(root):
    return f"{KEPT}/noted-{hashlib.sha256(os.path.realpath(root).encode()).hexdigest()}"


def note(root):
    """Notes the sums of all crates' texts. What has no stamp and is made in out/ after this was proved of these texts, if they are the same then.
    Where nothing can be noted, more is proved later."""
    with contextlib.suppress(Exception, SystemExit):
        crates = program_of_rt().rtlib.crates_below(f"{root}/crates")
        os.makedirs(KEPT, exist_ok=True)
        replace(place_of_note(root), json.dumps({it.name: it.stamp() for it in crates}))
    return 0


def read_note(root):
    """Returns the noted sums, and when they were noted."""
    path = place_of_note(root)
    return (json.loads(text_of(path)), os.path.getmtime(path)) if os.path.isfile(path) else ({}, 0)
