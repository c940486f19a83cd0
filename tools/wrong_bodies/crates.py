"""The crates of a repository, their texts, and copies of them."""
import contextlib
import os
import re
import shutil

TEXTS = ("src", "specs", "proofs")


def text_of(path):
    with open(path, encoding="utf-8", errors="replace") as file:
        return file.read()


def uses_of(root):
    """Returns the libraries that each crate uses, the kit's too, by the list crates.txt."""
    rows = [it.partition("#")[0].strip() for it in open(f"{root}/crates.txt")]
    return {it.partition(":")[0].split()[0]: it.partition(":")[2].split() for it in rows if it}


def crates_of(root):
    """Returns the libraries of the repository that each crate uses."""
    uses = uses_of(root)
    return {name: [it for it in used if it in uses] for name, used in uses.items()}


def below(crates, name):
    """Returns the libraries below a crate, each after those that it uses."""
    found = []
    for it in crates[name]:
        found += [under for under in [*below(crates, it), it] if under not in found]
    return found


def lay_out(root, room, names):
    """Makes a repository of these crates, with no work that was kept of them."""
    for it in names:
        for part in TEXTS:
            copy(f"{root}/crates/{it}/{part}", f"{room}/crates/{it}/{part}")
    os.makedirs(room, exist_ok=True)
    write(f"{room}/crates.txt", "".join(f"{row}\n" for row in rows_of(root, names)))


def rows_of(root, names):
    """Returns the lines of crates.txt that name these crates."""
    return [row for row in text_of(f"{root}/crates.txt").split("\n") if {*re.findall(r"^\w+", row)} & {*names}]


def copy(old, new, by=shutil.copy2):
    shutil.rmtree(new, ignore_errors=True)
    if os.path.isdir(old):
        shutil.copytree(old, new, copy_function=by)


def link_or_copy(old, new):
    """Gives a file a second name: a check replaces what was proved before, and writes into none of it."""
    try:
        os.link(old, new)
    except OSError:
        shutil.copy2(old, new)


def link_proved(old, new):
    return link_or_copy(old, new) if old.endswith(".oantt") else shutil.copy2(old, new)


def write(path, text):
    with open(path, "w", encoding="utf-8") as file:
        file.write(text)


def replace(path, text):
    """Writes a file anew, which may be a second name of another one."""
    with contextlib.suppress(FileNotFoundError):
        os.remove(path)
    write(path, text)


def lanes(memory):
    """Returns how many go side by side that take so many kilobytes each: one a processor, and as many as free memory holds."""
    free = int(re.search(r"MemAvailable:\s+(\d+)", text_of("/proc/meminfo"))[1])
    return max(1, min(len(os.sched_getaffinity(0)), free // memory))
