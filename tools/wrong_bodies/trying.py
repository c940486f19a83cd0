"""The trial of edits: of those that are owed, and of a sample of the others."""
import hashlib
import os
import re
import shutil
import threading
import time
from concurrent.futures import ThreadPoolExecutor, as_completed, wait
from dataclasses import dataclass, field

from .copies import packs_of, rt, try_pack
from .crates import below, copy, crates_of, lay_out, link_or_copy, text_of, write
from .edits import changed_below, edits_of, name_demanded, place
from .judging import judge
from .opposites import try_opposites
from .proved import take_proved
from .refused import Line, judge_now, read_lines, sum_of, sum_of_tree, write_lines

# How many edits of a sample are drawn at a time, for each check that goes beside others.
DRAWN = 16


@dataclass
class Trial:
    """The edits of a repository, what their crates' files say of them, and where they are tried."""

    root: str
    room: str
    jobs: int
    edits: dict  # of each crate that has some
    lines: dict = field(default_factory=dict)  # of each crate's file
    sums: dict = field(default_factory=dict)  # of each edit, by crate and name
    proved: dict = field(default_factory=dict)  # the functions of each crate that was proved before
    prepared: dict = field(default_factory=dict)
    faults: list = field(default_factory=list)
    changed: set = field(default_factory=set)  # the crates below that edits change
    tried: int = 0
    deadline: float = float("inf")
    lock: threading.Lock = field(default_factory=threading.Lock)

    def __post_init__(self):
        self.crates, self.seats = crates_of(self.root), threading.Semaphore(self.jobs)
        for name, found in self.edits.items():
            self.lines[name] = read_lines(f"{self.root}/crates/{name}")
            for edit in found:
                place(edit, f"{self.root}/crates/{name}")
                self.sums[name, edit.label] = sum_of(self.root, self.crates, name, edit)

    def is_over(self):
        return time.time() > self.deadline

    def line_of(self, name, edit):
        """Returns what stands of an edit in its crate's file, where that is of the texts of now."""
        line = self.lines[name].get(edit.label)
        return line if line and line.sum == self.sums[name, edit.label] and not edit.fault else None

    def pick(self, is_meant):
        """Returns the edits, by crate, for whose line this holds."""
        picked = {name: [it for it in found if is_meant(self.line_of(name, it))] for name, found in self.edits.items()}
        return {name: found for name, found in picked.items() if found}

    def keep(self, name, edit, goals):
        """Writes into a crate's file that an edit was refused."""
        self.lines[name][edit.label] = Line(judge_now(), self.sums[name, edit.label], goals)
        self.write(name)

    def pass_on(self, name, edit, why):
        """Says that an edit was refused, and keeps that."""
        self.keep(name, edit, why)
        print(f"{name}/{edit.label}: refused: {why}{edit.guarded()}", flush=True)

    def fail(self, name, edit, why):
        """Says that an edit was not refused, and takes its line, if it had one."""
        print(f"{name}/{edit.label}: {why}", flush=True)
        self.faults.append(f"{name}/{edit.label}: {why}")
        if self.lines[name].pop(edit.label, None):
            self.write(name)

    def write(self, name):
        """Writes a crate's file; the lines of edits that are gone go."""
        there = {it.label for it in self.edits[name]}
        self.lines[name] = {label: it for label, it in self.lines[name].items() if label in there}
        write_lines(f"{self.root}/crates/{name}", self.lines[name])

    def take_proved(self):
        """Has what was proved before of the crates with edits and those below laid out, once."""
        needed = []
        for name in self.edits:
            needed += [it for it in [*below(self.crates, name), name] if it not in needed]
        if not os.path.isdir(f"{self.room}/proved"):
            self.proved = take_proved(self.root, f"{self.room}/proved", needed)

    def run(self, edits):
        """Tries these edits, by crate, those of several crates side by side, and the dearest first, so that none is left alone at the end."""
        edits = try_opposites(self, edits)
        if not edits:
            return
        self.take_proved()
        edits = dict(sorted(edits.items(), key=lambda it: -weight_of(f"{self.root}/crates/{it[0]}", it[1])))
        needed, changed = [], {it for name, found in edits.items() for it in changed_below(found, name)} - self.changed
        for name in edits:
            needed += [it for it in [*below(self.crates, name), name] if it not in needed and it not in self.prepared]
        with ThreadPoolExecutor(len(needed) + len(changed) + len(edits) + 1) as pool:
            for it in needed:
                self.prepared[it] = pool.submit(prepare, self, it)
            for it in changed:
                self.prepared[it] = pool.submit(work_out, self, it, self.prepared[it])
            self.changed |= changed
            for it in [pool.submit(try_crate, self, name, found) for name, found in edits.items()]:
                it.result()


# One crate


def prepare(trial, name):
    """Has the unchanged crate proved, before or here, and returns the functions that the check knows, or None where it is not proved."""
    room, under = trial.room, below(trial.crates, name)
    folder, left = f"{room}/{name}/crates/{name}", f"{trial.root}/crates/{name}/out"
    lay_out(trial.root, f"{room}/{name}", [*under, name])
    for it in under:
        if trial.prepared[it].result() is None:
            return None
        copy(f"{room}/{it}/crates/{it}/out/rlib", f"{room}/{name}/crates/{it}/out/rlib", by=link_or_copy)
    copy(f"{left}/incremental", f"{folder}/out/incremental")
    if name in trial.proved:
        copy(f"{room}/proved/crates/{name}/out/rlib", f"{folder}/out/rlib", by=link_or_copy)
        known = trial.proved[name]
        if os.path.isdir(f"{left}/incremental") and os.path.isfile(f"{left}/rlib/stamp"):
            write(f"{folder}/whole", "")
    else:
        copy(f"{left}/rlib", f"{folder}/out/rlib")
        known = prove(folder, name, trial.seats)
    if os.path.isdir(f"{folder}/out/incremental"):
        os.rename(f"{folder}/out/incremental", f"{folder}/kept")
    return known


def work_out(trial, name, prepared):
    """Checks a whole crate that is proved and that edits of crates above change, where no work of its proof was left: their copies begin with
    that. Returns what was found as it was prepared."""
    folder, known = f"{trial.room}/{name}/crates/{name}", prepared.result()
    if known is None or os.path.isdir(f"{folder}/kept"):
        return known
    with trial.seats:
        if re.search(r"^logic=proved", rt(folder, "check"), re.M):
            write(f"{folder}/whole", "")
    if os.path.isdir(f"{folder}/out/incremental"):
        os.rename(f"{folder}/out/incremental", f"{folder}/kept")
    return known


def prove(folder, name, seats):
    """Proves the unchanged crate, and returns the functions that the check knows, or None where it is not proved."""
    with seats:
        said = rt(folder, "lib") if os.path.isfile(f"{folder}/src/lib.rt") else ""
        if not re.search(r"^fn ", said, re.M):
            said = rt(folder, "check")
    if not re.search(r"^logic=proved", said, re.M):
        print(f"{name} itself is not proved:\n{said[-600:]}", flush=True)
        return None
    write(f"{folder}/whole", "")
    return re.findall(rf"^fn {name}::(\S+): proved", said, re.M)


def try_crate(trial, name, edits):
    """Tries edits of a crate, its copies side by side, and says of each what it came to. Once the time is over no copy is begun, but for edits
    of which a copy with others left a doubt."""
    known, began, apart, copies = trial.prepared[name].result(), time.time(), set(), 0
    for it in changed_below(edits, name):
        trial.prepared[it].result()
    for edit in edits:
        if not edit.fault and known is not None:
            name_demanded(edit, known)
        if edit.fault or known is None:
            trial.fail(name, edit, f"NOT TRIED: {edit.fault or 'its crate is not proved'}")
    left, tried = [it for it in edits if not it.fault and known is not None], 0
    while left:
        packs, doubted = packs_of(left, apart), []
        for pack, said in check_packs(trial, name, packs, copies):
            tried += len(pack) if said is not None else 0
            doubted += settle(trial, name, pack, said) if said is not None else []
            # those in doubt stand with none of the same copy again, so that each comes to stand alone at the latest
            apart |= {(one.label, other.label) for one in pack for other in pack}
        copies, tried, left = copies + len(packs), tried - len(doubted), doubted
    before = ", over what was proved before" if name in trial.proved else ""
    print(f"{name}: {tried} of {len(edits)} wrong bodies in {copies} copies, {time.time() - began:.0f} seconds{before}", flush=True)
    if name not in trial.changed and trial.deadline == float("inf"):
        shutil.rmtree(f"{trial.room}/{name}/crates/{name}/kept", ignore_errors=True)


def check_packs(trial, name, packs, number):
    """Checks the packs side by side, in copies numbered from this one, and gives each, once it was checked, with what was said of it, or with None
    if it came too late. Of a crate with no work yet the first and largest goes before the others, which begin with what its check proved."""
    is_bare = not os.path.isfile(f"{trial.room}/{name}/crates/{name}/whole")
    with ThreadPoolExecutor(len(packs)) as pool:
        checked = {}
        for at, pack in enumerate(packs, number):
            checked[pool.submit(check_in_time, trial, name, pack, at, number > 0)] = pack
            if is_bare and at == 0:
                wait(checked)
        for it in as_completed(checked):
            yield checked[it], it.result()


def check_in_time(trial, name, pack, number, is_doubted):
    with trial.seats:
        return try_pack(trial.room, number, pack, trial.crates, name) if is_doubted or not trial.is_over() else None


def settle(trial, name, pack, said):
    """Says what each edit of a checked pack came to, and returns those that it leaves in doubt."""
    doubted = []
    for edit in pack:
        is_refused, why = judge(edit, pack, said, name)
        if is_refused is None and len(pack) > 1:
            doubted.append(edit)
            continue
        with trial.lock:
            trial.tried += 1
        if not is_refused:
            trial.fail(name, edit, f"NOT REFUSED: {why}{edit.guarded()}")
        else:
            trial.pass_on(name, edit, "; ".join(filter(None, [why, edit.opposite])))
    return doubted


def weight_of(folder, edits):
    """Returns about what the wrong bodies of a crate take: copies by the size of what each reads."""
    lines = sum(text_of(f"{at}/{file}").count("\n") for at, _, files in os.walk(f"{folder}/src") for file in files)
    return len(packs_of(edits)) * lines


# All


def is_confirmed(line):
    """Says whether today's toolchain and tool have judged the edit of this line."""
    return bool(line) and line.judge == judge_now()


def is_unconfirmed(line):
    return bool(line) and line.judge != judge_now()


def drawn_from(trial):
    """Returns all edits that count as refused, each with its crate, in the order in which a sample draws them: those first that aren't confirmed.
    The order is made from all that stands in the repository."""
    tree = sum_of_tree(trial.root)
    found = [(name, it) for name, edits in trial.edits.items() for it in edits if trial.line_of(name, it)]
    drawn = lambda name, it: hashlib.sha256(f"{tree} {name}/{it.label}".encode()).hexdigest()
    return sorted(found, key=lambda it: (is_confirmed(trial.line_of(*it)), drawn(*it)))


def try_sample(trial, drawn, minutes):
    """Tries these edits, the first ones first, for so many minutes."""
    trial.deadline = time.time() + 60 * minutes
    while drawn and not trial.is_over():
        part, drawn = drawn[: DRAWN * trial.jobs], drawn[DRAWN * trial.jobs :]
        trial.run({name: [it for of, it in part if of == name] for name in dict.fromkeys(name for name, _ in part)})
