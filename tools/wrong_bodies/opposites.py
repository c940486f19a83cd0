"""The opposites of laws: an edit with a line `false: LAW` brings the proof that its machine breaks this law.

Behind that line, to the end of the edit, stands the proof: the file Answers.antt of a function `false_LAW`. The tool writes
that function into the copy, beside the law, with one clause: the clause of the law leads to ⊥. So what is proved is never
what an edit says of itself. Where the law has several clauses the line names one, `false: LAW CLAUSE`. A type parameter of
the law is ℕ. The copy is checked from its sources, and of them only what the opposite needs, so lemmas below that the edit
breaks too are not asked for.
"""
import os
import re
import shutil
from concurrent.futures import ThreadPoolExecutor
from dataclasses import dataclass

from .copies import begin_over, leave_work, rt
from .crates import TEXTS, copy, text_of, uses_of, write
from .edits import changed_below, functions_of, module_of
from .refused import texts_of

PRELUDE = "ghost use Rattle.std.specs.Prelude"


@dataclass(frozen=True)
class Law:
    """A law of a crate: its file, and what stands above its body."""

    file: str
    name: str
    head: str

    def opposite(self):
        return "::".join(filter(None, [module_of(self.file), f"false_{self.name}"]))

    def folder(self):
        return f"proofs/{self.opposite().replace('::', '/')}"


def law_of(folder, path):
    """Returns the law of this name, as `laws::calls_end`, or what is wrong with it."""
    found = []
    for at, _, files in os.walk(f"{folder}/src"):
        for file in (os.path.relpath(f"{at}/{it}", folder) for it in sorted(files) if it.endswith(".rt")):
            text = text_of(f"{folder}/{file}")
            found += [Law(file, it.name, head_at(text, it.start)) for it in functions_of(file, text) if it.is_named(path)]
    if len(found) != 1:
        return None, f"a line 'false:' has to name one law, and {path} names {len(found)}"
    if re.search(r"^    requires\b", found[0].head, re.M):
        return None, f"{path} has a requires, so it is no law"
    return found[0], ""


def head_at(text, start):
    """Returns what stands above the body of a function that begins here, no method: by the layout of rt fmt its body begins a line."""
    body = text.find("\n{", start)
    return text[start:body] if body >= 0 else ""


def clause_of(law, wanted):
    """Returns the text of a law's clause of this name, or of its only one where no name is wanted; or nothing."""
    clauses = {}
    for it in re.finditer(r"^    ensures\s+(\w+)?\s*\{", law.head, re.M):
        depth, end = 1, it.end()
        while depth:
            depth += {"{": 1, "}": -1}.get(law.head[end], 0)
            end += 1
        clauses[it[1] or ""] = law.head[it.end() : end - 1].strip()
    if not wanted and len(clauses) == 1:
        return next(iter(clauses.values()))
    return clauses.get(wanted, "")


def at_numbers(law, clause):
    """Returns a law's clause with numbers for what its type parameters stand for."""
    parameters = re.match(r"[^(<]*<([^>]*)>\(", law.head)
    for it in re.findall(r"\w+", parameters[1]) if parameters else []:
        clause = re.sub(rf"\b{it}\b", "ℕ", clause)
    return clause


def add_opposite(folder, edit):
    """Writes the opposite of the law that an edit breaks into a copy of its crate, and returns its path, or what is wrong."""
    path, _, wanted = edit.breaks.partition(" ")
    law, fault = law_of(folder, path)
    clause = clause_of(law, wanted) if law else ""
    if fault or not clause:
        return "", fault or f"a line 'false:' has to name a clause of {path}"
    clause = at_numbers(law, clause)
    text = text_of(f"{folder}/{law.file}")
    if "ℕ" in clause and not re.search(r"^ghost use .*\bℕ\b", text, re.M):
        text = re.sub(r"^ghost use", PRELUDE + ".{ℕ};\nghost use", text, count=1, flags=re.M)
    write(f"{folder}/{law.file}", f"{text}\n/// The law is broken.\npub fn false_{law.name}()\n    ensures {{ ({clause}) → ⊥ }}\n{{}}\n")
    os.makedirs(f"{folder}/{law.folder()}", exist_ok=True)
    write(f"{folder}/{law.folder()}/Answers.antt", edit.proof)
    return law.opposite(), ""


def cited(root, crates, name, more=()):
    """Returns the crates below whose names stand in a crate's contracts and definitions, or in more texts, each after those that it cites."""
    texts = [*more, *(text for _, text in texts_of(root, name, ("src", "specs")))]
    named, found = {it for text in texts for it in re.findall(r"\b\w+\b", text)}, []
    for it in crates[name]:
        if it in named:
            found += [under for under in [*cited(root, crates, it), it] if under not in found]
    return found


def sources_of(root, crates, name, under):
    """Returns the words by which a check of a crate reads these below as sources, and the kit's libraries that all of them use."""
    uses, words = uses_of(root), []
    kit = {"core", *(used for it in [*under, name] for used in uses[it] if used not in crates)}
    for it in under:
        words += ["--lib", f"{it}:{','.join(['core', 'std', *(used for used in uses[it] if used in kit or used in under)])}=../{it}/src/lib.rt"]
    return words, sorted(kit)


def try_opposite(trial, name, edit):
    """Returns whether the opposite of the law that an edit breaks is proved in a copy with the edit, and what to say."""
    room, crates = f"{trial.room}/opposites", trial.crates
    at = f"{room}/{name}/copies/{edit.label}"
    folder = f"{at}/crates/{name}"
    under = cited(trial.root, crates, name, (edit.proof, *changed_below([edit], name)))
    for it in [*under, name]:
        for part in TEXTS:
            copy(f"{trial.root}/crates/{it}/{part}", f"{at}/crates/{it}/{part}")
    for file, old, new in edit.pairs:
        write(f"{folder}/{file}", text_of(f"{folder}/{file}").replace(old, new, 1))
    path, fault = add_opposite(folder, edit)
    if fault:
        return False, fault
    words, kit = sources_of(trial.root, crates, name, under)
    write(f"{at}/crates.txt", f"{name}: {' '.join(kit)}\n")
    os.makedirs(f"{room}/{name}/crates/{name}", exist_ok=True)
    begin_over(room, name, folder)
    said = rt(folder, "check", "--only", path, *words)
    leave_work(room, name, folder)
    shutil.rmtree(at, ignore_errors=True)
    return judge_opposite(edit, said, name, path)


def judge_opposite(edit, said, name, path):
    """Says whether a check proved an opposite, by its line and its last line."""
    is_proved = re.search(rf"^fn {name}::{re.escape(path)}: proved$", said, re.M) and re.search(r"^only=1 proved=1$", said, re.M)
    if is_proved:
        return True, f"{edit.breaks.partition(' ')[0]} is false: {path} is proved"
    why = re.search(r".*\berror\b.*", said) or re.search(r".*\n?\Z", said)
    return False, f"{path} is not proved: {why[0].strip()[:200]}"


def try_opposites(trial, edits):
    """Tries the opposites of laws that these edits, by crate, bring, and returns the edits that are left: those of which more is asked, and
    those that bring none. Once the time is over none is begun."""
    of_all = [(name, it) for name, found in edits.items() for it in found if it.breaks and not it.fault]
    with ThreadPoolExecutor(len(of_all) + 1) as pool:
        asked = [it for it, is_asked in zip(of_all, pool.map(lambda it: settle_opposite(trial, *it), of_all)) if is_asked]
    left = {name: [it for it in found if not it.breaks or it.fault or (name, it) in asked] for name, found in edits.items()}
    return {name: found for name, found in left.items() if found}


def settle_opposite(trial, name, edit):
    """Says what the opposite of a law that an edit brings came to, and returns whether more is asked of the edit."""
    with trial.seats:
        if trial.is_over():
            return False
        is_proved, why = try_opposite(trial, name, edit)
    with trial.lock:
        if is_proved and edit.demanded:
            edit.opposite = why
            return True
        trial.tried += 1
        if is_proved:
            trial.pass_on(name, edit, why)
        else:
            trial.fail(name, edit, f"NOT REFUSED: {why}{edit.guarded()}")
    return False
