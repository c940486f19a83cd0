"""Faults that a script plants: a function in which one line is gone, stands one further down, or says something else."""
import hashlib
import os
import re

from .crates import text_of
from .edits import Edit, functions_of

# What a word or a sign is turned into.
TURNS = [
    (r" == ", " != "),
    (r" != ", " == "),
    (r" < ", " <= "),
    (r" <= ", " < "),
    (r" > ", " >= "),
    (r" >= ", " > "),
    (r" && ", " || "),
    (r" \|\| ", " && "),
    (r"\btrue\b", "false"),
    (r"\bfalse\b", "true"),
    (r" \+ 1\b", " + 2"),
    (r" - 1\b", " - 2"),
    (r"_add\(1\)", "_add(2)"),
    (r"\.is_some\(\)", ".is_none()"),
    (r"\.is_none\(\)", ".is_some()"),
    (r"\.is_ok\(\)", ".is_err()"),
    (r"\.is_err\(\)", ".is_ok()"),
    (r"push_back\(", "push_front("),
    (r"pop_front\(", "pop_back("),
    (r"\bif let Some\(\w+\) = (\S+) \{$", r"if \1.is_none() {"),
    (r"\bif !", "if "),
    (r"\bif (?!let |!)(.+) \{$", r"if !(\1) {"),
    (r"\bSome\(\w[\w.]*\)(?=[,;)]*$)", "None"),
    (r"\bPoll::Ready\(.*\)(?=[,;]?$)", "Poll::Pending"),
    (r"\.take\(\)", ".as_ref()"),
    (r"\b0\b", "1"),
]

# Lines that say something of the proof alone, end a block or are no statement.
NO_STATEMENT = re.compile(r"(let|return|use|ghost|prove!|//|#|\}|const|static)\b|//|#|\}")


def plants_of(folder):
    """Returns faults for the functions of a crate's source, in an order drawn from their texts. Tests and `fmt` get none."""
    found = []
    for at, folders, files in os.walk(f"{folder}/src"):
        folders[:] = [it for it in folders if it != "tests"]
        for name in files:
            file = os.path.relpath(f"{at}/{name}", folder)
            text = text_of(f"{folder}/{file}")
            if name.endswith(".rt") and not text.startswith("#![cfg(test)]") and "#[test]" not in text:
                found += [it for of in functions_of(file, text) if of.name != "fmt" for it in plants_in(file, text, of)]
    return sorted(found, key=lambda it: hashlib.sha256(it.label.encode()).hexdigest())


def plants_in(file, text, function):
    """Returns the faults of one function, each with another body of it."""
    whole, found = text[function.start : function.end], []
    head = text[function.start : function.body].count("\n") + 1
    lines, first = whole.split("\n"), text.count("\n", 0, function.start) + 1
    if text.count(whole) != 1 or not lines[head:-1]:
        return []
    for number in range(head, len(lines) - 1):
        for what, changed in dict(changes_of(lines, number)).items():
            label = f"{file}:{first + number}: {what}"
            edit = Edit(label, pairs=[(file, whole, "\n".join(changed))], changed=[function], guards=what)
            edit.places = [(file, first, first + len(lines))]
            found.append(edit)
    return found


def changes_of(lines, number):
    """Gives, in words and as lines, what can be done to one line."""
    line = lines[number]
    before, after, said = lines[:number], lines[number + 1 :], line.strip()
    if is_statement(line):
        yield f"without `{said}`", [*before, "", *after]
    if is_statement(line) and is_statement(after[0]) and indent_of(line) == indent_of(after[0]):
        yield f"`{said}` behind the next line", [*before, after[0], line, *after[1:]]
    if arm(line) and arm(after[0]) and arm(line)[2] != arm(after[0])[2]:
        (one, is_one, of_one), (two, is_two, of_two) = arm(line), arm(after[0])
        yield f"`{said}` by turns with the next arm", [*before, f"{one}{is_one}{of_two}", f"{two}{is_two}{of_one}", *after[1:]]
    if '"' in line or said.startswith(("//", "prove!", "ghost")):
        return
    for word, new in TURNS:
        turned = re.sub(word, new, line, count=1)
        if turned != line:
            yield f"`{turned.strip()}` for `{said}`", [*before, turned, *after]


def is_statement(line):
    return line.endswith(";") and not NO_STATEMENT.match(line.strip())


def indent_of(line):
    return len(line) - len(line.lstrip())


def arm(line):
    """Returns the parts of an arm of a match that stands on one line."""
    found = re.fullmatch(r"(\s*)(\S.* => )([^{}]+,)", line)
    return found and found.groups()
