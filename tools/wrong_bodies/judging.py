"""What a check said of the edits of its copy."""
import re

# How the check names a goal of a function that it could not prove.
OPEN_GOAL = r"^note: src/\S+ it is not proved that .*?\(`([^`]+)`\)"
# How it names one that a struct's ghost field asks for.
UNPROVED = r"`search` did not prove `([^`]+)`"
# What the check says of a proof that cites what an edit took away.
MISSING = re.compile(r"is not in scope|has no field|has no `|is no name|was not admitted|cannot find|is not exported")


def judge(edit, pack, said, name):
    """Returns whether an edit of a pack was refused, or None where a copy with others can't tell, and what to say."""
    if edit.compiler:
        return judge_compiled(edit, pack, said)
    why = why_unjudged(said)
    if why:
        return None, f"the check did not come to its end: {why}"
    refused_at = []
    for path in edit.demanded:
        line, goals, errors = look_up(said, name, path)
        is_by_callees = "which is not proved" in line or "which are not proved" in line
        if line.startswith("proved"):
            return False, f"{path} is STILL PROVED"
        if not is_by_callees or len(pack) == 1:
            goals = goals + errors
        if edit.is_outside and line:
            goals = goals or failing_lemmas(said)
        if not goals:
            return None, f"{path} is refused at no goal of its own, for the check says: {line[:160]}"
        refused_at.append(f"{path} at {', '.join(goals[:3])}")
    return True, "; ".join(refused_at)


def judge_compiled(edit, pack, said):
    """The same where the compiler has to refuse the edit: by its error in a function that it changes, and by no other. In the same copy the
    others of the pack have errors too, each in its own function."""
    errors = re.findall(r"^(?:\./)?((?:src|specs)/\S+?):(\d+):\d+: error(?:\[([\w-]+)\])?", said, re.M)
    of_each = [[it for it in errors if stands_in(it, other.places)] for other in pack]
    meant = of_each[pack.index(edit)]
    if meant and {it[2] for it in meant} == {edit.compiler} and all(any(it in found for found in of_each) for it in errors):
        return True, f"{meant[0][0]}:{meant[0][1]}, by the compiler's error {edit.compiler}"
    why = f"the compiler says not just {edit.compiler} there: {why_unjudged(said) or 'it compiles'}"
    return None if len(pack) > 1 else False, why


def stands_in(error, places):
    return any(error[0] == file and first <= int(error[1]) <= last for file, first, last in places)


def why_unjudged(said):
    """Returns the line that says why the check did not come to judge the proofs, or nothing."""
    unread = re.search(r"^(?:\./)?(?:src|specs)/\S+?:\d+:\d+: error\b.*", said, re.M)
    is_ended = re.search(r"^only=\d+ proved=\d+", said, re.M)
    if unread or not is_ended:
        return (unread or re.search(r".*error.*", said) or re.search(r".*\n?\Z", said))[0][:200]
    return ""


def look_up(said, name, path):
    """Returns what the check says of a function, its goals that failed, and what was refused of its proof's files."""
    line = re.search(rf"^fn {name}::{re.escape(path)}: (.*)", said, re.M)
    if not line:
        return "nothing of it", [], []
    above = said[: line.start()].rpartition("\nfn ")[2]
    goals = [*dict.fromkeys(re.findall(OPEN_GOAL, above, re.M) + re.findall(UNPROVED, line[1]))]
    return line[1], goals, [it for it in dict.fromkeys(errors_in(said, path.replace("::", "/") + "/")) if it not in goals]


def errors_in(said, folder):
    """Returns the declarations of the proofs in a folder that were refused, but for those that cite a name which isn't there."""
    errors = re.findall(rf"^(?:\./)?proofs/({re.escape(folder)}\S*?):\d+:\d+: error: (?:`([^`]*)`: )?(.*)", said, re.M)
    return [goal or file for file, goal, why in errors if not MISSING.search(why)]


def failing_lemmas(said):
    return [*dict.fromkeys(re.findall(OPEN_GOAL, said, re.M) + errors_in(said, ""))]
