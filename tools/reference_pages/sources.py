"""The items of a source file, by the brackets of its text: what each is, its doc comment, its head with clauses, and its body."""
import re
from dataclasses import dataclass, field
from functools import cached_property

# What has brackets that count for nothing: comments, texts, and letters that are brackets.
APART = re.compile(r"//[^\n]*|\"(?:\\.|[^\"\\])*\"|'(?:\\.|[][{}();\"])'", re.S)
BRACKETS = re.compile(r"[][{}();]")
CLAUSE = re.compile(r"\b(?:requires|ensures)(?: \w+)?\s*$")
HEAD = re.compile(r"(pub(?:\([^)]*\))? )?(?:(ghost) )?(?:unsafe |const (?=fn)|extern \"C\" )*(\w+)\b(?: (\w+))?")
# Items whose brackets are before their end, a semicolon.
TO_SEMICOLON = ("use", "const", "static", "type", "ghost")


@dataclass(eq=False)
class Item:
    """One item of a module, an impl or a trait."""

    kind: str  # use, mod, struct, enum, trait, impl, fn, const, type, ghost
    name: str
    is_public: bool
    doc: str
    attributes: list
    head: str  # without its body, as it stands, but less far from the margin
    body: str  # what stands in its brackets
    module: object = field(default=None, repr=False)

    @cached_property
    def items(self):
        """Returns the items in its body, as those of an impl."""
        return items_of(self.body, self.module)

    @property
    def has_clauses(self):
        return bool(re.search(r"\b(requires|ensures)\b", self.head))

    def has(self, attribute):
        return any(it.startswith(f"#[{attribute}") for it in self.attributes)


def items_of(text, module=None):
    """Returns the items of a text."""
    masked, found, at = mask(text), [], 0
    doc, attributes = [], []
    while at < len(text):
        if text[at].isspace():
            at += 1
        elif text.startswith("//", at):
            end = end_of_line(text, at)
            doc += [text[at + 3 : end]] if text.startswith("///", at) else []
            at = end
        elif text.startswith(("#[", "#!["), at):
            end = past(masked, text.index("[", at))
            attributes, at = [*attributes, text[at:end]], end
        else:
            item, at = item_at(text, masked, at, module)
            item.doc, item.attributes = dedented(doc), attributes
            found.append(item)
            doc, attributes = [], []
    return found


def item_at(text, masked, start, module):
    """Returns the item that begins here, and where it ends."""
    pub, ghost, kind, name = HEAD.match(text, start).groups()
    kind, name = ("ghost", kind) if ghost else (kind, name)
    opening, end = ends_of(masked, start, kind)
    indent = start - text.rfind("\n", 0, start) - 1
    head = re.sub(rf"\n {{{indent}}}", "\n", text[start:opening]).rstrip() if indent else text[start:opening].rstrip()
    return Item(kind, name or "", pub == "pub ", "", [], head, text[opening + 1 : end - 1], module), end


def ends_of(masked, start, kind):
    """Returns where the head of an item ends, and where the item does. By a semicolon both are the same."""
    at = start
    while True:
        bracket = BRACKETS.search(masked, at)
        if not bracket:
            return len(masked), len(masked)
        at = bracket.start()
        if bracket[0] == ";":
            return at + 1, at + 1
        if bracket[0] == "{" and kind not in TO_SEMICOLON and not CLAUSE.search(masked, start, at):
            return at, past(masked, at)
        at = past(masked, at)


def past(masked, at):
    """Returns where the bracket that opens here is closed, and one further."""
    depth = 0
    for bracket in BRACKETS.finditer(masked, at):
        depth += {"(": 1, "[": 1, "{": 1, ";": 0}.get(bracket[0], -1)
        if depth == 0:
            return bracket.end()
    return len(masked)


def mask(text):
    """Returns the text with blanks for what has brackets that count for nothing."""
    return APART.sub(lambda it: re.sub(r"[^\n]", " ", it[0]), text)


def end_of_line(text, at):
    end = text.find("\n", at)
    return len(text) if end < 0 else end


def dedented(lines):
    """Returns the text of a comment, without the blank before each line."""
    return "\n".join(it[1:] if it.startswith(" ") else it for it in lines).strip("\n")


def first_comment(text):
    """Returns the comment with which a file says what it has."""
    return dedented(it[3:] for it in re.findall(r"^//![^\n]*", text, re.M))


# Types and paths


def past_angle(text, at):
    """Returns where the angle bracket that opens here is closed, and one further."""
    depth = 0
    for it in re.finditer(r"->|[<>]", text[at:]):
        depth += {"<": 1, ">": -1}.get(it[0], 0)
        if depth == 0:
            return at + it.end()
    return len(text)


def cut(text, mark):
    """Cuts a text at each mark that no bracket surrounds."""
    parts, depth, begun, at = [], 0, 0, 0
    while at < len(text):
        if depth == 0 and text.startswith(mark, at):
            parts, begun = [*parts, text[begun:at]], at + len(mark)
            at = begun
            continue
        depth += text[at] in "<([{"
        depth -= text[at] in ")]}" or text[at] == ">" and text[at - 1 : at] not in ("-", "=")
        at += 1
    return [*parts, text[begun:]]


@dataclass
class Implementation:
    """What the head of an impl says."""

    generics: str
    trait: str
    type: str

    @classmethod
    def of(cls, head):
        rest = " ".join(head.split()).partition("impl")[2]
        end = past_angle(rest, 0) if rest.startswith("<") else 0
        before = cut(rest[end:], " where")[0].strip()
        trait, _, of_type = before.rpartition(" for ") if len(cut(before, " for ")) > 1 else ("", "", before)
        return cls(rest[:end], trait, of_type)


def path_of(type_text):
    """Returns the path of a type, without its parameters."""
    plain = re.sub(r"^(&|'\w+ |mut |\s)+", "", type_text)
    return re.match(r"[\w:]*", plain.partition("<")[0])[0].split("::")


def leaves_of(tree):
    """Returns the paths of a use, each with the name that it gets."""
    before, opening, inside = tree.strip().partition("{")
    if opening:
        inner = [leaf for it in cut(inside.rpartition("}")[0], ",") if it.strip() for leaf in leaves_of(it)]
        return [(before.split("::")[:-1] + path, name) for path, name in inner]
    path, _, name = tree.strip().partition(" as ")
    return [(path.split("::"), name or path.split("::")[-1])]
