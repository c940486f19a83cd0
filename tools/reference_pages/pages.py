"""The pages of the reference as Markdown, with the links between them."""
import os
import re
from collections import Counter
from dataclasses import dataclass

from .entries import Section, Sections, definitions_of
from .names import Crates
from .sources import cut

ROOM = 1_350  # lines of a page beside its list of items, so that it has 1,500 at most
FOLDER = "docs/reference"
NAMES = "Names in contracts"
USE = re.compile(r"ghost use Rattle\.([\w.]+?)(?:\.\{(.*)\})?(?: as (\w+))?;")


@dataclass(eq=False)
class Page:
    path: str  # below FOLDER
    crate: str
    sections: list
    others: list  # all pages of the crate, where there are several
    number: int = 1  # among those of one module

    def headings(self):
        """Returns its headings in order, each with what it is of."""
        yield self.title(), self
        for section in self.sections:
            yield f"`{section.path}`", section
            for entry in section.entries:
                yield entry.title, entry
                yield from ((it.title, it) for it in entry.members)

    def title(self):
        return f"`{self.sections[0].path}`, call by call" + (f", part {self.number}" if self.number > 1 else "")


class Reference:
    """All pages."""

    def __init__(self, root):
        self.root, self.crates = root, Crates(root)
        self.product = product_of(root)
        self.links, self.places, self.pages = {}, {}, []
        for crate in self.product:
            sections = Sections(self.crates, crate, self.product)
            for entry in (it for section in sections.sections for it in section.entries):
                self.places.setdefault(entry.item, {})[crate] = entry
            self.pages += self.cut(crate, sections.sections)
        for page in self.pages:
            self.note_links(page)

    def cut(self, crate, sections):
        """Returns the pages of a crate: one, and where that would be too long, others for its longest modules."""
        apart, lengths = {}, {it: self.lines_of([it]) for it in sections}
        while sum(it for section, it in lengths.items() if section not in apart) > ROOM:
            groups = Counter()
            for it in (it for it in sections[1:] if it not in apart):
                groups[module_of(it)] += lengths[it]
            if not groups:
                break
            longest = groups.most_common(1)[0][0]
            apart |= {it: longest for it in sections[1:] if module_of(it) == longest}
        pages = self.parts(crate, [it for it in sections if it not in apart])
        for name in dict.fromkeys(apart.values()):
            pages += self.parts(crate, [it for it in sections if apart.get(it) == name])
        for it in pages:
            it.others = pages
        return pages

    def parts(self, crate, sections):
        """Returns a page of these sections, and others of what would make it too long."""
        parts, lines = [[]], 0
        for section in sections:
            begun = Section(section.path, section.doc, [], section.also)
            parts[-1].append(begun)
            for entry in section.entries:
                length = self.lines_of([Section(section.path, "", [entry])])
                lines += length
                if lines > ROOM:
                    begun, lines = Section(section.path, section.doc), length
                    parts.append([begun])
                begun.entries.append(entry)
        name = sections[0].path.replace("::", "-")
        return [Page(f"{name}{f'-{it}' if it > 1 else ''}.md", crate, part, [], it) for it, part in enumerate(parts, 1)]

    def lines_of(self, sections):
        """Returns how many lines these sections take."""
        page = Page("", "", sections, [])
        return sum(part.count("\n") + 2 for it in sections for part in self.section(it, page) if part)

    def note_links(self, page):
        """Notes where a link to each heading of a page leads."""
        seen = Counter()
        for title, it in page.headings():
            name = re.sub(r"[^\w\- ]", "", title.lower()).replace(" ", "-")
            self.links[it] = page.path, f"{name}-{seen[name]}" if seen[name] else name
            seen[name] += 1

    def place_of(self, it, page):
        """Returns the entry of an item: that of the page's own crate, where it has one, or else the first."""
        places = self.places.get(it, {})
        return places.get(page.crate) or next(iter(places.values()), None)

    def link(self, text, it, page):
        path, name = self.links.get(it, ("", ""))
        return f"[{text}]({'' if path == page.path else path}#{name})"

    def texts(self):
        """Returns the text of each page by its path."""
        texts = {f"{FOLDER}/{it.path}": self.text_of(it) for it in self.pages}
        return {f"{FOLDER}/README.md": self.first_page(), **texts}

    def first_page(self):
        rows = [f"- {self.page_link(it)}: {self.about(it)}" for it in self.pages]
        return FIRST_PAGE + "\n".join(rows) + "\n"

    def about(self, page):
        """Returns what the first page says of another one."""
        first = page.sections[0]
        return first_sentence(first.doc) if page.number == 1 else f"from `{first.entries[0].name}` to `{first.entries[-1].name}`."

    def page_link(self, page):
        return f"[{page.title().replace(', call by call', '')}]({page.path})"

    # One page

    def text_of(self, page):
        about = first_sentence(page.sections[0].doc)
        parts = [f"# {page.title()}", about, self.pointers(page), self.contents(page)]
        for section in page.sections:
            parts += self.section(section, page)
        parts += self.names(page)
        return "\n\n".join(it for it in parts if it) + "\n"

    def pointers(self, page):
        folder = f"../../crates/{page.crate}"
        links = [f"[{it}]({folder}/{it}.md)" for it in ("README", "CALLING") if os.path.isfile(f"{self.root}/crates/{page.crate}/{it}.md")]
        others = [self.page_link(it) for it in page.others if it is not page]
        more = f" Its other pages here: {', '.join(others)}." if others else ""
        return f"{' and '.join(links)} of `{page.crate}`.{more} [How to read it](README.md)."

    def contents(self, page):
        """Returns the list of a page's items, and on the first page of a crate of those on its others too."""
        sections = [it for other in page.others for it in other.sections] if page in page.others[:1] else page.sections
        rows, indent = [], "  " if len(sections) > 1 else ""
        for section in sections:
            rows += [f"- {self.link(f'`{section.path}`', section, page)}"] if indent else []
            rows += [indent + self.row(it, page) for it in section.entries]
            also = [(path.split("::")[-1], self.place_of(it, page)) for path, it in section.also]
            links = [self.link(f"`{name}`", place, page) for name, place in also if place]
            rows += [f"{indent}- of elsewhere: {', '.join(links)}"] if links else []
        return "\n".join(rows)

    def row(self, entry, page):
        """Returns the line of an item in the list, with its calls."""
        calls = ", ".join(self.link(f"`{it.name}`", it, page) for it in entry.members)
        said = first_sentence(entry.item.doc)
        return f"- {self.link(f'`{entry.name}`', entry, page)}" + (f": {said}" if said else "") + (f" {calls}" if calls else "")

    def section(self, section, page):
        parts = [f"## `{section.path}`"]
        parts += [rest_of(section.doc) if section is page.sections[0] else said_of(section.doc)]
        for entry in section.entries:
            parts += [f"### {entry.title}", fenced(entry.block), said_of(entry.item.doc)]
            parts += [*map(said_of, entry.remarks), self.alias(entry, page)]
            parts += ["\n".join([*self.traits(entry, page), self.source(entry)])]
            for it in entry.members:
                parts += [f"#### {it.title}", fenced(it.block), said_of(it.item.doc)]
        return [*parts, "\n".join(self.also(at, it, page) for at, it in section.also)]

    def traits(self, entry, page):
        """Returns a line for each trait that a type has: those that are derived in the first."""
        derived = derived_by(entry.item)
        rows = [f"- derived: {', '.join(f'`{it}`' for it in derived)}"] if derived else []
        lines = [line_of(found, entry) for found, _ in entry.traits]
        for line, (found, said) in zip(lines, entry.traits):
            which = self.which(found, said, page) if lines.count(line) > 1 else ""
            defined = [] if is_below(found, entry) else [f"`{' '.join(it.head.split()).rstrip(';')}`" for it in definitions_of(found)]
            rest = " ".join([*found.doc.split(), *defined])
            rows += [f"- `{line}`{which}" + (f": {rest}" if rest else "")] if said.trait != "Model" else []
        return rows

    def which(self, found, said, page):
        """Returns of which crate the type in the trait of an impl is, where another one has the same name."""
        inside = re.match(r"[\w:]*", said.trait.partition("<")[2])[0]
        place = self.place_of(self.crates.resolve(found.module, inside.split("::")), page)
        return f" of {self.link(place.title, place, page)}" if place else ""

    def source(self, entry):
        path = entry.item.module.file.removeprefix(f"{self.root}/")
        return f"- from [{path.removeprefix('crates/')}](../../{path})"

    def also(self, path, it, page):
        """Returns the line of what has another name, where it stands."""
        place = self.place_of(it, page)
        if place:
            return f"- `{path}` is {self.link(place.title, place, page)}."
        return f"- `{path}` is `{it}`, of no crate here." if isinstance(it, str) else f"- `{path}`."

    def alias(self, entry, page):
        place = self.place_of(entry.alias_of, page)
        return f"Its calls are those of {self.link(place.title, place, page)}." if place and place.members and place is not entry else ""

    # Names

    def names(self, page):
        """Returns where the names stand that the contracts of a page have."""
        found = {}
        for _, it in page.headings():
            if hasattr(it, "ghosts"):
                for name, where in names_of(it):
                    found.setdefault(where, set()).add(name)
        here = {it: it.partition(".")[0] in self.crates.names for it in found}
        rows = [self.names_row(it, found[it]) for it in sorted(found, key=lambda it: (not here[it], it))]
        return [f"## {NAMES}", "\n".join(filter(None, rows))] if any(rows) else []

    def names_row(self, where, names):
        crate, _, rest = where.partition(".")
        path = f"crates/{crate}/{rest.replace('.', '/')}.antt"
        said = ", ".join(f"`{it}`" for it in sorted(names))
        if os.path.isfile(f"{self.root}/{path}"):
            return f"- [{path.removeprefix('crates/')}](../../{path}): {said}"
        return "" if crate in self.crates.names else f"- the library's `{where}`: {said}"


FIRST_PAGE = """# Reference

The public items of the crates that programs call. Each has its signature, its contract and its comment, as they stand in the source.
`tools/reference` writes these pages.

- A block has `..` for what isn't public.
- The head of an `impl` has the bounds of the calls that its brackets name.
- `impl Model` says what contracts see of a value. Of a type without one they see the fields, also those that aren't public.
- Of a `&mut self`, `self.old` is the value before the call and `self.new` the value behind it. Of a `&self`, `self.now` is the value.
- `result` is what the call answers.
- A call of a trait stands under the type where it has a comment or a contract of its own.
- At the end of a page stands where the names in its contracts are defined.

"""


def product_of(root):
    """Returns the crates that users call, by docs/INDEX.md."""
    with open(f"{root}/docs/INDEX.md", encoding="utf-8") as index:
        table = index.read().partition("## Product")[2].partition("Below them")[0]
    return re.findall(r"^\| `(\w+)` ", table, re.M)


def names_of(entry):
    """Returns the names in the contracts of an entry that a file of definitions has, each with that file."""
    lines = [it.head for found, _ in entry.traits for it in definitions_of(found)]
    words = {*re.findall(r"[\w']+", "\n".join([entry.block, *lines]))}
    for it in entry.ghosts:
        used = USE.match(" ".join(it.head.split()))
        if used:
            file, inside, alias = used.groups()
            names = [name.strip().split(" as ")[-1] for name in inside.split(",")] if inside else [alias]
            yield from ((name, file) for name in names if name in words and re.fullmatch(r"[\w']+", name))


# Texts


def fenced(block):
    return f"```rust\n{block}\n```"


def said_of(doc):
    """Returns a comment as text; an example in it is shown as Rust."""
    lines, is_inside = doc.split("\n"), False
    for at, line in enumerate(lines):
        lines[at] = "```rust" if line == "```" and not is_inside else line
        is_inside ^= line.startswith("```")
    return "\n".join(lines)


def first_sentence(doc):
    paragraph = " ".join(doc.partition("\n\n")[0].partition("\n```")[0].split())
    return re.match(r"(.*?\.(?= |$))?", paragraph)[0] or paragraph


def rest_of(doc):
    """Returns what a comment says behind its first sentence."""
    first, text = first_sentence(doc), " ".join(doc.split())
    return text[len(first) :].strip() if "\n\n" not in doc and text.startswith(first) else said_of(doc)


def derived_by(item):
    """Returns the traits that a type has by an attribute."""
    return [name.strip() for it in item.attributes if it.startswith("#[derive") for name in it[9:-2].split(",") if name.strip()]


def line_of(found, entry):
    """Returns the head of an impl in a line, without bounds that the type has too, or that stand with a call below."""
    before, *bounds = cut(" ".join(found.head.split()).rstrip(","), " where ")
    same = bounds == [it.rstrip(",;") for it in cut(" ".join(entry.item.head.split()), " where ")[1:]]
    return before if same or is_below(found, entry) else " where ".join([before, *bounds])


def is_below(found, entry):
    """Says whether a call of an impl has a heading, below which the impl stands."""
    return any(it.item in found.items for it in entry.members)


def module_of(section):
    """Returns the module of the crate in which a section is."""
    return "::".join(section.path.split("::")[:2])
