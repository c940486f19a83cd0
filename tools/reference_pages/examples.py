"""The examples of doc comments, each of which stands in a file of tests, word for word."""
import glob
import re
from dataclasses import dataclass

COMMENT = re.compile(r"\s*//[/!] ?(.*)")
FENCE = "```"


@dataclass
class Lines:
    """Lines of a file that aren't empty, each with its number, and without what is before and behind its text."""

    path: str
    numbers: list
    texts: list

    def same_from(self, start, texts):
        """Returns how many of these texts stand here one behind the other, the first at this place."""
        pairs = zip(self.texts[start:], texts)
        return next((count for count, (one, other) in enumerate(pairs) if one != other), min(len(self.texts) - start, len(texts)))


def lines_of(path, numbered):
    kept = [(number, text.strip()) for number, text in numbered if text.strip()]
    return Lines(path, [number for number, _ in kept], [text for _, text in kept])


def numbered_lines(path):
    with open(path, encoding="utf-8") as file:
        return list(enumerate(file.read().split("\n"), 1))


def examples_of(path):
    """Returns the examples in the comments of a file: what is behind a fence that says no language, up to the next or the comment's end."""
    block, language = None, ""
    for number, line in numbered_lines(path):
        comment = COMMENT.match(line)
        text = comment[1].strip() if comment else ""
        if block is None and text.startswith(FENCE):
            block, language = [], text[len(FENCE) :]
        elif block is not None and (not comment or text.startswith(FENCE)):
            if not language:
                yield lines_of(path, block)
            block = None
        elif block is not None:
            block.append((number, text))


def complaint(example, tests):
    """Says which line of an example no test has behind those before it; nothing where a test has all."""
    places = ((test.same_from(start, example.texts), test, start) for test in tests for start in range(len(test.texts)))
    count, test, start = max(places, key=lambda it: it[0], default=(0, None, 0))
    if count == len(example.texts):
        return ""
    said = f"{example.path}:{example.numbers[count]}: no test has this line of an example: {example.texts[count]}"
    end = start + count
    if count and end < len(test.texts):
        said += f"\n    behind the lines before it {test.path}:{test.numbers[end]} has: {test.texts[end]}"
    return said


def check_examples():
    """Returns how many examples the crates' comments have, and what is wrong with those that no test has."""
    paths = sorted(glob.glob("crates/*/src/**/*.rt", recursive=True))
    files = [lines_of(it, numbered_lines(it)) for it in paths]
    tests = [it for it in files if "#[test]" in it.texts]
    examples = [example for it in paths for example in examples_of(it)]
    return len(examples), [it for it in (complaint(example, tests) for example in examples) if it]
