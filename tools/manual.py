"""What the pages of docs/ say, for tools that say it again: the rows of their tables, their paragraphs, the vocabulary
and the shapes of the statements. There is one text, that of the pages."""

import os
import re
import subprocess
from dataclasses import dataclass
from functools import cache

from shared import TOP

LANGUAGE, MACHINE, OUTLINE, CERTIFICATE = "LANGUAGE.md", "MACHINE.md", "OUTLINE.md", "CERTIFICATE.md"

# what the letters of a shape stand for in words of the vocabulary ('Statements' of docs/LANGUAGE.md says so)
LETTERS = {"k": ("XLARGE", "XSMALL", "YLARGE", "YSMALL"), "h": ("LEFT", "RIGHT"), "q": ("TO", "ON", "PAST")}
# the columns of a table that name a cause: "at" and "it fails where" begin the sentence
NAMING = ("cause", "case", "reason")


@dataclass(frozen=True)
class Row:
    """A row of a table: the heading above it, the heads of its columns, and its cells."""

    heading: str
    heads: tuple[str, ...]
    cells: tuple[str, ...]

    @property
    def spans(self):
        """The codes of its first cell."""
        return re.findall(r"`([^`]*)`", self.cells[0])


@dataclass(frozen=True)
class Shape:
    """A row of a table of statements: its shapes, what it says of them, and the words with which they may begin."""

    row: Row
    heads: tuple[str, ...]

    @property
    def words(self):
        """The words of the vocabulary that may stand in it."""
        return {*self.heads, *(word for span in self.row.spans for word in words_in(span))}

    @property
    def text(self):
        return plain(self.row.cells[0]).replace(", with the same words", "")

    @property
    def says(self):
        return plain(self.row.cells[1])


def plain(text):
    """A text without the marks of code, bold type and links."""
    return re.sub(r"\[([^\]]*)\]\([^)]*\)", r"\1", re.sub(r"`|\*\*", "", text)).strip()


@cache
def lines(page):
    with open(os.path.join(TOP, "docs", page), encoding="utf-8") as file:
        return tuple(file.read().splitlines())


def below(page):
    """The lines of a page, each with the heading above it."""
    heading, coded = "", False
    for line in lines(page):
        coded ^= line.startswith("```")
        if line.startswith("#") and not coded:
            heading = line.lstrip("#").strip()
        else:
            yield heading, line


@cache
def rows(page):
    """The rows of all tables of a page."""
    found, heads = [], ()
    for heading, line in below(page):
        if not line.startswith("|"):
            heads = ()
            continue
        cells = tuple(cell.strip() for cell in re.split(r" \| |^\| ?| ?\|$", line)[1:-1])
        if not heads:
            heads = cells
        elif not set(line) <= set("|-: "):
            found.append(Row(heading, heads, cells))
    return found


def sentence(page, heading, name):
    """What the table below a heading says of a name, each row with its example."""
    said = []
    for row in rows(page):
        if row.heading != heading or row.heads[0] not in NAMING or name not in plain(row.cells[0]).split(", "):
            continue
        lead = "" if row.heads[1] == "comes" else row.heads[1] + " "
        said.append(f"{name}: {lead}{plain(row.cells[1])}.")
        if row.heads[-1].startswith("example") and plain(row.cells[-1]):
            said.append(f"    for example: {plain(row.cells[-1])}")
    return said


def names(page, heading):
    """The names of the table below a heading."""
    return [name for row in rows(page) if row.heading == heading and row.heads[0] in NAMING for name in plain(row.cells[0]).split(", ")]


def section(page, heading):
    """The paragraphs below a heading."""
    return [plain(line) for here, line in below(page) if here == heading and line.strip()]


def promises():
    """What YES says: the first sentence behind the lead of each of its points."""
    points = [line for line in section(CERTIFICATE, "What YES says") if re.match(r"[0-9]\. ", line)]
    return [re.match(r"[0-9]\. [^.]*\. ([^.]*\.)", point)[1] for point in points]


def limits():
    """What YES does not say: the lead of each of its points."""
    leads = (re.match(r"- \*\*([^*]*)\*\*", line) for here, line in below(CERTIFICATE) if here == "What YES does not say")
    return [lead[1] for lead in leads if lead]


def explanation(line, *names):
    """What tools/explain says of a refusal's line, with the names of its files."""
    run = subprocess.run([os.path.join(TOP, "tools", "explain"), "--", line, *names], capture_output=True, text=True, check=False)
    return run.stdout.strip("\n")


@cache
def vocabulary():
    """The words of the language, in the manual's order."""
    for _, line in below(LANGUAGE):
        if line.startswith("The vocabulary: "):
            return tuple(line.removeprefix("The vocabulary: ").removesuffix(".").split())
    raise LookupError("docs/LANGUAGE.md lists no vocabulary")


@cache
def shapes():
    """The shapes of all statements."""
    found, contour = [], ()
    for row in rows(LANGUAGE):
        if row.heads[0] != "shape":
            continue
        heads = tuple(word for span in row.spans for word in heads_of(span))
        if ", with " in row.cells[0]:
            contour = contour or (*heads, *re.findall(r"[A-Z]{2,}", row.cells[0].split(", with ")[1]))
            heads = contour
        found.append(Shape(row, tuple(dict.fromkeys(heads))))
    return found


def words_in(span):
    """The words of the vocabulary that may stand in a shape."""
    return [word for letter in re.findall(r"[A-Za-z]+", span) for word in (LETTERS.get(letter, ()) if letter.islower() else (letter,))]


def heads_of(span):
    """The words with which a shape may begin; = for the value of a name, which has no word."""
    if span == "n=e":
        return ["="]
    span = re.sub(r"^[nm]=", "", span)
    optional = re.match(r"\[([A-Z]+),\]", span)
    return [*(optional.groups() if optional else ()), *re.findall(r"^[A-Z]+", span[optional.end() if optional else 0 :])]


def shapes_of(word):
    """The shapes of the statements that begin so."""
    return [shape for shape in shapes() if word in shape.heads]


def letters():
    """What the letters of the shapes stand for."""
    return plain(next(line for _, line in below(LANGUAGE) if line.startswith("`e` is ")))
