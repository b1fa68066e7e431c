"""The inspector's page: what stands on it, and the page as text."""

import os
import re
import textwrap
from dataclasses import dataclass
from datetime import datetime

import facts as said
from shared import TOP

WIDE = 100
# as many feeds and spindles stand with a tool
SOME = 4
# the keys of a machine's table by docs/MACHINE.md, with what holds where one is left out
DEFAULTS = {"CODE": "", "SEQ": "", "FEEDMAX": "", "SPINMAX": "", "TOOLMAX": "", "WORDS": "ALL"}
DEFAULTS_2 = {"MODE": "ABS", "ZEROS": "KEPT", "ARCS": "LINES", "DRILL": "MOVES"}
NOTE = "This page is made by a script, of which nothing is proved: the answer alone is the program's."
TO_SIGN = ("drawing", "name", "date", "signature")


@dataclass(frozen=True)
class File:
    """A file that is judged: what it is, its name, its length and its SHA-256 sum."""

    role: str
    name: str
    length: int
    digest: str

    @property
    def sum_line(self):
        """A line as sha256sum writes and takes it: a name with a backslash or the end of a line is escaped."""
        escaped = self.name.replace("\\", "\\\\").replace("\n", "\\n").replace("\r", "\\r")
        return ("\\" if escaped != self.name else "") + f"{self.digest}  {escaped}"


@dataclass(frozen=True)
class Page:
    """All that stands on a page. The guard's line is empty where no outline is given."""

    files: list
    answer: str
    guard: str
    facts: said.Facts
    machine: list
    made: datetime
    program: list

    @property
    def command(self):
        return "apt guard PART MACHINE CL TAPE OUTLINE" if self.guard else "apt certify PART MACHINE CL TAPE"


def machine_keys(table):
    """The version and the keys of a table, with their values; those that are left out have their first value."""
    lines = [line.removesuffix("\r") for line in table.decode("ascii").split("\n")]
    keys = dict(line.split(" ", 1) for line in lines if line)
    version = keys.pop("MACHINE")
    return [("MACHINE", version), *({**DEFAULTS, **(DEFAULTS_2 if version == "2" else {}), **keys}).items()]


def sum_lines(text):
    """The sums and names of the lines that sha256sum takes."""
    return [(digest, unescaped(name) if escape else name) for escape, digest, name in re.findall(r"^(\\?)([0-9a-f]{64})  (.+)$", text, re.MULTILINE)]


def unescaped(name):
    return re.sub(r"\\(.)", lambda match: {"n": "\n", "r": "\r"}.get(match[1], match[1]), name)


def sentences():
    """What the answer says, and what it does not: the lists of docs/CERTIFICATE.md, below their headings."""
    with open(os.path.join(TOP, "docs/CERTIFICATE.md"), encoding="utf-8") as file:
        below = file.read().split("\n# The inspector's page\n")[1]
    return [(part.split("\n", 1)[0], re.findall(r"^(?:- |[0-9]+\. )(.*)$", part, re.MULTILINE)) for part in below.split("\n## ")[1:]]


def heads(page):
    """The facts of the part, each with its name."""
    facts, unit = page.facts, page.facts.unit
    yield "unit", f"{unit.name}; a grid unit is {unit.of_grid}"
    if facts.start:
        yield "from", f"{unit.point(facts.start)}, on line {facts.start_line}"
    if facts.extents:
        (x0, x1), (y0, y1), (z0, z1) = facts.extents
        yield "extents", f"the tool's centre: x {unit.range(x0, x1)}, y {unit.range(y0, y1)}, z {unit.range(z0, z1)}"
    if facts.cut_extents:
        (x0, x1), (y0, y1), _ = facts.cut_extents
        yield "cuts", f"with the cutter: x {unit.range(x0, x1)}, y {unit.range(y0, y1)}"
    if facts.lowest:
        yield "lowest", f"z {unit.shown(facts.lowest.height)}, on line {facts.lowest.line}"
    yield "rapid", f"{facts.rapid_moves} moves, {facts.rapid_length / 10**unit.places:.1f} {unit.name} in all"
    yield "time", f"{said.time_shown(facts.minutes)} of cutting by the feeds; not in it are rapid moves, stops and changes"


def work_cells(page):
    """The rows of the table of tools."""
    unit = page.facts.unit
    yield "tool", "cutter", "INTOL", "OUTTOL", "spindle", "feeds", "contours", "other cuts", "time"
    for work in page.facts.works:
        settings = work.settings
        yield (
            "none" if settings.tool is None else str(settings.tool),
            unit.shown(settings.cutter),
            said.tolerance_shown(settings.intol, unit),
            said.tolerance_shown(settings.outtol, unit),
            some(map(said.spindle_shown, work.spindles)),
            some(f"{feed // 10}.{feed % 10}" for feed in sorted(work.feeds)),
            str(work.contours),
            str(work.cuts),
            said.time_shown(work.minutes),
        )


def some(texts):
    """The first of some texts, and how many more there are."""
    texts = list(texts)
    more = len(texts) - SOME
    return ", ".join(texts[:SOME]) + (f" and {more} more" if more > 0 else "")


ROW_HEADS = ("line", "step", "segments", "IN", "of", "OUT", "of", "statement", "drive surface", "check surface")


def row_cells(row):
    """The cells of a contour in the table of contours."""
    legs = f"{row.segments}" if row.legs == 1 else f"{row.segments} (2 legs)"
    counts = (row.found.inwards, row.allowed.inwards, row.found.outwards, row.allowed.outwards)
    return (str(row.line), str(row.step), legs, *map(str, counts), row.statement, row.drive, row.check)


def totals(page):
    worst = page.facts.worst
    return f"{len(page.facts.rows)} contours of {page.facts.segments} segments; the greatest IN is {worst.inwards} and the greatest OUT {worst.outwards}, as the answer says"


# ---- as text


def text_of(page):
    """The lines of the page as text."""
    marks = [[f"{number}." for number in range(1, 10)], ["-"] * 20]
    promises = [
        ["", heading.upper(), "", *(line for mark, sentence in zip(marks_, texts) for line in wrapped(mark, sentence))]
        for marks_, (heading, texts) in zip(marks, sentences())
    ]
    return [
        "CERTIFICATE",
        "",
        *labelled([("part", page.facts.title), ("answer", page.answer)]),
        *labelled([("guard", page.guard)] if page.guard else []),
        *labelled([("command", page.command), ("made", page.made.strftime("%Y-%m-%d %H:%M UTC"))]),
        *(f"{label.ljust(9)} {' '.join(value.split())}" for label, value in page.program),
        "",
        *labelled(heads(page)),
        *labelled([("machine", ", ".join(f"{key} {value}" for key, value in page.machine))]),
        *["", "TOOLS, in the part's unit and feeds per minute", ""],
        *table(list(work_cells(page))),
        *["", f"CONTOURS, with IN and OUT in grid units of {page.facts.unit.of_grid}, against what is allowed", ""],
        *(table([ROW_HEADS, *map(row_cells, page.facts.rows)]) if page.facts.rows else []),
        *["", totals(page) if page.facts.rows else "no contours"],
        *(line for promise in promises for line in promise),
        *["", "FILES, with sums that sha256sum -c takes", ""],
        ", ".join(f"{file.role} {file.length} bytes" for file in page.files),
        "",
        *(file.sum_line for file in page.files),
        *["", NOTE, ""],
        *(f"{label.ljust(10)} {'_' * 50}" for label in TO_SIGN),
    ]


def labelled(pairs):
    for label, value in pairs:
        yield from wrapped(label.ljust(9), value)


def wrapped(mark, text):
    return textwrap.wrap(text, WIDE, initial_indent=f"{mark} ", subsequent_indent=" " * (len(mark) + 1), break_on_hyphens=False) or [mark.rstrip()]


def table(rows):
    """Rows in columns: numbers to the right, texts to the left."""
    widths = [max(map(len, column)) for column in zip(*rows)]
    is_number = [all(cell[:1].isdigit() for cell in column[1:]) for column in zip(*rows)]
    columns = list(zip(widths, is_number))
    return ["  ".join(cell.rjust(width) if number else cell.ljust(width) for cell, (width, number) in zip(row, columns)).rstrip() for row in rows]
