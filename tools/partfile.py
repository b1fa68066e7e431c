"""The statements of a part program's text, as far as tools need them, by docs/LANGUAGE.md: "Texts"."""

import re
from dataclasses import dataclass

LONGEST = 240
TITLES = re.compile(r"\s*(?:([A-Za-z][A-Za-z0-9]*)\s*\))?\s*(PARTNO|REMARK)", re.IGNORECASE)
LABEL = re.compile(r"([A-Z][A-Z0-9]*)\)")
TOKEN = re.compile(r"[A-Z][A-Z0-9]*|[0-9.]+[A-Z]*|.")
DEFINITION = re.compile(r"([A-Z][A-Z0-9]*)=(POINT|LINE|CIRCLE)/")


@dataclass
class Statement:
    """A statement: its first line and its last, from 1, its label, and its text in capitals, without blanks or label.

    Within a macro it has the name of that, within a loop the loop's number, from 1.
    """

    first: int
    last: int
    label: str
    text: str
    is_title: bool = False
    macro: str = ""
    loop: int = 0

    @property
    def word(self):
        return re.match(r"[A-Z0-9]*", self.text)[0]

    @property
    def figure(self):
        """The name that it gives a figure, and the figure's kind, where it does."""
        found = None if self.is_title else DEFINITION.match(self.text)
        return found.groups() if found else None

    def lines(self, label=None):
        """It as lines of a text, none of them too long."""
        label = self.label if label is None else label
        front = f"{label})" if label else ""
        return [front + self.text] if self.is_title else folded(front + self.text)


def folded(text):
    """A statement's text in lines, which are broken between tokens."""
    lines, line = [], ""
    for token in TOKEN.findall(text):
        if len(line) + len(token) > LONGEST:
            lines.append(line + "$")
            line = ""
        line += token
    return [*lines, line]


def lines_of(content):
    """The lines of a text, without their ends."""
    lines = content.split(b"\n")
    if lines[-1] == b"":
        lines.pop()
    return [line.removesuffix(b"\r").decode("latin-1") for line in lines]


def statements_of(content):
    """The statements of a text up to FINI."""
    found, pieces, first = [], [], 0
    for number, line in enumerate(lines_of(content), 1):
        title = None if pieces else TITLES.match(line)
        if title:
            word = title[2].upper()
            found.append(Statement(number, number, (title[1] or "").upper(), word + line[title.end() :], True))
            continue
        text = line.split("$$")[0]
        goes_on = "$" in text
        text = re.sub(r"[ \t]", "", text.split("$")[0]).upper()
        if not text and not goes_on:
            continue
        first = first or number
        pieces.append(text)
        if goes_on:
            continue
        text = "".join(pieces)
        label = LABEL.match(text)
        found.append(Statement(first, number, label[1] if label else "", text[label.end() :] if label else text))
        pieces, first = [], 0
        if found[-1].text == "FINI":
            break
    return within(found)


def within(statements):
    """The same, each with the macro and the loop in which it stands."""
    macro, loop, loops = "", 0, 0
    for statement in statements:
        if statement.text == "LOOPST":
            loops += 1
            loop = loops
        if not statement.is_title and "=MACRO" in statement.text:
            macro = statement.text.split("=")[0]
        statement.macro, statement.loop = macro, loop
        if statement.text == "TERMAC":
            macro = ""
        if statement.text == "LOOPND":
            loop = 0
    return statements


def parameters_of(statements):
    """The parameters of each macro, by its name."""
    found = {}
    for statement in statements:
        name, _, rest = statement.text.partition("=MACRO/")
        if rest and not statement.is_title:
            found[name] = {part.split("=")[0] for part in rest.split(",")}
    return found


def surfaces_of(statement):
    """The names of the drive and the check surface of a contour's statement."""
    words = statement.text.split("/", 1)[-1].split(",")
    return (words[0], words[-1]) if len(words) > 1 else ("", "")


def spare_letters(statements):
    """Two letters with which no word of a text begins."""
    used = {word[:2] for statement in statements for word in re.findall(r"[A-Z][A-Z0-9]*", statement.text.upper())}
    used |= {statement.label[:2] for statement in statements}
    letters = "ZQXYWVUKJHGABCDEFILMNOPRST"
    return next(one + two for one in letters for two in letters if one + two not in used)
