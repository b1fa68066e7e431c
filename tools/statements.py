"""The statements of a part program's text, by docs/LANGUAGE.md ('Lines', 'Statements'), read as leniently as can be:
what is wrong with a text, the program alone decides."""

import re
from dataclasses import dataclass

# a word, a number, a mark, and what is none of them, each as it stands
TOKEN = re.compile(r"[A-Z][A-Z0-9]*|[0-9.][A-Z0-9.]*|\S")
WORD = re.compile(r"[A-Z][A-Z0-9]*")
NUMBER = re.compile(r"(?=\.?[0-9])([0-9]{0,12})\.?([0-9]{0,12})")
MARKS = "=/,()+-*"
# the longest word
LETTERS = 6
# the greatest number as it is written, in millionths
GREATEST = 1000000 * 1000000

TITLES = ("PARTNO", "REMARK")


@dataclass(frozen=True)
class Statement:
    """A statement: its first line and its last, its label, and its tokens behind that; of PARTNO and REMARK the first alone."""

    line: int
    last: int
    label: str | None
    tokens: tuple[str, ...]

    @property
    def first(self):
        return self.tokens[0] if self.tokens else ""

    @property
    def is_definition(self):
        """Whether a word and = stand in front."""
        return len(self.tokens) > 1 and self.tokens[1] == "=" and bool(WORD.fullmatch(self.first))

    @property
    def keyword(self):
        """What says which statement it is: the first word, or behind NAME= the word there."""
        if self.is_definition:
            behind = self.tokens[2] if len(self.tokens) > 2 else ""
            return behind if behind in ("POINT", "LINE", "CIRCLE", "PATERN", "MACRO") else "="
        return self.first

    @property
    def words(self):
        return [token for token in self.tokens if WORD.fullmatch(token)]

    def __str__(self):
        return "".join(self.tokens)


def is_token(token):
    """Whether it is a word, a number or a mark of the language."""
    if token in MARKS:
        return True
    if WORD.fullmatch(token):
        return len(token) <= LETTERS
    return bool(NUMBER.fullmatch(token)) and millionths(token) is not None


def millionths(number):
    """A number of the text, rounded to millionths, a half up; None where it is too great."""
    whole, _, part = number.partition(".")
    exact = int((whole or "0") + part.ljust(12, "0"))
    return (exact + 500000) // 1000000 if exact <= GREATEST * 1000000 else None


def lines_of(text):
    """The lines of a text, without their ends."""
    lines = text.decode("latin-1").split("\n")
    if lines[-1] == "":
        lines.pop()
    return [line.removesuffix("\r") for line in lines]


def shown(text, number):
    """A line of a text as a terminal can show it, or None where there is none."""
    *before, line = text.decode("latin-1").split("\n", number)[:number] if number > 0 else [""]
    if len(before) != number - 1 or not line and text.count(b"\n") < number:
        return None
    return "".join(c if " " <= c <= "~" else " " if c == "\t" else "?" for c in line.removesuffix("\r")[:256]).rstrip()


def tokens_of(line, begun=()):
    """The tokens of a line behind those of its statement that are begun, and whether the statement goes on behind it."""
    whole = [*begun, *TOKEN.findall(line.upper())]
    for at in (0, 2):
        if len(begun) <= at < len(whole) and whole[at] in TITLES and (at == 0 or whole[1] == ")"):
            return whole[len(begun) : at + 1], False
    said, mark, behind = line.partition("$")
    return TOKEN.findall(said.upper()), bool(mark) and not behind.startswith("$")


def statements_of(text):
    """The statements of a text, up to FINI: behind it nothing is read."""
    begun, first, number = [], 0, 0
    for number, line in enumerate(lines_of(text), 1):
        tokens, goes_on = tokens_of(line, begun)
        if not tokens:
            continue
        first = first if begun else number
        begun += tokens
        if goes_on:
            continue
        statement = labelled(first, number, begun)
        yield statement
        if statement.tokens == ("FINI",):
            return
        begun = []
    if begun:
        yield labelled(first, number, begun)


def labelled(line, last, tokens):
    """The statement of these tokens, with its label where it has one."""
    if len(tokens) > 1 and tokens[1] == ")" and WORD.fullmatch(tokens[0]):
        return Statement(line, last, tokens[0], tuple(tokens[2:]))
    return Statement(line, last, None, tuple(tokens))
