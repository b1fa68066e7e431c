"""The steps of a part program, by docs/LANGUAGE.md ('Scalars', 'Execution'): which statement each is, which calls are
open at it, and what the names stand for before it. Figures are not worked out: their names stand for FIGURE."""

import math
from dataclasses import dataclass, field

from statements import NUMBER, WORD, Statement, millionths

ONE = 1000000
GREATEST = 1000000 * ONE
# the last step that may be told: the one that is too many
STEPS = 200001
FIGURE, PATTERN = "figure", "pattern"


class Stuck(Exception):
    """A step that can't be done."""


@dataclass(frozen=True)
class Name:
    """What a parameter is that stands for a name."""

    name: str


@dataclass
class Call:
    """An open call: its statement, where the run goes on behind it, and what the macro's parameters are."""

    statement: Statement
    back: int
    parameters: dict


@dataclass
class Run:
    """A run before a step: its number, its statement, the open calls, the values of the common names, and the statement
    that set the side of the cutter."""

    statements: list
    step: int = 0
    at: int = 0
    calls: list = field(default_factory=list)
    names: dict = field(default_factory=dict)
    side: Statement | None = None

    def __post_init__(self):
        self.labels = {s.label: n for n, s in enumerate(self.statements) if s.label}
        self.macros = {s.first: n for n, s in enumerate(self.statements) if s.keyword == "MACRO"}
        self.ends, begin = {}, None
        for n, statement in enumerate(self.statements):
            if statement.keyword == "MACRO":
                begin = n
            elif statement.first == "TERMAC":
                self.ends[begin] = n

    @property
    def statement(self):
        return self.statements[self.at]

    def value(self, name):
        """What a name stands for: a number of millionths, FIGURE, PATTERN, or None for nothing so far."""
        if self.calls and name in self.calls[-1].parameters:
            name = self.calls[-1].parameters[name]
        return self.names.get(name.name if isinstance(name, Name) else name) if not isinstance(name, int) else name

    def steps(self):
        """Goes on to each step in turn, up to the one that can't be done or the last; it stands before the step then."""
        while self.at < len(self.statements) and self.step < STEPS:
            if self.statement.keyword == "MACRO":
                if self.at not in self.ends:
                    return
                self.at = self.ends[self.at] + 1
                continue
            self.step += 1
            yield self.step
            try:
                self.at = self.behind(self.statement)
            except (Stuck, IndexError, KeyError):
                return

    def behind(self, statement):
        """Does a step, and gives the place of the next statement."""
        match statement.keyword:
            case "=":
                self.names[statement.first] = expression(self, statement.tokens[2:])
            case "POINT" | "LINE" | "CIRCLE":
                self.names[statement.first] = FIGURE
            case "PATERN":
                self.names[statement.first] = PATTERN
            case "TLLFT" | "TLRGT" | "TLON":
                self.side = statement
            case "CALL":
                return self.call(statement)
            case "TERMAC":
                return self.calls.pop().back
            case "JUMPTO":
                return self.labels[statement.tokens[2]]
            case "IF":
                return self.labels[self.chosen(statement)]
            case "FINI":
                return len(self.statements)
        return self.at + 1

    def chosen(self, statement):
        """The label of an IF by the sign of its value."""
        close = len(statement.tokens) - 1 - statement.tokens[::-1].index(")")
        value = expression(self, statement.tokens[2:close])
        labels = statement.tokens[close + 1 :: 2]
        return labels[0 if value < 0 else 1 if value == 0 else 2]

    def call(self, statement):
        """Opens a call, and gives the place behind the MACRO."""
        at = self.macros[statement.tokens[2]]
        given = {part[0]: part[2:] for part in parts(statement.tokens[4:])}
        asked = [(part[0], given.get(part[0], part[2:])) for part in parts(self.statements[at].tokens[4:])]
        values = {name: self.argument(tokens) for name, tokens in asked}
        self.calls.append(Call(statement, self.at + 1, values))
        return at + 1

    def argument(self, tokens):
        """What a parameter is that has this argument: a number, or a name that stands for a figure or a pattern."""
        if len(tokens) == 1 and WORD.fullmatch(tokens[0]):
            name = tokens[0]
            if self.calls and name in self.calls[-1].parameters:
                if isinstance(self.calls[-1].parameters[name], Name):
                    return self.calls[-1].parameters[name]
            elif self.names.get(name) in (FIGURE, PATTERN):
                return Name(name)
        return expression(self, tokens)


def parts(tokens):
    """The parts between commas that stand outside of parentheses."""
    part, depth = [], 0
    for token in (*tokens, ","):
        depth += {"(": 1, ")": -1}.get(token, 0)
        if token == "," and depth == 0:
            if part:
                yield tuple(part)
            part = []
        else:
            part.append(token)


def run_to(statements, step):
    """The run before this step, or None where it doesn't come to it."""
    run = Run(list(statements))
    return run if any(number == step for number in run.steps()) else None


# ---- expressions


def rounded(above, below):
    """A quotient to the nearest whole number, a half away from zero."""
    size = (2 * abs(above) + abs(below)) // (2 * abs(below))
    return size if (above < 0) == (below < 0) else -size


def expression(run, tokens):
    """The value of an expression of these tokens."""
    value, rest = total(run, list(tokens))
    if rest:
        raise Stuck
    return value


def total(run, tokens):
    is_negative = tokens[:1] == ["-"]
    value, tokens = product(run, tokens[is_negative:])
    value = -value if is_negative else value
    while tokens[:1] in (["+"], ["-"]):
        other, rest = product(run, tokens[1:])
        value = fit(value + other if tokens[0] == "+" else value - other)
        tokens = rest
    return value, tokens


def product(run, tokens):
    value, tokens = factor(run, tokens)
    while tokens[:1] in (["*"], ["/"]):
        other, rest = factor(run, tokens[1:])
        if tokens[0] == "/" and other == 0:
            raise Stuck
        value = fit(rounded(value * other, ONE) if tokens[0] == "*" else rounded(value * ONE, other))
        tokens = rest
    return value, tokens


def factor(run, tokens):
    first, rest = tokens[0], tokens[1:]
    if first in ("SQRTF", "ABSF") and rest[:1] == ["("]:
        value, rest = total(run, rest[1:])
        return (abs(value) if first == "ABSF" else root(value)), rest[1:]
    if first == "(":
        value, rest = total(run, rest)
        return value, rest[1:]
    if NUMBER.fullmatch(first):
        return millionths(first), rest
    value = run.value(first)
    if not isinstance(value, int):
        raise Stuck
    return value, rest


def root(value):
    """The root of a value, to the nearest millionth."""
    if value < 0:
        raise Stuck
    return (math.isqrt(4 * value * ONE) + 1) // 2


def fit(value):
    if abs(value) > GREATEST:
        raise Stuck
    return value
