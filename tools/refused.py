"""The path of a refused part up to its refusal.

A part is made of it that ends there, and the program compiles that: no language is worked out here. What stands on the
top is cut off behind the statement in which the refusal comes. Where that is a loop or a CALL, the refused line counts
how often it was come to, and leaves its macro or its loop at the last time; so does what called it.
"""

import array
from dataclasses import replace

import clfile
import partfile
from acts import Refusal
from figures import compiled


class Maker:
    """Makes parts that end early of the statements of one."""

    def __init__(self, program, content, machine):
        self.program, self.machine = program, machine
        self.statements = partfile.statements_of(content)
        self.spare = partfile.spare_letters(self.statements)
        self.top = units_of(self.statements)

    def compiled(self, lines):
        """The records of a part of lines, each with the line that it stands for, or None where it is refused."""
        try:
            records = compiled(self.program, [text for text, _ in lines], self.machine)
        except Refusal as refusal:
            if refusal.status == 7:
                return None
            raise
        return [with_line(record, lines) for record in records]

    def ending(self, count, guarded=None, times=0):
        """The part of the first units of its top, and of all its macros. A guarded line is come to so often alone."""
        kept = {id(statement) for unit in self.top[:count] for statement in unit}
        lines = []
        for number, statement in enumerate(self.statements):
            if statement.text == "FINI" and not statement.is_title:
                break
            if not (id(statement) in kept or statement.macro):
                continue
            lines += self.guard(statement, number, guarded)
        if guarded:
            # UNITS stands directly behind PARTNO
            lines.insert(2 if self.statements[1].text.startswith("UNITS/") else 1, (f"{self.spare}N={times + 1}", 0))
        return [*lines, ("FINI", 0)]

    def guard(self, statement, number, guarded):
        """A statement with what stands before and behind it where a line is guarded, each with its line."""
        count, label, line = f"{self.spare}N", f"{self.spare}{number}", statement.first
        lines = [(text, line) for text in statement.lines()]
        if not guarded or not (statement.macro or statement.loop):
            return lines
        out = self.way_out(statement)
        if statement.text in ("TERMAC", "LOOPND"):
            return [(text, line) for text in statement.lines(out)]
        if statement.first == guarded:
            front = f"{statement.label})" if statement.label else ""
            lines = [(text, line) for text in statement.lines(label)]
            return [(f"{front}{count}={count}-1", line), (f"IF ({count}) {out},{out},{label}", line), *lines]
        if statement.text.startswith("CALL/"):
            return [*lines, (f"IF ({count}) {out},{out},{label}", line), (f"{label})CLPRNT", line)]
        return lines

    def way_out(self, statement):
        """The label of the end of its macro or its loop."""
        number, end = next(
            (number, other)
            for number, other in enumerate(self.statements)
            if other.text == ("TERMAC" if statement.macro else "LOOPND") and (other.macro, other.loop) == (statement.macro, statement.loop)
        )
        return end.label or f"{self.spare}{number}"


def units_of(statements):
    """What is executed on the top, in order: single statements, and whole loops."""
    units, loop = [], 0
    for statement in statements:
        if statement.macro:
            continue
        if statement.loop and statement.loop == loop:
            units[-1].append(statement)
        else:
            units.append([statement])
        loop = statement.loop
    return units


def with_line(record, lines):
    """A record whose line is that of the part from which the line was made."""
    if record.kind != (clfile.STATEMENT, 0):
        return record
    return replace(record, words=array.array("q", [lines[record.words[0] - 1][1], record.words[1]]))


def greatest(low, high, holds):
    """The greatest number from low on, below high, for which it holds, where it holds of low and of no greater one."""
    while high - low > 1:
        middle = (low + high) // 2
        if holds(middle):
            low = middle
        else:
            high = middle
    return low


def records_up_to(program, content, machine, line):
    """The records of a part up to the first refused step, which is of this line; none where they can't be known."""
    maker = Maker(program, content, machine)
    try:
        # the first statement is PARTNO, which is never refused
        count = greatest(1, len(maker.top), lambda count: maker.compiled(maker.ending(count)) is not None)
        unit = maker.top[count] if count < len(maker.top) else []
        if unit and (unit[0].loop or unit[0].text.startswith("CALL/") and unit[0].first != line):
            found = maker.compiled(maker.ending(count + 1, line, times_of(maker, count + 1, line)))
            if found:
                return found
        return maker.compiled(maker.ending(count)) or []
    except Refusal:
        return []


def times_of(maker, count, line):
    """How often the line is come to before it is refused."""
    def is_done(times):
        return maker.compiled(maker.ending(count, line, times)) is not None

    high = 1
    while high < 200000 and is_done(high):
        high *= 2
    return greatest(high // 2 if high > 1 else 0, high, is_done)
