"""What a page of tools/view holds: the answer, the part, the path with its records and acts, figures, and what is wrong."""

import base64
import os
import re
import sys
from array import array

import acts
import clfile
import figures
import manual
import partfile
import refused
from pictures import heights
from pictures import path as paths
from shared import bytes_of

GREEN = ("YES", "CLEAR")
TURNS = {0: "off", 1: "CLW", 2: "CCLW"}
COOLANTS = {0: "off", 1: "mist", 2: "flood"}
ENDS = ((clfile.NOTE, clfile.END), (clfile.LAST, 0))


def packed(numbers):
    """Whole numbers of 32 bits, the lowest byte first, in base64."""
    row = array("i", numbers)
    if sys.byteorder == "big":
        row.byteswap()
    return base64.b64encode(row.tobytes()).decode()


def answer(program, names):
    """The line of certify, or of guard, and its status; of a part that compile refuses, without its files, that."""
    word = "guard" if len(names) == 5 else "certify"
    line, status = acts.answer_of(program, word, *names)
    lacking = [name for name in names if not os.path.exists(name)]
    if status == 2 and lacking and lacking[0] in names[2:4]:
        other, other_status = acts.answer_of(program, "compile", *names[:2], "/dev/null/CL", "/dev/null/TAPE")
        if other_status in (5, 6, 7):
            return other, other_status
    return line, status


class Page:
    """The data of a page, of the files PART, MACHINE, CL, TAPE and perhaps OUTLINE."""

    def __init__(self, program, names, line, status):
        self.program, self.names, self.line, self.status = program, names, line, status
        self.part, self.machine, self.cl = (bytes_of(name) or b"" for name in names[:3])
        self.statements = partfile.statements_of(self.part)
        self.by_line = {statement.first: statement for statement in self.statements}
        self.parameters = partfile.parameters_of(self.statements)
        self.records = self.records_of()
        self.motions = list(clfile.motions(self.records))
        self.known = self.figures_of()

    def records_of(self):
        """Those of the CL file up to its fault, or of a refused part up to its refusal."""
        if self.line.startswith("REFUSED"):
            return refused.records_up_to(self.program, self.part, self.machine, int(self.line.split()[2]))
        if self.line.startswith("BAD PART"):
            return []
        return clfile.read_up_to_fault(self.cl)[0]

    def figures_of(self):
        """The figures at FINI, where the part comes so far."""
        try:
            return figures.at_fini(self.program, self.part, figures.named_in(self.statements))
        except acts.Refusal:
            return {}

    def data(self):
        scale = 100000 if clfile.is_inch(self.records) else 10000
        surfaces, drives = self.surfaces()
        return {
            "title": os.path.basename(self.names[0]),
            "scale": scale,
            "unit": "inches" if scale == 100000 else "millimetres",
            "answer": self.answer(),
            "lines": partfile.lines_of(self.part),
            **self.path(drives),
            "surfaces": surfaces,
            "figures": self.other_figures(surfaces),
            "outline": self.outline(),
            "fault": self.fault(),
        }

    def answer(self):
        good = self.line.split()[0] in GREEN
        names = [self.names[0], self.names[1], *self.names[4:]]
        told = [] if good else [line.strip() for line in manual.explanation(self.line, *names).split("\n") if line.strip()]
        shown = [line for line in told if re.match(r"line \d+:", line)]
        return {
            "line": self.line,
            "good": good,
            "says": manual.promises() if good or self.status == 14 else [],
            "clear": self.line.startswith("CLEAR"),
            "silent": manual.limits() if good else [],
            "shown": shown,
            "told": [line for line in told if line not in shown],
            "files": [os.path.basename(name) for name in self.names],
        }

    # ---- the path

    def path(self, drives):
        """Points, of which each behind the first ends a segment; motions with what holds; acts that are no moves."""
        moves = [motion for motion in self.motions if motion.makes_a_move]
        path = paths.path_of_cl(self.records)
        start = next((motion.start or motion.points[0] for motion in moves), (0, 0, 0))
        points = array("i", start)
        for motion in moves:
            for point in motion.points:
                points.extend(point)
        shades = heights.heights_of(path.pieces)
        kinds = {paths.CUT: 0, paths.RAPID: 1, paths.LOW: 2}
        rows, settings, notes, count = self.rows(drives)
        found = paths.marks_of(path.pieces)
        return {
            "hasMoves": bool(moves),
            "hasOrigin": bool(moves) and moves[0].start is not None,
            "points": packed(points),
            "kinds": base64.b64encode(bytes(kinds[piece.kind] for piece in path.pieces)).decode(),
            "rows": {name: packed(row) for name, row in rows.items()},
            "settings": settings,
            "notes": notes,
            "acts": count,
            "levels": shades.levels,
            "colours": {"stroke": heights.STROKE_ENDS, "line": heights.LINE_ENDS, "most": heights.MOST_SHADES},
            "marks": {name: [piece.end for piece in getattr(found, name)] for name in ("plunges", "drops", "holes")},
        }

    def rows(self, drives):
        """Of each motion its numbers, one column each; the settings, each once; the acts that are no moves; their number."""
        with_arcs = acts.has_arcs(self.machine)
        names = ("first", "record", "line", "step", "leg", "act", "arc", "reach", "rapid", "setting", "drive", "check", "side", "stop")
        rows = {name: array("i") for name in names}
        settings, notes, act, segment, moved = {}, [], 1, 0, False
        held = clfile.Settings()
        notes.append([1, acts.UNITS[1 if clfile.is_inch(self.records) else 2], 0, self.setting(settings, held), 0])
        motions = {motion.record: motion for motion in self.motions}
        ended, line = False, 0
        for record in self.records:
            if record.kind == (clfile.STATEMENT, 0):
                line = record.words[0]
            held = clfile.settings_behind(record, held)
            motion = motions.get(record.number)
            if motion and motion.makes_a_move:
                is_arc = with_arcs and moved and motion.is_contour and motion.drive.is_circle
                one = (segment, record.number, motion.line, motion.step, motion.leg, act + 1, int(is_arc), motion.reach, int(motion.is_rapid))
                surfaces = (drives.get(motion.drive, -1), drives.get(motion.check, -1), motion.side, motion.stop)
                for name, number in zip(names, (*one, self.setting(settings, held), *surfaces)):
                    rows[name].append(number)
                act += 1 if is_arc else len(motion.points)
                segment += len(motion.points)
                moved = True
                continue
            text = acts.text_of_note(record)
            # a path up to a refusal has no end
            if record.kind in ENDS and not ended and not self.line.startswith("REFUSED"):
                text, ended = "END", True
            if text:
                act += 1
                notes.append([act, text, record.number, self.setting(settings, held), line])
        return rows, [self.said(held) for held in settings], notes, act

    @staticmethod
    def setting(settings, held):
        return settings.setdefault(held, len(settings))

    @staticmethod
    def said(held):
        """Settings as the page shows them."""
        spindle = "not given" if held.spindle is None else f"{held.spindle[0]} {TURNS[held.spindle[1]]}" if held.spindle[1] else "off"
        return {
            "cutter": held.cutter,
            "feed": held.feed,
            "spindle": spindle,
            "coolant": "not given" if held.coolant is None else COOLANTS[held.coolant],
            "tool": held.tool or 0,
        }

    # ---- figures

    def surfaces(self):
        """The drive and check surfaces, each with its names, and the number of each."""
        names = {}
        for motion in self.motions:
            if motion.is_contour:
                statement = self.by_line.get(motion.line)
                words = partfile.surfaces_of(statement) if statement else ("", "")
                for surface, name in zip((motion.drive, motion.check), words):
                    names.setdefault(surface, {}).update(dict.fromkeys(self.own_names(statement, name, surface)))
        shown = [[*numbers_of(surface), sorted(name for name in known if name)] for surface, known in names.items()]
        return shown, {surface: number for number, surface in enumerate(names)}

    def own_names(self, statement, name, surface):
        """A name, or of a macro's parameter those of the figures at FINI that it may stand for."""
        if statement and name in self.parameters.get(statement.macro, ()):
            return [known for known, figure in self.known.items() if is_same(figure, surface)] or [name]
        return [name]

    def other_figures(self, surfaces):
        """The figures at FINI that are no drive or check surface."""
        shown = {name for *_, names in surfaces for name in names}
        found = []
        for name, figure in self.known.items():
            if isinstance(figure, tuple):
                found.append(["point", *figure[:2], 0, 0, [name]])
            elif name not in shown:
                found.append([*numbers_of(figure), [name]])
        return found

    def outline(self):
        """The parts of the outline, each its kind, its numbers and its names."""
        content = bytes_of(self.names[4]) if len(self.names) == 5 else None
        if content is None or self.line.startswith(("BAD OUTLINE", "BAD PART", "REFUSED")):
            return []
        try:
            shapes = figures.shapes_of(self.program, self.part, content)
        except (acts.Refusal, figures.NoFigure):
            return []
        return [[kind, numbers, " ".join(names)] for (kind, numbers), (_, names) in zip(shapes, figures.parts_of_outline(content))]

    # ---- what is wrong

    def fault(self):
        """Where the answer points to: a line, a segment with a spot, a part of the outline, two acts."""
        line = self.line
        found = {}
        if match := re.match(r"(?:REFUSED|BAD PART) LINE (\d+)", line):
            found = {"line": int(match[1]), "refused": line.startswith("REFUSED") and bool(self.motions)}
        elif match := re.match(r"(?:NOT CERTIFIED|GOUGE) MOTION (\d+) SEGMENT (\d+)(?: PART (\d+))?(?: (\w+))? AT (\d+)/(\d+)", line):
            leg, segment, part, reason, share, whole = match.groups()
            found = self.spot(int(leg), int(segment), int(share), int(whole))
            found |= {"part": int(part or 0), "reason": reason or "the cutter comes into it"}
        elif match := re.match(r"NOT CERTIFIED ENTRY (\d+)", line):
            found = self.entry(int(match[1]))
        elif match := re.match(r"NOT CERTIFIED ACT (\d+)", line):
            found = self.acts_that_differ(int(match[1]))
            found["says"] = [f"the tape's act {found['act']}:  {found['tape']}", f"the records ask for:  {found['asked']}"]
        return found

    def spot(self, leg, segment, share, whole):
        """A spot of a segment of a leg."""
        before = 0
        for motion in self.motions:
            if motion.leg == leg:
                # the place in grid units, from whole numbers
                one, two = (motion.start, *motion.points)[segment - 1 : segment + 1]
                spot = [a + (b - a) * share / whole for a, b in zip(one[:2], two[:2])]
                return {"line": motion.line, "segment": before + segment - 1, "spot": spot, "share": share / whole}
            before += len(motion.points) if motion.makes_a_move else 0
        return {}

    def entry(self, number):
        if number > len(self.records):
            return {"says": [f"The CL file ends before record {number}."]}
        record = self.records[number - 1]
        words = " ".join(map(str, record.words[:30]))
        line = next((row.words[0] for row in reversed(self.records[:number]) if row.kind == (clfile.STATEMENT, 0)), 0)
        says = f"Record {number}, class {record.kind[0]}, subtype {record.kind[1]}: {words or 'no words'}"
        return {"line": line, "record": number, "says": [says]}

    def acts_that_differ(self, number):
        """The tape's act of this number, and the one that the records ask for."""
        asked = list(acts.asked_by(self.records, acts.has_arcs(self.machine)))
        given = acts.acts_of_tape(self.program, self.names[1], self.names[3])
        ours = asked[number - 1] if number <= len(asked) else None
        theirs = given[number - 1] if number <= len(given) else None
        ends = [next((move.place for move in acts.moves_of([text])), None) if text else None for text in (theirs, ours.text if ours else None)]
        before = [move.place for move in acts.moves_of(given[: number - 1])]
        line = 0
        for record in self.records[: ours.record] if ours else []:
            if record.kind == (clfile.STATEMENT, 0):
                line = record.words[0]
        return {
            "act": number,
            "line": line,
            "tape": theirs or "none: the tape ends before it",
            "asked": ours.text if ours else "none: the records ask for no more",
            "ends": ends,
            "before": before[-1] if before else None,
        }


def numbers_of(surface):
    if surface.is_circle:
        return ["circle", surface.x, surface.y, surface.radius, 0]
    return ["line", surface.x, surface.y, surface.dx, surface.dy]


def is_same(figure, surface):
    """Whether a figure that was read off by points is this surface, but for their rounding."""
    if isinstance(figure, tuple) or figure.is_circle != surface.is_circle:
        return False
    if figure.is_circle:
        return max(abs(figure.x - surface.x), abs(figure.y - surface.y), abs(figure.radius - surface.radius)) <= 2
    long = (surface.dx**2 + surface.dy**2) ** 0.5
    ends = ((figure.x, figure.y), (figure.x + figure.dx, figure.y + figure.dy))
    return all(abs((x - surface.x) * surface.dy - (y - surface.y) * surface.dx) <= 4 * long for x, y in ends)
