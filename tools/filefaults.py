"""What a machine table, a CL file and a tape show of the fault that the program names in them."""

import os
import subprocess
import tempfile
from dataclasses import replace

import acts
import calls
import clfile
import clwords
import manual
from shared import CODES, DROPPED, SENSED, sense
from statements import shown

# how many keys must stand, and how many MACHINE 1 has: the first rows of the page's tables
REQUIRED, OF_FIRST = 5, 6


NO_PROGRAM = "more is told by the program, and none is built: APT names one"


# ---- the machine's table


def keys():
    """The rows of the keys, in the page's order."""
    return [row for row in manual.rows(manual.MACHINE) if row.heads[0] == "key"]


def lines_of_table(text):
    return [line.split() for line in text.decode("latin-1").splitlines()]


def code_of(machine):
    """The code of the table's tapes, or None."""
    return next((words[1] for words in lines_of_table(machine) if len(words) == 2 and words[0] == "CODE" and words[1] in CODES), None)


def of_machine(text, number, cause):
    """What there is to say of a fault of a machine table on a line."""
    lines = lines_of_table(text)
    key = (lines[number - 1] or [""])[0] if number <= len(lines) else ""
    match cause:
        case "Header" if text[:6].upper() == b"PARTNO":
            yield "it begins as a part program does: PART stands in front of MACHINE"
        case "Missing":
            there = {words[0] for words in lines if words}
            absent = [row for row in keys()[:REQUIRED] if row.cells[0] not in there]
            yield from (f"missing is {row.cells[0]}, {manual.plain(row.cells[1])}: {row.cells[2]}" for row in absent)
        case "Value":
            yield from (f"{key} has one of these values: {manual.plain(row.cells[1])}" for row in keys() if row.cells[0] == key)
        case "Twice":
            yield from (f"line {n}: {shown(text, n)}" for n, words in enumerate(lines[: number - 1], 1) if words[:1] == [key])
        case "Key":
            count = OF_FIRST if lines[0] == ["MACHINE", "1"] else None
            yield f"the keys of {' '.join(lines[0])} are {', '.join(row.cells[0] for row in keys()[:count])}, in capitals, with one blank behind them"


# ---- a tape


def of_tape(tape, machine, place, cause):
    """What there is to say of a fault of a tape at a place."""
    code = code_of(machine)
    if code is None:
        return
    if cause == "NoStart":
        yield from no_start(tape, code)
        return
    start = tape.find(bytes([CODES[code]["%"]]))
    before = sense(tape[start:place], code) if start >= 0 else ""
    behind = tape[place : place + 256].translate(SENSED[code], DROPPED[code]).decode("ascii")
    number = before.count("\n") + (0 if before.startswith("%\n") else 1)
    block = before.rpartition("\n")[2] + behind.partition("\n")[0]
    if number > 0:
        yield f"in block {number}: {block}"
    if place < len(tape):
        yield f"the byte there is {tape[place]:02x} (hexadecimal)"


def no_start(tape, code):
    """Whether a tape without a rewind stop is empty, plain text, or a tape of the other code."""
    other = "RS244" if code == "RS358" else "RS358"
    if not tape:
        yield "the tape is empty"
    elif tape.startswith(b"APTCL "):
        yield "it begins as a CL file does: CL stands in front of TAPE"
    elif b"%" in tape and all(byte < 128 for byte in tape):
        yield f"the tape is plain text, without the holes of {code}: it has a %, but none that is punched"
    elif bytes([CODES[other]["%"]]) in tape:
        yield f"as a tape of {other} it has a rewind stop: the table says CODE {code}"


# ---- a CL file


def of_cl(content, place):
    """Which record of a CL file has a fault."""
    if bytes([CODES["RS358"]["%"]]) in content[:64]:
        yield "it begins as a tape does: CL stands in front of TAPE"
    records, _ = clfile.read_up_to_fault(content)
    if not records:
        return
    *_, (_, line, step) = clwords.statements_of(records)
    yield f"{len(records)} records before it are read, the last of them of line {line}, step {step}; the next begins at {place_behind(records[-1])}"


def place_behind(record):
    return record.place + 4 + 8 * (3 + len(record.words))


# ---- what is not certified


def statement_of(part, line):
    """The lines that show the statement of a record."""
    text = shown(part, line)
    return [f"line {line}: {text}"] if text is not None else []


def of_act(files, number):
    """The tape's act of a number, and the one that the records ask for."""
    records = clfile.read(files.content(files.cl))
    asked = list(acts.asked_by(records, acts.has_arcs(files.content(files.machine))))
    if number <= len(asked):
        line = next((line for record, line, _ in clwords.statements_of(records) if record.number == asked[number - 1].record), 1)
        yield from statement_of(files.content(files.part), line)
    given = acts_given(files)
    if given is None:
        yield NO_PROGRAM
    elif number <= len(given):
        yield f"the tape's act {number} is {clwords.act_in_words(given[number - 1], given[:1] != ['UNITS MM'])}"
    else:
        yield f"the tape has {len(given)} acts"
    if number <= len(asked):
        act = asked[number - 1]
        yield f"asked for is {clwords.act_in_words(act.text, clfile.is_inch(records))}" + (f", by record {act.record}" if act.record else "")
    else:
        yield f"asked for are {len(asked)} acts"
    yield from where_else(given or [], [act.text for act in asked], number)


def acts_given(files):
    """The acts of the tape, by the program; None where there is none, or it refuses the tape."""
    program = calls.program()
    try:
        return acts.acts_of_tape(program, files.machine, files.tape) if program else None
    except acts.Refusal:
        return None


def where_else(given, asked, number):
    """Whether an act is left out, or is one too many."""
    if given[number - 1 :] and given[number - 1 :] == asked[number:]:
        yield "the tape's acts from here on are those that are asked for behind it: one is left out"
    elif asked[number - 1 :] and given[number:] == asked[number - 1 :]:
        yield "the tape's acts behind it are those that are asked for from here on: it is one too many"


def of_motion(files, number, segment=None, share=None):
    """The statement, the surfaces and the segment of a leg; of a spot on it the place."""
    records = clfile.read(files.content(files.cl))
    is_inch = clfile.is_inch(records)
    leg = next((motion for motion in clfile.motions(records) if motion.leg == number), None)
    if leg is None:
        return
    yield from statement_of(files.content(files.part), leg.line)
    surfaces = [record for record in records[: leg.record] if record.kind[0] == clfile.SURFACE][-2:]
    yield from (clwords.in_words(record, is_inch) for record in surfaces)
    if segment is None or segment > len(leg.points):
        return
    start, end = [leg.start, *leg.points][segment - 1 : segment + 1]
    spot = ""
    if share and share[1] and share[0] not in (0, share[1]):
        units = [a + (2 * (b - a) * share[0] + share[1]) // (2 * share[1]) for a, b in zip(start, end)]
        spot = f", the spot is near {clwords.place(units, is_inch)}"
    elif share and share[1]:
        spot = ", the spot is its start" if share[0] == 0 else ", the spot is its end"
    yield f"segment {segment} of {len(leg.points)} leads from {clwords.place(start, is_inch)} to {clwords.place(end, is_inch)}{spot}"


def of_entry(files, number):
    """A record of the CL file, and the one that compile writes in its place."""
    records = clfile.read(files.content(files.cl))
    is_inch = clfile.is_inch(records)
    stated = list(clwords.statements_of(records))
    if number <= len(records):
        record, line, _ = stated[number - 1]
        yield f"record {number} of the CL file says: {clwords.in_words(record, is_inch)}"
    program = calls.program()
    compiled = compiled_records(files, program) if program else None
    if compiled is None or number > len(compiled):
        yield from [] if program else [NO_PROGRAM]
        return
    asked, line, step = list(clwords.statements_of(compiled))[number - 1]
    asked = moved(asked, compiled, records)
    yield f"step {step} asks for: {clwords.in_words(asked, clfile.is_inch(compiled))}"
    yield from statement_of(files.content(files.part), line)
    if number <= len(records) and records[number - 1].kind == asked.kind and list(records[number - 1].words) == list(asked.words):
        yield "the two are alike, so it can't begin where the records before it leave the tool"


def moved(asked, compiled, records):
    """A record of compile; that of a GODLTA from where the judged records leave the tool."""
    if asked.kind != (clfile.POINT, clfile.GODLTA):
        return asked
    before = [motion.points[-1] for motion in clfile.motions(records) if motion.record < asked.number]
    start = next(motion.start for motion in clfile.motions(compiled) if motion.record == asked.number)
    if not before or start is None:
        return asked
    return replace(asked, words=[to - old + new for to, old, new in zip(asked.words, start, before[-1])])


def compiled_records(files, program):
    """The records that the program writes for the part, or None."""
    with tempfile.TemporaryDirectory() as room:
        cl, tape = os.path.join(room, "cl"), os.path.join(room, "tape")
        command = [program, "compile", files.part, files.machine, cl, tape]
        subprocess.run(command, stdin=subprocess.DEVNULL, stdout=subprocess.DEVNULL, stderr=subprocess.DEVNULL, check=False)
        try:
            with open(cl, "rb") as file:
                return clfile.read(file.read())
        except (OSError, clfile.Fault):
            return None
