"""What a part program shows of the fault or the refusal that the program names: other lines, names, the words of a statement."""

import difflib

import manual
import shapes
from statements import WORD, is_token, lines_of, shown, statements_of
from trace import FIGURE, PATTERN, Run, Stuck, expression, parts, run_to

# which key of the machine's table is the limit of which case, and how its number is said
LIMITS = {
    "FeedTooLarge": ("FEEDMAX", "a feed of at most {} per minute", 10),
    "SpindleTooLarge": ("SPINMAX", "at most {} turns per minute", 1),
    "ToolTooLarge": ("TOOLMAX", "tools up to {}", 1),
}


# of a statement on many lines so many are shown
LINES = 6


# statements whose names are numbers, and those of which they are from so many places on, where no word of the language stands
NUMBERS = ("=", "IF", "CUTTER", "INTOL", "OUTTOL", "FEDRAT", "SPINDL", "LOADTL", "GODLTA", "CYCLE")
FROM_SO_MANY = {"GOTO": 2, "FROM": 2, "POINT": 2, "LINE": 3, "CIRCLE": 3}


def at_line(text, statement):
    return f"line {statement.line}: {shown(text, statement.line)}"


def source(text, line):
    """The lines of the statement that begins on a line; where none does, this line."""
    last = next((statement.last for statement in statements_of(text) if statement.line == line), line)
    shown_lines = [(number, shown(text, number)) for number in range(line, min(last, line + LINES - 1) + 1)]
    return [f"line {number}: {content}" for number, content in shown_lines if content is not None and text]


# ---- faults of a text


def of_text(text, line, cause):
    """What there is to say of a fault of the text on a line."""
    statements = list(statements_of(text))
    at = next((n for n, statement in enumerate(statements) if statement.line == line), None)
    before = statements[:at]
    match cause:
        case "NoPartno" if text.startswith(b"MACHINE "):
            yield "it begins as a machine table does: PART stands in front of MACHINE"
        case "LineTooLong":
            yield f"it has {len(lines_of(text)[line - 1])} characters"
        case "BadByte":
            yield from bad_byte(lines_of(text)[line - 1])
        case "BadWord" | "BadNumber" if at is not None:
            yield from bad_token(statements[at])
        case "BadShape" if at is not None:
            yield from bad_shape(text, statements[at], before)
        case "LabelTwice" if at is not None:
            yield from (at_line(text, other) for other in before if other.label == statements[at].label)
        case "MacroTwice" if at is not None:
            yield from (at_line(text, other) for other in before if other.keyword == "MACRO" and other.first == statements[at].first)
        case "LabelMissing" if at is not None:
            yield from missing_labels(statements[at], {statement.label for statement in statements})
        case "MacroOpen" | "LoopOpen" if at is not None:
            yield from left_open(text, statements[at], before)
        case "NoFini":
            yield from left_open(text, None, statements)


def bad_byte(line):
    """The first byte that is no character, by its place in the line."""
    for column, character in enumerate(line, 1):
        if not (character == "\t" or " " <= character <= "~"):
            yield f"the byte {ord(character):02x} (hexadecimal) stands at character {column}"
            return


def bad_token(statement):
    token = next((token for token in statement.tokens if not is_token(token)), None)
    if token is None:
        return
    near = shapes.word_near(token, manual.vocabulary()) if WORD.fullmatch(token) else None
    yield f"the first bad one is {token}" + (f", of {len(token)} characters" if WORD.fullmatch(token) else "") + (f"; {near} is a word of the language" if near else "")


def bad_shape(text, statement, before):
    """Why the statement may not stand here, or what is seen in it, and the shapes that the manual has of it."""
    misplaced = shapes.of_place(statement, before)
    if misplaced:
        yield misplaced
        macro, _ = shapes.open_at(before)
        yield from [at_line(text, macro)] if macro else []
        return
    said = shapes.fault_of(statement)
    if said:
        yield said
    found = shapes.shapes_of(statement)
    for shape in found:
        yield f"{shape.text}: {shape.says}"
    if found:
        yield f"({manual.letters()})"
    elif statement.first not in manual.vocabulary():
        heads = dict.fromkeys(head for shape in manual.shapes() for head in shape.heads if head != "=" and head not in shapes.DEFINING)
        yield f"a statement begins with NAME=, or with one of {' '.join(heads)}"


def missing_labels(statement, labels):
    for label in "".join(statement.tokens).rpartition(")" if statement.first == "IF" else "/")[2].split(","):
        if label not in labels:
            near = shapes.word_near(label, [other for other in labels if other])
            yield f"no statement has the label {label}" + (f"; {near} is one" if near else "")


def left_open(text, statement, before):
    """The MACRO and the LOOPST that have no end: behind these statements, or the loop that a statement begins."""
    macro, loop = shapes.open_at(before)
    for begin, end in ((macro, "TERMAC"), (loop, "LOOPND")):
        if begin:
            yield f"the {begin.keyword} of line {begin.line} has no {end} before " + ("this line" if statement else "the end of the text")
            yield at_line(text, begin)
    if statement and statement.first == "LOOPND" and not loop:
        yield "LOOPND ends a loop, and no LOOPST is open here"
    if statement and statement.first == "LOOPST" and not loop and not macro:
        yield "this LOOPST has no LOOPND before FINI"


def of_outline(text, names, cause):
    """The names of an outline's line that stand for no figure at FINI."""
    run = Run(list(statements_of(text)))
    for _ in run.steps():
        pass
    for name in names if cause == "Undefined" else ():
        if run.value(name) != FIGURE:
            near = shapes.word_near(name, [other for other, value in run.names.items() if value == FIGURE])
            yield f"{name} stands for no figure at FINI" + (f"; {near} does" if near else "")


# ---- refused steps


def of_step(text, machine, line, step, case):
    """What there is to say of a step that is refused on a line."""
    run = run_to(statements_of(text), step)
    if run is None or run.statement.line != line:
        return
    for call in reversed(run.calls):
        yield f"called by line {call.statement.line}: {shown(text, call.statement.line)}"
    called = name_called(run.statement)
    match case:
        case "Unknown" | "Undefined":
            yield from without_value(run, case)
        case "OffDrive":
            yield side_of(run)
        case "NoSuchMacro" if called:
            near = shapes.word_near(called, list(run.macros))
            yield f"no MACRO has the name {called}" + (f"; {near} is one" if near else "")
        case "BadArgs" if called in run.macros:
            yield f"the macro begins on {at_line(text, run.statements[run.macros[called]])}"
        case "AfterEnd":
            yield from (at_line(text, other) for other in run.statements if other.first == "END")
    if case in LIMITS:
        yield from limit_of(machine, run, case)


def without_value(run, case):
    """The names of the statement that have no value at this step; of a CALL also those of the defaults that it takes."""
    for name in dict.fromkeys((*names_of(run.statement), *names_of_defaults(run))):
        value = run.value(name)
        if value is None:
            yield name_without_value(run, name)
        elif case == "Undefined" and value == PATTERN:
            yield f"{name} is a pattern, and no figure"
        elif case == "Unknown" and value in (FIGURE, PATTERN) and is_number(run.statement, name):
            yield f"{name} is a {value}, and no number"


def name_called(statement):
    """The macro's name of a CALL, or None."""
    return statement.tokens[2] if statement.first == "CALL" and len(statement.tokens) > 2 else None


def names_of_defaults(run):
    """The names in the defaults of the macro that is called, of the parameters that have no argument."""
    at = run.macros.get(name_called(run.statement))
    if at is None:
        return []
    given = {part[0] for part in parts(run.statement.tokens[4:])}
    taken = [part[2:] for part in parts(run.statements[at].tokens[4:]) if part[0] not in given]
    return [token for tokens in taken for token in tokens if WORD.fullmatch(token) and token not in manual.vocabulary()]


def name_without_value(run, name):
    """Where else the name is defined, or which name is like it."""
    lines = [str(other.line) for other in run.statements if other.is_definition and other.first == name and other.keyword != "MACRO"]
    if lines:
        return f"{name} has no value here: it is defined on line {' and '.join(lines)}, which is not executed before this step"
    near = difflib.get_close_matches(name, [other for other, value in run.names.items() if value is not None], 1, 0.5)
    return f"{name} has no value here: no statement defines it" + (f"; {near[0]} has one" if near else "")


def names_of(statement):
    """The names that it looks up, each once: no words of the language, and not what it defines, calls or names."""
    first = {"CALL": 3, "=": 2}.get(statement.keyword, 2 if statement.is_definition else 0)
    tokens = statement.tokens[first:]
    if statement.first == "IF":
        tokens = tokens[: tokens.index(")") + 1] if ")" in tokens else tokens
    marks = (*tokens[1:], "")
    names = [name for name, mark in zip(tokens, marks) if WORD.fullmatch(name) and not (mark == "=" and statement.first == "CALL")]
    return list(dict.fromkeys(name for name in names if name not in manual.vocabulary()))


def is_number(statement, name):
    """Whether a name stands where a number is asked: within an expression, or in a place that takes nothing else."""
    keyword, tokens = statement.keyword, statement.tokens
    places = list(parts(tokens[tokens.index("/") + 1 :])) if "/" in tokens else []
    if keyword == "CALL":
        places = [place[2:] or place for place in places]
    if keyword in NUMBERS or any(len(place) > 1 and name in place for place in places):
        return True
    if not any(place[0] in manual.vocabulary() for place in places):
        return len(places) >= FROM_SO_MANY.get(keyword, len(places) + 1)
    at = places.index((name,)) if (name,) in places else 0
    is_last = at == len(places) - 1 and (keyword == "PATERN" or places[0] == ("PARLEL",))
    return is_last or places[at - 1] == ("RADIUS",) or places[at + 1 : at + 2] == [("INTOF",)]


def side_of(run):
    """The side of the cutter that holds at a contour, and who set it."""
    contour = next((word for word in run.statement.words if word.startswith("GO")), "")
    _, _, drive = "".join(run.statement.tokens).partition("/")
    drive = drive.partition(",")[0] or "its drive surface"
    side = run.statement if run.statement.first in shapes.SIDES else run.side
    if side is None:
        return f"neither TLLFT nor TLRGT stands before this step: so the cutter's centre goes on {drive} itself"
    where = "this line" if side is run.statement else f"line {side.line}"
    goes = {"TLLFT": "the cutter goes on the left of", "TLRGT": "the cutter goes on the right of", "TLON": "the cutter's centre goes on"}
    return f"{side.first} of {where} holds: {goes[side.first]} {drive}, seen along {contour}"


def limit_of(machine, run, case):
    """The limit of the machine's table, and what the statement asks for."""
    key, says, divisor = LIMITS[case]
    values = [line.split() for line in machine.decode("latin-1").splitlines()]
    limit = next((int(words[1]) for words in values if len(words) == 2 and words[0] == key and words[1].isdigit()), None)
    if limit is None:
        return
    number = f"{limit // 10}.{limit % 10}" if divisor == 10 else str(limit)
    try:
        asked = expression(run, [token for token in run.statement.tokens[2:] if token not in (",", "CLW", "CCLW")])
        asks = f"; the statement asks for {asked / 1000000:.15g}"
    except (Stuck, IndexError):
        asks = ""
    yield f"the machine's table has {key} {limit}: {says.format(number)}{asks}"
