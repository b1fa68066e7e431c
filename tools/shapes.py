"""What is wrong with a statement of no shape: what the words and marks of its line show, and where it stands."""

import difflib

import manual
from statements import NUMBER, WORD

FUNCTIONS = ("SQRTF", "ABSF")
DEFINING = ("POINT", "LINE", "CIRCLE", "PATERN", "MACRO")
SIDES = ("TLLFT", "TLRGT", "TLON")
OPERATORS = "+-*/"


def word_near(word, words):
    """The word of these that is most like it, or that one begins with the other; None where there is none."""
    near = difflib.get_close_matches(word, words, 1, 0.7) if len(word) > 1 else []
    begun = [other for other in words if len(word) > 2 < len(other) and (other.startswith(word) or word.startswith(other))]
    return (near or begun or [None])[0]


def fault_of(statement):
    """A sentence about a statement that has no shape; None where nothing is seen."""
    faults = (of_left_side, of_first_word, of_mark_behind, of_function, of_other_words, of_next_word, of_near_words, of_neighbours, of_parentheses)
    return next((said for said in (fault(statement) for fault in faults) if said), None)


def shapes_of(statement):
    """The manual's shapes of a statement; where a word of the language stands left of =, those that begin with it."""
    return (statement.is_definition and manual.shapes_of(statement.first)) or manual.shapes_of(statement.keyword)


def spans_of(statement):
    """Its shapes, each by itself."""
    return [span for shape in manual.shapes_of(statement.keyword) for span in shape.row.spans if statement.keyword in manual.heads_of(span)]


def may_stand(statement):
    """The words of the language that may stand in it."""
    contours = {word for shape in manual.shapes_of(statement.keyword) if len(shape.heads) > 3 for word in shape.words}
    return contours | {word for span in spans_of(statement) for word in manual.words_in(span)} | {statement.keyword, *FUNCTIONS}


# ---- where it stands


def open_at(before):
    """The MACRO and the LOOPST that are open behind these statements."""
    macro = loop = None
    for statement in before:
        match statement.keyword:
            case "MACRO":
                macro = statement
            case "TERMAC":
                macro = None
            case "LOOPST":
                loop = statement
            case "LOOPND":
                loop = None
    return macro, loop


def of_place(statement, before):
    """A sentence about a statement that may not stand behind those before it; None where it may, or is no statement."""
    macro, _ = open_at(before)
    match statement.first:
        case "PARTNO" if before:
            return f"PARTNO stands once, as the first statement, and it is on line {before[0].line}"
        case "UNITS" if before and statement.tokens in (("UNITS", "/", "MM"), ("UNITS", "/", "INCHES")):
            return f"UNITS stands directly behind PARTNO, which is on line {before[0].line}"
        case "TERMAC" if not macro and len(statement.tokens) == 1:
            return "TERMAC ends a macro, and no MACRO is open here"
        case "FINI" | "LOOPST" | "LOOPND" if macro and len(statement.tokens) == 1:
            return f"the MACRO of line {macro.line} has no TERMAC before this line"
    if statement.keyword == "MACRO":
        names = [name for mark, name in zip(statement.tokens[3:], statement.tokens[4:]) if mark in "/," and WORD.fullmatch(name)]
        twice = next((name for name in names if names.count(name) > 1), None)
        return f"the parameter {twice} is named twice" if twice else None
    return None


# ---- what stands in it


def of_left_side(statement):
    if statement.is_definition and statement.first in manual.vocabulary():
        return f"{statement.first} is a word of the language, so nothing can be named {statement.first}"
    if statement.tokens[1:2] == ("=",) and NUMBER.fullmatch(statement.first):
        return f"a name stands left of =, and {statement.first} is a number"
    return None


def of_first_word(statement):
    first = statement.first
    if statement.is_definition:
        return None
    if first in DEFINING:
        return f"a name and = are due in front of {first}: NAME={first}" + ("/.." if first != "MACRO" else "")
    if not WORD.fullmatch(first):
        return f"a statement begins with a word; {first} is none" if first else "nothing stands behind the label"
    if first not in manual.vocabulary():
        near = word_near(first, [head for shape in manual.shapes() for head in shape.heads if head != "="])
        return f"{first} is no word of the language" + (f"; {near} is one" if near else "")
    if not manual.shapes_of(first):
        return f"no statement begins with {first}"
    return None


def of_mark_behind(statement):
    """The mark behind the word that says which statement it is."""
    keyword = statement.keyword
    if keyword == "=":
        return None
    at = statement.tokens.index(keyword) + 1
    behind = statement.tokens[at] if at < len(statement.tokens) else "nothing"
    if keyword in SIDES:
        return None if behind in ("nothing", ",") else f"between {keyword} and a contour a comma is due, and {behind} stands there"
    if keyword == "IF":
        return None if behind == "(" else f"behind IF a ( is due, and {behind} stands there"
    spans = spans_of(statement)
    if spans and not any("/" in span for span in spans):
        return of_other_words(statement) or (f"{keyword} stands alone" if behind != "nothing" else None)
    return None if behind == "/" or keyword == "MACRO" and behind == "nothing" else f"behind {keyword} a / is due, and {behind} stands there"


def of_function(statement):
    for word, mark in zip(statement.tokens, statement.tokens[1:]):
        if mark == "(" and WORD.fullmatch(word) and word not in manual.vocabulary() and statement.keyword != "CALL":
            return f"{word} is no function of the language: SQRTF and ABSF are"
        if word in FUNCTIONS and mark != "(":
            return f"behind {word} a ( is due, and {mark} stands there"
    return None


def of_other_words(statement):
    """A word of the language that begins another statement, or that none of its shapes has."""
    heads = {head for shape in manual.shapes() for head in shape.heads}
    allowed = may_stand(statement)
    for word in statement.words[1:]:
        if word in manual.vocabulary() and (word not in allowed or word == statement.first):
            if word in heads and word not in DEFINING:
                return f"{word} begins another statement, and each stands on a line of its own"
            return f"{word} is no word of this statement" + (", and no name" if statement.keyword == "=" else "")
    return None


def of_next_word(statement):
    """A name behind the / where each shape has a word of the language."""
    behind = statement.tokens[statement.tokens.index("/") + 1 :] if "/" in statement.tokens else ()
    choices = [span.partition("/")[2].split(",")[0] for span in spans_of(statement)]
    if behind and choices and all(choice in manual.vocabulary() for choice in choices) and behind[0] not in choices and WORD.fullmatch(behind[0]):
        return f"behind the / {' or '.join(dict.fromkeys(choices))} is due; {behind[0]} is no word of the language"
    return None


def of_near_words(statement):
    """A name that is nearly a word which may stand there."""
    for word in statement.words[1:]:
        near = word_near(word, sorted(may_stand(statement))) if word.isalpha() and word not in manual.vocabulary() else None
        if near:
            return f"{word} is no word of the language; {near} is one"
    return None


def of_neighbours(statement):
    """Two operands or two operators side by side, a mark at the end, and a second =."""
    tokens = statement.tokens
    named = tokens.index(statement.keyword) + (statement.keyword != "=") if statement.keyword in tokens else 1
    for at, (one, other) in enumerate(zip(tokens[named:], tokens[named + 1 :])):
        behind_slash = at == 0 and one == "/" and statement.keyword != "="
        if not any(token in "=/,()+-*" for token in (one, other)):
            return None if statement.keyword == "IF" and one == ")" else f"between {one} and {other} a mark is due"
        if one in OPERATORS and other in OPERATORS + ")," and not (behind_slash and other == "-") or one in ",(" and other in "*/,)":
            return f"{one} and {other} stand side by side"
        if other == "=" and statement.keyword not in ("MACRO", "CALL"):
            return f"= stands behind {one}, where none may stand"
    return f"nothing stands behind the last {tokens[-1]}" if tokens[-1] in "=/,(+-*" else None


def of_parentheses(statement):
    opened, closed = statement.tokens.count("("), statement.tokens.count(")")
    if opened == closed:
        return None
    return "a parenthesis is not closed" if opened > closed else "a parenthesis is closed that is not open"
