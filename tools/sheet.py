"""The inspector's page as HTML: one sheet of A4 or Letter, which needs no network."""

import base64
import html
import re

from pagetext import NOTE, ROW_HEADS, TO_SIGN, heads, row_cells, sentences, totals, work_cells

# as many lines of contours, and as many rows of tools, have room on the sheet
LINES, WORKS = 12, 5
# so many characters of a contour's last cells stand on one line
STATEMENT, SURFACE = 22, 36

STYLE = """
@page { margin: 9mm 10mm }
body { font: 7.6pt/1.25 "DejaVu Sans", "Liberation Sans", Arial, sans-serif; margin: 0 auto; max-width: 190mm; color: #111 }
h1 { font-size: 13pt; margin: 0 0 1mm; white-space: nowrap; overflow: hidden; text-overflow: ellipsis } h1 small { font-size: 10pt; font-weight: normal }
h2 { font-size: 8pt; margin: 2mm 0 .5mm; border-bottom: .3mm solid #888 }
p { margin: .5mm 0 } .answer { font: bold 11pt "DejaVu Sans Mono", monospace; color: #0a6b28 }
.made, .note { color: #444 } td, th { text-align: left; vertical-align: top; padding: 0 2mm 0 0; overflow-wrap: anywhere }
table { border-collapse: collapse } th { font-weight: normal; color: #555; white-space: nowrap }
.number { text-align: right; white-space: nowrap } .rows td { border-top: .1mm solid #ccc }
.rows { width: 100%; font-size: 6.8pt }
.halves { display: table; width: 100%; table-layout: fixed } .halves > div { display: table-cell; vertical-align: top }
.halves > div + div { padding-left: 4mm } img { display: block; max-width: 100%; max-height: 66mm; margin: 0 auto }
ol, ul { margin: 0; padding-left: 4mm } .said { font-size: 6.4pt; line-height: 1.2 }
pre { font: 6pt/1.2 "DejaVu Sans Mono", monospace; margin: 0; white-space: pre-wrap; overflow-wrap: anywhere }
.sign { width: 100%; margin-top: 3mm } .sign td { border-top: .2mm solid #111; padding: .5mm 2mm; width: 25%; color: #555 }
.sign tr:first-child td { border: 0; height: 6mm }
""".strip()


def lines_of(page, picture):
    """The lines of the sheet. The picture is an SVG, or the text that tells why there is none."""
    return [
        "<!doctype html>",
        '<html lang="en"><head><meta charset="utf-8">',
        f"<title>Certificate: {html.escape(page.facts.title)}</title>",
        f"<style>\n{STYLE}\n</style></head><body>",
        f"<h1>Certificate <small>{html.escape(page.facts.title)}</small></h1>",
        *(f'<p class="answer">{html.escape(line)}</p>' for line in filter(None, (page.answer, page.guard))),
        f"<p>answered by <code>{page.command}</code></p>",
        f'<p class="made">made {page.made:%Y-%m-%d %H:%M} UTC; {html.escape("; ".join(f"{label} {value}" for label, value in page.program))}</p>',
        '<div class="halves"><div>',
        *block("h2", "Part"),
        *pairs(heads(page)),
        *block("h2", "Machine"),
        f"<p>{html.escape(', '.join(f'{key} {value}' for key, value in page.machine))}</p>",
        "</div><div>",
        drawn(picture),
        "</div></div>",
        *block("h2", "Tools, in the part's unit and feeds per minute"),
        *rows(list(work_cells(page)), WORKS),
        *contours(page),
        '<div class="halves said">',
        *(line for tag, (heading, texts) in zip(("ol", "ul"), sentences()) for line in promises(tag, heading, texts)),
        "</div>",
        *block("h2", "Files, with sums that sha256sum -c takes"),
        f"<p>{html.escape(', '.join(f'{file.role} {file.length} bytes' for file in page.files))}</p>",
        '<pre class="sums">',
        *(html.escape(file.sum_line, quote=False) for file in page.files),
        "</pre>",
        f'<p class="note">{NOTE}</p>',
        '<table class="sign">',
        "<tr>" + "<td></td>" * len(TO_SIGN) + "</tr>",
        "<tr>" + "".join(f"<td>{label}</td>" for label in TO_SIGN) + "</tr>",
        "</table>",
        "</body></html>",
    ]


def promises(tag, heading, texts):
    return ["<div>", *block("h2", heading), f"<{tag}>", *(f"<li>{html.escape(text)}</li>" for text in texts), f"</{tag}>", "</div>"]


def block(tag, text):
    return [f"<{tag}>{html.escape(text)}</{tag}>"]


def pairs(labelled):
    return ["<table>", *(f"<tr><th>{label}</th><td>{html.escape(value)}</td></tr>" for label, value in labelled), "</table>"]


def drawn(picture):
    if isinstance(picture, bytes):
        return f'<img alt="The path, as tools/plot draws it" src="data:image/svg+xml;base64,{base64.b64encode(picture).decode()}">'
    return f'<p class="made">No picture: {html.escape(picture)}</p>'


def contours(page):
    """The table of contours: all of them in order where they have room, else the worst ones."""
    every = page.facts.rows
    yield from block("h2", f"Contours, with IN and OUT in grid units of {page.facts.unit.of_grid}, against what is allowed")
    shown = every if sum(map(lines_in, every)) <= LINES else worst_of(every)
    yield from rows([ROW_HEADS, *map(row_cells, shown)], len(shown))
    if len(shown) < len(every):
        rest = max(sorted(row.share for row in every)[: -len(shown)])
        yield f"<p>these are the worst; {len(every) - len(shown)} more come to at most {rest:.0%} of what is allowed, and stand on the page as text</p>"
    if every:
        yield f"<p>{html.escape(totals(page))}</p>"


def lines_in(row):
    """How many lines a row takes."""
    return max(-(-len(text) // wide) for text, wide in ((row.statement, STATEMENT), (row.drive, SURFACE), (row.check, SURFACE)))


def worst_of(every):
    """The worst contours that have room, and one at least."""
    shown, lines = [], 1
    for row in sorted(every, key=lambda row: -row.share):
        lines += lines_in(row)
        if shown and lines > LINES:
            break
        shown.append(row)
    return shown


def rows(cells, room):
    """A table, with as many rows below its head as have room."""
    head, *body = cells
    if not body:
        yield "<p>none</p>"
        return
    is_number = [all(cell[:1].isdigit() for cell in column) for column in zip(*body)]
    yield '<table class="rows">'
    for tag, row in [("th", head), *(("td", row) for row in body[:room])]:
        yield "<tr>" + "".join(f"<{tag}{' class=number' if number else ''}>{html.escape(cell)}</{tag}>" for cell, number in zip(row, is_number)) + "</tr>"
    yield "</table>"
    if len(body) > room:
        yield f"<p>and {len(body) - room} more, which stand on the page as text</p>"


# ---- a sheet that is read again


def plain(content):
    """The sheet without its tags, so that its sums are lines."""
    return html.unescape(re.sub(r"<[^>]*>", "", content))


def compared(lines):
    """The lines that say what is made of the files."""
    return [line for line in "\n".join(lines).split("\n") if line.strip() and not line.startswith(('<p class="made">', "<img "))]
