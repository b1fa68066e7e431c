"""The inspector's page of files: how it is made, and how it is judged again."""

import hashlib
import os
import re
import shutil
import subprocess
import tempfile
from datetime import datetime, timezone

import sheet
from acts import answer_of
from facts import facts_of
from pagetext import File, Page, machine_keys, sum_lines, text_of
from shared import TOP

ROLES = ("PART", "MACHINE", "CL", "TAPE", "OUTLINE")
# what differs from one page to the next, and what is written on it by hand
VARYING = ("made", "program", "its sum", "kit", "drawing", "name", "date", "signature")


class NoPage(Exception):
    """Why there is no page, or why one is not right, and the status that tells so."""

    def __init__(self, text, status):
        super().__init__(text)
        self.text, self.status = text, status


def page_of(program, names, room):
    """The page about files, of which copies are left in a folder."""
    copies = [os.path.join(room, role) for role in ROLES[: len(names)]]
    files = [copied(role, name, copy) for role, name, copy in zip(ROLES, names, copies)]
    answer = judged(program, "certify", copies[:4], "not certified")
    guard = judged(program, "guard", copies, "not kept clear") if len(copies) == 5 else ""
    part, machine, cl = (content_of(copy) for copy in copies[:3])
    facts = facts_of(part, cl)
    counted = f"YES {facts.segments} SEGMENTS IN {facts.worst.inwards} OUT {facts.worst.outwards}"
    if counted != answer:
        raise NoPage(f"the contours are counted otherwise here: {counted}; the program says: {answer}", 1)
    return Page(files, answer, guard, facts, machine_keys(machine), datetime.now(timezone.utc), program_lines(program))


def copied(role, name, copy):
    """A file that is judged and summed by the same bytes."""
    try:
        shutil.copyfile(name, copy)
    except OSError as fault:
        raise NoPage(f"there is no file {name}" if isinstance(fault, FileNotFoundError) else f"{name}: {fault.strerror}", 2) from fault
    content = content_of(copy)
    return File(role, name, len(content), hashlib.sha256(content).hexdigest())


def content_of(name):
    with open(name, "rb") as file:
        return file.read()


def judged(program, word, copies, otherwise):
    """The program's line, where it is a good one."""
    line, status = answer_of(program, word, *copies)
    if status:
        raise NoPage(f"{otherwise}: {line or f'status {status}'}", status)
    return line


def program_lines(program):
    """The file that ran, by its sum. This checkout's sources and kit are those of ./apt alone, which builds it from them."""
    path = shutil.which(program)
    if not os.path.samefile(path, os.path.join(TOP, "apt")):
        return [("program", "another than ./apt: its sources and its kit are not known here"), ("its sum", sum_of(path))]
    commit = printed("git", "-C", TOP, "rev-parse", "--short=12", "HEAD") or "unknown"
    changed = printed("git", "-C", TOP, "status", "--porcelain", "--", "crates", "crates.txt")
    return [
        ("program", f"apt, sources at commit {commit}{', with changes' if changed else ''}"),
        ("its sum", sum_of(os.path.join(TOP, "crates/apt_cli/out/apt_cli"))),
        ("kit", printed("rt", "version") or kit_of_proofs()),
    ]


def sum_of(name):
    return f"SHA-256 {hashlib.sha256(content_of(name)).hexdigest()}"


def printed(*words):
    """What a command prints, or nothing where it fails or is missing."""
    try:
        return subprocess.run(words, capture_output=True, text=True, check=True).stdout.strip()
    except (OSError, subprocess.CalledProcessError):
        return ""


def kit_of_proofs():
    with open(os.path.join(TOP, "docs/PROVED.md"), encoding="utf-8") as file:
        return re.search(r"^Kit: `(.*?)`", file.read(), re.MULTILINE).group(1)


def picture_of(page, room):
    """The picture of tools/plot, by the copies in a folder; where it draws none, what it says."""
    # the picture has the name of the CL file
    cl = os.path.join(room, "drawn", os.path.basename(page.files[2].name))
    os.makedirs(os.path.dirname(cl))
    shutil.copyfile(os.path.join(room, "CL"), cl)
    outline = ["--outline", os.path.join(room, "PART"), os.path.join(room, "OUTLINE")] if page.guard else []
    run = subprocess.run([os.path.join(TOP, "tools/plot"), *outline, "--", cl], capture_output=True)
    return run.stdout if run.returncode == 0 else run.stderr.decode(errors="replace").strip()


def judge_again(program, name, content):
    """The page that is made of the files of a page now. It must say the same."""
    is_html = content.lower().startswith("<!doctype html>")
    sums = sum_lines(sheet.plain(content) if is_html else content)
    if len(sums) not in (4, 5):
        raise NoPage(f"{name} is no page of this tool: it has the sums of {len(sums)} files", 2)
    with tempfile.TemporaryDirectory() as room:
        others = [file for digest, file in sums if copied("", file, os.path.join(room, "summed")).digest != digest]
        if others:
            raise NoPage("\n".join(f"{file}: its sum is another" for file in others), 1)
        page = page_of(program, [file for _, file in sums], room)
    compare = sheet.compared if is_html else compared
    here, there = compare(sheet.lines_of(page, "") if is_html else text_of(page)), compare(content.split("\n"))
    for number in range(max(len(here), len(there))):
        mine, its = (lines[number].strip() if number < len(lines) else "nothing" for lines in (here, there))
        if mine != its:
            raise NoPage(f"{name} says: {its}\nits files say: {mine}", 1)
    return page


def compared(lines):
    return [line.rstrip() for line in lines if line.strip() and not line.startswith(VARYING)]
