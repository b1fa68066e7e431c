"""What the checks of tools share: parts that are compiled in a folder of their own, tools that are run, and a count."""

import os
import subprocess
import sys

from shared import TOP


class Trials:
    """Trials that pass or fail, each told in a line."""

    def __init__(self, name):
        self.name, self.passed, self.failed = name, 0, 0

    def tell(self, title, fault=""):
        """A trial more; a fault is a text that says what is wrong."""
        self.passed += not fault
        self.failed += bool(fault)
        print(f"{self.name}: {'FAILED' if fault else 'passed'}: {title}" + (f"\n    {fault}" if fault else ""), flush=True)

    def end(self):
        print(f"{self.name}: {self.passed} passed, {self.failed} failed")
        sys.exit(1 if self.failed or not self.passed else 0)


def machine_of(part):
    """The machine table of a part: NAME.machine, or machine where there is none."""
    own = os.path.splitext(part)[0] + ".machine"
    return own if os.path.exists(own) else os.path.join(os.path.dirname(part), "machine")


def compiled(program, part, machine, room):
    """The CL file and the tape of a part, as files of a folder."""
    name = os.path.splitext(os.path.basename(part))[0]
    cl, tape = (os.path.join(room, f"{name}.{end}") for end in ("cl", "tape"))
    run = subprocess.run([program, "compile", part, machine, cl, tape], capture_output=True, text=True)
    if run.returncode:
        sys.exit(f"{part} is not compiled: {run.stdout.strip()}")
    return cl, tape


def run_tool(program, tool, *words):
    """The status of a tool, and what it prints on both ways."""
    run = subprocess.run([os.path.join(TOP, "tools", tool), *words], capture_output=True, env={**os.environ, "APT": program})
    return run.returncode, run.stdout.decode(), run.stderr.decode()
