"""Transcripts: the blocks of a document that show commands, what they write, and how they end.

A block begins with ```console. In it a line `$ COMMAND` is a command for the shell, with its
here-document below it where it has one that ends with a line `.`; the lines behind it are what it
writes, and a last line `[N]` is how it ends where that is not 0. Each block has a folder of its own,
in which `k42` and `k42-view` are the programs, and `examples` and `docs` the folders of these names.
"""

import dataclasses
import os
import pathlib
import re
import subprocess
import tempfile

TOP = pathlib.Path(__file__).resolve().parent.parent
PROGRAM = TOP / "crates" / "k42_cli" / "out" / "k42_cli"
VIEW = TOP / "crates" / "k42_view" / "out" / "k42_view"
SECONDS = 60


@dataclasses.dataclass
class Command:
    """A command of a transcript, with what it is to write and how it is to end."""

    place: str
    text: str
    output: str
    status: int

    def words_and_input(self):
        """The words and the input of a bare call of the program, or None for any other command."""
        line, _, rest = self.text.partition("\n")
        found = re.fullmatch(r"k42((?: [a-z0-9]+)*)(?: <<'\.')?", line)
        return found and (found[1].split(), rest.removesuffix("."))


def commands_of(place, lines):
    """The commands of one block."""
    at = 0
    while at < len(lines):
        if not lines[at].startswith("$ "):
            raise ValueError(f"{place}: `{lines[at]}` stands before a command")
        first = at
        at += 1
        if "<<'.'" in lines[first]:
            at = lines.index(".", at) + 1
        text = "\n".join([lines[first][2:], *lines[first + 1 : at]])
        behind = next((i for i in range(at, len(lines)) if lines[i].startswith("$ ")), len(lines))
        shown = lines[at:behind]
        status = re.fullmatch(r"\[(\d+)\]", shown[-1]) if shown else None
        if status:
            shown.pop()
        output = "".join(line + "\n" for line in shown)
        yield Command(place, text, output, int(status[1]) if status else 0)
        at = behind


def blocks_of(document):
    """The commands of each block of a document."""
    lines = document.read_text(encoding="utf-8").splitlines()
    at = 0
    while at < len(lines):
        if lines[at] == "```console":
            end = lines.index("```", at)
            place = f"{document.relative_to(TOP)}:{at + 1}"
            yield list(commands_of(place, lines[at + 1 : end]))
            at = end
        at += 1


def faults_of(block):
    """The commands of a block that write or end otherwise than the document shows."""
    with tempfile.TemporaryDirectory() as folder:
        here = pathlib.Path(folder)
        (here / "k42").symlink_to(PROGRAM)
        (here / "k42-view").symlink_to(VIEW)
        for shown in ("examples", "docs"):
            (here / shown).symlink_to(TOP / shown)
        path = f"{here}:{os.environ['PATH']}"
        for command in block:
            run = subprocess.run(
                ["bash", "-c", command.text],
                cwd=here,
                env={"PATH": path, "LC_ALL": "C"},
                stdin=subprocess.DEVNULL,
                capture_output=True,
                timeout=SECONDS,
                check=False,
            )
            shown = run.stdout.decode(encoding="utf-8", errors="backslashreplace")
            if (shown, run.returncode) != (command.output, command.status):
                first = command.text.splitlines()[0]
                yield f"{command.place}: `{first}` ends with {run.returncode} and writes\n{shown}"
