"""What is kept: whether it is what the gate built, and whether `k42` and `k42-view` run the kept programs where they may.

The launchers are tried on a copy of the repository, with a path on which there is no kit.
"""

import pathlib
import shutil
import subprocess
import tempfile
import time

from transcripts import TOP

KEPT = pathlib.Path("dist") / "x86_64-linux"
CHANGED = pathlib.Path("crates") / "k42_kinds" / "src" / "lib.rt"
# What is built of these crates, and kept. The gate builds the programs.
BUILT = {"k42_cli": "k42_cli", "k42_view": "k42_view", "k42_bench": "k42_bench", "k42_c": "libk42_c.a"}
TOOLS = ("awk", "bash", "cat", "diff", "dirname", "find", "grep", "paste", "sed", "sha256sum", "sort", "uname", "xargs")
SECONDS, TIMES = 1, 3
NO_KIT = 127


def copy_of(folder):
    """A copy of what the programs are kept with and made of."""
    copy = folder / "copy"
    shutil.copytree(TOP / "crates", copy / "crates", ignore=shutil.ignore_patterns("out", "must-fail"))
    for name in (".ci", "dist", "examples"):
        shutil.copytree(TOP / name, copy / name)
    for name in ("crates.txt", "HANDLES", "k42", "k42-view"):
        shutil.copy2(TOP / name, copy / name)
    return copy


def tools_of(folder, machine=None):
    """A folder with the tools that a launcher needs; `uname` tells this machine, or the one that is given."""
    tools = folder / (machine or "tools")
    tools.mkdir()
    for name in TOOLS:
        (tools / name).symlink_to(shutil.which(name))
    if machine:
        (tools / "uname").unlink()
        (tools / "uname").write_text(f"#!/bin/sh\necho Linux {machine}\n", encoding="utf-8")
        (tools / "uname").chmod(0o755)
    return tools


class Tried:
    """A copy in which launchers are tried without the kit."""

    def __init__(self, folder):
        self.copy, self.tools, self.other = copy_of(folder), tools_of(folder), tools_of(folder, "riscv64")

    def run(self, words, given, tools=None):
        """A run of a launcher, and the seconds that it took."""
        start = time.perf_counter()
        env = {"PATH": str(tools or self.tools), "LC_ALL": "C"}
        run = subprocess.run(words, cwd=self.copy, env=env, input=given, capture_output=True, check=False)
        return run, time.perf_counter() - start

    def kept_faults(self):
        """What is wrong where the kept programs are to be run."""
        script, record, picture = ((TOP / "examples" / f"swap.{kind}").read_bytes() for kind in ("k42", "record", "svg"))
        both = script + b"---\n" + record
        load = subprocess.run([TOP / KEPT / "k42", "load", "1000"], capture_output=True, check=True).stdout
        for words, given, due in (
            (["./k42", "run"], script, record),
            (["./k42", "check"], both, b"lawful 8\n"),
            (["./k42", "load", "1000"], b"", load),
            (["./k42-view"], both, picture),
        ):
            runs = [self.run(words, given) for _ in range(TIMES)]
            for run, _ in runs:
                if (run.returncode, run.stdout, run.stderr) != (0, due, b""):
                    yield f"{' '.join(words)} of a kept program ends with {run.returncode} and says {run.stderr}"
            seconds = min(seconds for _, seconds in runs)
            if seconds > SECONDS:
                yield f"{' '.join(words)} of a kept program takes {seconds:.1f} seconds"

    def refusal(self, what, why, tools=None):
        """What is wrong where the kept program may not be run, and the kit is not there to build another."""
        run, _ = self.run(["./k42", "run"], b"procs 1\n", tools)
        if (run.returncode, run.stdout) != (NO_KIT, b"") or why not in run.stderr:
            yield f"{what}: ./k42 ends with {run.returncode}, writes {run.stdout} and says {run.stderr}"

    def refusals(self):
        """What is wrong in each case in which it may not be run."""
        kept, source = self.copy / KEPT / "k42", self.copy / CHANGED
        yield from self.refusal("another machine", b"it is for Linux on x86_64, and this machine is Linux riscv64", self.other)
        kept.chmod(0o644)
        yield from self.refusal("a kept program that may not be run", b"it is not executable")
        kept.unlink()
        yield from self.refusal("no kept program", b"it is missing")
        shutil.copy2(TOP / KEPT / "k42", kept)
        text = source.read_bytes()
        source.write_bytes(text + b"\n")
        yield from self.refusal("a changed source", f"{CHANGED} is not as it was".encode())
        source.write_bytes(text)
        (self.copy / CHANGED).with_name("more.rt").write_bytes(b"\n")
        yield from self.refusal("one more source", f"{CHANGED.with_name('more.rt')} is not as it was".encode())


def compared(top):
    """What the comparison of kept and built programs says."""
    return subprocess.run([top / ".ci" / "keep", "--compare"], capture_output=True, text=True, check=False).stdout.splitlines()


def comparison_faults(copy):
    """What is wrong with the comparison where a byte of a kept program, or of the library for C, is changed."""
    for crate, name in BUILT.items():
        out = copy / "crates" / crate / "out"
        out.mkdir()
        built = TOP / "crates" / crate / "out" / name
        shutil.copy2(built if built.is_file() else TOP / KEPT / name, out / name)
    if compared(copy) != compared(TOP):
        yield "a copy of what is kept is not compared as that is"
    for name in ("k42", "libk42_c.a", "k42.h"):
        kept = copy / KEPT / name
        data = bytearray(kept.read_bytes())
        data[len(data) // 2] ^= 1
        kept.write_bytes(data)
        if not any(line.startswith(str(KEPT / name) + " ") for line in compared(copy)):
            yield f"a changed byte of {name} is not seen"


def faults():
    """All faults of the kept programs."""
    found = compared(TOP)
    yield from found
    if any(line.startswith("dist/SOURCES") for line in found):
        # The launchers would build.
        return
    with tempfile.TemporaryDirectory() as folder:
        tried = Tried(pathlib.Path(folder))
        yield from tried.kept_faults()
        yield from comparison_faults(tried.copy)
        shutil.copy2(TOP / KEPT / "k42", tried.copy / KEPT / "k42")
        for crate in BUILT:
            shutil.rmtree(tried.copy / "crates" / crate / "out")
        yield from tried.refusals()
