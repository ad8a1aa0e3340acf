"""The examples in C: each is built by the machine's compiler, against the library for C where it calls it, run, and compared with
what it is to write. The server is run under a load, and beside it one of which the calls are made of a lock."""

import pathlib
import shutil
import subprocess
import tempfile
import threading

from transcripts import TOP

BUILT = TOP / "crates" / "k42_c" / "out" / "libk42_c.a"
KEPT = TOP / "dist" / "x86_64-linux" / "libk42_c.a"
EXAMPLES = TOP / "examples" / "c"
FLAGS = ["-std=c11", "-Wall", "-Wextra", "-Werror", "-O2", "-I", str(TOP / "crates" / "k42_c")]
# Those that call the library, with the files that each is built of, and those that do not.
CALLING = {
    "page": ["page.c", "heap.c"],
    "statuses": ["statuses.c", "seeing.c"],
    "swaps": ["swaps.c", "seeing.c"],
    "sections": ["sections.c", "seeing.c"],
    "cost": ["cost.c", "heap.c"],
    "worn": ["worn.c", "heap.c"],
    "ends": ["ends.c", "seeing.c"],
    "server": ["server.c", "heap.c"],
}
OTHERS = {"plain": ["server.c", "plain.c"], "load": ["load.c"]}
# Those that are run alone, with their words.
ALONE = {"page": [], "statuses": [], "swaps": [], "sections": [], "cost": ["10000", "2"], "worn": [], "ends": []}
# The servers run with so many threads; the load has so many connections, requests of each, and swaps.
SERVERS, MOST_THREADS, LOAD = ["server", "plain"], 4, ["64", "1000", "1000"]
# How many seconds each may take, and how often each thread of the first example calls under valgrind.
SECONDS, CALLS = 300, "1000"
# So does valgrind end where it has found an error, or a block that was not freed.
FOUND = 99


def library():
    """The library for C that was built here of these sources, or else the one kept, where it is of these sources."""
    made_of = subprocess.run([TOP / ".ci" / "sources", "k42_c"], capture_output=True, text=True, check=True).stdout.splitlines()
    for archive, listing in ((BUILT, BUILT.with_name(BUILT.name + ".sources")), (KEPT, TOP / "dist" / "SOURCES")):
        if archive.is_file() and listing.is_file() and set(made_of) <= set(listing.read_text(encoding="utf-8").splitlines()):
            return archive
    return None


def built(folder, name, archive):
    """The program of an example, or what the compiler says."""
    program = folder / name
    parts = [*CALLING[name], archive] if name in CALLING else OTHERS[name]
    words = [*FLAGS, "-o", program, *(EXAMPLES / part for part in parts), "-pthread"]
    run = subprocess.run(["cc", *words], capture_output=True, text=True, check=False)
    return program, run.stderr if run.returncode != 0 else ""


def run_faults(name, words, due):
    """What is wrong with a run that is to write this."""
    try:
        run = subprocess.run(words, capture_output=True, timeout=SECONDS, check=False)
    except subprocess.TimeoutExpired:
        yield f"examples/c/{name}.c does not end within {SECONDS} seconds"
        return
    if (run.returncode, run.stdout) != (0, due):
        yield f"examples/c/{name}.c ends with {run.returncode}, and writes {run.stdout} and {run.stderr}"


def checked_faults(program):
    """What valgrind, where it is there, finds in a short run of the first example."""
    valgrind = shutil.which("valgrind")
    if valgrind:
        checks = [valgrind, "--quiet", "--leak-check=full", f"--error-exitcode={FOUND}"]
        due = (EXAMPLES / "page.out").read_bytes().replace(b"20000", b"200")
        yield from run_faults("page", [*checks, program, CALLS], due)


def loaded(server, load, threads):
    """How a server on so many threads and its load end, and what the load writes. A server that takes too long is ended, which
    ends its load."""
    with subprocess.Popen([server, "0", str(threads)], stdout=subprocess.PIPE) as serving:
        watch = threading.Timer(SECONDS, serving.kill)
        watch.start()
        port = serving.stdout.readline().split()[-1:]
        run = subprocess.run([load, *port, *LOAD], capture_output=True, check=False)
        serving.wait()
        watch.cancel()
    return serving.returncode, run.returncode, run.stdout, run.stderr


def load_faults(folder):
    """What is wrong with the server under the load, and beside it with the one of a lock. How fast both were is told; that an answer
    is late is no fault, since the machine may be at other work."""
    due = (EXAMPLES / "load.out").read_bytes()
    late = (1, due.replace(b"in time", b"late"))
    for name in SERVERS:
        ended, load_ended, written, said = loaded(folder / name, folder / "load", MOST_THREADS)
        if ended != 0 or (load_ended, written) not in ((0, due), late):
            yield f"examples/c/load.c: the server {name} ends with {ended}, the load with {load_ended}, writing {written} and {said}"
        else:
            print(f"house: examples/c/load.c, the server {name}: {said.decode().strip()}")


def faults():
    """All faults of the examples."""
    archive = library()
    if archive is None:
        yield "no libk42_c.a is of these sources: .ci/run makes one"
        return
    with tempfile.TemporaryDirectory() as place:
        folder = pathlib.Path(place)
        unbuilt = {name: said for name in [*CALLING, *OTHERS] for said in [built(folder, name, archive)[1]] if said}
        for name, said in unbuilt.items():
            yield f"examples/c/{name}.c is not compiled: {said}"
        if unbuilt:
            return
        for name, words in ALONE.items():
            yield from run_faults(name, [folder / name, *words], (EXAMPLES / f"{name}.out").read_bytes())
        yield from checked_faults(folder / "page")
        yield from load_faults(folder)
