"""The heap from C and in threads: GCBench, real programs, and threads that share a heap."""
import os
import subprocess
import sys

from measured import TOP, instructions


def printed(*words, **more):
    """Returns the words that a program prints."""
    return subprocess.run([str(it) for it in words], stdout=subprocess.PIPE, text=True, check=True, **more).stdout.split()


# ---- GCBench ----

# Each kind of memory: its name, the macro and the library with which it is built, and the goal for the instructions of a node.
MEMORIES = [
    ("this heap", "HEAP", [], "450"),
    ("libgc", "LIBGC", ["-lgc"], ""),
    ("libgc, incremental", "LIBGC", ["-lgc"], ""),
    ("malloc and free", "MALLOC", [], ""),
]


def row_of_memory(name, goal, program, depth, few):
    """The figures of a kind of memory; a node's instructions are the difference between runs of two depths."""
    runs = [printed(program, depth) for _ in range(3)]
    nodes, _, _, memory = runs[0]
    seconds = min(float(it[1]) for it in runs)
    stop = float(printed(program, depth, "stops")[2])
    more, less = ((instructions([program, str(it)]), int(printed(program, it)[0])) for it in (few, few - 2))
    each = (more[0] - less[0]) / (more[1] - less[1])
    return name, f"{each:.0f}", goal, f"{seconds:.2f}", f"{seconds / int(nodes) * 1e9:.0f}", f"{stop:.1f}", memory


def rows_of_memories(bench):
    """The rows of this heap, of libgc where it is installed, and of malloc."""
    for name, kind, more, goal in MEMORIES:
        os.environ["INCREMENTAL"] = str(int("incremental" in name))
        sources = [f"-DMEMORY={kind}", f"{TOP}/bench/embed/gcbench/gcbench.c"]
        program = bench.built(kind, *sources, *more, may_fail=kind == "LIBGC")
        if program:
            yield row_of_memory(name, goal, program, *((8, 6) if bench.short else (16, 12)))
        else:
            print(f"{name} is left out: it is not installed (Debian's libgc-dev)", file=sys.stderr)


def gcbench(bench):
    """GCBench from C, beside libgc, where that is installed, and malloc and free: the instructions of a node; seconds of
    processor time, the least of three runs; the longest stop of a fourth; the resident memory."""
    heads = ["instructions a node", "goal", "s", "ns a node", "longest stop us", "resident kB"]
    return ["Memory", *heads], rows_of_memories(bench)


# ---- Threads of C at one heap ----

# The ways to a turn, by the words of bench/embed/shared.c.
WAYS = {
    "gate": "in turns at a gate",
    "fair:0": "at a fair gate of 0",
    "fair:100": "at a fair gate of 100",
    "turns": "in turns at a mutex",
    "lends": "at one that lends priorities",
    "mutex": "a mutex round a heap of its own",
}


def row_of_turns(bench, program, number, batch):
    """Returns the nanoseconds of a call, for a number of threads and of calls a turn, and which way is the fastest."""
    calls = 20000 if bench.short else 2000000
    runs = [{way: float(*printed(program, way, number, batch, calls)) for way in WAYS} for _ in range(7)]
    least = {way: min(run[way] for run in runs) for way in WAYS}
    return number, batch, *(f"{it:.1f}" for it in least.values()), WAYS[min(least, key=least.get)]


def shared(bench):
    """Calls of threads of C at one heap: in turns, for which threads wait at a gate, at two fair ones, or at two mutexes of the
    program, of which one lends priorities; and on a heap of its own with a mutex round it. By the clock over all calls of all
    threads, the least of 7 runs, the ways in turn."""
    program = bench.built("shared", f"{TOP}/bench/embed/shared.c")
    heads = ["Threads", "calls a turn", *(f"{it}, ns a call" for it in WAYS.values()), "the fastest"]
    return heads, (row_of_turns(bench, program, number, batch) for number in (1, 2, 4) for batch in (1, 4, 16, 64))


# ---- Real programs ----


def real(bench):
    """Returns the rows of real programs' requests to malloc, made of heaps that keep a plan (bench/real/run)."""
    run = [f"{TOP}/bench/real/run", bench.library, *(["--short"] if bench.short else [])]
    ran = subprocess.run(run, stdout=subprocess.PIPE, text=True, check=True)
    heads, _, *rows = [it.strip("| ").split(" | ") for it in ran.stdout.splitlines() if it.startswith("|")]
    return heads, rows
