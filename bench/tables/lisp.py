"""The Lisp of examples/embed/lisp with six of Gabriel's benchmarks, on this heap and on libgc."""
import glob
import subprocess
import sys

from measured import TOP, instructions

FOLDER = f"{TOP}/examples/embed/lisp"

# How often each benchmark runs.
TIMES = {"tak": 2, "deriv": 2000, "destruct": 1, "browse": 1, "div": 150, "fft": 2}


def figures(*words):
    """The nodes, the objects, the seconds, the longest call and the resident memory that a run prints."""
    run = subprocess.run(map(str, words), stdout=subprocess.PIPE, text=True, check=True)
    nodes, made, seconds, call, memory = run.stdout.split()
    return int(nodes), int(made), float(seconds), float(call), int(memory)


def instructions_a_node(bench, program, name, times):
    """The instructions of a node."""
    words = [program, name, *(["1", "small"] if bench.short else [str(times)])]
    return instructions(words) / figures(*words)[0]


def column(bench, program, name, times):
    """The figures of a benchmark on one kind of memory."""
    runs = [figures(program, name, times) for _ in range(3)]
    call = min(figures(program, name, times, "calls")[3] for _ in range(3))
    each = instructions_a_node(bench, program, name, times)
    return f"{each:.0f}", f"{min(it[2] for it in runs):.2f}", f"{call:.0f}", f"{runs[0][4]:,}"


def row(bench, programs, name, times):
    """A benchmark's row of the table."""
    nodes, made, *_ = figures(programs[0], name, times)
    columns = [column(bench, it, name, times) for it in programs]
    return f"`{name}`", times, f"{nodes:,}", f"{made:,}", *(" / ".join(it) for it in zip(*columns))


def lisp(bench):
    """Six of Gabriel's benchmarks on the Lisp of examples/embed/lisp, on this heap, which keeps a plan, and on libgc if that is
    installed: the instructions of a node that was evaluated, the start of the program included; seconds of processor time, the
    least of three runs; the longest call that made an object, the least of three more; the most memory that was resident."""
    sources = sorted(set(glob.glob(f"{FOLDER}/*.c")) - {f"{FOLDER}/recording.c"})
    words = [f'-DFOLDER="{FOLDER}"', *sources, "-lm"]
    kinds = [bench.built("lisp", *words), bench.built("lisp-libgc", *words, "-DLIBGC", "-lgc", may_fail=True)]
    programs = [it for it in kinds if it]
    if len(programs) < len(kinds):
        print("libgc is left out: it is not installed (Debian's libgc-dev)", file=sys.stderr)
    each = f"instructions a node, {' / '.join(['this heap', 'libgc'][: len(programs)])}"
    heads = ["Benchmark", "times", "nodes", "objects", each, "s", "longest call us", "resident kB"]
    return heads, (row(bench, programs, *it) for it in TIMES.items())
