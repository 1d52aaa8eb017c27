"""Units and quanta of the collector, by the library from C (bench/units.c); and the worst quanta (tests/work)."""
import subprocess
import sys

import workloads
from measured import TOP, both, by_difference, ends, figure, instructions, numbers, of_goal, on

sys.path.append(f"{TOP}/tests/work")
import counted_calls

# For each call on arrays, on a heap of 4096 pages: the word of bench/floor/calls.c, its name, how many are counted (twice as many are
# made ready), how many are timed, and the goal.
ARRAYS = [
    ("getnear", "`get` in an array of 1000 words", 20000, 500000, ""),
    ("getfar", "`get` in an array of 4000000 words", 20000, 500000, "1.5 times"),
    ("loadnear", "`load` from an array of 1000 references", 20000, 500000, ""),
    ("loadfar", "`load` from an array of 4000000 references", 20000, 500000, "1.5 times"),
    ("newarray", "`new`, 4000000 words", 1, 2, ""),
]

# The same of units: how many at most, how many on each 64 pages, and the goal.
UNITS = [
    ("marknull", "a unit of marking, cells that are null", 100000, 30000, 20),
    ("mark", "a unit of marking, a new object in each cell", 100000, 8000, 30),
    ("sweepkept", "a unit of sweeping, blocks that are kept", 100000, 8000, 10),
    ("sweepfreed", "a unit of sweeping, blocks that are freed", 100000, 8000, 40),
]

# For quanta of 256 units: the word of bench/units.c, the phase in which they begin, and the name.
QUANTA = [
    ("small", "marking", "in marking"),
    ("small", "sweeping", "in sweeping, of 4 blocks 3 are freed"),
    ("small", "moving", "in moving, blocks of 6 words"),
    ("records", "records", "in roots, 4032 records before it"),
    ("nothing", "nothing", "none: the clock read twice"),
]

# How many drawn heaps one run of valgrind goes through.
AT_ONCE = 50


def units_from_c(bench):
    """The program that measures the collector."""
    return bench.built("units", f"{TOP}/bench/units.c")


def of_cycles(bench, program):
    """Instructions and nanoseconds of a unit of whole cycles with moving, by the third of three, on each number of pages."""
    for pages in bench.pages:
        ran = [numbers([program, "small", pages, count, 1]).values() for count in (2, 3)]
        done = [sum(stage[2] for stage in stages) for stages in ran]
        once, twice = [instructions([program, "small", str(pages), str(count), "1"]) for count in (2, 3)]
        yield (twice - once) / (done[1] - done[0]), sum(stage[3] for stage in ran[1]) / done[1]


def of_arrays(bench, program):
    """Instructions and nanoseconds of a unit of quanta of the workload of arrays, whatever their stage."""
    (_, _, trace), _ = workloads.written(bench, None)["arrays"]
    ran = [numbers([program, "play", 2048, 0, 2], trace).values() for _ in range(3)]
    done = sum(stage[2] for stage in ran[0])
    count = instructions([program, "play", "2048", "0", "2"], trace, "collect")
    return count / done, min(sum(stage[3] for stage in stages) for stages in ran) / done


def rows_of_units(bench):
    """The rows of calls on long arrays, and of units."""
    program, calls = units_from_c(bench), bench.built("from_c", f"{TOP}/bench/floor/calls.c")
    for kind, name, count, timed, goal in ARRAYS:
        yield f"{name}{of_goal(goal)}, on 4096 pages", *both([by_difference(bench, calls, kind, 4096, count, timed)])
    for kind, name, most, for_each_64, goal in UNITS:
        counts = [(pages, min(most, for_each_64 * pages // 64)) for pages in bench.pages]
        yield name + of_goal(goal), *both(by_difference(bench, program, kind, pages, it, 2 * it) for pages, it in counts)
    yield "a unit of a cycle with moving, quanta of 256", *both(of_cycles(bench, program))
    yield "a unit in quanta of 200,000, `arrays` (20), on 2048 pages", *both([of_arrays(bench, program)])


def units(bench):
    """Calls on long arrays, and units of the collector, on heaps of 64, 512 and 4096 pages."""
    return ["What (the goal)", f"instructions, {on(bench.pages)}", "ns"], rows_of_units(bench)


def rows_of_quanta(bench):
    """The mean of the best run, and the longest quantum of the run where that is the least."""
    program, found = units_from_c(bench), {}
    for kind in ("small", "large", "records", "nothing"):
        for pages in bench.pages:
            count = 100000 if kind == "nothing" else 3
            found[kind, pages] = [numbers([program, kind, pages, count, 1]) for _ in range(bench.runs)]
    for kind, stage, name in QUANTA:
        cells = []
        for ran in ([it[stage] for it in found[kind, pages]] for pages in bench.pages):
            mean = min(nanos / max(1, count) for count, _, _, nanos, _ in ran)
            cells.append(f"{figure(mean)} to {figure(min(longest for *_, longest in ran))}")
        yield name, ends(cells)
    both_kinds = [found["small", pages] + found["large", pages] for pages in bench.pages]
    yield "the longest of all runs", ends(max(stage[4] for run in runs for stage in run.values()) for runs in both_kinds)


def quanta(bench):
    """Quanta of 256 units."""
    return ["A quantum of 256 units", f"mean to longest, ns, {on(bench.pages)}"], rows_of_quanta(bench)


# ---- The worst quanta ----


def nanoseconds(program, name, phases):
    """How long the longest quantum that begins or ends in one of some phases takes on a kind of heap."""
    took = []
    for mutators in ("1", "64"):
        run = subprocess.run([program, "times", name, mutators], stdout=subprocess.PIPE, text=True, check=True)
        took += [int(nanos) for nanos, phase in zip(run.stdout.split(), counted_calls.PHASES) if phase in phases]
    return max(took)


def rows_of_kinds(bench):
    """The rows of the kinds of heaps."""
    program = counted_calls.built(bench.library, f"{bench.folder}/work")
    kinds = list(counted_calls.kinds())
    for name, phases, what in kinds[1:3] if bench.short else kinds:
        found = counted_calls.counts(program, [name], bench.folder)
        most = max(max(them) for (_, begins, ends, *_), them in found.items() if {begins, ends} & set(phases))
        yield f"{' and '.join(phases)}: {what}", f"{most:,}", f"{nanoseconds(program, name, phases):,}"


def worst(bench):
    """The most instructions of a quantum of 256 units on each kind of heap that is made so that it takes many; and its
    nanoseconds on as few pages as the kind takes, where of each quantum the least of 15 counts."""
    return ["Heap", "instructions", "ns"], rows_of_kinds(bench)


def drawn(bench, first, count):
    """The worst quantum that begins or ends in each phase on drawn heaps, from a seed on, and the seed of its heap."""
    program = counted_calls.built(bench.library, f"{bench.folder}/work")
    most = dict.fromkeys(counted_calls.PHASES, (0, None))
    for seed in range(first, first + count, AT_ONCE):
        last = min(seed + AT_ONCE, first + count) - 1
        for (_, *phases, seeded), them in counted_calls.counts(program, ["drawn", str(seed), str(last)], bench.folder).items():
            for phase in most.keys() & set(phases):
                most[phase] = max(most[phase], (max(them), int(seeded)), key=lambda it: it[0])
    heads = [f"Of {count} drawn heaps, the worst quantum that begins or ends in", "instructions", "seed"]
    return heads, ((phase, f"{found:,}", seed) for phase, (found, seed) in most.items())
