"""Calls, and lines of one command each, beside a heap by hand in C, the floor (bench/floor)."""
import subprocess
import sys

from measured import TOP, both, by_difference, ends, instructions, numbers, of_goal, on

# For each call: the word of bench/floor/calls.c, its name, how many are counted (twice as many are made ready), how many are
# timed, and the goal from C.
CALLS = [
    ("get", "`get`", 20000, 500000, 60),
    ("put", "`put`", 20000, 500000, 60),
    ("load", "`load`", 20000, 500000, 78),
    ("store", "`store`, no cycle on", 5040, 10080, 82),
    ("recorded", "`store` that records", 5040, 10080, 120),
    ("cas", "`cas` that stores", 20000, 500000, 90),
    ("clear", "`clear`", 8192, 16384, 45),
    ("same", "`same`", 20000, 500000, 55),
    ("new", "`new`, 3 cells", 4500, 9000, 190),
]

# Lines of one command, by turn, and before them the lines that prepare their objects: 130 objects of 4 references and 4 words, with
# all references to object 128; 40 arrays of references, each cell with an object of its own; an object in each slot of 64
# mutators. Each has the number of counted lines (twice as many are prepared), and the goal.
LONGEST = 252
OBJECTS = [f"0 new {slot} plain 4 4" for slot in range(130)] + [f"0 store {n // 4} {n % 4} 128" for n in range(512)]
ARRAYS = []
for array in range(40):
    ARRAYS.append(f"0 new {array} refs {LONGEST}")
    for cell in range(LONGEST):
        ARRAYS += ["0 new 255 plain 0 0", f"0 store {array} {cell} 255"]
ARRAYS.append("0 clear 255")
SLOTS = [f"{n // 256} new {n % 256} plain 0 0" for n in range(64 * 256)]
COMMANDS = {
    "store": (ARRAYS, lambda n: f"0 store {n // LONGEST} {n % LONGEST} 255", 5040, 470),
    "new": ([], lambda n: f"0 new {n % 200} plain {n % 4} {3 - n % 4}", 4500, 560),
    "get": (OBJECTS, lambda n: f"0 get {n % 128} {n % 4}", 20000, 400),
    "put": (OBJECTS, lambda n: f"0 put {n % 128} {n % 4} {n}", 20000, 410),
    "load": (OBJECTS, lambda n: f"0 load {130 + n % 64} {n % 128} {n % 4}", 20000, 480),
    "cas": (OBJECTS, lambda n: f"0 cas {n % 128} {n // 128 % 4} {128 + n // 512 % 2} {129 - n // 512 % 2}", 20000, 520),
    "clear": (SLOTS, lambda n: f"{n // 256 % 64} clear {n % 256}", 8192, 330),
}


def ends_of(bench):
    """The numbers of pages."""
    return (64,) if bench.short else (64, 4096)


def calls_from_c(bench):
    """The programs that make calls of the floor and of the library, which must answer what the floor does."""
    sources = f"{TOP}/bench/floor"
    floor = bench.built("floor", f"{sources}/calls.c", "-DFLOOR", f"{sources}/floor.c")
    library = bench.built("from_c", f"{sources}/calls.c")
    for kind, _, count, *_ in CALLS:
        told = [numbers([it, kind, 64, count, count])[kind][2] for it in (floor, library)]
        if told[0] != told[1]:
            sys.exit(f"{kind}: the floor tells {told[0]}, and the library {told[1]}")
    return floor, library


def calls(bench):
    """Calls on heaps of 64 and of 4096 pages: of the floor, and by the library from C."""
    ways = calls_from_c(bench)

    def row(kind, name, count, timed, goal):
        floor, library = (both(by_difference(bench, way, kind, it, count, timed) for it in ends_of(bench)) for way in ways)
        return name, floor[0], library[0] + of_goal(goal), floor[1], library[1]

    heads = ["the floor", "from C", "the floor, ns", "from C, ns"]
    return [f"A call, {on(ends_of(bench))}", *heads], (row(*it) for it in CALLS)


def lines_of(player, traces):
    """Instructions of a line of a command, by two traces of which one has twice as many, and what is replied to that one."""
    once, twice = [instructions([*player, path]) for path, _ in traces]
    replies = subprocess.run([*player, traces[1][0]], stdout=subprocess.PIPE, check=True).stdout
    return (twice - once) / (traces[1][1] - traces[0][1]), replies


def row_of_lines(bench, floor, kind):
    """The row of a command. The floor must reply what the program does."""
    ready, line, count, goal = COMMANDS[kind]
    counts = [n * max(1, count // bench.share) for n in (1, 2)]
    traces = [(bench.written(f"{kind}-{it}", [*ready, *map(line, range(it))]), it) for it in counts]
    found = []
    for pages in ends_of(bench):
        config = bench.written(f"of_{pages}", [f"pages = {pages}", "mutators = 64", "slots = 256"])
        players = [floor, str(pages)], [bench.program, "play", config]
        (least, replies), (ours, replied) = [lines_of(it, traces) for it in players]
        found.append((least, ours))
        if replies != replied:
            sys.exit(f"{kind}: the floor replies otherwise than the program")
    least, ours = both(found)
    return f"`{kind}`", least, ours + of_goal(goal)


def lines(bench):
    """Lines of a trace of one command each, on the floor and by the program."""
    floor = bench.built("lines", f"{TOP}/bench/floor/lines.c", f"{TOP}/bench/floor/floor.c")
    return [f"A line, {on(ends_of(bench))}", "the floor", "the program"], (row_of_lines(bench, floor, it) for it in COMMANDS)
