"""Four workloads: configurations and traces, always the same ones.

Each trace has about as many lines as are asked for; that of pointers has more if what it begins with is more than four fifths of
them. Their data fit the pages. The four:
small     small objects of all sizes replace one another in the slots, are written once, and refer to a neighbour
pointers  rows of references, each second cell with an object of its own; then references are loaded, stored,
          compared and exchanged in them, and shared by statics
arrays    arrays of up to 16000 cells, two fifths of references, are made, dropped, read and written, with cycles in
          quanta of 200000 units
moving    objects of a few sizes come and go, so that pages get sparse, and cycles move blocks off them
"""
import random


def small(draw, pages):
    """Its configuration, and then its steps: each a list of lines."""
    slots = max(16, min(256, pages * 256 // 200))
    settings = {"pages": pages, "mutators": 4, "slots": slots, "statics": 16}
    yield settings | {"collector_ticks": 10, "mutator_ticks": 12, "rate": 400}
    while True:
        step = []
        for _ in range(40):
            who, slot = draw.randrange(4), draw.randrange(slots)
            references, words = draw.randrange(4), draw.randrange(12)
            step.append(f"{who} new {slot} plain {references} {words}")
            if words:
                step.append(f"{who} put {slot} {draw.randrange(words)} {draw.getrandbits(40)}")
            if references:
                step.append(f"{who} store {slot} {draw.randrange(references)} {(slot - 1) % slots}")
        yield step + ["begin", "tick 11"]


def exchange(draw, rows):
    """One of the ways in which the graph of references is used."""
    who, held, row, cell = draw.randrange(4), 200 + draw.randrange(40), draw.randrange(rows), draw.randrange(200)
    load = f"{who} load {held} {row} {cell}"
    make = [f"{who} new 250 plain 3 1", f"{who} store 250 {draw.randrange(3)} {held}", f"{who} store {row} {cell} 250"]
    compare = f"{who} cas {row} {cell} {held} {draw.randrange(rows)}"
    static = draw.randrange(32)
    ways = [
        (35, [load]),
        (15, make),
        (20, [f"{who} store {row} {cell} {200 + draw.randrange(51)}"]),
        (15, [load, compare]),
        (7, [f"{who} copy {held} {row}"]),
        (4, [f"{who} storestatic {static} {held}"]),
        (4, [f"{who} loadstatic {held} {static}"]),
    ]
    return draw.choices([way for _, way in ways], [weight for weight, _ in ways])[0]


def pointers(draw, pages):
    """Its configuration, what it begins with, and then its steps."""
    rows = max(1, min(200, pages // 9))
    yield {"pages": pages, "mutators": 4, "slots": 256, "statics": 32}
    first = [f"{who} new {row} refs 200" for who in range(4) for row in range(rows)]
    for who in range(4):
        for row in range(rows):
            for cell in range(0, 200, 2):
                first += [f"{who} new 250 plain 3 1", f"{who} store {row} {cell} 250"]
    yield first
    while True:
        yield [line for _ in range(100) for line in exchange(draw, rows)] + ["begin", "quantum 2000"]


def arrays(draw, pages):
    """Its configuration, and then its steps."""
    most = max(500, min(16000, pages * 16000 // 2048))
    count = max(4, min(60, pages * 60 // 1024), pages * 60 // 2048)
    yield {"pages": pages, "mutators": 2, "slots": 256, "statics": 0}
    made = {}
    while True:
        step = []
        for _ in range(500):
            who, slot = draw.randrange(2), draw.randrange(count)
            if (who, slot) not in made or draw.random() < 0.01:
                made[who, slot] = draw.random() < 0.4, draw.randrange(253, most)
                of_references, length = made[who, slot]
                step.append(f"{who} new {slot} {'refs' if of_references else 'words'} {length}")
            else:
                step += use_array(draw, who, slot, *made[who, slot])
        yield step + ["begin", "quantum 200000"]


def use_array(draw, who, slot, of_references, length):
    """A cell of an array is read or written. Slots from 200 hold what references refer to."""
    cell = draw.randrange(length)
    if not of_references:
        word = draw.getrandbits(60)
        return [draw.choice([f"{who} put {slot} {cell} {word}", f"{who} get {slot} {cell}"])]
    kind = draw.random()
    if kind < 0.1:
        return [f"{who} new 201 words {draw.randrange(253, 600)}", f"{who} store {slot} {cell} 201"]
    if kind < 0.5:
        return [f"{who} store {slot} {cell} {200 + draw.randrange(3)}"]
    return [f"{who} load {draw.choice([200, 202])} {slot} {cell}"]


def moving(draw, pages):
    """Its configuration, and then its steps."""
    sizes = [8, 16, 28, 60, 100, 124, 200, 225, 252]
    slots = max(16, min(256, pages * 256 // 224))
    settings = {"pages": pages, "mutators": 8, "slots": slots, "statics": 0}
    yield settings | {"defrag_below": pages + 1, "defrag_pages": 16}
    while True:
        usual = draw.choice(sizes)
        step = []
        for _ in range(200):
            who, slot = draw.randrange(8), draw.randrange(slots)
            size = usual if draw.random() < 0.8 else draw.choice(sizes)
            step.append(f"{who} clear {slot}" if draw.random() < 0.45 else f"{who} new {slot} words {size}")
        yield step + ["begin", "quantum 4000"] * 3


# The workloads, each with its own number of pages.
KINDS = {small: 200, pointers: 900, arrays: 2048, moving: 224}


def write(folder, kind, lines, pages):
    """Writes the configuration and the trace of a kind."""
    name = kind.__name__
    steps = kind(random.Random(f"{name} 20261123"), pages)
    settings = next(steps)
    with open(f"{folder}/{name}.toml", "w", encoding="utf-8") as out:
        out.write("".join(f"{key} = {value}\n" for key, value in settings.items()))
    with open(f"{folder}/{name}.trace", "w", encoding="utf-8") as out:
        if kind is pointers:
            first = next(steps)
            out.write("".join(f"{line}\n" for line in first))
            lines = max(lines, len(first) * 5 // 4) - len(first)
        while lines > 0:
            step = next(steps)
            lines -= len(step)
            out.write("".join(f"{line}\n" for line in step))


def lines_of(bench):
    """About how many lines a trace has."""
    return 2000 if bench.short else 100000


def written(bench, pages):
    """Writes the workloads, for this many pages if a number is given, else for their own. Returns for each the words that play
    it, and how many lines it has."""
    made = {}
    for kind, own in KINDS.items():
        name = f"{bench.folder}/{kind.__name__}"
        write(bench.folder, kind, lines_of(bench), pages or own)
        with open(f"{name}.trace", "rb") as trace:
            made[kind.__name__] = ["play", f"{name}.toml", f"{name}.trace"], sum(1 for _ in trace)
    return made
