"""Workloads whose sizes shift, for the scripts of this folder: the same ones each time."""
import random

KINDS = {"shifting at once": False, "shifting gradually": True}

SIZES = [32, 57, 72, 102, 128, 182, 229, 256]
MUTATORS, SLOTS = 8, 256
LIVE_PAGES = 20
COMMANDS = 10
SETTINGS = {
    "pages": 200,
    "mutators": MUTATORS,
    "slots": SLOTS,
    "collector_ticks": 10,
    "mutator_ticks": 12,
    "rate": 400,
    "defrag_below": 201,
    "defrag_pages": 8,
}


class Shifting:
    """A program in phases. In each it has as many objects of one size as fill 20 pages, and replaces each about twice. The
    objects of the phase before go at once, or gradually as the new ones come. All sizes come twice; of each phase of the first
    time one object a page stays for ever."""

    def __init__(self, gradually):
        self.draw = random.Random(7)
        self.gradually = gradually
        self.free = [(who, slot) for who in range(MUTATORS) for slot in range(SLOTS)]
        self.draw.shuffle(self.free)
        self.old = []
        self.commands = []

    def make(self, size):
        """Makes an object in a free slot; the slot."""
        who, slot = self.free.pop()
        self.commands.append(f"{who} new {slot} words {size - 4}")
        return who, slot

    def drop(self, held):
        """Drops the object in a slot."""
        self.commands.append(f"{held[0]} clear {held[1]}")
        self.free.append(held)

    def fill(self, size, count):
        """Makes the objects of a phase, while those of the phase before go; their slots."""
        self.draw.shuffle(self.old)
        first = len(self.old)
        if not self.gradually:
            for held in self.old:
                self.drop(held)
            self.old = []
        live = []
        while len(live) < count:
            live.append(self.make(size))
            while self.old and len(self.old) * count > (count - len(live)) * first:
                self.drop(self.old.pop())
        return live

    def phase(self, size, stays, idle):
        """Does a phase, and then as many commands that change nothing; of each page one object stays, or none."""
        blocks = 2048 // size
        live = self.fill(size, LIVE_PAGES * blocks)
        for _ in range(2 * len(live)):
            at = self.draw.randrange(len(live))
            self.drop(live[at])
            live[at] = self.make(size)
        self.commands += ["0 same 0 0"] * idle
        self.old = [held for at, held in enumerate(live) if not stays or at % blocks]


def trace(kind):
    """The lines of a kind: after each ten commands a cycle is begun where none is on, and 11 ticks pass."""
    program = Shifting(KINDS[kind])
    for stays in (True, False):
        for size in SIZES:
            program.phase(size, stays, 8 * COMMANDS)
    for at, command in enumerate(program.commands, 1):
        yield command
        if at % COMMANDS == 0:
            yield from ("begin", "tick 11")
