"""Commands of gdb that show a heap of Barleynight, in a program that is stopped or in a core that it left:

    metronome heap HANDLE                          its settings, and how much can be reached
    metronome slot HANDLE MUTATOR SLOT [DEPTH]     the object in a slot, and those to which it leads, DEPTH references deep
    metronome static HANDLE NUMBER [DEPTH]         the same of a static
    metronome object HANDLE IDENTITY [DEPTH]       the same of a reachable object, by its identity

HANDLE is a variable of the type `metronome`, or another expression for one. DEPTH is 1 if it isn't given. Load the file with
`source`, or with `gdb -x`. Objects are written as include/metronome_show.h writes them.

Nothing of the program is called: all is read from its memory. The words of objects lie as docs/ARCHITECTURE.md says
("A block"). No document says where a heap keeps its row of words and its roots. They are found by their form; if they
aren't, the commands print so. If the program is stopped within a call of the library, half of a change may be shown.
"""
import struct

import gdb

PAGE_WORDS, PART_CELLS, HEADER = 2048, 252, 4
# How many words of a heap's own memory are searched, how many cells of an object and how many objects are shown, and how many
# objects are looked for.
SEARCHED, SHOWN_CELLS, SHOWN_OBJECTS, REACHED = 80, 16, 1000, 200_000
PLAIN, REFS, WORDS = 0, 1, 2


def words_at(address, count):
    """Returns words of 8 bytes of the program's memory."""
    return struct.unpack(f"={count}Q", bytes(gdb.selected_inferior().read_memory(address, 8 * count)))


def halves(word):
    """Returns the lower and the upper half of a word."""
    return word & 0xFFFFFFFF, word >> 32


class MetronomeObject:
    """An object, by the block that holds its first part now."""

    def __init__(self, heap, reference):
        self.heap, self.at = heap, heap.resolved(reference)
        _, form, self.identity, _ = heap.words(self.at, HEADER)
        self.kind = form & 3
        few, more, many = form >> 8 & 255, form >> 16 & 255, form >> 8 & 0xFFFFFF
        self.refs = few if self.kind == PLAIN else many if self.kind == REFS else 0
        self.words = more if self.kind == PLAIN else many if self.kind == WORDS else 0

    def piece(self, i):
        """Returns the address of the part that holds cell i. Parts of large arrays are found through one spine or two."""
        at, cells = self.at, self.refs + self.words
        if cells > PART_CELLS**2:
            at = self.heap.resolved(*self.heap.words(at + HEADER + i // PART_CELLS**2, 1))
        if cells > PART_CELLS:
            at = self.heap.resolved(*self.heap.words(at + HEADER + i // PART_CELLS % PART_CELLS, 1))
        return at

    def cells(self, first, end):
        """Goes through cells: the references of an object come before its words."""
        while first < end:
            count = min(end - first, PART_CELLS - first % PART_CELLS)
            yield from self.heap.words(self.piece(first) + HEADER + first % PART_CELLS, count)
            first += count

    def head(self):
        """Returns the line of the object."""
        kind = "plain" if self.kind == PLAIN else "array"
        counts = [f"refs {self.refs}"] * (self.kind != WORDS) + [f"words {self.words}"] * (self.kind != REFS)
        shown = list(self.cells(self.refs, self.refs + min(self.words, SHOWN_CELLS))) + [".."] * (self.words > SHOWN_CELLS)
        return f"#{self.identity} {kind}, {', '.join(counts)}" + (": " + " ".join(map(str, shown)) if shown else "")


class MetronomeHeap:
    """A heap, by its handle."""

    def __init__(self, handle):
        value = gdb.parse_and_eval(handle)
        value = value.dereference() if value.type.strip_typedefs().code == gdb.TYPE_CODE_PTR else value
        at = int(value["at"])
        if at == 0:
            raise gdb.GdbError("the handle is closed")
        own = words_at(at, SEARCHED)
        try:
            self.base, self.length, self.pages = next(filter(None, map(self.as_pages, range(SEARCHED - 3), [own] * SEARCHED)))
            self.limits, self.roots = next(filter(None, map(self.as_roots, range(SEARCHED - 6), [own] * SEARCHED)))
        except StopIteration:
            raise gdb.GdbError("no heap is found there: this is no handle, or heaps have another form now") from None

    @staticmethod
    def as_pages(i, own):
        """Returns address, length and pages, if the words from i on are those of a row that has room for as many pages."""
        address, length, room, pages = own[i : i + 4]
        fits = room == PAGE_WORDS * pages and length <= room and length % PAGE_WORDS == 0 and address and address % 8 == 0
        return (address, length, pages) if 0 < pages <= 1 << 20 and fits else None

    @staticmethod
    def as_roots(i, own):
        """Returns mutators, slots and statics, and the roots, if the words from i on are such limits and then such a row."""
        (mutators, slots), (statics, _), (address, length, room) = halves(own[i]), halves(own[i + 1]), own[i + 4 : i + 7]
        fits = 0 < mutators <= 64 and 0 < slots <= 256 and length == room == mutators * slots + statics
        return ((mutators, slots, statics), words_at(address, length)) if fits else None

    def words(self, at, count):
        """Returns words of the heap."""
        if at + count > self.length:
            raise gdb.GdbError(f"a reference leads to word {at}, and the pages in use have {self.length}: it was overwritten")
        return words_at(self.base + 8 * at, count)

    def resolved(self, reference):
        """Returns the address of the block to which a reference leads, that of its copy if it was moved."""
        return self.words(reference - 1, 1)[0]

    def root(self, first, number, end, what):
        """Returns a root by its number among those of a kind."""
        if not 0 <= number < end:
            raise gdb.GdbError(f"no such {what}: there are {end}")
        return self.roots[first + number]

    def reached(self):
        """Goes through the reachable objects, each once, up to REACHED."""
        met, left = set(), [it for it in self.roots if it]
        while left and len(met) < REACHED:
            it = MetronomeObject(self, left.pop())
            if it.at not in met:
                met.add(it.at)
                yield it
                left += filter(None, it.cells(0, it.refs))

    def show(self, reference, depth, before="", shown=None):
        """Prints the object of a reference, `depth` references deep, as include/metronome_show.h writes it."""
        shown = set() if shown is None else shown
        it = MetronomeObject(self, reference) if reference else None
        if it is None or it.refs and it.identity in shown:
            print(f"#{it.identity} above" if it else "null")
            return
        deeper = it.refs and (depth == 0 or len(shown) == SHOWN_OBJECTS)
        print(it.head() + (" deeper" if deeper else ""))
        if deeper or not it.refs:
            return
        shown.add(it.identity)
        for i, cell in enumerate(it.cells(0, min(it.refs, SHOWN_CELLS))):
            print(f"{before}  {i}: ", end="")
            self.show(cell, depth - 1, before + "  ", shown)
        if it.refs > SHOWN_CELLS:
            print(f"{before}  ..")


class Metronome(gdb.Command):
    """Shows heaps of Barleynight: metronome heap, slot, static or object."""

    def __init__(self):
        super().__init__("metronome", gdb.COMMAND_DATA)
        # each command with the least and the most numbers behind the handle
        self.commands = {
            "heap": (self.heap, 0, 0), "slot": (self.slot, 2, 3), "static": (self.static, 1, 2), "object": (self.named, 1, 2),
        }

    def invoke(self, argument, from_tty):
        """Does a command: its words are the command, the handle, and then some numbers."""
        words = gdb.string_to_argv(argument)
        command, least, most = self.commands.get(words[0] if words else "", (None, 0, 0))
        if command is None or not least <= len(words) - 2 <= most:
            raise gdb.GdbError(USAGE)
        command(MetronomeHeap(words[1]), *(int(gdb.parse_and_eval(it)) for it in words[2:]))

    @staticmethod
    def heap(it):
        """Prints the settings of a heap, and how much can be reached."""
        mutators, slots, statics = it.limits
        used, objects = sum(root != 0 for root in it.roots), list(it.reached())
        more = " or more" if len(objects) == REACHED else ""
        print(f"pages {it.pages}, in use or touched {it.length // PAGE_WORDS}")
        print(f"mutators {mutators}, slots of each {slots}, statics {statics}, roots that aren't null {used}")
        print(f"reachable objects {len(objects)}{more}, cells {sum(o.refs + o.words for o in objects)}")

    @staticmethod
    def slot(it, mutator, number, depth=1):
        """Prints the object in a slot."""
        mutators, slots, _ = it.limits
        it.root(0, mutator, mutators, "mutator")
        it.show(it.root(mutator * slots, number, slots, "slot"), depth)

    @staticmethod
    def static(it, number, depth=1):
        """Prints the object in a static."""
        mutators, slots, statics = it.limits
        it.show(it.root(mutators * slots, number, statics, "static"), depth)

    @staticmethod
    def named(it, identity, depth=1):
        """Prints a reachable object."""
        found = next((o for o in it.reached() if o.identity == identity), None)
        if found is None:
            raise gdb.GdbError(f"no reachable object has the identity {identity}")
        it.show(found.at + 1, depth)


USAGE = __doc__
Metronome()
