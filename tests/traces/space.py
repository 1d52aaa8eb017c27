"""Drawn traces on as many pages as suffice.

Each trace is first played on the pages of its drawn configuration; in half of them the sizes of objects shift. Then for each way
in which `pages` names a number (without moving, as configured, moving after each sweep, whatever the sizes) that number is taken
for the pages, with the keys of the way, as long as it is more, six times at most: on other pages a trace may need another
number, since its cycles take other quanta. Wherever `pages` or `pages --pace` says that the pages suffice, no reply may be
`refused 7`; and they must suffice where there are as many as it names for the way. With the keys that it names for the trace itself
they must suffice, and on one page fewer not, without moving and with moving after each sweep. So it is played too, with quanta of
the schedule's units, on the least pages that are named for its pace.
"""
from traces import drawn

MOST_PAGES = 4096


def moving(pages):
    """The keys with which moving follows each sweep and may empty every page."""
    return {"pages": pages, "defrag_below": pages + 1, "defrag_pages": pages}


# the keys with which a number of pages that is named for a way suffices
WAYS = {
    "without moving": lambda pages: {"pages": pages, "defrag_below": 0},
    "as configured": lambda pages: {"pages": pages},
    "moving after each sweep": moving,
    "whatever the sizes": moving,
}


def suffices(lines):
    """Whether the pages suffice."""
    return any(it.startswith("pages ") and it.split()[4] == "suffice" for it in lines)


def found(lines):
    """The keys with which room is said to be for the trace itself; None where no number of pages is known to suffice."""
    said = [it.split(": ")[1] for it in lines if it.startswith("for this trace ")]
    return {key: int(value) for key, value in (it.split(" = ") for it in said[0].split(", "))} if said else None


def named(lines, way):
    """The number of pages that is named for a way; None where no number is known to suffice."""
    found = [it[len(way) :].split(":")[0] for it in lines if it.startswith(way)]
    return int(found[0]) if found else None


def lines_of(words, text):
    """The lines of a run, which must end well."""
    status, output, errors = drawn.run(words, text)
    if status or errors:
        raise SystemExit(f"{words[0]}: status {status}, {errors}")
    return output.splitlines()


class Plays:
    """Plays of traces: the path of their configurations, how many met a refusal, and how many were promised none. Yields
    their faults, and None for each play that is as it must be."""

    def __init__(self, path):
        self.path, self.full, self.promised = path, 0, 0

    def asked(self, keys, text, *words):
        """Returns the lines of `pages` for a trace on a configuration."""
        return lines_of(["pages", drawn.written(self.path, drawn.toml(keys)), "-", *words], text)

    def play(self, keys, text):
        """Plays a trace on a configuration; returns the lines of `pages` for it."""
        lines = self.asked(keys, text)
        promised = suffices(lines) or suffices(self.asked(keys, text, "--pace"))
        count = lines_of(["play", self.path, "-"], text).count("refused 7")
        self.full += count > 0
        self.promised += promised
        yield f"{count} refused on {keys}" if count and promised else None
        return lines

    def room(self, keys, text):
        """Plays a trace with the keys that are named for it, and looks at those of one page fewer."""
        few = found((yield from self.play(keys, text)))
        if few is None:
            pages, suffice = MOST_PAGES, True
        else:
            pages, suffice = few["pages"] - 1, suffices((yield from self.play({**keys, **few}, text)))
        fewer = [{**keys, **WAYS[way](pages)} for way in ("without moving", "moving after each sweep") if pages]
        if not suffice or any(suffices(self.asked(it, text)) for it in fewer):
            yield f"room on {few} for {keys}"

    def way(self, keys, text, way):
        """Plays a trace on as many pages as are named for a way, until no more are."""
        pages = named(self.asked(keys, text), way)
        for _ in range(6):
            if pages is None or pages > MOST_PAGES:
                return
            tried = {**keys, **WAYS[way](max(pages, 1))}
            lines = yield from self.play(tried, text)
            more = named(lines, way)
            if more is not None and more <= tried["pages"]:
                if not suffices(lines):
                    yield f"{way} {more} suffice, and are not told to on {tried}"
                return
            pages = more

    def pace(self, keys, text):
        """Plays a trace on the least pages that are named for its pace, until these are no others."""
        for _ in range(6):
            least = [int(it.split()[2]) for it in self.asked(keys, text, "--pace") if it.startswith("least pages ")]
            if not least or least[0] == keys["pages"]:
                return
            keys = {**keys, "pages": least[0]}
            yield from self.play(keys, text)


def faults(draw, folder, words):
    """Yields the fault of each play."""
    plays = Plays(f"{folder}/config.toml")
    for _ in range(int(words.count)):
        keys = drawn.configuration(draw)
        lines = drawn.trace(draw, keys, draw.choice([10, 200, 1000]), draw.choice([1, 1, 3, 8]))
        yield from plays.room(keys, drawn.text(lines))
        for way in WAYS:
            yield from plays.way(keys, drawn.text(lines), way)
        schedule = f"quantum {keys['collector_ticks'] * keys['rate']}"
        yield from plays.pace(keys, drawn.text(schedule if it.startswith("quantum") else it for it in lines))
    print(f"{plays.full} plays met a refusal for want of space, and {plays.promised} were promised none")
