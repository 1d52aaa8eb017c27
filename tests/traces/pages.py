"""The heaps whose pages tests/browser looks at."""
import os
import random
import subprocess

import drawn

PROGRAM = os.environ.get("METRONOME", drawn.program)


class Heap:
    """A configuration and a trace in a folder, with the page of their run."""

    def __init__(self, folder, name, config, trace, *words):
        self.folder, self.name, self.words = folder, name, words
        self.files = [f"{folder}/{name}.toml", f"{folder}/{name}.trace"]
        for path, text in zip(self.files, (config, trace)):
            with open(path, "w", encoding="utf-8") as file:
                file.write(text)
        self.html = f"{folder}/{name}.html"
        self.configs = [self.files[0], *(word for before, word in zip(words, words[1:]) if before == "--compare")]
        self.write(self.told("draw", *words))

    def told(self, *words, config=None):
        """Returns the output of the program, on another configuration if it is given."""
        files = [config or self.files[0], self.files[1]]
        return subprocess.run([PROGRAM, words[0], *files, *words[1:]], check=True, stdout=subprocess.PIPE, text=True).stdout

    def plan(self, config):
        """Returns the program's report of the plans."""
        live = self.words[self.words.index("--live") + 1]
        return subprocess.run([PROGRAM, "plan", config, "--live", live], check=True, stdout=subprocess.PIPE, text=True).stdout

    def write(self, page):
        """Makes this the page."""
        with open(self.html, "w", encoding="utf-8") as file:
            file.write(page)


def long_run(draw, pages, rate, cells):
    """A configuration and a trace of 60,000 lines."""
    keys = {"pages": pages, "mutators": 1, "slots": 256, "collector_ticks": 2, "mutator_ticks": 8, "rate": rate,
            "defrag_below": pages + 1, "defrag_pages": 5}
    lines = ["0 new 0 refs 250"]
    while len(lines) < 60000:
        slot, kind = draw.randint(1, 199), draw.random()
        made = f"words {draw.randint(20, cells)}" if draw.random() < .2 else f"plain {draw.randint(0, 3)} {draw.randint(0, 12)}"
        if kind < .35:
            lines += [f"0 new {slot} {made}", f"0 store 0 {draw.randint(0, 249)} {slot}"]
        elif kind < .85:
            lines.append(f"tick {draw.randint(1, 3)}" if kind < .7 else f"0 clear {slot}")
        else:
            lines.append("begin" if kind < .86 else f"0 load {slot} 0 {draw.randint(0, 249)}")
    return drawn.toml(keys), "\n".join(lines[:60000]) + "\n"


def compared(folder, config, trace):
    """The order book on 12 pages and on 21; the name of the second configuration has letters that a page must escape."""
    other = f"{folder}/21 <pages> \"caf\u00e9\".toml"
    with open(other, "w", encoding="utf-8") as file:
        file.write(config.replace("pages = 12", "pages = 21", 1))
    return Heap(folder, "compared", config, trace, "--compare", other, "--live", "2626")


def heaps(folder):
    """The heaps whose pages are looked at."""
    read = lambda name: open(f"{drawn.TOP}/examples/{name}", encoding="utf-8").read()  # pylint: disable=consider-using-with
    yield Heap(folder, "empty", "pages = 4\nmutators = 1\nslots = 4\n", "")
    yield Heap(folder, "orders", read("orders.toml"), read("orders.trace"), "--live", "2626")
    yield Heap(folder, "sparse", read("sparse.toml"), read("sparse.trace"))
    yield compared(folder, read("orders.toml"), read("orders.trace"))
    yield Heap(folder, "moving", *long_run(random.Random(7), 60, 400, 240))
    yield Heap(folder, "many_pages", *long_run(random.Random(7), 4096, 20000, 3000))
