"""Configurations, traces and scripts that are drawn, for the scripts of tests/ and bench/."""
import os
import subprocess

TOP = os.path.dirname(os.path.dirname(os.path.dirname(os.path.abspath(__file__))))

# the program that is run
program = f"{TOP}/crates/metronome/out/metronome"

CELLS = [0, 0, 0, 0, 1, 1, 2, 3, 251, 252, 503, 504, 900, 63503, 63504, 3999999, 4294967295]
LENGTHS = [0, 1, 2, 3, 5, 251, 252, 253, 504, 505, 1500, 63504, 63505, 63757, 4000000, 4000001, 4294967295]
WORDS = [0, 1, 2, 7, 18446744073709551615]

# the first line of a trace in which mutators may join and leave
SECOND = "version 2"


def configuration(draw):
    """A configuration as a dict of its keys."""
    while True:
        keys = {
            "pages": draw.choice([1, 2, 3, 4, 8, 24, 60]),
            "mutators": draw.choice([1, 2, 3, 5, 64]),
            "slots": draw.choice([1, 2, 4, 12, 40, 256]),
            "statics": draw.choice([0, 0, 1, 2, 9, 256]),
            "collector_ticks": draw.randint(1, 40),
            "mutator_ticks": draw.randint(1, 40),
            "rate": draw.randint(10, 400),
        }
        keys["defrag_below"] = keys["pages"] + 1 if draw.random() < 0.6 else draw.randint(0, keys["pages"])
        keys["defrag_pages"] = draw.choice([0, 1, 1, 2, 5])
        if draw.random() < 0.1:
            keys["identities"] = draw.randint(1, 900)
        if draw.random() < 0.3:
            keys["live"] = draw.randint(0, keys["mutators"])
        if 256 <= keys["collector_ticks"] * keys["rate"] <= 1000000:
            return keys


def toml(keys):
    """The text of a configuration."""
    return "".join(f"{key} = {value}\n" for key, value in keys.items())


def cycle_limit(keys):
    """The units that a cycle spends at most."""
    roots = keys["mutators"] * keys["slots"] + keys["statics"]
    return roots + 3 * 2048 * keys["pages"] + (keys["defrag_pages"] + 38) * keys["pages"] + 4


def shape(draw):
    """The fields of a shape. Most are small; some fill a page, have many parts or are too large."""
    kind = draw.random()
    if kind < 0.5:
        return f"plain {draw.randint(0, 4)} {draw.randint(0, 4)}"
    if kind < 0.65:
        return f"plain {draw.randint(0, 140)} {draw.randint(0, 140)}"
    length = draw.choice(LENGTHS) if draw.random() < 0.3 else draw.randint(0, 300)
    return f"{draw.choice(['refs', 'words'])} {length}"


def palette(draw):
    """The few shapes that most objects of a trace have, so that pages fill up and get sparse."""
    large = f"words {draw.randint(100, 252)}"
    return [large] * draw.randint(0, 3) + [shape(draw) for _ in range(draw.randint(1, 4))]


def command(draw, keys, mutator, shapes):
    """A command line of a mutator. Few of its slots, statics and cells aren't there."""
    slot = lambda: draw.randint(0, min(keys["slots"], 20) - (draw.random() < 0.98))
    static = lambda: draw.randint(0, min(keys["statics"], 5) - (keys["statics"] > 0 and draw.random() < 0.98))
    cell = lambda: draw.choice(CELLS)
    word = lambda: draw.choice(WORDS)
    made = lambda: draw.choice(shapes) if draw.random() < 0.9 else shape(draw)
    lines = [
        lambda: f"new {slot()} {made()}",
        lambda: f"load {slot()} {slot()} {cell()}",
        lambda: f"store {slot()} {cell()} {slot()}",
        lambda: f"cas {slot()} {cell()} {slot()} {slot()}",
        lambda: f"get {slot()} {cell()}",
        lambda: f"put {slot()} {cell()} {word()}",
        lambda: f"casput {slot()} {cell()} {word()} {word()}",
        lambda: f"copy {slot()} {slot()}",
        lambda: f"clear {slot()}",
        lambda: f"loadstatic {slot()} {static()}",
        lambda: f"storestatic {static()} {slot()}",
        lambda: f"casstatic {static()} {slot()} {slot()}",
        lambda: f"same {slot()} {slot()}",
        lambda: f"describe {slot()}",
    ]
    kind = 0 if draw.random() < 0.3 else draw.randrange(14)
    if kind in (9, 10, 11) and keys["statics"] == 0 and draw.random() < 0.9:
        kind = 1
    return f"{mutator} {lines[kind]()}"


def trace(draw, keys, length, phases=1):
    """The lines of a trace: commands of all mutators, which come and go in some, and what drives the collector. In each of its
    phases most objects are of other shapes."""
    lines, shapes, phase = [], palette(draw), 1
    comes = "live" in keys or draw.random() < 0.3
    if comes:
        lines.append(SECOND)
    steady = draw.random() * 0.4
    while len(lines) < length:
        if len(lines) * phases >= phase * length:
            shapes, phase = palette(draw), phase + 1
        if draw.random() >= steady:
            mutator = draw.randint(0, keys["mutators"] - (draw.random() < 0.99))
            if comes and draw.random() < 0.05:
                lines.append(f"{mutator} {draw.choice(['join', 'join', 'leave'])}")
            else:
                lines.append(command(draw, keys, mutator, shapes))
            continue
        kind = draw.random()
        if kind < 0.3:
            lines.append("begin")
        elif kind < 0.75:
            lines.append(f"quantum {draw.choice([256, 256, 257, 300, 1000, 5000, 1000000])}")
        elif kind < 0.98:
            lines.append(f"tick {draw.choice([1, 2, 9, 22, 60, 500])}")
        else:
            lines.append(draw.choice(["", "#", "# a comment"]))
    return lines


def is_command(line):
    """Whether a line of a drawn trace is a command."""
    return line[:1].isdigit()


def text(lines):
    """Lines as one text."""
    return "".join(f"{it}\n" for it in lines)


def written(path, contents):
    """Writes a file; its path."""
    with open(path, "w", encoding="utf-8") as it:
        it.write(contents)
    return path


def run(words, given):
    """Runs the program on an input: its status, output and errors."""
    ran = subprocess.run([program, *words], input=given.encode(), capture_output=True, timeout=300)
    return ran.returncode, ran.stdout.decode(), ran.stderr.decode()
