"""Random scripts of 16 mutators, 20000 commands in all, beside 2000 quanta. Blocks are moved, and mutators join and leave:
only 12 are live at first. Each history must be a merge of the scripts, and be accepted by `check`."""
from traces import drawn

KEYS = {"pages": 40, "mutators": 16, "slots": 12, "statics": 4, "defrag_below": 41, "defrag_pages": 2, "live": 12}
COMMANDS = 20000


def line(draw, mutator, shapes):
    """A line of a mutator's script."""
    kind = draw.random()
    if kind < 0.03:
        return f"{mutator} {'join' if kind < 0.02 else 'leave'}"
    return drawn.command(draw, KEYS, mutator, shapes)


def scripts(draw):
    """The lines of all scripts, mixed."""
    shapes = drawn.palette(draw)
    lines = [line(draw, k % 16, shapes) for k in range(COMMANDS)]
    draw.shuffle(lines)
    return lines


def fault_of(path, lines):
    """Returns the fault of a run of scripts, or None."""
    words = ["threads", path, "-", "--turns", "2000", "--budget", "256"]
    status, history, errors = drawn.run(words, drawn.text([drawn.SECOND, *lines]))
    if status or errors:
        return f"threads: status {status}, {errors}"
    told, *entries = history.splitlines()
    done = [it.split(" => ")[0] for it in entries]
    of_mutator = lambda given, m: [it for it in given if it.split(" ", 1)[0] == str(m)]
    if told != drawn.SECOND or len(done) != COMMANDS or any(of_mutator(done, m) != of_mutator(lines, m) for m in range(16)):
        return "threads: no merge of the scripts"
    if drawn.run(["check", path, "-"], history) != (0, f"ok {COMMANDS}\n", ""):
        return "check: the history is refused"
    changes = sum(a.split(" ", 1)[0] != b.split(" ", 1)[0] for a, b in zip(done, done[1:]))
    print(f"the mutator changes {changes} times", flush=True)
    return None


def faults(draw, folder, words):
    """Yields the fault of each run."""
    path = drawn.written(f"{folder}/config.toml", drawn.toml(KEYS))
    for _ in range(int(words.count)):
        yield fault_of(path, scripts(draw))
