"""Drawn traces on drawn configurations. Each history must be accepted by `check`, the replies must be those of the history, no
report may have more units than a cycle may spend, and no window less than the schedule promises. A trace with a wrong byte must be
done, or refused at a line. The configuration and the trace that fail are kept. In a hundred traces or more each command is done,
each phase reported, and objects are made of several pieces and where there was no space before."""
import tempfile
import time

from traces import drawn

# Events that must occur in many traces: each command done, each phase reported, and objects made by each command that makes
# them.
NEEDED = {
    *("new load store cas get put casput copy clear loadstatic storestatic casstatic same describe join leave".split()),
    *("phase idle", "phase roots", "phase marking", "phase sweeping", "phase moving"),
    *("no space", "made where there was no space", "made of several pieces"),
}


def note(entries, seen):
    """Notes what is needed and came in the entries of a history, each a command and its reply."""
    is_full = False
    for command, reply in entries:
        words = command.split()
        if reply == "refused 7":
            is_full = True
            seen.add("no space")
        if reply.startswith("refused"):
            continue
        seen.add(words[1])
        if words[1] == "new" and is_full:
            seen.add("made where there was no space")
        if words[1] == "new" and words[3] != "plain" and int(words[4]) > 252:
            seen.add("made of several pieces")


def fault_of_history(path, lines, seen):
    """Returns the fault of the replies to a trace, or None."""
    text = drawn.text(lines)
    commands = [it for it in lines if drawn.is_command(it)]
    status, history, errors = drawn.run(["play", path, "-", "--history"], text)
    if status or errors:
        return f"play --history: status {status}, {errors}"
    told = history.splitlines()
    if lines[:1] == [drawn.SECOND]:
        if told[:1] != [drawn.SECOND]:
            return "play --history: another version than the trace's"
        told = told[1:]
    entries = [it.split(" => ") for it in told]
    if [it[0] for it in entries] != commands:
        return "play --history: other commands than the trace's"
    if drawn.run(["play", path, "-"], text) != (0, drawn.text(it[1] for it in entries), ""):
        return "play: other replies than the history's"
    if drawn.run(["check", path, "-"], history) != (0, f"ok {len(commands)}\n", ""):
        return "check: the history is refused"
    note(entries, seen)
    return None


def fault_of_report(draw, path, keys, lines, seen):
    """Returns the fault of a report somewhere in a trace, or None."""
    after = str(draw.randint(0, len(lines)))
    status, report, errors = drawn.run(["inspect", path, "-", "--after", after], drawn.text(lines))
    if status or errors:
        return f"inspect: status {status}, {errors}"
    seen.add(report.splitlines()[0])
    units = int(report.splitlines()[1].split()[1])
    return None if units <= drawn.cycle_limit(keys) else f"{units} units after {after} events"


def fault_of_windows(draw, path, lines):
    """Returns the fault of the utilisation of some windows, or None."""
    windows = [str(draw.randint(1, 200)) for _ in range(3)]
    status, output, errors = drawn.run(["mmu", path, "-", *windows], drawn.text(lines))
    if status or errors or len(output.splitlines()) != 3:
        return f"mmu: status {status}, {errors}"
    for line in output.splitlines():
        words = line.split()
        if words[2] != "none" and int(words[3]) < int(words[5]):
            return f"mmu: {line}"
    return None


def fault_of_bytes(draw, path, lines):
    """Returns the fault of a run of a trace that has a wrong byte, or None."""
    text = drawn.text(lines)
    at = draw.randrange(len(text))
    text = text[:at] + chr(draw.randint(0, 127)) + text[at + 1 :]
    status, _, errors = drawn.run(["play", path, "-"], text)
    if (status, errors) == (0, "") or (status == 4 and errors.startswith("metronome: line ")):
        return None
    return f"a wrong byte: status {status}, {errors}"


def kept(keys, lines):
    """Keeps a configuration and a trace; the folder."""
    folder = tempfile.mkdtemp(prefix="soak.")
    drawn.written(f"{folder}/config.toml", drawn.toml(keys))
    drawn.written(f"{folder}/trace", drawn.text(lines))
    return folder


def faults(draw, folder, words):
    """Yields the fault of each trace."""
    end = time.monotonic() + 60 * words.count
    traces = commands = 0
    seen = set()
    while time.monotonic() < end:
        keys = drawn.configuration(draw)
        lines = drawn.trace(draw, keys, draw.choice([10, 200, 1000, 5000]))
        path = drawn.written(f"{folder}/config.toml", drawn.toml(keys))
        fault = (
            fault_of_history(path, lines, seen)
            or fault_of_report(draw, path, keys, lines, seen)
            or fault_of_windows(draw, path, lines)
            or fault_of_bytes(draw, path, lines)
        )
        yield fault and f"{kept(keys, lines)}: {fault}"
        traces, commands = traces + 1, commands + sum(map(drawn.is_command, lines))
    print(f"{commands} commands")
    if traces >= 100 and NEEDED - seen:
        yield f"never came: {', '.join(sorted(NEEDED - seen))}"
