"""The common parts of what measures: what a run makes, counts of instructions, and times."""
import functools
import os
import re
import resource
import shutil
import subprocess
import sys

TOP = os.path.dirname(os.path.dirname(os.path.abspath(__file__)))
BUILT = f"{TOP}/crates/metronome/out/metronome"


class Bench:
    """A run that measures: the program, a folder for what it makes, whether little is counted, to see that it can be, and a
    folder that bin/library wrote, if there is one."""

    def __init__(self, program, folder, short=False, library=None):
        self.program, self.folder, self.short = os.path.realpath(program), folder, short
        # the pages of heaps; the divisor of counts of calls and of units; and how often quanta are timed
        self.pages, self.share, self.runs = ((64,), 50, 1) if short else ((64, 512, 4096), 1, 15)
        if library:
            self.library = library

    @functools.cached_property
    def library(self):
        """The folder of the library for C."""
        subprocess.run([f"{TOP}/bin/library", f"{self.folder}/library"], check=True)
        return f"{self.folder}/library"

    def built(self, name, *words, may_fail=False):
        """A program in C over the library; None where the compiler doesn't make it and may fail."""
        flags = ["-std=c11", "-O2", "-Wall", "-Wextra", "-pthread", f"-I{self.library}", f"-I{TOP}/bench/embed"]
        program = [*words, f"{self.library}/libmetronome.a", "-o", f"{self.folder}/{name}"]
        ran = subprocess.run(["cc", *flags, *program], stderr=subprocess.PIPE, text=True, check=False)
        if ran.returncode and not may_fail:
            sys.exit(ran.stderr)
        return None if ran.returncode else f"{self.folder}/{name}"

    def written(self, name, lines):
        """A file with these lines; its path."""
        with open(f"{self.folder}/{name}", "w", encoding="utf-8") as file:
            file.writelines(f"{it}\n" for it in lines)
        return file.name


def table(heads, rows):
    """Prints a table, a row as soon as it is measured; its text."""
    text = f"| {' | '.join(heads)} |\n{len(heads) * '|---'}|\n"
    print(text, end="", flush=True)
    for cells in rows:
        line = f"| {' | '.join(map(str, cells))} |\n"
        print(line, end="", flush=True)
        text += line
    return text


def machine():
    """The machine on which the tables are made."""
    with open("/proc/cpuinfo", encoding="utf-8") as it:
        model = next(line.split(":")[1].strip() for line in it if line.startswith("model name"))
    load = ", ".join(f"{it:.1f}" for it in os.getloadavg())
    return f"{model}, {os.cpu_count()} processors; mean load of the last 1, 5 and 15 minutes: {load}"


def need(*programs):
    """Ends where one of these programs isn't there."""
    for it in programs:
        if not shutil.which(it):
            sys.exit(f"{it} is not installed")


def instructions(words, text=None, only=None):
    """User instructions of a run, counted by valgrind, so that the machine's load has no part in them; those in a
    function, and what it calls, where a pattern for its name is given. The run must end well."""
    watched = ["valgrind", "--tool=cachegrind", "--cache-sim=no", "--cachegrind-out-file=/dev/null"]
    if only:
        watched = ["valgrind", "--tool=callgrind", "--callgrind-out-file=/dev/null", f"--toggle-collect={only}"]
    with open(text or os.devnull, "rb") as given:
        ran = subprocess.run([*watched, *words], stdin=given, stdout=subprocess.DEVNULL, stderr=subprocess.PIPE)
    found = re.search(rb"(Collected|I +refs) *: *([0-9,]+)", ran.stderr)
    if ran.returncode != 0 or not found:
        sys.exit(f"{' '.join(words)}: status {ran.returncode}\n{ran.stderr.decode()}")
    return int(found[2].replace(b",", b""))


def seconds(words, runs=3):
    """How long the processor worked for a run, the least of some."""
    took = []
    for _ in range(runs):
        before = resource.getrusage(resource.RUSAGE_CHILDREN)
        subprocess.run(words, stdin=subprocess.DEVNULL, stdout=subprocess.DEVNULL, check=True)
        after = resource.getrusage(resource.RUSAGE_CHILDREN)
        took.append(after.ru_utime + after.ru_stime - before.ru_utime - before.ru_stime)
    return min(took)


def numbers(words, text=None):
    """The measurements of a program: by name, calls or quanta, wrong ones, units, nanoseconds, the longest."""
    words = [str(it) for it in words]
    with open(text or os.devnull, "rb") as given:
        ran = subprocess.run(words, stdin=given, capture_output=True, check=True)
    rows = [line.split() for line in ran.stdout.decode().splitlines()]
    found = {row[0]: [int(it) for it in row[1:]] for row in rows}
    if any(row[1] for row in found.values()):
        sys.exit(f"{' '.join(words)}: {found}")
    return found


def by_difference(bench, program, kind, pages, count, timed, *more):
    """Returns instructions and nanoseconds of one call or unit: `count` are counted, twice, and `timed` are timed."""
    count, timed = max(1, count // bench.share), max(2, timed // bench.share)
    words = [[program, kind, str(pages), str(times * count), str(2 * count), *more] for times in (1, 2)]
    once, twice = [instructions(it) for it in words]
    nanos = min(numbers([program, kind, pages, timed, timed, *more])[kind][3] for _ in range(9))
    return (twice - once) / count, nanos / timed


# ---- Cells of a table ----


def figure(value):
    """A number, with one digit behind the point where it is small and has one."""
    return f"{value:.1f}".removesuffix(".0") if value < 100 else f"{round(value):,}"


def ends(told):
    """Figures on each number of pages; one where all are the same."""
    told = [it if isinstance(it, str) else figure(it) for it in told]
    return told[0] if len(set(told)) == 1 else " / ".join(told)


def both(found):
    """The instructions that were found on each number of pages, and the nanoseconds."""
    return [ends(it) for it in zip(*found)]


def of_goal(goal):
    """A goal in brackets, where there is one."""
    return f" ({goal})" if goal else ""


def on(pages):
    """The head of figures on these pages."""
    return f"on {' / '.join(map(str, pages))} pages"
