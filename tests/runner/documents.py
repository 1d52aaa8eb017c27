"""The commands that documents show with their output.

A line '    $ COMMAND' of an indented block, or '$ COMMAND' of one between ``` lines, is a command; the lines below it in the
block, up to the next command or an empty line, are its output; a line '..' of them stands for any lines. Commands run in
a new folder, which has bin/metronome and the examples, those of a document one after the other. Each run of the program in them must end
with status 0, and so must the command, unless it ends in a search which finds nothing (1); the error stream gets nothing.
If a command has `2>&1`, it shows a fault, and the program ends with another status. A command that begins with a program that the
gate can do without is left out if that isn't installed, and it is printed.
"""
import os
import re
import shutil
import subprocess
from dataclasses import dataclass

from runner.program import LIMIT, TOP, Ended, room
from runner.results import Result, difference, is_as_wanted

SHOWN = re.compile(r"^( {4}|)\$ (.*)$")
SEARCH = re.compile(r".*\| grep [^|]*")

# The beginnings of commands that the gate can do without.
SPARED = ("dot",)

# The stand-in for the program: it runs the program, and notes its status.
NOTING = """#!/bin/sh
status=0
'{program}' "$@" || status=$?
echo "$status" >>'{statuses}'
exit "$status"
"""


@dataclass(frozen=True)
class Shown:
    """A command of a document: its indent, its text, and the range of the lines that it prints."""

    indent: str
    command: str
    start: int
    end: int

    def wanted(self, lines):
        """Returns its output, by the lines of the document."""
        return "".join(f"{it.removeprefix(self.indent)}\n" for it in lines[self.start : self.end]).encode()


@dataclass(frozen=True)
class Document:
    """A document with commands."""

    path: str

    @property
    def place(self):
        """Its path below the top."""
        return os.path.relpath(self.path, TOP)

    @property
    def title(self):
        """Returns its cases."""
        return "commands of a document"

    def play(self, program):
        """Runs the commands; what came of each."""
        lines = self.lines()
        return [self.result(it, it.wanted(lines), *ran) for it, *ran in self.outputs(program, lines)]

    def result(self, shown, wanted, ended, statuses):
        """Returns the outcome of a command, by how it and the program in it ended."""
        faults = [] if is_as_wanted(wanted, ended.output) else [difference("output", wanted, ended.output)]
        if ended.errors:
            faults.append(difference("errors", b"", ended.errors))
        if any(it == 0 if "2>&1" in shown.command else it for it in statuses):
            faults.append(f"  the program ended with status {', '.join(map(str, statuses))}")
        if ended.status != 0 and not (ended.status == 1 and SEARCH.fullmatch(shown.command)):
            faults.append(f"  status {ended.status}")
        return Result(f"{self.place}:{shown.start}", shown.command, faults)

    def count(self):
        """How many commands it has."""
        return len(list(commands(self.lines())))

    def lines(self):
        """The lines of the document."""
        with open(self.path, encoding="utf-8") as file:
            return file.read().split("\n")

    def outputs(self, program, lines):
        """Its commands, each with how it ended, and with which statuses the program did in it."""
        with room(f"{TOP}/examples") as folder, room() as aside:
            os.mkdir(f"{folder}/bin")
            statuses = f"{aside}/statuses"
            with open(os.open(f"{folder}/bin/metronome", os.O_CREAT | os.O_WRONLY, 0o755), "w", encoding="utf-8") as file:
                file.write(NOTING.format(program=program.path, statuses=statuses))
            return [(it, *ran(it.command, folder, statuses)) for it in commands(lines) if is_installed(it.command)]

    def write(self, program):
        """Writes the output of its commands into the document, except those with a line '..'."""
        lines = self.lines()
        for shown, ended, _ in reversed(self.outputs(program, lines)):
            if b"..\n" not in shown.wanted(lines).splitlines(keepends=True):
                lines[shown.start : shown.end] = [shown.indent + it for it in ended.output.decode().splitlines()]
        with open(self.path, "w", encoding="utf-8") as file:
            file.write("\n".join(lines))


def commands(lines):
    """The commands in the lines of a document."""
    fenced = False
    for at, line in enumerate(lines):
        fenced ^= line.startswith("```")
        found = SHOWN.match(line)
        if found and bool(found[1]) != fenced:
            yield Shown(found[1], found[2], at + 1, end_of_block(lines, at + 1, found[1]))


def is_installed(command):
    """Whether the program is there with which a command begins, if the gate can do without it; it is told where it isn't."""
    word = command.split()[0]
    if word not in SPARED or shutil.which(word):
        return True
    print(f"{word} isn't there, and this is left out: {command}", flush=True)
    return False


def end_of_block(lines, at, indent):
    """The place behind the lines that a command prints, which begin at a place."""
    while at < len(lines) and lines[at].startswith(indent) and lines[at].strip():
        if SHOWN.match(lines[at]) or lines[at].startswith("```"):
            break
        at += 1
    return at


def ran(command, folder, statuses):
    """How a command ended, and the statuses that were noted of the program meanwhile."""
    with open(statuses, "w", encoding="utf-8"):
        pass
    how = {"cwd": folder, "stdin": subprocess.DEVNULL, "capture_output": True}
    run = subprocess.run(["sh", "-c", command], check=False, timeout=LIMIT, **how)
    with open(statuses, encoding="utf-8") as file:
        return Ended(run.returncode, run.stdout, run.stderr), [int(it) for it in file.read().split()]
