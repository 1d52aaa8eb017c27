"""Runs of the program: NAME.runs files. tests/README.md states the format."""
import dataclasses
import os
import re

from runner import lines, streams
from runner.program import TOP, Streams, room
from runner.results import Result, difference, is_as_wanted

FILE = re.compile(r"([\w.-]+):(?: (.*))?")
ROOM = re.compile(r"(2?)>(\d+)")
STREAM = {">": "output", "!": "errors"}


@dataclasses.dataclass
class Run:
    """A run of the program, with the files that it has and what it must write."""

    place: str
    title: str
    words: list
    files: dict
    output: bytes = b""
    errors: bytes = b""
    status: int = 0
    beside: str = ""
    writes: int | None = None
    takes: int | None = None
    merges: bool = False
    before: object = None

    def play(self, program):
        """Makes the run; what came of it."""
        with room(f"{TOP}/examples", self.beside) as folder:
            for name, text in self.files.items():
                with open(f"{folder}/{name}", "wb") as file:
                    file.write(text)
            faults = list(self.faults(program, folder))
        return [Result(self.place, f"{self.title}: {' '.join(self.words)}", faults)]

    def called(self):
        """The words without those that say where a stream comes from or goes to, and what these say."""
        words, given = [], Streams()
        for word in self.words:
            narrow = ROOM.fullmatch(word)
            if narrow:
                given = dataclasses.replace(given, **{"errors_room" if narrow[1] else "room": int(narrow[2])})
            elif word.startswith("<"):
                how = {"given": self.files[word[1:].rstrip("!|")], "breaks": word.endswith("!"), "piped": word.endswith("|")}
                given = dataclasses.replace(given, **how)
            else:
                words.append(lines.escaped("" if word == "''" else word))
        return words, given

    def faults(self, program, folder):
        """Yields the faults of the run."""
        words, given = self.called()
        ended = program.run(words, folder, given)
        if ended.status != self.status:
            yield f"  status: expected {self.status}, got {ended.status}"
        yield from self.faults_of_output(program, folder, given, ended)
        if self.takes not in (None, ended.took):
            yield f"  expected {self.takes} bytes of the input to be taken, got {ended.took}"
        if self.writes is not None:
            written = len(streams.writes(program, words, folder, given.given))
            if written != self.writes:
                yield f"  expected {self.writes} writes to the output, got {written}"
        if self.merges:
            checked = program.run(["check", words[1], "-"], folder, Streams(ended.output))
            if checked.status or not is_merge(given.given.splitlines(), ended.output.splitlines()):
                yield difference("a merge of the scripts that check accepts", given.given, ended.output)


    def faults_of_output(self, program, folder, given, ended):
        """Yields the faults of the run's output."""
        if not is_as_wanted(self.errors[: given.errors_room], ended.errors):
            yield difference("errors", self.errors[: given.errors_room], ended.errors)
        if self.before is not None:
            words, before = self.before.called()
            wanted = program.run(words, folder, before).output
            if ended.output != wanted:
                yield difference("output", wanted, ended.output)
        elif not is_as_wanted(self.output[: given.room], ended.output):
            yield difference("output", self.output[: given.room], ended.output)


def read(path):
    """The runs of a file."""
    runs, files, last, title = [], {}, "", os.path.basename(path)
    place, beside = os.path.relpath(path, TOP), os.path.dirname(path)
    for line in lines.read(path):
        file = FILE.match(line.text)
        kind, _, rest = line.text.partition(" ")
        if kind == "#":
            title = rest
        elif kind == "$":
            runs.append(Run(f"{place}:{line.number}", title, rest.split(), dict(files), beside=beside))
        elif kind in STREAM and runs:
            setattr(runs[-1], STREAM[kind], getattr(runs[-1], STREAM[kind]) + lines.data(rest))
        elif kind == ">>" and runs:
            runs[-1].output += contents(f"{beside}/{rest}")
        elif kind == "=" and runs:
            runs[-1].status = int(rest)
        elif kind == "writes" and runs:
            runs[-1].writes = int(rest)
        elif kind == "takes" and runs:
            runs[-1].takes = int(rest)
        elif line.text == "merge" and runs:
            runs[-1].merges = True
        elif line.text == "as before" and len(runs) > 1:
            runs[-1].before = runs[-2]
        elif file:
            # (lines of one name, one below the other, are a file, in place of the last one of that name)
            files[file[1]] = (files[file[1]] if last == file[1] else b"") + lines.data(file[2] or "")
        elif line.text:
            raise lines.Wrong(f"line {line.number}: {line.text}")
        last = file[1] if file else ""
    return runs


def is_merge(scripts, entries):
    """Whether entries are the commands of scripts, those of each mutator in their order, each with a reply."""
    commands = [it.partition(b" => ")[0] for it in entries]
    firsts = {it.split()[0] for it in scripts + commands}
    return all(ours(scripts, it) == ours(commands, it) for it in firsts)


def ours(lines_of_all, first):
    """The lines that begin with a word."""
    return [it for it in lines_of_all if it.split()[0] == first]


def contents(path):
    """The bytes of a file."""
    with open(path, "rb") as file:
        return file.read()
