"""Stories of a heap: NAME.story files. tests/README.md states the format."""
import os
import re
from dataclasses import dataclass, field

from runner import lines, streams
from runner.program import TOP, Streams, room
from runner.results import Result, difference

REPLIED = re.compile(r"(.*?) => (.*)")
QUANTUM = re.compile(r"(quantum \d+) -> (\d+) (\S+)")


@dataclass(frozen=True)
class Line:
    """A line of a story's trace, with the number of the story's line, and the reply that is wanted, if it has one."""

    number: int
    text: str
    reply: str | None = None

    def is_kept(self):
        """Whether a history has it: a command that is replied to, or the version."""
        return self.reply is not None or self.text.startswith("version ")


@dataclass
class Story:
    """A heap's story: its configuration, its trace, and its questions. By the number of events before them: lines of the
    report, and quanta. By the lines of the trace before them: windows. And how else it is played: cut, or typed."""

    place: str
    title: str
    config: str = ""
    trace: list = field(default_factory=list)
    events: int = 0
    reported: list = field(default_factory=list)
    quanta: list = field(default_factory=list)
    windows: list = field(default_factory=list)
    ways: set = field(default_factory=set)
    status: int = 0
    fault: str = ""

    def play(self, program):
        """Plays the story; what came of it."""
        with room() as folder:
            for name, text in (("config", self.config), ("text", self.text(len(self.trace))), ("sound", self.sound())):
                with open(f"{folder}/{name}", "w", encoding="utf-8") as file:
                    file.write(text)
            faults = list(Heard(self, program, folder).faults())
            if "cut" in self.ways:
                faults += streams.faults_of_cuts(self, program, folder)
            if "typed" in self.ways:
                faults += streams.faults_of_typing(self, program, folder)
            return [Result(self.place, self.title, faults)]

    def count(self):
        """How many lines it has, of the trace and of questions."""
        return len(self.trace) + len(self.reported) + len(self.quanta) + len(self.windows) + len(self.ways) + bool(self.status)

    def text(self, count):
        """The text of this many lines of the trace."""
        return "".join(f"{it.text}\n" for it in self.trace[:count])

    def errors(self):
        """The text on the error stream at the end."""
        return f"metronome: {self.fault}\n".encode() if self.status else b""

    def sound(self):
        """The text of the lines that are played: all, except the last if the run ends there."""
        return self.text(len(self.trace) - bool(self.status))

    def history(self):
        """The text of the history that is wanted."""
        entries = [it.text if it.reply is None else f"{it.text} => {it.reply}" for it in self.trace if it.is_kept()]
        return "".join(f"{it}\n" for it in entries)

    def replies(self, count):
        """The replies to this many lines of the trace."""
        return "".join(f"{it.reply}\n" for it in self.trace[:count] if it.reply is not None)


def read(path):
    """The stories of a file."""
    title = os.path.splitext(os.path.basename(path))[0].replace("_", " ")
    stories, told = [], []
    for line in [*lines.read(path), lines.Line(0, "story")]:
        kind, _, rest = line.text.partition(" ")
        if kind != "story":
            told.append(line)
            continue
        if any(it.text for it in told):
            stories.append(story(told, path, title))
        title, told = rest, []
    return stories


def story(told, path, title):
    """The story that lines tell."""
    while not told[0].text:
        told.pop(0)
    start = next((at for at, it in enumerate(told) if not it.text), None)
    if start is None:
        raise lines.Wrong(f"line {told[0].number}: a configuration, and no story")
    made = Story(f"{os.path.relpath(path, TOP)}:{told[0].number}", title)
    made.config = "".join(f"{it.text}\n" for it in told[:start])
    for line in told[start + 1 :]:
        if line.text:
            add(made, line)
    return made


def add(story, line):
    """Adds a line to a story."""
    kind, _, rest = line.text.partition(" ")
    if kind == "?":
        story.reported.append((story.events, line.number, rest))
    elif kind == "windows":
        story.windows.append((len(story.trace), line.number, rest.split()))
    elif kind == "fault":
        status, _, story.fault = rest.partition(" ")
        story.status = int(status)
    elif line.text in ("cut", "typed"):
        story.ways.add(line.text)
    else:
        add_event(story, line)


def add_event(story, line):
    """Adds a line of the trace to a story."""
    replied, quantum = REPLIED.fullmatch(line.text), QUANTUM.fullmatch(line.text)
    text = replied[1] if replied else quantum[1] if quantum else line.text
    story.trace.append(Line(line.number, text, replied[2] if replied else None))
    story.events += not text.startswith(("#", "version "))
    if quantum:
        story.quanta.append((story.events, line.number, int(quantum[2]), quantum[3]))


class Heard:
    """The program's output for a story, in a folder that has its configuration and its trace."""

    def __init__(self, story, program, folder):
        self.story, self.program, self.folder = story, program, folder
        self.replied = [it for it in story.trace if it.reply is not None]
        self.reports, self.unwell = {}, []

    def run(self, *words, given=b""):
        """Runs the program."""
        return self.program.run(words, self.folder, Streams(given))

    def faults(self):
        """Yields the faults of the story with the program."""
        yield from self.faults_of_replies()
        yield from self.faults_of_history()
        yield from self.faults_of_windows()
        yield from self.faults_of_reports()
        yield from self.faults_of_quanta()
        yield from self.unwell

    def faults_of_replies(self):
        """Whether play replies as wanted, and ends so."""
        ended = self.run("play", "config", "text")
        if ended.output != self.story.replies(len(self.story.trace)).encode():
            yield self.first_difference(lines.shown(ended.output).split("\n"))
        if ended.status != self.story.status:
            yield f"  status: expected {self.story.status}, got {ended.status}"
        if ended.errors != self.story.errors():
            yield difference("errors", self.story.errors(), ended.errors)

    def first_difference(self, got):
        """Returns the first line that differs from the wanted replies."""
        for line, answer in zip(self.replied, got):
            if answer != line.reply:
                return f"  line {line.number}: {line.text}: expected {line.reply}, got {answer or 'nothing'}"
        return f"  behind the last reply: expected an ended line and no more, got {got[len(self.replied):]}"

    def faults_of_history(self):
        """Whether the history of the story has its commands with the replies, and check accepts it."""
        told = self.run("play", "config", "text", "--history")
        if (told.status, told.errors) != (self.story.status, self.story.errors()):
            yield f"  play --history: status {told.status}, {lines.shown(told.errors)}"
        if told.output != self.story.history().encode():
            yield difference("history", self.story.history().encode(), told.output)
        ended = self.run("check", "config", "-", given=told.output)
        wanted = f"ok {len(self.replied)}\n".encode()
        if (ended.status, ended.output, ended.errors) != (0, wanted, b""):
            yield f"  check of its history: status {ended.status}, {lines.shown(ended.output + ended.errors)}"

    def faults_of_windows(self):
        """Whether mmu prints the wanted figures of each window, for the lines before it."""
        for count, number, (width, least, bound, permille) in self.story.windows:
            ended = self.run("mmu", "config", "-", width, given=self.story.text(count).encode())
            wanted = f"window {width} least {least} bound {bound} permille {permille}\n"
            if (ended.status, ended.output, ended.errors) != (0, wanted.encode(), b""):
                yield f"  line {number}: expected {wanted}    got {lines.shown(ended.output + ended.errors)}, status {ended.status}"

    def report(self, events):
        """The lines of the report after this many events."""
        if events not in self.reports:
            ended = self.run("inspect", "config", "sound", "--after", str(events))
            self.reports[events] = lines.shown(ended.output).splitlines()
            if ended.status or ended.errors:
                self.unwell.append(f"  inspect --after {events}: status {ended.status}, {lines.shown(ended.errors)}")
        return self.reports[events]

    def faults_of_reports(self):
        """Whether each report has the lines that are wanted; of a line that ends in ' ..' its beginning."""
        for events, number, wanted in self.story.reported:
            report = self.report(events)
            begin = wanted.removesuffix("..") if wanted.endswith(" ..") else None
            if not any(it == wanted or begin is not None and it.startswith(begin) for it in report):
                yield "\n".join([f"  line {number}: expected {wanted}, got the report", *(f"    {it}" for it in report)])

    def faults_of_quanta(self):
        """Whether each quantum spends the wanted units, and ends in the wanted phase; outside a cycle it spends nothing."""
        for events, number, units, phase in self.story.quanta:
            before, behind = figures(self.report(events - 1)), figures(self.report(events))
            spent = int(behind["units"]) - int(before["units"])
            is_phase = behind["phase"] == phase or phase == "on" and behind["phase"] != "idle"
            if spent != units or not is_phase:
                yield f"  line {number}: expected {units} units, {phase}; got {spent}, {behind['phase']}"


def figures(report):
    """Returns, for the lines of a report that have two words, the second by the first."""
    return dict(it.split(" ") for it in report if it.count(" ") == 1)
