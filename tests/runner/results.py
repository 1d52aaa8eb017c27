"""Outcomes of cases, and comparison of outputs."""
import difflib
import re
from dataclasses import dataclass, field

from runner.lines import shown


@dataclass
class Result:
    """The outcome of a case: its place, its text, and its faults."""

    place: str
    title: str
    faults: list = field(default_factory=list)

    def report(self):
        """Returns the text to print for a case that failed."""
        return "\n".join([f"{self.place}: {self.title}", *self.faults])


def is_as_wanted(wanted, got):
    """Whether bytes are as wanted: a line '..' stands for any lines, and '..' at an end of a line for any bytes there."""
    return re.fullmatch(b"".join(map(pattern, wanted.splitlines(keepends=True))), got) is not None


def pattern(line):
    """The pattern of a line that is wanted."""
    if line == b"..\n":
        return b"(?:.*\n)*"
    text, end = line.removesuffix(b"\n"), line[len(line.removesuffix(b"\n")) :]
    begin, any_rest = text.startswith(b".."), text.endswith(b"..")
    middle = re.escape(text.removeprefix(b"..").removesuffix(b".."))
    return b"[^\n]*" * begin + middle + b"[^\n]*" * any_rest + end


def difference(what, wanted, got):
    """How bytes differ from those wanted: lines behind - are expected, those behind + are what came."""
    lines = difflib.unified_diff(shown(wanted).splitlines(), shown(got).splitlines(), "expected", "got", lineterm="", n=1)
    told = [f"    {it}" for it in list(lines)[2:40]]
    return "\n".join([f"  {what}: expected -, got +", *told])
