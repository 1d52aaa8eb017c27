"""A test of the runner: programs that answer by a table, of which one is right and each other wrong in one place, and files of
cases that hold none."""
import os
import tempfile

from runner.program import Program

# The stand-in for the program: it answers by its words, and typed lines by the lines.
PROGRAM = """#!/usr/bin/env python3
import sys
status, output, errors, *taken = {answers!r}.get(" ".join(sys.argv[1:]), (9, "", ""))
for count in taken:
    sys.stdin.buffer.raw.read(count)
if sys.argv[1:] == ["play", "config", "-"]:
    for line in sys.stdin:
        if line.startswith("0 "):
            sys.stdout.write({reply!r})
            sys.stdout.flush()
sys.stdout.write(output)
sys.stderr.write(errors)
sys.exit(status)
"""

CONFIG = "pages = 2\n\n"
ASKED = "0 new 0 plain 1 0 => made 1\nquantum 1000 -> 0 idle\n? objects 1 ..\nwindows 5 5 1 1000\n"
FAULT = "metronome: line 3: not an event\n"
REPORT = "phase idle\nunits 7\nobjects 1 parts 1\n"
ENTRY = "0 new 0 plain 1 0 => made 1\n"
FILES = {
    "right.story": f"{CONFIG}{ASKED}typed\n",
    "faulty.story": f"{CONFIG}{ASKED}jump\nfault 4 line 3: not an event\ntyped\n",
    "same.runs": "$ help\n> ..\n$ more\nas before\n",
    "taken.runs": "text: words\n$ taken <text\ntakes 2\n",
    "shown.md": "# It\n\n    $ bin/metronome help\n    help\n    $ bin/metronome help | grep -c other\n    0\n",
    "fault.md": "# It\n\n    $ bin/metronome wrong 2>&1 | tail -n 1\n    wrong\n",
}
# How the program answers that is right, with each file.
ANSWERS = {
    "play config text": (0, "made 1\n", ""),
    "play config text --history": (0, ENTRY, ""),
    "check config -": (0, "ok 1\n", ""),
    "inspect config sound --after 1": (0, REPORT, ""),
    "inspect config sound --after 2": (0, REPORT, ""),
    "mmu config - 5": (0, "window 5 least 5 bound 1 permille 1000\n", ""),
    "play config -": (0, "", ""),
    "help": (0, "help\n", ""),
    "more": (0, "help\n", ""),
    "wrong": (4, "", "wrong\n"),
    "taken": (0, "", "", 2),
}
OF_FAULT = {
    "play config text": (4, "made 1\n", FAULT),
    "play config text --history": (4, ENTRY, FAULT),
    "play config -": (4, "", FAULT),
}
# Wrong programs: the file that must show the fault, the words, and the answer to them.
WRONG = [
    ("right.story", "play config text", (0, "made 1\nmade 2\n", "")),
    ("right.story", "play config text", (9, "made 1\n", "")),
    ("right.story", "play config text", (0, "made 1\n", "noise\n")),
    ("right.story", "play config text --history", (0, "0 new 0 plain 0 0 => made 1\n", "")),
    ("right.story", "play config text --history", (9, ENTRY, "")),
    ("right.story", "check config -", (9, "ok 1\n", "")),
    ("right.story", "inspect config sound --after 2", (9, REPORT, "")),
    ("right.story", "inspect config sound --after 2", (0, REPORT, "noise\n")),
    ("right.story", "inspect config sound --after 2", (0, REPORT.replace("7", "8"), "")),
    ("right.story", "inspect config sound --after 2", (0, REPORT.replace("objects 1", "objects 2"), "")),
    ("right.story", "mmu config - 5", (9, ANSWERS["mmu config - 5"][1], "")),
    ("right.story", "mmu config - 5", (0, ANSWERS["mmu config - 5"][1], "noise\n")),
    ("right.story", "play config -", (9, "", "")),
    ("right.story", "play config -", (0, "made 2\n", "")),
    ("right.story", "play config -", (0, "", "noise\n")),
    ("faulty.story", "play config text", (5, "made 1\n", FAULT)),
    ("faulty.story", "play config text --history", (4, "", FAULT)),
    ("faulty.story", "inspect config sound --after 2", (0, REPORT.replace("7", "8"), "")),
    ("faulty.story", "inspect config sound --after 2", (0, REPORT.replace("objects 1", "objects 2"), "")),
    ("faulty.story", "mmu config - 5", (0, "window 5 least 4 bound 1 permille 1000\n", "")),
    ("faulty.story", "play config -", (0, "", "")),
    ("same.runs", "more", (0, "help\nmore\n", "")),
    ("same.runs", "more", (9, "help\n", "")),
    ("same.runs", "more", (0, "help\n", "noise\n")),
    ("taken.runs", "taken", (0, "", "", 3)),
    ("taken.runs", "taken", (0, "", "")),
    ("shown.md", "help", (7, "help\n", "")),
    ("shown.md", "help", (0, "", "help\n")),
    ("shown.md", "help", (0, "help\nmore\n", "")),
    ("fault.md", "wrong", (0, "", "wrong\n")),
    ("fault.md", "wrong", (4, "", "right\n")),
]
# Files of cases that hold none, or in which some can't be read.
UNREAD = {
    "loop.runs": "for k in 5..5\n$ help\nend\n",
    "loop.story": f"{CONFIG}for k in 5..5\n0 new 0 plain 1 0 => made 1\nend\n",
    "list.runs": "for k in \n$ help\nend\n",
    "table.runs": "each word\ndo\n$ {word}\nend\n",
    "inner.runs": "for k in 0..2\nfor m in 5..5\n$ help\nend\nend\n",
    "other.run": "$ help\n",
}
# And one in which a loop within another has no turn for one of that one's.
READ = {"inner.runs": "for k in 0..2\nfor m in 0..k\n$ help\n> help\nend\nend\n"}


def written(folder, name, text):
    """A file with a text, which can be run."""
    with open(os.open(f"{folder}/{name}", os.O_CREAT | os.O_WRONLY | os.O_TRUNC, 0o755), "w", encoding="utf-8") as file:
        file.write(text)
    return f"{folder}/{name}"


def fails(chosen, played, folder, name, changed):
    """Whether a file's cases fail with the program that gives these answers, except for the changed ones."""
    answers = {**ANSWERS, **(OF_FAULT if name == "faulty.story" else {}), **changed}
    program = Program(written(folder, "program", PROGRAM.format(answers=answers, reply="made 1\n")))
    cases, wrong = chosen([f"{folder}/{name}"])
    return bool(wrong) or any(it.faults for case in cases for it in played(case, program))


def looks(chosen, played, folder):
    """Yields each look at the runner: its name, and whether it is as it must be."""
    for name, text in FILES.items():
        written(folder, name, text)
        yield name, not fails(chosen, played, folder, name, {})
    for name, words, answer in WRONG:
        yield f"{name}: {words}: {answer}", fails(chosen, played, folder, name, {words: answer})
    for files, is_read in ((UNREAD, False), (READ, True)):
        for name, text in files.items():
            written(folder, name, text)
            cases, wrong = chosen([f"{folder}/{name}"])
            yield f"{name}: {text!r}", bool(cases) and not wrong if is_read else bool(wrong)


def main(chosen, played):
    """Looks at the runner, with what chooses cases and what plays one; says what isn't as it must be."""
    with tempfile.TemporaryDirectory() as folder:
        found = list(looks(chosen, played, folder))
    for what, good in found:
        if not good:
            print(f"self-test: {what}")
    failed = [good for _, good in found].count(False)
    print(f"{len(found) - failed} passed, {failed} failed")
    return 1 if failed else 0
