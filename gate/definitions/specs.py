"""The definitions of a crate's specs."""
import itertools
import re

from tree import Definition, Place, Scope, files_below

HEAD = re.compile(r"(?:abbrev |unfoldable )?(?:pub )?(record |data )?([^\s:(]+)")
IS_HEAD = re.compile(r"(?:abbrev|unfoldable|pub|record|data) ")
CONSTRUCTOR = re.compile(r"^  (?:pub )?([^\s:(]+) : ", re.M)

IS_COMMENT = re.compile("--").match


class Written:
    """A definition as its file has it: its place, the comment above it, and its text."""

    def __init__(self, line, comment, text):
        self.line, self.comment, self.text = line, comment, text


def flattened(text):
    """The lines of a file, those in a module of parameters moved to the left; with each the head of its module, or nothing."""
    module = ""
    for line in text.split("\n"):
        if line.startswith("module "):
            module = line
            yield "", ""
            continue
        if line and not line.startswith((" ", "--")):
            module = ""
        yield (line.removeprefix("  "), module) if module else (line, "")


def written_in(text):
    """The definitions of a file, by name, in their order."""
    found, comment, current = {}, [], None
    for number, (line, module) in enumerate(flattened(text), 1):
        if line.startswith("--"):
            comment.append(line[2:].strip())
            continue
        if IS_HEAD.match(line):
            current = HEAD.match(line)[2]
            found[current] = Written(number, " ".join(comment), f"{module}\n" if module else "")
        if line.startswith("infix"):
            continue
        if current and line and not line.startswith("use "):
            found[current].text += line.split(" --")[0] + "\n"
        comment = []
    return found


def constructors_in(written):
    """The names by which data is made, each with the name of its type."""
    for name, one in written.items():
        if re.search(r"^pub data |^data ", one.text, re.M):
            yield from ((it, name) for it in CONSTRUCTOR.findall(one.text))


def read_specs(crate):
    """The definitions of a crate's specs, by place, each with the names that it takes; the places of constructors, each with
    that of its type; and what each file says of itself."""
    found, owners, told = {}, {}, {}
    for path, text in files_below(crate, "specs", ".antt"):
        if path == "specs/Lib":
            continue
        written, scope = written_in(text), Scope().within(text)
        scope.names.update((it, (None, it)) for it in written if "◌" in it)
        told[path] = " ".join(it[2:].strip() for it in itertools.takewhile(IS_COMMENT, text.split("\n")))
        owners.update((Place(crate, path, it), Place(crate, path, name)) for it, name in constructors_in(written))
        for name, one in written.items():
            place = Place(crate, path, name)
            found[place] = Definition(place, one.line, one.comment, one.text), set(scope.places(one.text))
    return found, owners, told
