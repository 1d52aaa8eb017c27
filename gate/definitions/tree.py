"""The definitions that are trusted: each with its place, and how a name finds it from its uses."""
import os
import re
import sys
from dataclasses import dataclass, field

TOP = os.path.dirname(os.path.dirname(os.path.dirname(os.path.abspath(__file__))))
sys.path.append(f"{TOP}/gate")
from finders import tree as files

# A name, or one that is taken from a module by the module's name; not a field behind a dot.
NAME = re.compile(r"(?<![\w.'])[A-Za-z_][\w'-]*(?:\.[A-Za-z_][\w'-]*)?")
USE = re.compile(r"\buse (?:Rattle\.)?([a-z_]+\.[\w.]+?)(?:\.\{([^}]*)\})?(?: as (\w+))?(?=[;\n]|$)")

# The name of a field where its record is made or declared: it names no definition.
LABEL = re.compile(r"(?<=[{;])\s*\w+\s*=(?!=)|^\s+(?:pub )?[\w]+ :(?= )", re.M)


@dataclass(frozen=True)
class Place:
    """The place of a definition: its crate, its file below the crate without the ending, and its name."""

    crate: str
    file: str
    name: str


@dataclass
class Definition:
    """A definition: its place, the line of its file at which it begins, the comment above it, its text without comments, its
    value or its parts as the code has them, the places of the definitions that it names, and the names that it takes from
    the language's library and from packages, each a module and a name."""

    place: Place
    line: int
    comment: str
    text: str = ""
    value: str = ""
    rests_on: set = field(default_factory=set)
    others: set = field(default_factory=set)


@dataclass
class Scope:
    """The names that a file of definitions or a part of code takes from others: single ones, and whole modules."""

    names: dict = field(default_factory=dict)
    modules: dict = field(default_factory=dict)

    def within(self, text):
        """This scope with what the `use` lines of a text add."""
        inner = Scope(dict(self.names), dict(self.modules))
        for module, words, alias in USE.findall(text):
            if words:
                inner.names.update((here, (module, there)) for here, there in imported(words))
            else:
                inner.modules[alias or module.rsplit(".", 1)[-1]] = module
        return inner

    def places(self, text):
        """The module and the name of all that a text takes from others; of its own file, no module and the name."""
        for word in set(NAME.findall(LABEL.sub(" ", text))):
            front, _, back = word.partition(".")
            if back and front in self.modules:
                yield self.modules[front], back
            else:
                yield self.names.get(front, (None, front))
        for word, place in self.names.items():
            if "◌" in word and all(it in text for it in word.split("◌") if it):
                yield place
        if "←" in text and "◌>>=◌" in self.names:
            yield self.names["◌>>=◌"]


def imported(words):
    """The names of a `use` line, each with its name where it is defined."""
    for word in words.split(","):
        name, _, alias = word.strip().partition(" as ")
        yield alias or name, name


def files_below(crate, folder, ending):
    """The files of a folder of a crate, each with its path below the crate, without the ending, and its text."""
    for path in files.files_below(TOP, f"crates/{crate}/{folder}", ending):
        yield path.split("/", 2)[2].removesuffix(ending), files.text_of(TOP, path)
