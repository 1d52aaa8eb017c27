"""The names in a piece of code: definitions in its contracts, and types."""
import re
from dataclasses import dataclass, field

from tree import Scope
from functions import body_of, group_end

GHOST = re.compile(r"(?:\b(?:requires|ensures)\b\*?\s*\w*|\bghost\s+(?P<label>\w+)\s*(?P<sign>[:=]))\s*\{")
RUST_USE = re.compile(r"^(?:pub )?use (\w+)(?:::\w+)*?::(?:\{([^}]*)\}|(\w+));", re.M)
CAPITAL = re.compile(r"\b[A-Z]\w*")
IS_OWN = re.compile(r"\b[Ss]elf\b")


@dataclass
class Named:
    """The names in a piece of code: definitions, each a module and a name; types, each a crate and a name; the definitions
    that only the invariant of a type cites, and not the contracts' view of it; and the texts that name them."""

    definitions: set = field(default_factory=set)
    types: set = field(default_factory=set)
    promises: set = field(default_factory=set)
    ghosts: list = field(default_factory=list)

    def add(self, other):
        self.definitions |= other.definitions
        self.types |= other.types
        self.promises |= other.promises
        self.ghosts += other.ghosts


@dataclass
class Around:
    """The surroundings of a piece of code: its crate, the types and the definitions that it imports, the type or trait whose
    block it is in, and whether that block is a trait or of one, in which all is public."""

    crate: str
    types: dict
    scope: Scope
    owner: str = ""
    is_trait: bool = False

    def named(self, code, is_type=False):
        """Returns the names in a piece of code. In a type, a ghost part with a colon is part of the invariant, unless it is
        a public field."""
        plain, ghosts, promises, texts, at = "", "", "", [], 0
        while found := GHOST.search(code, at):
            end = group_end(code, found.end() - 1)
            inside = code[found.end() : end - 1] + "\n"
            is_asked = is_type and found["sign"] == ":" and not code[: found.start()].endswith("pub ")
            is_promise = is_asked or found["label"] == "invariant"
            ghosts, promises = ghosts + inside * (not is_promise), promises + inside * is_promise
            texts.append(code[found.start() : end])
            plain, at = plain + code[at : found.start()], end
        plain += code[at:]
        types = {self.types.get(it, (self.crate, it)) for it in CAPITAL.findall(plain)}
        if self.owner and IS_OWN.search(code):
            types.add((self.crate, self.owner))
        return Named(self.taken(ghosts), types, self.taken(promises), texts)

    def taken(self, ghosts):
        """The definitions that a text of the logic names."""
        return {it for it in self.scope.places(ghosts) if it[0]}

    def within(self, owner, is_trait, text):
        """The same in a block of a type or trait, with what its `use` lines add."""
        uses = "\n".join(re.findall(r"^\s*ghost use .*", text, re.M))
        return Around(self.crate, self.types, self.scope.within(uses), owner, is_trait)


def around(crate, text):
    """Returns the surroundings of the items of a file."""
    types = {}
    for front, names, name in RUST_USE.findall(text):
        of = crate if front in ("crate", "self", "super") else front
        for word in (names or name).split(","):
            there, _, here = word.strip().partition(" as ")
            types[here or there] = (of, there)
    scope = Scope().within("\n".join(re.findall(r"^ghost use .*", text, re.M)))
    return Around(crate, types, scope)


def contract_end(code, at):
    """Returns the ends of the contract, and of the function, whose name ends at a place."""
    body = body_of(code, at)
    if body is not None:
        return body, group_end(code, body)
    end = closing(code, at, ";")
    return end, end + 1


def closing(code, at, signs):
    """Returns the first place of one of some signs behind a place, outside brackets."""
    depth = 0
    while depth or code[at] not in signs:
        depth += {"(": 1, "[": 1, "{": 1, ")": -1, "]": -1, "}": -1}.get(code[at], 0)
        at += 1
    return at
