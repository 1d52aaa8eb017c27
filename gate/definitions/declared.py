"""The declarations of a crate's code, and the contracts of its calls."""
import re
import textwrap
from dataclasses import dataclass

from contracts import Named, around, closing, contract_end
from functions import TYPE, group_end, hidden, without_generics
from tree import Definition, Place, files_below

ITEM = re.compile(
    r"\bfn\s+(?P<call>\w+)|\bmod\s+(?P<mod>\w+)\s*\{|\b(?P<block>impl|trait)\b(?P<head>[^{;]*)\{"
    r"|\b(?P<kind>struct|enum)\s+(?P<type>\w+)|\bconst\s+(?P<const>[A-Z_0-9]+)\s*:"
)
IS_PUBLIC = re.compile(r"\bpub\s+(?:unsafe\s+|extern\s+)*$")
PART = re.compile(r"^ {4}(?:pub )?(?!ghost\b|pub\b)(\w+)(?=:|,| \{|\()", re.M)


@dataclass
class Call:
    """A function with its contract: its crate and file, its type or trait and its name, whether it is declared public, what its
    contract names, and its text up to its body."""

    crate: str
    file: str
    owner: str
    name: str
    is_public: bool
    named: Named
    text: str

    def is_in(self, names):
        """Whether it can be called from outside, where just these names of its crate can be named there."""
        return self.is_public and (self.owner or self.name) in names


class CodeFile:
    """A file of code: its declarations, each with the names in it; the names in the blocks of a type, by the type; its
    calls; and which types and constants are public."""

    def __init__(self, crate, path, text):
        self.crate, self.path, self.text = crate, path, text
        self.code = hidden(text)
        self.declared, self.said, self.calls, self.public = {}, {}, [], set()
        self.items(0, len(text), around(crate, text))

    def told(self):
        """Reads the declarations of the file."""
        return " ".join(line[3:].strip() for line in self.text.split("\n") if line.startswith("//!"))

    def items(self, at, end, here):
        """Reads the items between two places; answers the text between them."""
        rest = ""
        while item := ITEM.search(self.code, at, end):
            rest += self.code[at : item.start()]
            if item["call"]:
                at = self.call(item, at, here)
            elif item["mod"]:
                at = group_end(self.code, item.end() - 1)
            elif item["block"]:
                at = self.block(item, here)
            else:
                at = self.declaration(item, at, here)
        return rest + self.code[at:end]

    def call(self, item, begin, here):
        """Reads a function; answers where it ends."""
        contract, end = contract_end(self.code, item.end())
        is_public = here.is_trait or bool(IS_PUBLIC.search(self.code, begin, item.start()))
        named = here.named(self.code[item.end() : contract])
        text = textwrap.dedent(f"    {'pub ' * is_public}{self.text[item.start() : contract].rstrip()}")
        self.calls.append(Call(self.crate, self.path, here.owner, item["call"], is_public, named, text))
        return end

    def block(self, item, here):
        """Reads a trait, or what a block says of a type; answers where it ends."""
        end = group_end(self.code, item.end() - 1)
        of, _, to = without_generics(item["head"].replace("->", "  ")).partition(" for ")
        owner = TYPE.search((to or of).strip(" &"))
        if not owner:
            return end
        is_trait = item["block"] == "trait"
        within = here.within(owner[1], is_trait or bool(to), self.text[item.end() : end])
        first = len(self.calls)
        named = within.named(self.items(item.end(), end - 1, within))
        if is_trait:
            for call in self.calls[first:]:
                named.add(call.named)
            self.declare(owner[1], item, self.code[item.start() : end], "", named)
        else:
            self.said.setdefault(owner[1], Named()).add(named)
        return end

    def declaration(self, item, begin, here):
        """Reads a type or a constant; answers where it ends."""
        if IS_PUBLIC.search(self.code, begin, item.start()):
            self.public.add(item["type"] or item["const"])
        if item["const"]:
            end = closing(self.code, item.end(), ";")
            name = f"{here.owner}::{item['const']}" if here.owner else item["const"]
            value = " ".join(self.text[item.end() : end].split()).partition(" = ")[2]
            self.declare(name, item, value, value.replace("[ ", "[").replace(", ]", "]"), Named())
            return end
        end = closing(self.code, item.end(), ";{")
        end = group_end(self.code, end) if self.code[end] == "{" else end + 1
        code = self.code[item.end() : end]
        parts = ", ".join(PART.findall(code))
        self.declare(item["type"], item, self.code[item.start() : end], parts, here.named(code, is_type=True))
        return end

    def declare(self, name, item, text, value, named):
        """A type, a trait or a constant is declared here."""
        place = Place(self.crate, self.path, name)
        comment, line = self.comment_above(item.start())
        self.declared[place] = Definition(place, line, comment, text, value), named

    def comment_above(self, at):
        """The doc comment above the item at a place, and the item's line."""
        lines = self.text[:at].split("\n")
        found = []
        for line in reversed(lines[:-1]):
            if not re.match(r"\s*(///|#\[|\)\]$)", line):
                break
            found += [line.strip()[3:].strip()] if line.strip().startswith("///") else []
        return " ".join(reversed(found)), len(lines)


def read_code(crate):
    """The files of a crate's code, without its tests."""
    files = list(files_below(crate, "src", ".rt"))
    return [CodeFile(crate, path, text) for path, text in files if "tests" not in path.split("/")]


def public_files(texts):
    """The files of a crate's code whose modules can be named from outside: the root, and what one of these declares as public."""
    found, more = set(), {"src/lib"}
    while more:
        found |= more
        declared = ((path, name) for path in more for name in re.findall(r"^pub mod (\w+);", texts.get(path, ""), re.M))
        more = {f"{path.removesuffix('/lib')}/{name}" for path, name in declared} & texts.keys() - found
    return found


def public_names(files):
    """Returns the types, traits, constants and free functions of a crate that can be named from outside. In a program or a
    library for C all public declarations count."""
    texts = {it.path: it.text for it in files}
    inside, names = public_files(texts), set()
    for path in inside & texts.keys():
        for words in re.findall(r"^pub use [\w:]+::\{?([\w\s,]+)\}?;", texts[path], re.M):
            names |= {it.strip() for it in words.split(",")}
    if len(inside) == 1 and not names and not re.search("^pub fn", texts.get("src/lib", ""), re.M):
        inside = set(texts)
    declaring = [it for it in files if it.path in inside]
    return names.union(*(it.public for it in declaring), *({call.name for call in it.calls if not call.owner} for it in declaring))
