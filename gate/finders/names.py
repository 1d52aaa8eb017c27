"""Names that documents have and the tree doesn't, and names that stand in sentences of the code as if they were words."""
import re
from collections import defaultdict

from finders import tree

# Names with a method in documents that aren't of the tree: types of the language's library, and the package that CMake finds.
OF_OTHERS = {"Vec", "Box", "Mutex", "Metronome"}

CODE = (".rt", ".antt", ".rs")
TYPE = re.compile(r"\b(?:struct|enum|trait|type)\s+(\w+)")
BLOCK = re.compile(r"^(?:unsafe )?impl(?:<.*?>)?\s+(?:[\w:<>, ]+\s+for\s+)?(\w+)|^(?:pub )?trait (\w+)")
METHOD = re.compile(r"^\s+(?:pub(?:\([a-z]+\))? )?(?:const )?(?:unsafe )?fn (\w+)")
QUOTED = re.compile(r"`([^`]+)`")
CALL = re.compile(r"\b([A-Z]\w+)::([a-z_]\w*)\b")
NAME = re.compile(r"[a-z_]\w*")
OF_CRATE = re.compile(r"`([\w:]+)` of `(\w+)`")
COMMENT = {".rt": re.compile(r"\s*//[/!]?\s(.*)"), ".antt": re.compile(r"\s*--\s(.*)")}
OF_CODE = re.compile(r"\b[a-z]+_[a-z_]+\b")


class Names:
    """The names of a tree: its types, the methods of each, and the words of each crate's files."""

    def __init__(self, top):
        self.types, self.methods, self.words = set(), defaultdict(set), defaultdict(set)
        for path in [*tree.files_below(top, "crates", *CODE), *tree.files_below(top, "bindings", *CODE)]:
            text = tree.text_of(top, path)
            self.words[tree.crate_of(path)] |= set(re.findall(r"\w+", text))
            if not path.endswith(".antt"):
                self.read(text)

    def read(self, text):
        """Takes the types and methods of a file of code."""
        self.types |= set(TYPE.findall(text))
        owner = None
        for line in text.split("\n"):
            block, method = BLOCK.match(line), METHOD.match(line)
            if block:
                owner = block[1] or block[2]
            elif method and owner:
                self.methods[owner].add(method[1])

    def lacks_call(self, owner, method):
        """Whether there is no such type, or no such method of it."""
        return owner not in OF_OTHERS and (owner not in self.types or method not in self.methods[owner])

    def lacks_word(self, top, crate, word):
        """Whether neither the crate nor the repository's top has the word."""
        return word not in self.words[crate] and word not in tree.crates(top) and word not in ("include", "bindings")

    def lacks_of(self, crate, name):
        """Whether there is such a crate, and it lacks a word of the name."""
        return crate in self.words and not set(name.split("::")) <= self.words[crate]


def of_document(top, page, names):
    """The names in a document that the tree doesn't have: a type's method anywhere, a name of a crate that is said to have it, any
    name in a crate's document."""
    crate = tree.crate_of(page)
    for number, line in tree.lines_of(top, page):
        yield from (f"{page}: `{name}` of `{other}`" for name, other in OF_CRATE.findall(line) if names.lacks_of(other, name))
        for quoted in QUOTED.findall(line):
            yield from (f"{page}: `{owner}::{method}`" for owner, method in CALL.findall(quoted) if names.lacks_call(owner, method))
            if crate and NAME.fullmatch(quoted) and names.lacks_word(top, crate, quoted):
                yield f"{page}: `{quoted}`"


def of_comments(top, path):
    """The names that stand in comments of a file of code without the signs of a name."""
    comment = COMMENT["." + path.rsplit(".", 1)[1]]
    for _, line in tree.lines_of(top, path):
        if found := comment.match(line):
            yield from (f"{path}: {it} stands in a sentence without ``" for it in OF_CODE.findall(QUOTED.sub("", found[1])))


def found(top):
    """Each name that a document has and the tree doesn't, and each that stands in a sentence of the code as a word."""
    names = Names(top)
    of_documents = [it for page in tree.documents(top) for it in of_document(top, page, names)]
    of_code = [it for path in tree.files_below(top, "crates", *COMMENT) for it in of_comments(top, path)]
    return [*(f"{it} isn't in the tree" for it in of_documents), *of_code]
