"""Names that a file of a crate imports and doesn't use, and libraries that crates.txt gives a crate, of which it names none."""
import re

from finders import tree

USE = re.compile(r"^[ \t]*(pub )?(?:ghost )?use ([^;\n{]*(?:\{[^}]*\})?[^;\n]*);?$", re.M)
COMMENT = re.compile(r"^\s*(?://|--).*$", re.M)
TRAIT = re.compile(r"\btrait (\w+)")
WORD = re.compile(r"[\w#'-]+")
PLACE = "◌"
# Traits of the language's library that are imported for their methods.
OF_OTHERS = {"Input"}
LISTED = re.compile(r"^(\w+)[^:#\n]*:(.*)$", re.M)
NAMED = re.compile(r"(\w+)(?:::|\.)")


def imported(use):
    """The names that a `use` imports."""
    inside = re.search(r"\{([^}]*)\}", use)
    for it in [it.strip() for it in inside.group(1).split(",")] if inside else [use]:
        before, _, other = it.partition(" as ")
        yield other or re.split(r"\.|::", before)[-1]


def stands(name, text):
    """Whether a name stands in a text: each of its pieces does, where it has places for operands."""
    if PLACE in name:
        return all(it in text for it in name.split(PLACE))
    return bool(re.search(rf"(?<![\w#'-]){re.escape(name)}(?![\w'])", text))


def unused(texts):
    """The names that each file imports and doesn't use. A trait may be imported for its methods, and `pub use` is for others."""
    passed = {"", "self", "*", *OF_OTHERS, *(name for text in texts.values() for name in TRAIT.findall(text))}
    for path, text in texts.items():
        rest = COMMENT.sub("", USE.sub("", text))
        there = passed | set(WORD.findall(rest))
        for use in USE.finditer(text):
            for name in [] if use.group(1) else imported(use.group(2)):
                if name not in there and not stands(name, rest):
                    yield f"{path}: {name} is imported and isn't used"


def unnamed(top, texts):
    """The libraries that each crate has, by its line in crates.txt, and doesn't name."""
    for crate, libraries in LISTED.findall(tree.text_of(top, "crates.txt")):
        named = {name for path, text in texts.items() if tree.crate_of(path) == crate for name in NAMED.findall(text)}
        for library in libraries.split():
            if library not in named:
                yield f"crates.txt: {crate} names nothing of {library}"


def found(top):
    """Each such name and library."""
    texts = {path: tree.text_of(top, path) for path in tree.files_below(top, "crates", ".rt", ".antt")}
    yield from unused(texts)
    yield from unnamed(top, texts)
