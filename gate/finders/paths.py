"""Paths that documents name and that aren't there."""
import os
import re

from finders import tree

# The paths in documents: in a link, or as a word of its own that begins with a folder of the repository, of a crate, or with a
# crate.
LINK = re.compile(r"\]\(([^)#:]+)\)")
FOLDERS = "bench|bin|crates|docs|examples|gate|include|tests|bindings"
PARTS = "src|specs|proofs|must-fail|wrong-bodies"
PATH = re.compile(rf"(?<![\w/.*-])((?:{FOLDERS})/[\w./-]*\w)(?![\w/*]*\*)")
OF_CRATE = re.compile(rf"(?<![\w/.*-])((?:([a-z]\w*)/)?(?:{PARTS})/[\w./-]*\w)(?![\w/*]*\*)")

# A path that stands for many, or for what is made.
PATTERN = re.compile(r"\b(?:crates|specs|proofs)/[A-Z]{2,}\b|/out/|\b(?:src|proofs)/a\b")


def is_in_a_crate(top, page, path, crate):
    """Whether a path of a crate's part is there: in the crate that it begins with, in the one whose document names it, or else in
    any."""
    if crate:
        return os.path.exists(f"{top}/crates/{path}")
    own = tree.crate_of(page)
    return any(os.path.exists(f"{top}/crates/{it}/{path}") for it in ([own] if own else tree.crates(top)))


def dead(top, page):
    """The paths that a document names and that aren't there."""
    text = tree.text_of(top, page)
    for target in LINK.findall(text):
        if not os.path.exists(os.path.join(top, os.path.dirname(page), target)):
            yield target
    for path in PATH.findall(text):
        if not PATTERN.search(path) and not os.path.exists(f"{top}/{path}"):
            yield path
    for path, crate in OF_CRATE.findall(text):
        if not PATTERN.search(path) and not is_in_a_crate(top, page, path, crate):
            yield path


def found(top):
    """Each path that a document names and that isn't there."""
    return [f"{page}: {path} isn't there" for page in tree.documents(top) for path in dict.fromkeys(dead(top, page))]
