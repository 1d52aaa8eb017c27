"""Definitions whose sentence leans on the one before, so that it says nothing where it stands alone, as in the list of definitions."""
import re

from finders import tree

COMMENT = re.compile(r"\s*-- ")
LEANS = re.compile(r"\s*-- (?:the same|and|they)\b", re.I)


def found(top):
    """Each sentence above a definition that begins so."""
    leaning = []
    for path in tree.files_below(top, "crates", ".antt"):
        if path.split("/")[2] != "specs":
            continue
        lines = tree.text_of(top, path).split("\n")
        for before, line in zip(["", *lines], lines):
            if LEANS.match(line) and not COMMENT.match(before):
                leaning.append(f"{path}: {line.strip()}")
    return leaning
