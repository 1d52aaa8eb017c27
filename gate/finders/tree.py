"""The files of a tree: its documents, its crates, and what of them a finder reads."""
import os
import re

# The folders that the toolchain, other tools and git make.
MADE = {".git", "out", "target", "__pycache__"}


def files_below(top, folder, *endings):
    """The files below a folder of a tree whose names end so, by their paths in the tree, in their order; what is made is left out."""
    found = []
    for at, folders, names in os.walk(os.path.join(top, folder)):
        folders[:] = sorted(it for it in folders if it not in MADE)
        found += [os.path.relpath(f"{at}/{it}", top) for it in sorted(names) if it.endswith(endings)]
    return found


def text_of(top, path):
    """The text of a file of a tree."""
    with open(f"{top}/{path}", encoding="utf-8") as file:
        return file.read()


def write(top, texts):
    """Writes texts into files below a folder, by their paths in it."""
    for path, text in texts.items():
        os.makedirs(os.path.dirname(f"{top}/{path}"), exist_ok=True)
        with open(f"{top}/{path}", "w", encoding="utf-8") as file:
            file.write(text)


def documents(top):
    """The documents of a tree."""
    return files_below(top, "", ".md")


def crates(top):
    """The names of a tree's crates."""
    return sorted(os.listdir(f"{top}/crates"))


def listed(top):
    """The names of a tree's crates, lowest first, as crates.txt has them."""
    lines = text_of(top, "crates.txt").splitlines()
    return [re.split("[: ]", it)[0] for it in lines if it.strip() and not it.startswith("#")]


def crate_of(path):
    """The crate that a file belongs to, or None."""
    parts = path.split("/")
    return parts[1] if parts[0] == "crates" and len(parts) > 2 else None


def lines_of(top, path):
    """The lines of a file of a tree, with their numbers."""
    return enumerate(text_of(top, path).split("\n"), 1)
