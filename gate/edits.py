"""The edits of a crate: files that say which texts are to be turned into which."""
import difflib
import itertools
import os
import re
from dataclasses import dataclass, field

from kit import rt

# The folder of a crate's wrong bodies; and below it, that of slow ones, if another edit turns the same function.
FOLDER, SLOW = "wrong-bodies", "wrong-bodies/slow"
NAME = re.compile(r"[A-Za-z0-9_-][A-Za-z0-9_.-]*\.edit")
# A line that `rt` doesn't read: the function, as the prover names it below the crate, whose proof fails with a definition's edit.
REFUSED_BY = re.compile(r"^refused by: (\S+)$", re.M)


@dataclass
class Edit:
    """An edit: the new texts of the files that it names, or why it can't be applied."""

    crate: object
    file: str
    # the whole text of each file that it changes, by the file's path in the crate
    texts: dict = field(default_factory=dict)
    fault: str = ""
    # the changes of each file: the path, where the changed text begins and ends, and the text in its place
    places: list = field(default_factory=list)
    # the functions that it says refuse it
    refused_by: tuple = ()

    @property
    def name(self):
        """The edit's name, with its crate's."""
        return f"{self.crate.name}/{os.path.basename(self.file).removesuffix('.edit')}"


def place(path, at, was, now):
    """Returns the change of lines that begin at a place: the path, where the changed text begins and ends, and the text in
    its place."""
    most = min(len(was), len(now))
    start = next((it for it in range(most) if was[it] != now[it]), most)
    behind = next((it for it in range(most - start) if was[-1 - it] != now[-1 - it]), most - start)
    return path, at + start, at + len(was) - behind, now[start : len(now) - behind]


def changed(path, was, now):
    """The places of a file that are changed."""
    old, new = was.splitlines(True), now.splitlines(True)
    starts = [0, *itertools.accumulate(map(len, old))]
    runs = difflib.SequenceMatcher(None, old, new, autojunk=False).get_opcodes()
    return [place(path, starts[a], "".join(old[a:b]), "".join(new[c:d])) for tag, a, b, c, d in runs if tag != "equal"]


def read(crate, file):
    """The edit that a file tells, applied to the crate's texts."""
    edit = Edit(crate, file)
    if not NAME.fullmatch(os.path.basename(file)):
        edit.fault = "an edit's name is of letters, digits, _, - and ., and ends in .edit"
        return edit
    texts, why = rt.read_edit(file, crate.folder)
    if why:
        edit.fault = why
        return edit
    edit.texts = texts
    with open(file, encoding="utf-8") as opened:
        edit.refused_by = tuple(REFUSED_BY.findall(opened.read()))
    for path, now in texts.items():
        with open(f"{crate.folder}/{path}", encoding="utf-8") as opened:
            edit.places += changed(path, opened.read(), now)
    return edit


def edits_of(crate, folder):
    """The edits in a folder of the crate, in the order of their names."""
    at = f"{crate.folder}/{folder}"
    names = sorted(os.listdir(at)) if os.path.isdir(at) else []
    return [read(crate, f"{at}/{name}") for name in names if not os.path.isdir(f"{at}/{name}")]


def wrong_bodies(crate, is_quick=False):
    """The wrong bodies of a crate; without the slow ones where the run is to be quick."""
    return edits_of(crate, FOLDER) + ([] if is_quick else edits_of(crate, SLOW))


def twice(them):
    """Those of these edits whose name one before them has."""
    known = set()
    return [it for it in them if it.name in known or known.add(it.name)]
