"""The edits that earlier runs on this machine refused, by the checksums of all files that their trials read."""
import hashlib
import json
import os
import sys

from kit import rt

STORE = f"{os.environ.get('XDG_CACHE_HOME') or os.path.expanduser('~/.cache')}/barleynight-wrong-bodies"
HERE = os.path.dirname(os.path.abspath(__file__))


def text_of(file):
    """A file's bytes."""
    with open(file, "rb") as opened:
        return opened.read()


def judges():
    """A sum of the parts of this program on which a verdict rests: all that are loaded from its folder, except its own test."""
    loaded = {os.path.abspath(getattr(it, "__file__", None) or "") for it in list(sys.modules.values())}
    parts = sorted(it for it in loaded if os.path.dirname(it) == HERE and not it.endswith("_test.py"))
    return hashlib.sha256(b"".join(map(text_of, parts))).hexdigest()


def whole(edit, place, refused):
    """The content of a file of the store: the edit, how it was refused, and the sum of both and of the file's name."""
    told = repr((edit.name, os.path.basename(place), list(refused)))
    return {"edit": edit.name, "refused": list(refused), "sum": hashlib.sha256(told.encode()).hexdigest()}


class Kept:
    """The store, as it stands for the files that the crates have when the run begins."""

    def __init__(self, anew):
        self.anew, self.judges = anew, judges()
        self.first, self.stamps, self.places = {}, {}, {}

    def stamp(self, crate):
        """A sum of the crate's files, those of the crates below, and the toolchain, as they were when first asked for."""
        for it in (crate, *crate.below()):
            if it.name not in self.first:
                self.first[it.name] = rt.touched(it)
        return rt.stamp_of(crate, self.stamps)

    def is_untouched(self, crate):
        """Whether no file of the crate, or of those below, was changed since its sum was made."""
        return all(rt.touched(it) == self.first[it.name] for it in (crate, *crate.below()))

    def place(self, edit):
        """The file that holds how the prover refused an edit, as it was when first asked for."""
        if edit.name not in self.places:
            told = (self.stamp(edit.crate), self.judges, edit.name, text_of(edit.file))
            self.places[edit.name] = f"{STORE}/{hashlib.sha256(repr(told).encode()).hexdigest()}"
        return self.places[edit.name]

    def refused(self, edit):
        """How the prover refused an edit in an earlier run, or None."""
        if edit.fault:
            return None
        place = self.place(edit)
        if self.anew:
            return None
        try:
            told = json.loads(text_of(place))
            return told["refused"] if told == whole(edit, place, told["refused"]) else None
        except (OSError, ValueError, KeyError, TypeError):
            return None

    def keep(self, crate, refused):
        """Keeps how the prover refused edits of a crate, each with what that rests on, unless a file that it read was changed
        since the run began."""
        if not refused or not self.is_untouched(crate):
            return
        for edit, told in refused:
            place = self.place(edit)
            try:
                os.makedirs(STORE, 0o700, exist_ok=True)
                with open(f"{place}.{os.getpid()}", "w", encoding="utf-8") as file:
                    json.dump(whole(edit, place, told), file)
                os.replace(f"{place}.{os.getpid()}", place)
            except OSError as fault:
                print(f"wrong-bodies: {edit.name} isn't kept: {fault}")
