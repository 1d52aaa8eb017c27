"""Libraries and programs that a run of `rt ci` proved, which are taken for what the crates' files were before it, and for
nothing else."""
import json
import os
import re
import subprocess
import time

from kit import gathered, rt

# The last line of a run.
ENDED = re.compile(r"^\d+ passed, \d+ failed", re.M)
# The parts of a library, without the texts in it.
PARTS = ("format", "toolchain/checked.a", "toolchain/checked.json", "toolchain/mir.json")


def touched(crate):
    """Returns a mark that shows whether a file of the crate was changed, even if it was changed back, or its line of
    crates.txt."""
    return [repr(crate.said), [list(it) for it in rt.touched(crate)]]


def is_built(top, *words):
    """A run of bin/package/is-built, which says what is built of what."""
    return subprocess.run([f"{top}/bin/package/is-built", *words], capture_output=True, text=True, check=False)


def note(top, file):
    """Notes of each crate what its files are, and of all that a build reads its sum, before a run."""
    crates = rt.rtlib.crates_below(top)
    first = {it.name: touched(it) for it in crates}
    with gathered():
        noted = {it.name: [it.stamp(), first[it.name]] for it in crates}
    with open(file, "w", encoding="utf-8") as out:
        json.dump({"crates": noted, "sum": is_built(top, "--sum").stdout.strip()}, out)


def is_whole(crate):
    """Whether the crate's library is there, with all its parts, and is that of this crate."""
    with_bytes = [os.path.isfile(it) and os.path.getsize(it) > 0 for it in (f"{crate.rlib}/{part}" for part in PARTS)]
    return all(with_bytes) and f"\ncrate {crate.name}\n" in (rt.rtlib.text_of(f"{crate.rlib}/format") or "")


def program(crate):
    """The file that is built of a crate that is a program."""
    return f"{crate.folder}/out/{crate.name}"


class Proved:
    """The proofs of a run: the top of the copy of the repository that it reads, the file with its output so far, and the
    notes of the crates' files before it."""

    def __init__(self, top, log, noted):
        self.top, self.log = top, log
        self.crates = {it.name: it for it in rt.rtlib.crates_below(top)}
        with open(noted, encoding="utf-8") as file:
            told = json.load(file)
        self.noted, self.sum = told["crates"], told["sum"]

    def said(self):
        """Returns the output of the run so far."""
        return rt.rtlib.text_of(self.log) or ""

    def proves(self, name):
        """Whether the run proves the crate of this name: waits until it says so, or ends."""
        proved = re.compile(rf"^rt: {name} (?:proved$|is kept:)", re.M)
        said = self.said()
        while not proved.search(said) and not ENDED.search(said):
            time.sleep(1)
            said = self.said()
        return bool(proved.search(said))

    def fault(self, name):
        """Why the library or the program of this name isn't what the run proved of the files that were noted; None where it
        is."""
        crate = self.crates[name]
        if not self.proves(name):
            return "the run doesn't say that it is proved"
        if any(it.name not in self.noted or touched(it) != self.noted[it.name][1] for it in (crate, *crate.below())):
            return "its files, or those below it, aren't those from before the run"
        if crate.is_program:
            return None if os.path.isfile(program(crate)) else "no program"
        return None if is_whole(crate) else "no library, or a part of one"

    def stamp(self, name):
        """The stamp that says of which text the library of this name is."""
        return self.noted[name][0]

    def mark(self, name):
        """Says of the library or the program of this name of which text it is; why it doesn't, or None."""
        fault, crate = self.fault(name), self.crates[name]
        if not fault and not crate.is_program:
            with open(f"{os.path.dirname(crate.rlib)}/stamp", "w", encoding="utf-8") as file:
                file.write(self.stamp(name))
        elif not fault and is_built(self.top, "--mark", program(crate), self.sum).returncode:
            fault = "what a build reads isn't what it was before the run"
        return fault
