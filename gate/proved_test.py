"""A test of what is taken for proved: copies of a repository of its own, in which a run said this or that, and left this or that."""
import os
import shutil
import tempfile

from finders import tree
from kit import rt
from proved import PARTS, is_built, note
from proving import Proving

IS_BUILT = f"{os.path.dirname(os.path.dirname(os.path.abspath(__file__)))}/bin/package/is-built"
NAMES = ["below", "above", "program"]

FILES = {
    "crates.txt": "below:\nabove: below\nprogram: below\n",
    "HANDLES": "Handles allowed: none.\n",
    "crates/program/src/main.rt": "#![tactic(auto)]\n",
    "crates/below/src/lib.rt": "#![tactic(auto)]\n",
    "crates/below/specs/Lib.antt": "pub mod It\n",
    "crates/below/specs/It.antt": "use Prim.Native.Nat.{ℕ}\n",
    "crates/above/src/lib.rt": "#![tactic(auto)]\n",
}
PROGRAM = "crates/program/out/program"
OF_ABOVE = "crates/above/out/rlib/above.rlib"
SAID = "rt: below proved\nrt: above is kept: an earlier run proved the same\nrt: program proved\n3 passed, 0 failed\n"


def write(top, path, text):
    """Writes a file of the copy."""
    tree.write(top, {path: text})


def library(top, name, of=None):
    """Leaves a library of a crate, or that of another one in its place."""
    for part in PARTS:
        write(top, f"crates/{name}/out/rlib/{name}.rlib/{part}", f"rattle rlib\ncrate {of or name}\n")


def change(top, path, back):
    """Changes a file of the copy, and maybe changes it back."""
    write(top, path, "other\n")
    if back:
        write(top, path, FILES[path])


def lists(top, text):
    """Changes the list of crates, which the toolchain reads once in a run."""
    write(top, "crates.txt", text)
    rt.rtlib.listed.cache_clear()


def rlib(top, name):
    """The folder of a crate's library."""
    return f"{top}/crates/{name}/out/rlib/{name}.rlib"


# Events during the run, or left by it; and which of the crates that it proved are still as proved: of `below`, `above` and
# `program`.
CASES = {
    "nothing": (lambda top: None, NAMES),
    "no folder": (lambda top: shutil.rmtree(rlib(top, "above")), ["below", "program"]),
    "an empty folder": (lambda top: [shutil.rmtree(rlib(top, "above")), os.mkdir(rlib(top, "above"))], ["below", "program"]),
    "a library without its code": (lambda top: write(top, f"{OF_ABOVE}/toolchain/checked.a", ""), ["below", "program"]),
    "another crate's library": (lambda top: library(top, "above", "below"), ["below", "program"]),
    "a crate is edited": (lambda top: change(top, "crates/above/src/lib.rt", False), ["below"]),
    "a definition below is edited": (lambda top: change(top, "crates/below/specs/It.antt", False), []),
    "an edit is taken back": (lambda top: change(top, "crates/above/src/lib.rt", True), ["below", "program"]),
    "a file comes": (lambda top: write(top, "crates/above/proofs/Lib.antt", "\n"), ["below"]),
    "a file goes": (lambda top: os.remove(f"{top}/crates/above/src/lib.rt"), ["below"]),
    "another line of crates.txt": (lambda top: lists(top, "below:\nabove:\nprogram: below\n"), ["below"]),
    "a crate isn't proved": (lambda top: write(top, "log", SAID.replace("below proved", "below NOT PROVED")), ["above", "program"]),
    "a crate isn't told of": (lambda top: write(top, "log", "rt: below proved\n1 passed, 1 failed\n"), ["below"]),
    "no program": (lambda top: os.remove(f"{top}/{PROGRAM}"), ["below", "above"]),
}

# Changes of a copy in which a program is built, and whether the program is still built of it.
CHANGES = {
    "nothing": (lambda top: None, True),
    "the time of a file": (lambda top: os.utime(f"{top}/crates/below/src/lib.rt"), True),
    "a document": (lambda top: write(top, "crates/below/README.md", "other\n"), True),
    "code": (lambda top: write(top, "crates/below/src/lib.rt", "other\n"), False),
    "a definition": (lambda top: write(top, "crates/below/specs/It.antt", "other\n"), False),
    "a proof": (lambda top: write(top, "crates/below/proofs/Lib.antt", "other\n"), False),
    "the list of crates": (lambda top: write(top, "crates.txt", "program: below\nbelow:\nabove: below\n"), False),
    "what is allowed": (lambda top: write(top, "HANDLES", "other\n"), False),
    "a file that goes": (lambda top: os.remove(f"{top}/crates/above/src/lib.rt"), False),
    "another program": (lambda top: write(top, PROGRAM, "other\n"), False),
    "no program": (lambda top: os.remove(f"{top}/{PROGRAM}"), False),
    "no mark": (lambda top: os.remove(f"{top}/{PROGRAM}.built"), False),
}


def copy(top):
    """Writes a copy of the repository, as it is before a run and behind it."""
    tree.write(top, FILES)
    os.makedirs(f"{top}/bin/package")
    shutil.copy(IS_BUILT, f"{top}/bin/package/is-built")
    note(top, f"{top}/noted")
    for name in ("below", "above"):
        library(top, name)
    write(top, PROGRAM, "a program\n")
    write(top, "log", SAID)


def stamps(top):
    """The libraries and programs of a copy that have a stamp."""
    files = {"below": "rlib/stamp", "above": "rlib/stamp", "program": "program.built"}
    return [it for it in NAMES if os.path.exists(f"{top}/crates/{it}/out/{files[it]}")]


def kept_well(kept, happens, wanted):
    """Whether exactly the crates that must be kept get their stamp."""
    with tempfile.TemporaryDirectory() as top:
        copy(top)
        happens(top)
        return kept(top, f"{top}/log", f"{top}/noted") == (len(wanted), len(NAMES) - len(wanted)) and stamps(top) == wanted


def built_well(happens, wanted):
    """Whether a program is said to be built as is wanted, once something was changed behind the build."""
    with tempfile.TemporaryDirectory() as top:
        copy(top)
        file, sum_of_all = f"{top}/{PROGRAM}", is_built(top, "--sum").stdout.strip()
        if not is_built(top, file).returncode or is_built(top, "--mark", file, sum_of_all).returncode:
            return False
        happens(top)
        return (is_built(top, file).returncode == 0) == wanted


def waits_for_one(kept):
    """Whether a crate that is named gets its stamp while the run goes on, and no other."""
    with tempfile.TemporaryDirectory() as top:
        copy(top)
        write(top, "log", SAID.partition("\n")[0] + "\n")
        return kept(top, f"{top}/log", f"{top}/noted", "below") == (1, 0) and stamps(top) == ["below"]


def marks_late():
    """Whether a program isn't marked where something was changed since the sum was taken."""
    with tempfile.TemporaryDirectory() as top:
        copy(top)
        file, sum_of_all = f"{top}/{PROGRAM}", is_built(top, "--sum").stdout.strip()
        write(top, "crates/below/src/lib.rt", "other\n")
        return is_built(top, "--mark", file, sum_of_all).returncode != 0 and is_built(top, file).returncode != 0


def given_well(happens, wanted, changes_here=False):
    """Whether just the libraries that are wanted are given to another copy, with their stamps; that may have other files."""
    with tempfile.TemporaryDirectory() as top, tempfile.TemporaryDirectory() as here:
        copy(top)
        tree.write(here, FILES)
        if changes_here:
            change(here, "crates/above/src/lib.rt", False)
        happens(top)
        run = Proving(top, f"{top}/log", f"{top}/noted")
        given = [it.name for it in rt.rtlib.crates_below(here) if not it.is_program and run.gives(it)]
        return given == stamps(here) == [it for it in wanted if it != "program"]


def passed(kept):
    """How many looks were good, and how many weren't, at what gives libraries their stamps."""
    good = {}
    for what, (happens, wanted) in CASES.items():
        good[what] = kept_well(kept, happens, wanted)
        good[f"{what}, beside"] = given_well(happens, wanted)
    for what, (happens, wanted) in CHANGES.items():
        good[f"{what} is changed"] = built_well(happens, wanted)
    good["one crate"] = waits_for_one(kept)
    good["a late mark"] = marks_late()
    good["other files here, beside"] = given_well(CASES["nothing"][0], ["below"], changes_here=True)
    for what in [it for it, is_good in good.items() if not is_good]:
        print(f"self-test: {what}")
    return list(good.values()).count(True), list(good.values()).count(False)
