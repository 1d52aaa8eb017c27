"""How many worked cases, wrong bodies, tests and crates a tree has, and which of them went since a revision."""
import os
import re
import subprocess
import tempfile

from finders import tree

TEST = re.compile(r"#\[test\]\s*(?:#\[[^\]]*\]\s*)*(?:pub )?fn (\w+)")
# The kinds of cases in `tests/run --count` each of which passes or fails when it is played.
PLAYED = re.compile(r"^(\d+) (?:stories|runs of the program|commands of documents)$", re.M)


def edits(top):
    """Returns the wrong bodies of a tree: each file's path in the tree, by its crate's name and its own."""
    paths = tree.files_below(top, "crates", ".edit")
    return {f"{tree.crate_of(it)}/{os.path.basename(it).removesuffix('.edit')}": it for it in paths}


def quick(top):
    """The texts of the wrong bodies that the gate tries, by their crates' names and their own."""
    return {name: tree.text_of(top, path) for name, path in edits(top).items() if path.split("/")[2:-1] == ["wrong-bodies"]}


def must_fail(top):
    """The edits that `rt ci` tries, each as it names them: by its crate's name and its file's."""
    return [f"{tree.crate_of(it)}/{os.path.basename(it)}" for it in edits(top).values() if it.split("/")[2] == "must-fail"]


def tests(top):
    """The tests of a tree's crates, each by its file's path and its own name."""
    return [f"{path}: {name}" for path in tree.files_below(top, "crates", ".rt") for name in TEST.findall(tree.text_of(top, path))]


def cases(top):
    """How many worked cases of each kind a tree has, as `tests/run --count` says it; nothing where a file of cases can't be read,
    which it says."""
    run = subprocess.run([f"{top}/tests/run", "--count"], capture_output=True, text=True, check=False)
    if run.returncode:
        print(run.stdout, run.stderr, sep="")
    return "" if run.returncode else run.stdout


def played(top):
    """How many cases of a tree are played, each of which passes or fails."""
    return sum(map(int, PLAYED.findall(cases(top))))


def told(top):
    """Returns the items of a tree, each with its folder."""
    found = {f"wrong body {name}": os.path.dirname(path).split("/", 2)[2] for name, path in edits(top).items()}
    files = tree.files_below(top, "tests/cases", ".story", ".runs")
    return {**found, **{it: "" for it in [*tests(top), *files, *tree.listed(top)]}}


def gone(was, now):
    """Returns the items of the first that aren't in the second, or are in another folder."""
    left = [f"{it} is gone" for it in was if it not in now]
    return left + [f"{it} was in {was[it]} and is in {now[it]}" for it in was if it in now and was[it] != now[it]]


def fewer(was, now):
    """Returns those lines that begin with a number whose number is smaller now."""
    return [f"{now} now, {was} before" for was, now in zip(was, now) if int(now.split()[0]) < int(was.split()[0])]


def since(top, revision):
    """Returns the items that a tree has lost since a revision."""
    with tempfile.TemporaryDirectory(prefix="counts-") as room:
        archived = subprocess.run(["git", "-C", top, "archive", revision], capture_output=True, check=False)
        if archived.returncode or subprocess.run(["tar", "x", "-C", room], input=archived.stdout, check=False).returncode:
            return [f"{revision} isn't here: nothing is compared with it"]
        return gone(told(room), told(top)) + fewer(cases(room).splitlines(), cases(top).splitlines())
