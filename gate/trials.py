"""The trials: many bodies turned at once in a copy of their crate, or one edit by itself."""
import copy
import itertools
import os
import re
import shutil
import signal
import tempfile
from dataclasses import dataclass

import copies
import functions
import verdicts
from kit import rt

# How many bodies are turned at once, at most, where they begin with what is proved: more would leave threads without work.
MOST = 32

# A declaration with which answers hold a fault: if a function's answers have none, and it isn't proved, the prover runs once
# more to offer some.
FAULTY = f"{verdicts.FAULT} : Type 0\n{verdicts.FAULT} = Type 0\n"

# The text that `rt` writes before the reason of an edit's verdict.
LABEL = re.compile(r"^must-fail \S+: (?:refused, as it must be|NOT REFUSED|BAD EDIT|NOT TRIED)[: ]*")

# The text with which the compiler rejects a text.
REJECTED = re.compile(r"^(?:\./)?(src/\S+?):(\d+):\d+: error\[", re.M)


@dataclass
class Trial:
    """Some edits of a crate, each with the paths of the functions that it turns, or of a copy; one alone has those that it says
    refuse it, or none. One that leads is made over nothing, and leaves the work that the others begin with: so it asks for what
    they ask for besides."""

    crate: object
    edits: list
    paths: list
    leads: bool = False
    besides: tuple = ()

    @property
    def is_whole(self):
        """Whether it takes a check of the whole crate."""
        return self.paths == [()]

    @property
    def is_named(self):
        """Whether it asks for the functions that its edit, which turns more than bodies, says refuse it."""
        return bool(self.edits[0].refused_by) and self.paths == [self.edits[0].refused_by]

    @property
    def asked(self):
        """The paths of all functions that it turns."""
        return [it for paths in self.paths for it in paths]

    @property
    def controls(self):
        """The path of a copy that no edit turns, of a trial with copies or of a crate in which all functions are turned."""
        if self.is_named or not any(copies.of(it)[1] for it in self.asked) and functions.unturned(self.crate, self.asked):
            return []
        path = copies.control(self.crate)
        return [path] if path else []


@dataclass
class Result:
    """The verdict of an edit's trial, the reason, and the ground of a refusal."""

    edit: object
    kind: str
    why: str
    ground: str = ""


def rounds(pairs):
    """Edits with the paths that they turn, in rounds in which no function is turned twice."""
    found = []
    for edit, paths in pairs:
        free = next((it for it in found if not any(set(paths) & set(taken) for _, taken in it)), None)
        if free is None:
            found.append(free := [])
        free.append((edit, paths))
    return found


def planned(crate, edits, begins=False):
    """Returns the trials of a crate's edits. If there are several bodies of one function, the first is turned in the
    function itself, and the others in copies of it or in other trials. An edit that turns more than one function is
    tried over the functions that it says refuse it, or else over the whole crate. If no edit takes the whole crate, and
    no proofs exist with which the trials could begin, the first trial of bodies comes before all others, with as many
    bodies as there are."""
    pairs = copies.apart(edits)
    named = [Trial(crate, [it], [it.refused_by]) for it, paths in pairs if not paths and it.refused_by]
    alone = [Trial(crate, [it], [()]) for it, paths in pairs if not paths and not it.refused_by]
    trials = []
    for number, them in enumerate(rounds([it for it in pairs if it[1]])):
        leads = begins and not alone and not number
        size = len(them) if leads else -(-len(them) // -(-len(them) // MOST))
        for at in range(0, len(them), size):
            trials.append(Trial(crate, *map(list, zip(*them[at : at + size])), leads))
    if trials and trials[0].leads:
        trials[0].besides = tuple(sorted({path for it in named for path in it.asked} - set(trials[0].asked)))
    return trials + named + alone


def turned(trial):
    """The texts of the files that a trial's edits change, with all of them applied, and which lines of these each edit turned: for
    each place, the file's path, and the first and the last one's number."""
    placed = [copies.places(edit, paths) for edit, paths in zip(trial.edits, trial.paths)]
    placed.append([copies.place(trial.crate.folder, it, []) for it in trial.controls])
    places = sorted((*it[:2], number, *it[2:]) for number, them in enumerate(placed) for it in them)
    texts, lines = {}, [[] for _ in placed]
    for path, group in itertools.groupby(places, key=lambda it: it[0]):
        with open(f"{trial.crate.folder}/{path}", encoding="utf-8") as file:
            text = file.read()
        made, at = "", 0
        for _, start, number, end, new in group:
            made += text[at:start]
            first, at = made.count("\n") + 1, end
            made += new
            lines[number].append((path, first, made.count("\n") + 1))
        texts[path] = made + text[at:]
    return texts, lines[:-1]


def over_kept(crate, call):
    """Returns the result of a call on a copy of the work that the crate's own check left."""
    with tempfile.TemporaryDirectory(prefix="wrong-bodies-") as room:
        rt.linked(f"{crate.folder}/out/incremental", f"{room}/kept")
        return call(f"{room}/kept")


def over_nothing(crate, call):
    """Returns the result of a call on the folder with the work that others begin with."""
    folder = f"{crate.folder}/out/incremental"
    os.makedirs(folder, exist_ok=True)
    return call(folder)


def proofs_in(trial):
    """Returns the proofs of the copies in a trial; and, for all functions that it turns, or that it says refuse it, the
    answers with a fault, except those whose whole proof is written."""
    folder, found = trial.crate.folder, {}
    for path in [*trial.controls, *trial.asked]:
        proofs = functions.proofs_of(folder, path)
        found |= copies.proofs(folder, path)
        if proofs and path not in trial.controls:
            file = f"{proofs}/Answers.antt"
            if f"{proofs}/Proof.antt" not in found and not os.path.exists(f"{folder}/{proofs}/Proof.antt"):
                written = found.get(file) or rt.rtlib.text_of(f"{folder}/{file}")
                found[file] = f"{written}\n{FAULTY}" if written else FAULTY
    return found


def checked(trial, flags, kept):
    """Returns the prover's output for the crate with all of a trial's edits, and with answers that hold a fault."""
    crate, texts = copy.copy(trial.crate), proofs_in(trial) | turned(trial)[0]
    with tempfile.TemporaryDirectory(prefix="wrong-bodies-") as crate.folder:
        for part in rt.rtlib.PARTS:
            if os.path.isdir(f"{trial.crate.folder}/{part}"):
                shutil.copytree(f"{trial.crate.folder}/{part}", f"{crate.folder}/{part}")
        for file in texts:
            os.makedirs(os.path.dirname(f"{crate.folder}/{file}"), exist_ok=True)
        return rt.checked(crate, texts, flags, kept)


def ask(trial, asked, threads):
    """Returns the prover's output for some functions of the crate with all of a trial's edits."""
    flags = ["--jobs", str(threads), *[word for it in asked for word in ("--only", it)]]
    over = over_nothing if trial.leads else over_kept
    for _ in range(2):
        ran = over(trial.crate, lambda kept: checked(trial, flags, kept))
        # (killed, most likely for memory)
        if ran.returncode != -signal.SIGKILL:
            break
    return ran.stdout


def whole(trial):
    """The result of an edit's check of the whole crate, as `rt must-fail` tries it."""
    edit = trial.edits[0]
    kind, said = over_kept(trial.crate, lambda kept: rt.must_fail(trial.crate, edit.file, ["--jobs", "1"], kept))
    kinds = {rt.BAD: verdicts.BAD, rt.MISSED: verdicts.NOT_REFUSED, rt.REFUSED: verdicts.REFUSED, rt.AT_LIMIT: verdicts.AT_LIMIT}
    found = kinds.get(kind, verdicts.NOT_TRIED)
    if "only because a proof file names" in said:
        found = verdicts.NAMES
    return Result(edit, found, LABEL.sub("", said), verdicts.ground_told(said) if found == verdicts.REFUSED else "")


def parted(trial, said):
    """A trial that came to no verdict, in parts: apart from what the compiler rejects, or in halves; a single edit by itself."""
    if len(trial.edits) == 1:
        return [Trial(trial.crate, trial.edits, [()])]
    rejected = [(path, int(line)) for path, line in REJECTED.findall(said)]
    lines = turned(trial)[1]
    bad = [any(path == file and first <= it <= last for file, first, last in them for path, it in rejected) for them in lines]
    if not any(bad) or all(bad):
        bad = [at < len(bad) // 2 for at in range(len(bad))]
    both = [[pair for pair, it in zip(zip(trial.edits, trial.paths), bad) if it == part] for part in (True, False)]
    return [Trial(trial.crate, [it for it, _ in part], [it for _, it in part]) for part in both]


def first_fault(said):
    """The first line of what the prover said that tells a fault, or the last one."""
    lines = said.strip().split("\n")
    return next((it for it in lines if "error" in it), lines[-1])[:160]


def of_named(trial, said, beside=()):
    """Returns the verdict of a run over the functions that an edit says refuse it: they, or lemmas on which they rest,
    aren't proved, and one of the functions beside them is. Else the edit is to be tried over the whole crate, as it is if
    only a limit of the prover was met, or if the edited text can't be read."""
    edit, told = trial.edits[0], verdicts.told(said)
    kind, why, ground = verdicts.verdict(trial.asked, told)
    lost = verdicts.refuted(said)
    reads = verdicts.ended(said) and not any(rt.unread(line, edit.texts) for line in said.split("\n"))
    stands = [it.stands for name, it in told.items() if any(verdicts.is_within(name, path) for path in beside)]
    reads = reads and (any(stands) or not beside)
    if reads and kind == verdicts.REFUSED:
        return [Result(edit, kind, why, ground)], [], []
    if reads and lost:
        return [Result(edit, verdicts.REFUSED, verdicts.clauses(lost), verdicts.BY_HAND)], [], []
    return [], [Trial(trial.crate, trial.edits, [()])], []


def tried(trial, threads=1):
    """Returns the verdicts of a trial's edits, those that are to be tried again, and the unturned functions that aren't
    proved."""
    if trial.is_whole:
        return [whole(trial)], [], []
    if trial.is_named:
        beside = functions.unturned(trial.crate, trial.asked)
        return of_named(trial, ask(trial, [*trial.asked, *beside], threads), beside)
    said = ask(trial, [*trial.asked, *trial.controls, *functions.unturned(trial.crate, trial.asked), *trial.besides], threads)
    told = verdicts.told(said)
    others = {name: it for name, it in told.items() if not any(verdicts.is_within(name, path) for path in trial.asked)}
    wrong = [name for name, it in others.items() if it.fails_by_itself]
    if wrong or not verdicts.ended(said) or not any(it.stands for it in others.values()):
        print(f"{trial.crate.name}: {len(trial.edits)} at once came to no verdict: {first_fault(said)}", flush=True)
        return [], parted(trial, said), wrong
    results, again = [], []
    for edit, paths in zip(trial.edits, trial.paths):
        kind, why, ground = verdicts.verdict(paths, told)
        if kind == verdicts.REFUSED or kind == verdicts.NAMES and len(trial.edits) == 1:
            results.append(Result(edit, kind, why, ground))
        elif kind == verdicts.NOT_REFUSED or len(trial.edits) == 1:
            again.append(Trial(trial.crate, [edit], [()]))
        else:
            again.append(Trial(trial.crate, [edit], [paths]))
    return results, again, []
