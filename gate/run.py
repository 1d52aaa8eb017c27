"""A run: proves what the edits begin with, tries the edits, and says what each came to."""
import copy
import os
import tempfile
import threading
import time
from collections import Counter

import calls
import copies
import edits
import functions
import lanes
import trials
import verdicts
from kept import Kept
from kit import rt
from proving import begin


class Run:
    """The edits of some crates, without the slow ones where it is to be quick, what was found of them so far, and the run that
    proves the crates beside it, if there is one."""

    def __init__(self, crates, anew, is_quick=False, proving=None):
        self.kept, self.proving = Kept(anew), proving
        self.edits = {it.name: edits.wrong_bodies(it, is_quick) for it in crates}
        self.found, self.grounds, self.checks, self.seconds, self.unproved = {}, {}, Counter(), Counter(), set()
        self.telling = threading.Lock()

    def tell(self, edit, kind, why, ground=""):
        """Notes and says what an edit came to."""
        with self.telling:
            self.found[edit.name] = kind, why
            self.grounds[edit.name] = ground
            print(f"{edit.name}: {kind}{' by ' * bool(ground)}{ground}{': ' * bool(why)}{why}", flush=True)

    def left(self, crate):
        """The crate's edits that are to be tried: those that can be applied, and that no earlier run refused."""
        left = []
        for edit in self.edits[crate.name]:
            kept = self.kept.refused(edit)
            if edit.fault:
                self.tell(edit, verdicts.BAD, edit.fault)
            elif kept:
                self.tell(edit, verdicts.REFUSED, f"{kept[1]} (kept)", kept[0])
            else:
                left.append(edit)
        return left

    def proved(self, crate, planned, threads):
        """Whether the crate is proved, as far as trials ask it; its check leaves the work that they begin with, and its
        library."""
        crate, began = copy.copy(crate), time.time()
        os.makedirs(f"{crate.folder}/out", exist_ok=True)
        with tempfile.TemporaryFile("a+", errors="replace") as crate.out:
            flags = ["--jobs", str(threads)]
            status = crate.build_rlib(flags, anew=False) if crate.makes_rlib() and not self.proving else 0
            if not status and planned and not crate.has_kept():
                # (one that the prover knows by another name is found in a whole check)
                status = crate.check([*flags, *asked(crate, planned)]) and crate.check(flags)
            crate.out.seek(0)
            said = crate.out.read()
        if status:
            print(f"{crate.name} isn't proved:\n{said}", flush=True)
        elif planned:
            print(f"{crate.name} is proved ({time.time() - began:.0f} s)", flush=True)
        return not status

    def prove(self, crate, left, threads):
        """Proves a crate, and gives the trials of its edits."""
        lacking = [it.name for it in (*crate.below(), crate) if it.name in self.unproved]
        if self.proving and not lacking and crate.is_built():
            begin(crate)
        planned = trials.planned(crate, left, self.proving and not crate.has_kept())
        if not lacking and planned and planned[0].leads:
            return self.make(crate, planned[0], threads) + [self.task(crate, it) for it in planned[1:]]
        if not lacking and self.proved(crate, planned, threads):
            return [self.task(crate, it) for it in planned]
        self.unproved.add(crate.name)
        for edit in left:
            self.tell(edit, verdicts.NOT_TRIED, f"{lacking[0] if lacking else crate.name} isn't proved")
        return []

    def take(self, crate):
        """Takes a crate's library from the run that proves it."""
        if not self.proving.gives(crate):
            self.unproved.add(crate.name)
        return []

    def task(self, crate, trial):
        """The task that makes a trial: the slowest crates come first."""
        return lanes.Task((1, -crate.count(rb"\n")), lambda _: self.make(crate, trial))

    def make(self, crate, trial, threads=1):
        """Makes a trial, and gives those that are to follow it."""
        began = time.time()
        results, again, wrong = trials.tried(trial, threads)
        with self.telling:
            self.checks[crate.name] += 1
            self.seconds[crate.name] += time.time() - began
        for name in wrong:
            with self.telling:
                self.found[name] = verdicts.UNTURNED, ""
                print(f"{name}: {verdicts.UNTURNED}, beside {', '.join(it.name for it in trial.edits)}", flush=True)
        self.kept.keep(crate, [(it.edit, (it.ground, it.why)) for it in results if it.kind == verdicts.REFUSED])
        for it in results:
            self.tell(it.edit, it.kind, it.why, it.ground)
        return [self.task(crate, it) for it in again]


def asked(crate, planned):
    """The flags that ask for just the functions of which trials ask; none where one asks for the whole crate."""
    if any(it.is_whole for it in planned):
        return []
    paths = {copies.of(it)[0] for trial in planned for it in trial.asked}
    return [word for it in sorted(paths | set(functions.unturned(crate, paths))) for word in ("--only", it)]


def tasks_beside(run, crates):
    """The tasks that prove the crates which have edits to try, over libraries that come from the run beside this one."""
    left = {it: them for it in crates if (them := run.left(it))}
    needed = {it for crate in left for it in (crate, *crate.below()) if it.makes_rlib()}
    tasks = [lanes.Task((), lambda _, it=it: run.take(it), it.name, is_idle=True) for it in needed]
    for crate, them in left.items():
        call = lambda threads, it=crate, them=them: run.prove(it, them, threads)
        after = {it.name for it in needed.intersection((crate, *crate.below()))}
        # (a static library comes last: if another run builds it meanwhile, its result is taken)
        tasks.append(lanes.Task((0, crate.is_static, -crate.count(rb"\n")), call, f"{crate.name}'s edits", after))
    return tasks


def tasks_of(run, crates):
    """The tasks that prove the crates which have edits to try, and those below them whose library isn't built: first what most
    others wait for."""
    left = {it: run.left(it) for it in crates}
    needed = {below for it in crates if left[it] for below in [it, *it.below()] if left.get(below) or not below.is_built()}
    order = sorted(needed, key=lambda it: len(it.below()))
    behind, tasks = Counter(), []
    for crate in reversed(order):
        behind[crate] += crate.count(rb"\n")
        for below in crate.below():
            behind[below] = max(behind[below], behind[crate])
    for crate in order:
        call = lambda threads, it=crate: run.prove(it, left.get(it, []), threads)
        after = {it.name for it in crate.below() if not it.is_built()}
        tasks.append(lanes.Task((0, -behind[crate]), call, crate.name, after))
    return tasks


def made(crates, jobs, anew, is_quick=False, proving=None):
    """The run of the edits of these crates."""
    run = Run(crates, anew, is_quick, proving)
    held = rt.rtlib.lock({below for it in crates for below in [it, *it.below()]})
    try:
        lanes.run((tasks_beside if proving else tasks_of)(run, crates), jobs)
    finally:
        for it in held:
            os.close(it)
    return run


def without_clause(run, crate):
    """The functions of a crate that others can call and an edit turns, and of which no edit is refused by a clause of a
    contract, each with the ground of the best refusal."""
    called, best = calls.called(crate), {}
    for edit in run.edits[crate.name]:
        ground = run.grounds.get(edit.name)
        for path in called.intersection(functions.turned_by(edit)) if ground else ():
            best[path] = min(best.get(path, ground), ground, key=verdicts.GROUNDS.index)
    return {path: ground for path, ground in best.items() if ground != verdicts.CLAUSE}


def tried(crates, jobs, anew, is_quick=False, proving=None):
    """How many edits of these crates were refused, and how many weren't; it says which."""
    run = made(crates, jobs, anew, is_quick, proving)
    for crate in crates:
        if run.checks[crate.name]:
            print(f"{crate.name}: {len(run.edits[crate.name])} edits, {run.checks[crate.name]} checks, {run.seconds[crate.name]:.0f} s")
        for path, ground in () if is_quick else without_clause(run, crate).items():
            print(f"{crate.name}::{path} has no refusal by a clause, but by {ground}")
    grounds = Counter(run.grounds.values())
    print(f"refused by {', '.join(f'{it} {grounds[it]}' for it in verdicts.GROUNDS)}")
    passed = [kind for kind, _ in run.found.values()].count(verdicts.REFUSED)
    for name, (kind, _) in run.found.items():
        if kind != verdicts.REFUSED:
            print(f"FAILED: {name}: {kind}")
    return passed, len(run.found) - passed
