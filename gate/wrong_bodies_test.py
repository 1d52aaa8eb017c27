"""A test of the trials, on a crate of its own: a right body isn't reported as refused, and a wrong one is."""
import json
import os
import tempfile

import copies
import edits
import functions
import kept
import proving
import run
import trials
from finders import tree
from kit import rt
from verdicts import BAD, BY_HAND, CLAUSE, CONDITION, INVARIANT, NAMES, NOT_REFUSED, REFUSED

LIB = """#![tactic(auto)]

ghost use Rattle.std.specs.Prelude.{◌≡◌, ◌+◌, ◌*◌, ◌≤◌, length};
ghost use Rattle.told.specs.Limit.{limit_of};

/// One more.
pub fn more(x: u8) -> u32
    ensures value { result ≡ x + 1 }
{
    x as u32 + 1
}

/// Two more.
pub fn two_more(x: u8) -> u32
    ensures value { result ≡ x + 2 }
    ensures least { 2 ≤ result }
{
    more(x) + 1
}

/// Both, and one more of each.
pub fn both(x: u8, y: u8) -> u32
    ensures value { result ≡ (x + 1) + (y + 1) }
{
    let first = more(x);
    let second = more(y);
    first + second
}

/// One more, by a proof that names what it calls.
pub fn named(x: u8) -> u32
    ensures value { result ≡ x + 1 }
{
    let it = more(x);
    it
}

/// The most.
pub fn limit() -> u32
    ensures value { result ≡ limit_of 3 }
{
    6
}

/// Nothing.
pub fn none() -> u32
    ensures value { result ≡ 0 }
{
    1 - 1
}

/// Seven.
pub fn seven() -> u32
    ensures value { result ≡ 7 }
{
    4 + 3
}

/// One less.
pub fn less(x: u8) -> u8
    requires some { 1 ≤ x }
    ensures value { result + 1 ≡ x }
{
    x - 1
}

/// At most 254.
pub fn few(x: u8) -> u8
    ensures few { result ≤ 254 }
{
    if x > 0 { less(x) } else { 0 }
}

/// The sum of the bytes.
pub fn total(bytes: &[u8]) -> u64
    requires short { length bytes.now ≤ 65536 }
    ensures most { result ≤ 255 * length bytes.now }
{
    let mut sum: u64 = 0;
    for byte in bytes {
        sum += *byte as u64;
    }
    sum
}
"""
INVARIANTS = """use Rattle.std.proofs.Common.{◌*◌, ◌≤◌}
use Rattle.told.proofs.total.Given as goal

abbrev pub invariant-loop-byte : goal.invariant-loop-byte
invariant-loop-byte l = l.sum ≤ 255 * l.byte-index
"""
SPECS = "use Prim.Native.Nat.{ℕ, ◌+◌, ◌*◌}\n\nabbrev pub limit_of : ℕ → ℕ\nlimit_of n = 2 * n\n"
ANSWERS = "use Rattle.told.proofs.named.Goals as goal\n\npub returns : goal.returns\nreturns c = c.more-it.ensures\n"
LEMMA = """-- The limit of three.
use Rattle.std.proofs.Common.{◌≡◌, refl}
use Rattle.told.specs.Limit.{limit_of}

pub of_three : 6 ≡ limit_of 3
of_three = refl
"""
CITES = """use Rattle.told.proofs.Limits.{of_three}
use Rattle.told.proofs.limit.Goals as goal

pub returns : goal.returns
returns c = record { value = of_three }
"""
FILES = {
    "crates.txt": "told:\n",
    "crates/told/src/lib.rt": LIB,
    "crates/told/specs/Lib.antt": "pub mod Limit\n",
    "crates/told/specs/Limit.antt": SPECS,
    "crates/told/proofs/Lib.antt": "pub mod Limits\n",
    "crates/told/proofs/Limits.antt": LEMMA,
    "crates/told/proofs/limit/Answers.antt": CITES,
    "crates/told/proofs/named/Answers.antt": ANSWERS,
    "crates/told/proofs/total/Invariants.antt": INVARIANTS,
}
# An edit's name, its old and new text, its verdict, and the ground of a refusal. If several edits turn one function, the first turns
# the function itself, and the others turn copies of it.
CASES = [
    ("a_sum_turned_round", "x as u32 + 1", "1 + x as u32", NOT_REFUSED, ""),
    ("adds_two", "x as u32 + 1", "x as u32 + 2", REFUSED, CLAUSE),
    ("calls_first_what_comes_second", "let first = more(x);", "let second = more(y); let first = more(x);", NOT_REFUSED, ""),
    ("calls_one_twice", "let second = more(y);", "let second = more(x);", REFUSED, CLAUSE),
    ("a_sum_beside_a_wrong_callee", "more(x) + 1", "1 + more(x)", NOT_REFUSED, ""),
    ("adds_three", "more(x) + 1", "more(x) + 2", REFUSED, CLAUSE),
    ("leaves_out_what_a_proof_names", "let it = more(x);", "let it = x as u32 + 2;", NAMES, ""),
    ("has_another_limit", "    6", "    9", REFUSED, BY_HAND),
    ("is_the_limit_by_a_sum", "    6", "    5 + 1", NOT_REFUSED, ""),
    ("asks_for_none", "less(x) }", "less(x - 1) }", REFUSED, CONDITION),
    ("adds_one_more_each_time", "*byte as u64", "*byte as u64 + 1", REFUSED, INVARIANT),
    ("adds_nothing_more", "*byte as u64", "*byte as u64 + 0", NOT_REFUSED, ""),
    ("begins_at_one", "sum: u64 = 0", "sum: u64 = 1", REFUSED, INVARIANT),
    ("begins_at_one_less_one", "sum: u64 = 0", "sum: u64 = 1 - 1", NOT_REFUSED, ""),
    ("turns_a_definition", "2 * n", "4 * n", REFUSED, BY_HAND),
    ("says_what_refuses_it", "2 * n", "8 * n", REFUSED, BY_HAND),
    ("says_what_does_not_refuse_it", "2 * n", "6 * n", REFUSED, BY_HAND),
    ("says_what_would_refuse_another", "2 * n", "n * 2", NOT_REFUSED, ""),
    ("says_what_has_no_answers", "2 * n", "n + n", NOT_REFUSED, ""),
    ("says_what_refuses_what_cannot_be_read", "2 * n", "2 * m", BAD, ""),
    ("asks_for_another_limit", "limit_of 3 }", "limit_of 4 }", REFUSED, BY_HAND),
    ("asks_for_seven_as_a_sum", "result ≡ 7 }", "result ≡ 3 + 4 }", NOT_REFUSED, ""),
    ("sums_to_seven_too", "4 + 3", "2 + 5", NOT_REFUSED, ""),
    ("has_another_type", "1 - 1", "true", BAD, ""),
    ("is_nowhere", "8 + 8", "9 + 9", BAD, ""),
]

# The prover's output for `limit` if a lemma on which it rests met a limit, and if the lemma's proof is none.
STOPPED = """./proofs/Limits.antt:5:5: error: `of_three`: in its elaboration (it was elaborating the text at 7:12–7:16): stopped at the step limit (50000000 steps a task, the default)
./proofs/limit/Answers.antt:4:5: error: 1 declaration that depends on `of_three`, which was not admitted, was not checked: returns
fn told::limit: could not tell
fn told::seven: proved
only=2 proved=1
"""
NO_PROOF = """./proofs/Limits.antt:6:12: error: `of_three`: expected type `6 ≡ limit_of 3`, but this has type `6 ≡ 6`
./proofs/limit/Answers.antt:4:5: error: 1 declaration that depends on `of_three`, which was not admitted, was not checked: returns
fn told::limit: not proved
fn told::seven: proved
only=2 proved=1
"""
# And of its own answer.
ANSWER_STOPPED = """./proofs/limit/Answers.antt:5:30: error: `returns`: stopped at the step limit (50000000 steps a task, the default)
fn told::limit: not proved
fn told::seven: proved
only=2 proved=1
"""

# Contents of a file of the store other than those that were kept: then it counts for nothing.
FORGED = ["", "refused", "{}", "[1]", json.dumps({"refused": [CLAUSE, "it"]})]

# The functions that edits say refuse them.
REFUSED_BY = {
    "says_what_refuses_it": "limit",
    "says_what_does_not_refuse_it": "seven",
    "says_what_would_refuse_another": "limit",
    "says_what_has_no_answers": "seven",
    "says_what_refuses_what_cannot_be_read": "limit",
}


# The slow ones, of which the first alone turns what a quick one turns.
SLOW = ("begins_at_one_less_one", "asks_for_none")


def crate_in(room):
    """The crate of this test, written in a folder, with its edits."""
    texts = dict(FILES)
    for name, old, new, *_ in CASES:
        path = "specs/Limit.antt" if old in SPECS else "src/lib.rt"
        said = f"refused by: {REFUSED_BY[name]}\n" if name in REFUSED_BY else ""
        folder = edits.SLOW if name in SLOW else edits.FOLDER
        texts[f"crates/told/{folder}/{name}.edit"] = f"file: {path}\nold: {old}\nnew: {new}\n{said}"
    tree.write(room, texts)
    return rt.rtlib.crates_below(f"{room}/crates")[0]


def judged(made):
    """Whether each case came to what it must; each that didn't is told."""
    good = []
    for name, _, _, *wanted in CASES:
        kind, why = made.found.get(f"told/{name}", ("nothing", ""))
        came = [kind, made.grounds.get(f"told/{name}", "")]
        good.append(came == wanted)
        if came != wanted:
            print(f"self-test: {name}: {came}: {why}; it was to be {wanted}")
    return good


def stops(crate):
    """Whether an edit that says what refuses it isn't told as refused where the prover met a limit of its own alone, or where
    nothing beside it is proved."""
    edit = edits.read(crate, f"{crate.folder}/{edits.FOLDER}/says_what_refuses_it.edit")
    trial = trials.Trial(crate, [edit], [edit.refused_by])
    # (where nothing is proved beside it, the refusal shows nothing)
    alone = NO_PROOF.replace("told::seven: proved", "told::seven: no proof")
    texts = (STOPPED, ANSWER_STOPPED, alone, NO_PROOF)
    told = {text: [it.kind for it in trials.of_named(trial, text, ["seven"])[0]] for text in texts}
    return [told[it] == [] for it in texts[:3]] + [told[NO_PROOF] == [REFUSED]]


def keeps(crate):
    """Whether what was refused is kept, and nothing else that lies in its place counts."""
    edit = edits.read(crate, f"{crate.folder}/{edits.FOLDER}/adds_two.edit")
    store = kept.Kept(anew=False)
    other = edits.read(crate, f"{crate.folder}/{edits.FOLDER}/adds_three.edit")
    good = [store.refused(edit) == [CLAUSE, "ensures"]]
    whole = kept.text_of(store.place(edit)).decode()
    for text in [*FORGED, whole[:-2], whole.replace("adds_two", "adds_ten"), kept.text_of(store.place(other)).decode()]:
        with open(store.place(edit), "w", encoding="utf-8") as file:
            file.write(text)
        good.append(store.refused(edit) is None)
    with open(store.place(edit), "w", encoding="utf-8") as file:
        file.write(whole)
    # (once a file was touched, nothing more is kept)
    os.utime(f"{crate.folder}/src/lib.rt")
    store.keep(crate, [(other, (CLAUSE, "it"))])
    return [*good, store.refused(other) == [CLAUSE, "clause value"]]


def guards(crate):
    """Whether a trial is thrown away in which a function is wrong that it isn't said to turn."""
    edit = edits.read(crate, f"{crate.folder}/{edits.FOLDER}/adds_two.edit")
    results, _, wrong = trials.tried(trials.Trial(crate, [edit], [("both",)]))
    return not results and wrong == ["told::more"]


def is_judged_beside_callers(crate):
    """Whether a trial comes to a verdict beside functions that aren't proved only since they call what it turns."""
    edit = edits.read(crate, f"{crate.folder}/{edits.FOLDER}/adds_two.edit")
    callers = {"two_more", "both"}
    turned = tuple(it.path for it in functions.functions_below(crate.folder)["src/lib.rt"] if it.path not in callers)
    results, *_ = trials.tried(trials.Trial(crate, [edit], [turned]))
    return [it.kind for it in results] == [REFUSED]


def leads(crate, jobs):
    """Whether a trial that leads, over nothing, refuses what it must and no more, and leaves what the next one begins with."""
    kinds = {f"told/{name}": kind for name, _, _, kind, _ in CASES}
    bodies = [it for it in edits.wrong_bodies(crate) if functions.turned_by(it)]
    wanted = {kind: {it.name for it in bodies if kinds[it.name] == kind} for kind in (REFUSED, NOT_REFUSED)}
    planned = trials.planned(crate, [it for it in bodies if any(it.name in them for them in wanted.values())], begins=True)
    found = [trials.tried(it, jobs) for it in planned]
    refused = {it.edit.name for results, _, _ in found for it in results}
    again = {it.name for _, them, _ in found for trial in them for it in trial.edits}
    return planned[0].leads and (refused, again) == tuple(wanted.values()) and not any(wrong for *_, wrong in found)


def begins(crate, jobs):
    """Whether a check that begins with what the crate's library carries finds each module checked."""
    with tempfile.TemporaryFile("a+", errors="replace") as crate.out:
        status = crate.build_rlib(["--jobs", str(jobs)], anew=True)
        proving.begin(crate)
        status = status or crate.check([])
        crate.out.seek(0)
        return not status and " checked=0\n" in crate.out.read().rpartition("crate told: ")[2]


def leaves_slow_ones(crate):
    """Whether a quick run leaves out the slow ones and no others, and one is found that alone turns what it turns."""
    every, quick = ([it.name for it in edits.wrong_bodies(crate, is_quick)] for is_quick in (False, True))
    slow, others = edits.edits_of(crate, edits.SLOW), edits.edits_of(crate, edits.FOLDER)
    return [
        sorted(every) == sorted(f"told/{name}" for name, *_ in CASES),
        sorted(set(every) - set(quick)) == sorted(f"told/{name}" for name in SLOW),
        [it.name for it in copies.alone(slow, others, {"few", "total"})] == ["told/asks_for_none"],
        copies.alone(slow, others, {"total"}) == [],
        [it.name for it in edits.twice([*others[:2], others[0]])] == [others[0].name],
    ]


def goes_together(crate):
    """Whether an edit that turns two functions, and one that turns the first of them, are tried at once, and both are refused."""
    file = f"{crate.folder}/{edits.FOLDER}/turns_two.edit"
    with open(file, "w", encoding="utf-8") as opened:
        opened.write("file: src/lib.rt\nold: x as u32 + 1\nnew: x as u32 + 4\nold: 4 + 3\nnew: 4 + 4\n")
    both = [edits.read(crate, f"{crate.folder}/{edits.FOLDER}/adds_two.edit"), edits.read(crate, file)]
    os.remove(file)
    planned = trials.planned(crate, both)
    found = [it.kind for trial in planned for it in trials.tried(trial)[0]]
    return [[it.paths for it in planned] == [[("more_turned2",), ("more", "seven")]], found == [REFUSED, REFUSED]]


def asks_besides(crate):
    """Whether a trial that leads also asks for the functions that other edits say refuse them, except those that it turns
    itself."""
    names = ("adds_two", "has_another_limit", "says_what_refuses_it", "says_what_has_no_answers")
    them = [edits.read(crate, f"{crate.folder}/{edits.FOLDER}/{it}.edit") for it in names]
    return [
        trials.planned(crate, [them[0], *them[2:]], begins=True)[0].besides == ("limit", "seven"),
        trials.planned(crate, them, begins=True)[0].besides == ("seven",),
    ]


def passed(jobs):
    """How many looks were good, and how many weren't."""
    with tempfile.TemporaryDirectory(prefix="wrong-bodies-") as room:
        kept.STORE = f"{room}/kept"
        crate = crate_in(room)
        made = run.made([crate], jobs, anew=False)
        found = made.found
        good = [*judged(made), *stops(crate), *keeps(crate), guards(crate), is_judged_beside_callers(crate)]
        good += asks_besides(crate) + leaves_slow_ones(crate) + goes_together(crate)
        with tempfile.TemporaryDirectory(prefix="wrong-bodies-") as other:
            good.append(leads(crate_in(other), jobs))
        with tempfile.TemporaryDirectory(prefix="wrong-bodies-") as other:
            good.append(begins(crate_in(other), jobs))
        left = {it.name for it in run.Run([crate], anew=False).left(crate)}
        good.append(left == {it for it, (kind, _) in found.items() if kind != REFUSED and it != "told/is_nowhere"})
    return good.count(True), good.count(False)
