"""The prover's verdicts on the functions that it was asked for, and the verdicts on the edits that turned them."""
import re
from dataclasses import dataclass

REFUSED = "refused"
NOT_REFUSED = "NOT REFUSED"
AT_LIMIT = "refused at a limit of the prover"
BAD = "BAD EDIT"
NAMES = "NAMES WHAT WENT"
NOT_TRIED = "NOT TRIED"
# A function that no edit turned, and that isn't proved for what it does itself: then no verdict of its trial stands.
UNTURNED = "ISN'T PROVED, though no edit turned it"
# A try with others says nothing of the edit, so it is tried by itself.
UNSETTLED = "unsettled"

# The grounds of a refusal, the strongest first: a clause of the contract that is no longer proved; an invariant, of a loop or
# of a value; a condition of a call or an operation. If a proof by hand no longer fits, the body may be right all the same.
CLAUSE = "a clause"
INVARIANT = "an invariant"
CONDITION = "a condition of what it calls"
BY_HAND = "a proof by hand that no longer fits"
GROUNDS = (CLAUSE, INVARIANT, CONDITION, BY_HAND)

# The declaration that faulty answers hold.
FAULT = "holds_a_fault"
# The failure of a function's search, which the prover prints above the function's line.
UNMET = re.compile(r"^note: src/\S+: .*(?:not proved|no proof).*\(`([^`]+)`\)", re.M)
LINE = re.compile(r"^fn (\S+): (proved|not proved|no proof|could not tell)\b(.*)$", re.M)
OF_OTHERS = re.compile(r"which (?:is|are) not proved$")
LEFT = re.compile(r"`search` did not prove ((?:`[^`]+`(?:, )?(?:and )?)+)")
ERROR = re.compile(r"^(?:\./)?proofs/(\S+?)/\w+\.antt:\d+:\d+: error: (?:`([^`]+)`: )?(.*)$", re.M)
# An error in a proof, or in a lemma.
PROOF_ERROR = re.compile(r"^(?:\./)?proofs/\S+\.antt:\d+:\d+: error: (?:`([^`]+)`: )?(.*)$", re.M)
# A proof names what the edit took away, or rests on a proof that does.
WENT = re.compile(r"has no field|is not in scope|has no `|was not admitted")
# A proof that didn't end within the prover's limits: this says nothing about the statement.
STOPPED = re.compile(r"stopped at the \w+ limit|ran out of|outgrew the memory limit|came to no verdict")
# For the output of a whole check: the text by which each ground of a refusal is known, as the prover prints it above the code.
TOLD_OF_CODE = re.compile(r"note: src/\S+: .*?\b(?:(ensures)|(invariant)|(requires))\b")
# The last line of a run that ended.
ENDED = re.compile(r"^only=\d+ proved=\d+$", re.M)


@dataclass
class Function:
    """The prover's verdict on a function: its state, the goals that it didn't prove, those whose proof by hand no longer
    fits, those whose proof names something that is gone, and whether it only lacks other proofs."""

    state: str
    left: list
    unfit: list
    went: list
    rests: bool

    @property
    def fails_by_itself(self):
        """Whether it isn't proved for what it does itself, and not only since another function isn't proved."""
        return self.state != "proved" and bool(self.left or self.unfit or self.went)

    @property
    def stands(self):
        """Whether what it does itself is proved."""
        return self.state == "proved" or self.rests and self.state != "could not tell" and not self.fails_by_itself


def folder_of(name):
    """The folder of proofs/ that holds what is written for a function, by its name as it is printed."""
    return "/".join(name.split("::")[1:])


def told(text):
    """Returns the verdict of a run on each function, by its name as it is printed."""
    errors, functions, above = {}, {}, 0
    for folder, goal, why in ERROR.findall(text):
        errors.setdefault(folder, []).append((goal, why))
    for line in LINE.finditer(text):
        name, state, rest = line.groups()
        own = "; ".join(it for it in rest.split("; ") if not OF_OTHERS.search(it))
        left = [goal for found in LEFT.findall(own) for goal in re.findall(r"`([^`]+)`", found)]
        left += UNMET.findall(text, above, line.start())
        mine, above = [it for it in errors.get(folder_of(name), []) if it[0] != FAULT], line.end()
        unfit = [goal or "its proof" for goal, why in mine if not WENT.search(why) and not STOPPED.search(why)]
        went = [goal or why for goal, why in mine if WENT.search(why)]
        functions[name] = Function(state, left, unfit, went, bool(rest) and not own.strip(": "))
    return functions


def refuted(text):
    """Returns the goals and lemmas that a run said are not proved by their proof, except those that name something that is
    gone, and those at which a limit of the prover was met."""
    said = [it for it in PROOF_ERROR.findall(text) if it[0] != FAULT]
    return [goal or "a proof" for goal, why in said if not WENT.search(why) and not STOPPED.search(why)]


def ended(text):
    """Whether a run over some functions ended."""
    return bool(ENDED.search(text))


def is_within(name, path):
    """Whether a printed name is that of the function with this path, or of a closure in it."""
    rest = "::" + name.partition("::")[2]
    if path[0].isupper():
        return rest.endswith(f"::{path}") or f"::fn::{path}::" in rest
    return rest == f"::{path}" or rest.replace("::fn::", "::", 1).startswith(f"::{path}::")


def in_words(goal):
    """A goal's name in words: the clause of the contract where the name has it."""
    if not goal.startswith("returns"):
        return f"`{goal}`"
    where, _, clause = goal.partition("-clause-")
    place = "" if where == "returns" else f" at `{where}`"
    return f"clause {clause}{place}" if clause else f"ensures{place}"


def clauses(goals):
    """The goals in words, each once."""
    return ", ".join(dict.fromkeys(in_words(it) for it in goals))


def ground_of(goal):
    """Returns the ground of a refusal if the prover no longer finds a goal."""
    if goal.startswith("returns"):
        return CLAUSE
    return INVARIANT if re.search(r"invariant|(?:^|-)loop-|decreases", goal) else CONDITION


def ground(left):
    """Returns the ground of a refusal by the goals that the prover no longer finds, if there are any: the strongest."""
    return min((ground_of(it) for it in left), key=GROUNDS.index, default=BY_HAND)


def ground_told(said):
    """Returns the ground of a refusal by the output of `rt` for a whole check: it prints one goal, or an error in a proof."""
    found = TOLD_OF_CODE.search(said)
    if not found:
        return CONDITION if "note: src/" in said else BY_HAND
    return CLAUSE if found[1] else INVARIANT if found[2] else CONDITION


def verdict(paths, functions):
    """Returns the verdict of a run on the edit that turned the functions with these paths, the unproved goals, and the
    ground of a refusal."""
    said = [it for name, it in functions.items() if any(is_within(name, path) for path in paths)]
    left = [goal for it in said for goal in it.left]
    unfit = [goal for it in said for goal in it.unfit]
    went = [goal for it in said for goal in it.went]
    if not said:
        return UNSETTLED, "nothing was said of its function", ""
    if (left or unfit) and all(it.state != "could not tell" for it in said):
        return REFUSED, clauses(left or unfit), ground(left)
    if went:
        return NAMES, clauses(went), ""
    if all(it.state == "proved" for it in said):
        return NOT_REFUSED, "its function is still proved", ""
    return UNSETTLED, "its function isn't proved since another isn't", ""
