"""Copies of functions. If several edits turn one function, each except the first turns a copy behind it, with copies of its
proofs, so one trial holds them all."""
import functools
import os
import re

import functions
from finders import tree

# The text between a function's name and the number of its copy.
MARK = "_turned"
# The files that may be in the folder of a function's proofs, at any depth.
PROOFS = {"Invariants.antt", "Answers.antt", "Proof.antt"}


def name_of(path, number):
    """The path of a function's copy of this number, where the function itself has 0."""
    return f"{path}{MARK}{number}" if number else path


def of(path):
    """The path of the function of which this is a copy, or of the function itself, and the copy's number."""
    name, _, number = path.rpartition(MARK)
    return (name, int(number)) if name and number.isdigit() else (path, 0)


@functools.cache
def proof_texts(folder):
    """The texts of proofs/ in a crate's folder, by their paths in it."""
    return {path: tree.text_of(folder, path) for path in tree.files_below(folder, "proofs", "")}


def texts_of(folder, proofs):
    """The texts of the function's proofs that lie in this folder, by their paths in the crate's."""
    return {path: text for path, text in proof_texts(folder).items() if path.startswith(f"{proofs}/")}


def module_of(proofs):
    """The names of a function's own modules behind `proofs` or `contracts`, as a pattern."""
    return r"\." + re.escape(proofs.removeprefix("proofs/").replace("/", "."))


def calls_itself(path, body):
    """Whether a function's body calls the function itself, or names it by its type."""
    above, _, name = path.rpartition("::")
    of_type = rf"(?<![\w.])(?:self\.|Self::|{above.rpartition('::')[2] or 'self'}::){name}\b"
    return bool(re.search(rf"{of_type}|(?<![\w.:]){name}\s*\(", body))


@functools.cache
def can_be(folder, path):
    """Whether there can be copies of the function with this path: it is in no cycle of calls, and only its theorem names the
    modules that the prover makes of it."""
    proofs = functions.proofs_of(folder, path)
    found = [(file, it) for file, them in functions.functions_below(folder).items() for it in them if it.path == path]
    if not proofs or len(found) != 1 or not found[0][1].is_plain:
        return False
    file, function = found[0]
    text = functions.hidden(functions.texts_of(folder)[file])
    if re.search(r"#\[cycle|#!\[", text[function.start : function.name]) or calls_itself(path, text[function.body : function.end]):
        return False
    own = texts_of(folder, proofs)
    others = (it for file, it in proof_texts(folder).items() if file not in own)
    named = re.compile(rf"\bproofs{module_of(proofs)}\.(?!Met\b)[A-Z]")
    return all(os.path.basename(it) in PROOFS for it in own) and not any(named.search(it) for it in others)


def restated(edit):
    """The path of the function in which an edit turns the contract, and nothing outside; none where there can be no copy of it."""
    folder, files = edit.crate.folder, functions.functions_below(edit.crate.folder)
    for file, function in ((file, it) for file, them in files.items() for it in them):
        if all(path == file and function.name < start and end <= function.end for path, start, end, _ in edit.places):
            return (function.path,) if can_be(folder, function.path) else ()
    return ()


def apart(edits):
    """Returns edits, each with the paths of the functions that it turns. Copies serve all but the first of the edits that
    turn one function; those that turn a function which another edit turns with others; and those that also turn its
    contract, by which others are proved. None if an edit turns something else."""
    bodies = [functions.turned_by(it) for it in edits]
    # (the first copy is one that no edit turns)
    turned, found = {path: 2 for paths in bodies if len(paths) > 1 for path in paths}, []
    for edit, paths in zip(edits, bodies):
        number = 0 if paths else 2
        paths = paths or restated(edit)
        if len(paths) == 1 and can_be(edit.crate.folder, paths[0]):
            number = turned.get(paths[0], number)
            turned[paths[0]] = max(number, 1) + 1
            paths = (name_of(paths[0], number),)
        found.append((edit, paths))
    return found


def alone(edits, others, called):
    """Those of these edits that turn a function which others can call, whose paths these are, and that none of the others turns or
    is refused by."""

    def reached(them):
        return {of(it)[0] for edit, paths in apart(them) if not edit.fault for it in paths or edit.refused_by} & called

    known = reached(others)
    return [it for it in edits if reached([it]) - known]


def control(crate):
    """The path of a copy of the crate's shortest function of which there can be one: a copy that no edit turns is to be proved. None
    where there is no such function."""
    found = [it for them in functions.functions_below(crate.folder).values() for it in them if it.end - it.body > len("{\n}")]
    short = sorted(found, key=lambda it: (it.end - it.body, it.path))
    return next((name_of(it.path, 1) for it in short if can_be(crate.folder, it.path)), None)


def place(folder, path, turns):
    """Returns the text that is put into a file of the crate's folder for the copy with this path, with the turned text in
    it, and where that begins and ends."""
    original, _ = of(path)
    below = functions.functions_below(folder)
    file, function = next((file, it) for file, them in below.items() for it in them if it.path == original)
    text = tree.text_of(folder, file)
    parts = [text[function.start : function.name], path.rpartition("::")[2]]
    at = function.name + len(original.rpartition("::")[2])
    for _, start, end, new in sorted(turns, key=lambda it: it[1]):
        parts += [text[at:start], new]
        at = end
    return file, function.end, function.end, "\n" + "".join([*parts, text[at : function.end]])


def places(edit, paths):
    """Returns the changes of an edit that turns these functions, or a copy."""
    return [place(edit.crate.folder, paths[0], edit.places)] if of(paths[0])[1] else edit.places


def proofs(folder, path):
    """The texts of the proofs of a function's copy, by their paths in the crate's folder."""
    original, number = of(path)
    if not number:
        return {}
    one, other = functions.proofs_of(folder, original), functions.proofs_of(folder, path)
    was, now = original.rpartition("::")[2], path.rpartition("::")[2]
    module = re.compile(rf"\b(proofs|contracts){module_of(one)}\b")
    made = {}
    for file, text in texts_of(folder, one).items():
        text = module.sub(lambda found: found[0].removesuffix(was) + now, text)
        made[other + file.removeprefix(one)] = re.sub(rf"\b{was}_spec\b", f"{now}_spec", text)
    return made
