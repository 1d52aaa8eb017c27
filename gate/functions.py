"""The functions of a source file: their names as the prover prints them, and where their bodies stand."""
import functools
import os
import re
from dataclasses import dataclass, replace

from finders import tree

# Text that isn't code: comments, texts and characters.
HIDDEN = re.compile(
    r'//[^\n]*|/\*.*?\*/|b?r(#*)".*?"\1|b?"(?:\\.|[^"\\])*"|b?\'(?:\\u\{[0-9a-fA-F]+\}|\\x..|\\.|[^\\\'\n])\'', re.S
)
HEAD = re.compile(r"\b(?:(fn)\s+(\w+)|(mod)\s+(\w+)\s*\{|(impl|trait)\b([^{;]*)\{|(\{))")
# A clause of a contract, up to its brace.
CLAUSE = re.compile(r"\b(?:(?:requires|ensures)\b\*?\s*\w*|ghost\s+\w+\s*:)\s*$")
TYPE = re.compile(r"(?:\w+::)*(\w+)")
# The beginning of a type's declaration.
DECLARED = re.compile(r"^\s*(?:pub(?:\([a-z]+\))?\s+)?(?:struct|enum|trait)\s+(\w+)", re.M)


@dataclass(frozen=True)
class Function:
    """A function with a body: its path below the crate, or its type's name and its own, since the prover names it below the
    module of the type, which stands before them where the crate has another type of that name; where it begins, with what is
    said of it, where its name does, and where its body stands; and whether it surely has that name, and is no test's."""

    path: str
    start: int
    name: int
    body: int
    end: int
    is_plain: bool


def hidden(text):
    """The text with spaces in place of what isn't code."""
    return HIDDEN.sub(lambda found: re.sub(r"[^\n]", " ", found[0]), text)


def group_end(code, start):
    """Returns the end of the group that the brace at `start` begins."""
    depth = 0
    for at in range(start, len(code)):
        depth += {"{": 1, "}": -1}.get(code[at], 0)
        if not depth:
            return at + 1
    return len(code)


def body_of(code, at):
    """Returns the beginning of the body, behind the contract, of the function whose parameters follow `at`; None if it has
    none."""
    depth, begin = 0, at
    while at < len(code):
        here = code[at]
        depth += {"(": 1, "[": 1, ")": -1, "]": -1}.get(here, 0)
        if here == ";" and not depth:
            return None
        if here == "{" and not depth:
            if not CLAUSE.search(code[begin:at]):
                return at
            at = begin = group_end(code, at)
        else:
            at += 1
    return None


def without_generics(text):
    """A head of an impl without what stands in angle brackets, and without its `where`."""
    while re.search(r"<[^<>]*>", text):
        text = re.sub(r"<[^<>]*>", "", text)
    return re.split(r"\bwhere\b", text)[0]


def name_of_impl(head):
    """The name under which the prover prints an impl's functions: the type's, the trait's, and those of what the trait is given."""
    of, _, to = without_generics(head.replace("->", "  ").replace("()", "Unit")).partition(" for ")
    given = re.search(r"<([^<>]*)>", re.sub(r"^\s*<[^<>]*>", "", head.partition(" for ")[0])) if to else None
    words = [*([to, of] if to else [of]), *(given[1].split(",") if given else [])]
    names = [TYPE.search(it.strip(" &")) for it in words]
    return "".join(it[1] for it in names) if all(names) else ""


def functions_in(code, at, end, above, is_plain):
    """The functions between two places of a file, whose names begin with `above`."""
    found = []
    while head := HEAD.search(code, at, end):
        at = head.end()
        if head[1]:
            body = body_of(code, at)
            if body is not None:
                start = max(code.rfind(it, 0, head.start()) for it in "{};") + 1
                at = group_end(code, body)
                found.append(Function("::".join([*above, head[2]]), start, head.start(2), body, at, is_plain))
            continue
        inside, at = at, group_end(code, at - 1)
        if head[3]:
            found += functions_in(code, inside, at - 1, [*above, head[4]], is_plain and head[4] != "tests")
        elif head[5] == "impl" and name_of_impl(head[6]):
            found += functions_in(code, inside, at - 1, [name_of_impl(head[6])], is_plain and " for " not in head[6])
    return found


def module_of(path):
    """The names of the module that a file of src/ is."""
    names = path.removeprefix("src/").removesuffix(".rt").split("/")
    return [] if names in (["lib"], ["main"]) else names[:-1] if names[-1] == "mod" else names


def functions_of(text, path):
    """The functions of a file of src/, in their order."""
    above = module_of(path)
    return functions_in(hidden(text), 0, len(text), above, "tests" not in above)


def texts_of(folder):
    """The texts of src/ in a crate's folder, by their paths in it."""
    return {path: tree.text_of(folder, path) for path in tree.files_below(folder, "src", ".rt")}


def types_of(texts):
    """The modules that declare a type, by its name."""
    found = {}
    for path, text in texts.items():
        for name in DECLARED.findall(hidden(text)):
            found.setdefault(name, []).append(module_of(path))
    return found


@functools.cache
def types_below(folder):
    """The modules that declare a type in a crate's folder, by its name."""
    return types_of(texts_of(folder))


@functools.cache
def functions_below(folder):
    """The functions of each file of src/ in a crate's folder, by its path in it."""
    texts, types = texts_of(folder), types_below(folder)
    return {path: [named_apart(it, module_of(path), types) for it in functions_of(text, path)] for path, text in texts.items()}


def named_apart(function, module, types):
    """The function with the module of its type before its path where two types have that name: the one that is nearest."""
    name = function.path.partition("::")[0]
    modules = types.get(name, [])
    if not name[0].isupper() or len(modules) < 2:
        return function
    nearest = max(modules, key=lambda it: len(os.path.commonprefix([it, module])))
    return replace(function, path="::".join([*nearest, function.path]))


def proofs_of(folder, path):
    """The folder, in a crate's folder, that holds the proofs of the function with this path; None where its type isn't of the crate."""
    name = path.partition("::")[0]
    modules = types_below(folder).get(name, []) if name[0].isupper() else [[]]
    return "/".join(["proofs", *modules[0], *path.split("::")]) if modules else None


def turned_by(edit):
    """The paths of the functions whose bodies an edit turns, where it turns nothing else; else none."""
    found, functions = [], functions_below(edit.crate.folder)
    for path, start, end, _ in edit.places:
        here = functions.get(path, [])
        found.append(next((it.path for it in here if it.body < start and end < it.end), None))
    return () if None in found else tuple(dict.fromkeys(found))


def unturned(crate, turned):
    """The two shortest functions of a crate that are none of these; a law, whose body is empty, shows less."""
    found = [it for functions in functions_below(crate.folder).values() for it in functions]
    fit = [it for it in found if it.is_plain and it.path not in turned and it.end - it.body > len("{\n}")]
    return [it.path for it in sorted(fit, key=lambda it: (it.end - it.body, it.path))[:2]]
