#!/usr/bin/env python3
"""english.py FILE..: prints each sentence of these documents and comments that has a sign of odd English.

gate/before-proofs counts these sentences in the whole tree, which may have MOST. An engineer reads such a sentence twice, and
headers of other libraries hardly ever have one. The signs:
  of      the sentence begins with 'Of', before its subject
  what    the sentence begins with 'What', 'Who' or 'Where' in place of a noun or of 'if'
  but     'but' stands for 'except' or 'only'
  calque  a word that no English manual has, as the list CALQUES names them
"""
import os
import re
import sys

sys.path[:0] = [os.path.dirname(os.path.dirname(os.path.abspath(__file__)))]

from finders import tree

# The odd sentences that the tree still has. Who corrects one lowers the number.
MOST = 32

CALQUES = (
    r"mend(?:s|ed|ing)?|reckon(?:s|ed|ing)?|is dear|so many|told of|tells? so|tells? of|lets? go of|of such|whereof|wherein"
    r"|one that there isn't|there is none with|for itself alone|(?:comes?|came) to its end|is done to"
    r"|what is (?:asked|wanted|told)"
)
SIGNS = {
    "of": re.compile(r"^Of (?!course\b|the \d)", re.I),
    "what": re.compile(r"^(?:What|Who|Where|Whoever|Whatever)(?!.*\?$)(?:\W+\w+){4}"),
    "but": re.compile(r"\b(?:but (?:for|that|one|two|three|NO_|BAD_)|(?:nothing|none|no \w+|all \w+) but)", re.I),
    "calque": re.compile(rf"\b(?:{CALQUES})\b", re.I),
}

# The comments of each kind of file: lines of comments, comments between marks, and the docstrings of a script.
C_STYLE = re.compile(r"(?:^[ \t]*//[^\n]*\n?)+|/\*.*?\*/", re.M | re.S)
RUST_STYLE = re.compile(r"(?:^[ \t]*//.*\n?)+", re.M)
SCRIPT = re.compile(r"(?:^[ \t]*#(?!!)[^\n]*\n?)+|\"\"\".*?\"\"\"", re.M | re.S)
COMMENTS = {
    ".rt": RUST_STYLE, ".rs": RUST_STYLE, ".antt": re.compile(r"(?:^[ \t]*--.*\n?)+", re.M), ".py": SCRIPT,
    **{ending: C_STYLE for ending in (".c", ".h", ".cpp", ".hpp", ".js")},
}
MARKS = re.compile(r"^[ \t]*(?:/\*+|\*+/|\*|//[/!]?|--|#|\"\"\")[ \t]?|\*/|\"\"\"", re.M)

# The parts of a document without sentences, and the places where its lists and tables begin a new text.
NO_TEXT = re.compile(r"^[ \t]*```.*?^[ \t]*```$|^(?:    |#|<!--)[^\n]*$", re.M | re.S)
ITEM = re.compile(r"\||^[ \t]*(?:[-*]|\d+\.) ", re.M)

BLANK = re.compile(r"\n\s*\n")
QUOTED = re.compile(r"`[^`]*`")
LINK = re.compile(r"\[([^\]]*)\]\([^)]*\)")
END = re.compile(r"(?<=[.!?:])\s+(?=[A-Z*`])")


def is_read(path):
    """Whether a file of the tree has sentences: a document, code, or a program without an ending."""
    ending = os.path.splitext(path)[1]
    return ending == ".md" or ending in COMMENTS or not ending


def texts(path, text):
    """The running texts of a file."""
    ending = os.path.splitext(path)[1]
    if ending == ".md":
        return BLANK.split(ITEM.sub("\n\n", NO_TEXT.sub("", text)))
    if not ending and not text.startswith("#!"):
        return []
    found = (MARKS.sub("", it) for it in COMMENTS.get(ending, SCRIPT).findall(text))
    return [piece for it in found for piece in BLANK.split(it)]


def odd(path, text):
    """Each sentence of a file that has a sign, with the sign before it."""
    for it in texts(path, text):
        plain = LINK.sub(r"\1", QUOTED.sub("CODE", " ".join(it.split())))
        for sentence in END.split(plain):
            yield from (f"{sign}: {sentence}" for sign, has in SIGNS.items() if has.search(sentence.strip(" *-")))


def found(top, most=MOST):
    """Each such sentence of the tree, with its file, if there are more than the most; if there are fewer, the number to be lowered."""
    every = [f"{path}: {it}" for path in filter(is_read, tree.files_below(top, "", "")) for it in odd(path, tree.text_of(top, path))]
    if len(every) < most:
        return [f"gate/finders/english.py: the tree has {len(every)} odd sentences, and MOST is {most}"]
    return every if len(every) > most else []


if __name__ == "__main__":
    for named in sys.argv[1:]:
        for line in odd(named, tree.text_of(".", named)):
            print(f"{named}: {line}")
