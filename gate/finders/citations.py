"""Lemmas that nothing cites."""
import re
from collections import Counter

from finders import imports, tree

# Lemmas that the prover reads by itself, and figures that it computes for the reader.
ENDS = ("/Answers.antt", "/Invariants.antt", "/Proof.antt", "/TheLaws.antt", "/Figures.antt")

WORD = re.compile(r"[\w'#?-]+")
OTHER = re.compile(r"([\w'#?-]+) as ")
# A signature, and right behind it, at its indentation, the equations that begin with its name.
LEMMA = re.compile(
    r"^( *)(?:pub )?([A-Za-z_][\w'#?-]*)(?= .*:|(?: [({].*)?$).*\n(?:\1 .*\n)*(?:\1unfolding .*\n)?(?:\1\2(?= ).*\n(?:\1[ \]})].*\n)*)+",
    re.M,
)


def found(top):
    """Each lemma of which no file has the name but in its own text. An import counts where it gives the lemma another name."""
    texts = {path: tree.text_of(top, path) for path in tree.files_below(top, "crates", ".rt", ".antt")}
    rest = {path: imports.COMMENT.sub("", imports.USE.sub("", text)) for path, text in texts.items()}
    cited = Counter(word for text in rest.values() for word in WORD.findall(text))
    cited.update(name for text in texts.values() for use in imports.USE.finditer(text) for name in OTHER.findall(use.group(2)))
    for path, text in rest.items():
        if "/proofs/" in path and not path.endswith(ENDS):
            for lemma in LEMMA.finditer(text):
                if cited[lemma.group(2)] == WORD.findall(lemma.group(0)).count(lemma.group(2)):
                    yield f"{path}: nothing cites {lemma.group(2)}"
