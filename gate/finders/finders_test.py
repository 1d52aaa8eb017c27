"""A test of the finders: a tree of its own goes in, and what is wrong with it comes out."""
import tempfile

from finders import citations, english, imports, lengths, names, paths, sentences, tree

DOCUMENT = """# A document

`Heap::step` is there, `Heap::walk` and `Store::step` are not, and `Vec::push` is the library's. crates/heap/src/lib.rt is there,
crates/heap/src/gone.rt isn't, heap/src/lib.rt is and heap/specs/Gone.antt isn't; src/lib.rt is in a crate, src/no.rt in none. [one](docs/no.md)
`step` of `heap` is there, `pace` of `heap` isn't; `crates/NAME` stands for many, and so does src/*.rt; crates/heap/out/heap is made.
"""
README = "# `heap`\n\n`step` and `heap` are there, `walk` isn't. specs/Heap.antt is there, proofs/Gone.antt isn't.\n"
SHORT = "    /// A step_of the heap, and `a_name`.\n    pub fn step(&self) -> u32 {\n        1\n    }\n"
LINES = "        let it = 1;\n"
SPECS = """-- A heap in steps.
use Prim.{ℕ, List, ◌+◌, ◌-◌, Gone as ℕ-gone, Left as kept}
use Prim.Maps as maps

-- a step of List and kept
step : ℕ

-- the same of two steps
two : maps.two (ℕ + ℕ)

-- a heap;
-- they are steps
heap : ℕ

-- and no more
rest : ℕ
"""


def fake():
    """The files of the tree."""
    bodies = {"fits": lengths.MOST_OF_BODY, "passes": lengths.MOST_OF_BODY + 1}
    long = "".join(f"    fn {name}(&self)\n        ensures {{ it }}\n    {{\n{LINES * count}    }}\n" for name, count in bodies.items())
    return {
        "README.md": DOCUMENT,
        "crates.txt": "# crates\nheap staticlib: std clap Prim\n",
        "crates/heap/README.md": README,
        "crates/heap/src/lib.rt": f"pub use heap::Made;\nuse heap::{{Heaped, Read}};\nuse std::io;\nuse std::io::Input;\n\npub trait Read {{}}\n\npub struct Heap;\n\nimpl Heap {{\n{SHORT}{long}}}\n",
        "crates/heap/specs/Heap.antt": SPECS,
        "crates/heap/proofs/Lemmas.antt": LEMMAS,
        "crates/heap/proofs/step/Answers.antt": "use Heap.{cited}\n\nreturns : one\nreturns = cited\n",
        "crates/heap/proofs/Fits.antt": "x\n" * lengths.MOST_OF_FILE,
        "crates/heap/proofs/Long.antt": "x\n" * (lengths.MOST_OF_FILE + 1),
        "crates/heap/out/made.rt": "fn made_by_a_tool() {}\n" * 500,
        "tests/long": "x\n" * (lengths.MOST_OF_FILE + 1),
        "tests/cases/long.story": "x\n" * (lengths.MOST_OF_FILE + 1),
        **{path: text for path, (_, text) in ODD.items()},
    }


# A lemma that another cites, one that is cited under another name, and three that nothing cites but themselves and a comment.
LEMMAS = """use Heap.{renamed as it}

cited : one
cited = it

pub renamed : two
unfolding step
renamed = cited

-- left, which is of no use
pub left : (n : ℕ)
    → three
left zero = cited
left (suc n) = record {
  more = left n;
}

module _ (n : ℕ) where
  pub inner : four
  inner = cited

  last :
      four
  last = cited
"""


# Files with odd sentences, each with their number, beside plain sentences.
ODD = {
    "docs/odd.md": (2, "What is this: of some size?\n\n- Of course it is.\n- Of cells it has\n  two.\n\n"
                       "| Who asks last waits for its turn. | Who? |\n\n```\nOf code nothing is read.\n```\n"),
    "crates/heap/src/odd.rt": (1, "//! Of a heap.\n\npub const ONE: &str = \"\n/* Of a text. */\";\n"),
    "crates/heap/specs/Odd.antt": (2, "-- all pages\n-- but one are free. It has so\n-- many\n\nso-many : of such\n"),
    "include/odd.h": (3, "/* Where it fails nothing\n * is done. */\nint f(void); /* None but two. Nothing for. */\n// Of it.\n"),
    "bin/odd": (2, "#!/bin/sh\n# What is read\n# stays so.\n\necho what # Where\n# is `of such`? Of it.\n"),
    "bin/odd.py": (1, '\"\"\"Has pages.\n\nIt is dear.\n\"\"\"\nOF = "Of it."\n'),
}

# The findings of each finder there.
WANTED = {
    paths: [
        "README.md: docs/no.md isn't there",
        "README.md: crates/heap/src/gone.rt isn't there",
        "README.md: heap/specs/Gone.antt isn't there",
        "README.md: src/no.rt isn't there",
        "crates/heap/README.md: proofs/Gone.antt isn't there",
    ],
    lengths: [
        "crates/heap/src/lib.rt: Heap::passes has 41 lines",
        "crates/heap/proofs/Long.antt has 401 lines",
        "tests/long has 401 lines",
    ],
    sentences: [
        "crates/heap/specs/Heap.antt: -- the same of two steps",
        "crates/heap/specs/Heap.antt: -- and no more",
    ],
    imports: [
        "crates/heap/specs/Heap.antt: List is imported and isn't used",
        "crates/heap/specs/Heap.antt: ◌-◌ is imported and isn't used",
        "crates/heap/specs/Heap.antt: ℕ-gone is imported and isn't used",
        "crates/heap/specs/Heap.antt: kept is imported and isn't used",
        "crates/heap/src/lib.rt: Heaped is imported and isn't used",
        "crates/heap/src/lib.rt: io is imported and isn't used",
        "crates.txt: heap names nothing of clap",
    ],
    citations: [f"crates/heap/proofs/Lemmas.antt: nothing cites {it}" for it in ("left", "inner", "last")],
    names: [
        "README.md: `Heap::walk` isn't in the tree",
        "README.md: `pace` of `heap` isn't in the tree",
        "README.md: `Store::step` isn't in the tree",
        "crates/heap/README.md: `walk` isn't in the tree",
        "crates/heap/src/lib.rt: step_of stands in a sentence without ``",
    ],
}


def faults():
    """Returns the findings of a finder that are wrong there, and those that are missing."""
    with tempfile.TemporaryDirectory() as top:
        tree.write(top, fake())
        for finder, wanted in WANTED.items():
            found = list(finder.found(top))
            if sorted(found) != sorted(wanted):
                yield f"{finder.__name__} finds {found}, and is to find {wanted}"
        count = sum(many for many, _ in ODD.values())
        for most, wanted in ((0, count), (count, 0), (count + 1, 1)):
            found = english.found(top, most)
            if len(found) != wanted:
                yield f"{english.__name__} finds {found} of {most} odd sentences"
