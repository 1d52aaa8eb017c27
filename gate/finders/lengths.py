"""Functions and files that are too long."""
from finders import tree
from functions import functions_of

# The most lines of a function's body, and of a file.
MOST_OF_BODY = 40
MOST_OF_FILE = 400

# The folders that have code, and how the names of their files end.
CODE = [
    ("crates", (".rt", ".antt")),
    ("bench", ("",)),
    ("bin", ("",)),
    ("bindings", (".rs",)),
    ("examples/embed", ("",)),
    ("gate", ("",)),
    ("include", ("",)),
]
# (folders of tests/, without the cases)
TESTS = ("runner", "traces", "work")


def sources(top):
    """The files that have code."""
    found = [it for folder, endings in CODE for it in tree.files_below(top, folder, *endings)]
    found += [it for folder in TESTS for it in tree.files_below(top, f"tests/{folder}", "")]
    return [*found, *(it for it in tree.files_below(top, "tests", "") if it.count("/") == 1 and not it.endswith(".md"))]


def long_functions(top):
    """The functions whose bodies are too long."""
    for path in tree.files_below(top, "crates", ".rt"):
        text = tree.text_of(top, path)
        for it in functions_of(text, path.split("/", 2)[2]):
            lines = text.count("\n", it.body, it.end) - 1
            if lines > MOST_OF_BODY:
                yield f"{path}: {it.path} has {lines} lines"


def long_files(top):
    """The files that are too long."""
    for path in sources(top):
        lines = tree.text_of(top, path).count("\n")
        if lines > MOST_OF_FILE:
            yield f"{path} has {lines} lines"


def found(top):
    """Each function and each file that is too long."""
    return [*long_functions(top), *long_files(top)]
