"""The toolchain's program `rt`, taken as a module: edits are read, crates proved and copies checked as `rt` itself does."""
import contextlib
import importlib.machinery
import importlib.util
import os
import shutil
import sys


def load():
    """The program `rt` that the path finds, as a module."""
    found = shutil.which("rt")
    if not found:
        sys.exit("there is no rt on the path")
    loader = importlib.machinery.SourceFileLoader("rt", os.path.realpath(found))
    made = importlib.util.module_from_spec(importlib.util.spec_from_loader("rt", loader))
    loader.exec_module(made)
    return made


rt = load()


@contextlib.contextmanager
def gathered():
    """Within it this thread makes the sum of each crate once: a crate stands below others by many ways."""
    rt.STAMPS.seen = {}
    try:
        yield
    finally:
        rt.STAMPS.seen = None
