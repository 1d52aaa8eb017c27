"""The functions of a crate that others can call."""
import os
import sys

sys.path.append(f"{os.path.dirname(os.path.abspath(__file__))}/definitions")

import functions
from declared import public_names, read_code


def called(crate):
    """The paths of a crate's functions that others can call; laws, whose bodies are empty, aren't called."""
    files = read_code(crate.name)
    names = public_names(files)
    public = {(it.file, it.name) for file in files for it in file.calls if it.is_in(names)}
    below = functions.functions_below(crate.folder)
    found = [(file.removesuffix(".rt"), it) for file, them in below.items() for it in them if it.end - it.body > len("{\n}")]
    return {it.path for file, it in found if (file, it.path.rpartition("::")[2]) in public}
