"""A run of `rt ci` in another copy of the repository, which proves the crates whose edits are tried here."""
import json
import os
import shutil

from kit import rt
from proved import Proved


def begin(crate):
    """Leaves the work that the crate's library carries: each module of the crate, as a check would keep it that had proved all."""
    with open(f"{crate.rlib}/format", encoding="utf-8") as file:
        prover = next(line.split()[1] for line in file if line.startswith("rattle-build "))
    folder = f"{crate.folder}/out/incremental/{prover.replace('/', '_')}"
    shutil.rmtree(os.path.dirname(folder), ignore_errors=True)
    os.makedirs(folder)
    with open(f"{crate.rlib}/toolchain/checked.a", "rb") as modules, open(f"{crate.rlib}/toolchain/checked.json", "rb") as places:
        for name, start, size in map(json.loads, places):
            # (parts of other libraries, and a sum; and names that no file can have)
            if "/" not in name and len(name) < 200:
                modules.seek(start)
                with open(f"{folder}/{name}.oantt", "wb") as out:
                    out.write(modules.read(size))


class Proving(Proved):
    """The run, with what it gives."""

    def gives(self, crate):
        """Whether the run proves a library of just the text that the crate has here; then it stands here too, with the stamp that
        says of which text it is."""
        fault = self.fault(crate.name)
        if not fault and crate.stamp() != self.stamp(crate.name):
            fault = "its files here aren't those that the run reads"
        at = os.path.dirname(crate.rlib)
        if not fault:
            shutil.rmtree(at, ignore_errors=True)
            shutil.copytree(os.path.dirname(self.crates[crate.name].rlib), at, copy_function=rt.link_or_copy)
            # (once more, behind the copying)
            fault = self.fault(crate.name)
        if fault:
            print(f"{crate.name}: {fault}", flush=True)
            return False
        with open(f"{at}/stamp", "w", encoding="utf-8") as file:
            file.write(self.stamp(crate.name))
        return True
