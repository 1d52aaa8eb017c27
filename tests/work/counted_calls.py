"""Instructions of calls of the library for C, which callgrind counts one by one."""
import collections
import os
import re
import subprocess

HERE = os.path.dirname(os.path.abspath(__file__))
TOP = os.path.dirname(os.path.dirname(HERE))
SOURCES = [f"{HERE}/{name}.c" for name in ("work", "heaps", "calls", "drawn")]

PHASES = ["roots", "marking", "sweeping", "moving"]

# The lines of callgrind for a call: its name, and its instructions.
PART = re.compile(r"^desc: Trigger: Client Request: (.*)$|^totals: (\d+)$", re.M)


def kinds():
    """Returns, for each kind of heap, its name, the phases for which it is made, and its description."""
    with open(f"{HERE}/heaps.c", encoding="utf-8") as file:
        for name, what, first, last in re.findall(r'^    \{ "(\w+)", "([^"]+)", (\w+), (\w+),', file.read(), re.M):
            yield name, PHASES[PHASES.index(first.lower()) : PHASES.index(last.lower()) + 1], what


def built(library, program, *more):
    """Builds the program that makes the calls, over a library, with more words for the compiler; its path."""
    words = ["cc", "-std=c11", "-O2", "-Wall", "-Wextra", "-Werror", "-Wl,-z,now", f"-I{library}", *SOURCES, *more]
    subprocess.run([*words, f"{library}/libmetronome.a", "-o", program], check=True)
    return program


def counts(program, words, room):
    """The instructions of each call that was counted, by the words of its name, in their order."""
    file = f"{room}/counts"
    watched = ["valgrind", "--tool=callgrind", "--instr-atstart=no", "--collect-atstart=no", "--combine-dumps=yes"]
    run = subprocess.run([*watched, f"--callgrind-out-file={file}", program, *words], capture_output=True, text=True, check=False)
    if run.returncode:
        raise SystemExit(f"{program} {' '.join(words)}: status {run.returncode}\n{run.stderr}")
    found, name = collections.defaultdict(list), None
    with open(file, encoding="utf-8") as text:
        for line in text:
            part = PART.match(line)
            if part and part[1]:
                name = part[1].strip()
            elif part and name:
                found[name].append(int(part[2]))
                name = None
    none = found.pop("none")[0]
    return {tuple(name.split(" ")): [it - none for it in them] for name, them in found.items()}
