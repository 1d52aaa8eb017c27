"""Memory of runs: under valgrind, and refused.

Under valgrind the runs below, those of two drawn traces and those of drawn scripts must end as they do without it, with no bad
access and no memory that is lost.

Memory is refused to each request of a run in turn: to the first in one run, to the second in the next, and so on until a run
meets no refusal. A run must end as with ample memory; or with status 6 and a beginning of its output; or, with scripts, with
status 8 and the first commands of each. With --explain it may print fewer lines. A test must pass, or return an
error: its assertions must hold.
"""
import os
import subprocess

from traces import drawn

WATCHED = ["valgrind", "-q", "--error-exitcode=99", "--leak-check=full", "--show-leak-kinds=definite,indirect,possible"]
WATCHED += ["--errors-for-leak-kinds=definite,indirect,possible"]

BARRIER = (
    "0 new 0 plain 1 0;0 new 1 plain 0 1;0 put 1 0 77;0 store 0 0 1;0 clear 1;begin;quantum 256;0 load 2 0 0;"
    "0 store 0 0 5;quantum 256;quantum 256;quantum 256;0 get 2 0;"
)

# The files of the runs; `;` ends a line.
FILES = {
    "one": "pages = 1;mutators = 1;slots = 9;",
    "four": "pages = 4;mutators = 2;slots = 4;statics = 1;",
    "many": "pages = 4;mutators = 2;slots = 256;",
    "sparse": "pages = 3;mutators = 1;slots = 12;defrag_below = 4;defrag_pages = 1;",
    "crowd": "pages = 4;mutators = 64;slots = 256;",
    "joins": "pages = 4;mutators = 2;slots = 4;statics = 1;live = 1;",
    "odd": 'pages = [4, 5];colour = "red";',
    "torn": 'pages = "4";slots 5;',
    "object": "0 new 0 plain 0 1;begin;quantum 1000;",
    "barrier": BARRIER,
    "moves": "".join(f"0 new {k} words 252;" for k in range(9))
    + "0 new 9 plain 1 0;0 store 9 0 8;0 clear 0;0 clear 1;begin;quantum 1000;0 load 10 9 0;0 same 8 10;"
    "0 cas 9 0 10 11;0 describe 8;",
    "ticks": "begin;tick 66;0 clear 0;",
    "joining": "version 2;1 join;1 new 0 plain 0 1;1 put 0 0 5;1 storestatic 0 0;1 leave;0 loadstatic 0 0;begin;quantum 9000;",
    "race": "".join(f"{m} new 0 plain 0 0;{m} casstatic 0 1 0;{m} loadstatic 1 0;" for m in range(2)),
    "history": "0 new 0 plain 0 0 => made 1;0 new 1 plain 0 0 => refused 7;0 same 0 1 => is no;",
    "wrong": "0 new 0 plain 0 1 => made 1;0 get 0 0 => word 7;",
    "faulty": "0 clear 0;0 new 0 plane 1 1;",
}

# Runs, each with its status with ample memory; `<` is before the file that is its input.
RUNS = [
    (0, "play one - <object"),
    (0, "play many - <barrier"),
    (0, "play sparse - <moves"),
    (0, "play sparse moves --history"),
    (0, "play crowd - <ticks"),
    (0, "play joins joining --history"),
    (0, "mmu crowd - 22 15 10 67 <ticks"),
    (0, "inspect sparse - <moves"),
    (0, "inspect sparse - --by size <moves"),
    (0, "inspect sparse moves --by shape"),
    (0, "inspect sparse moves --by root"),
    (0, "cycles sparse - <moves"),
    (0, "path sparse - 9 <moves"),
    (0, "path sparse moves 1"),
    (0, "pages sparse - <moves"),
    (0, "pages sparse moves --pace"),
    (0, "check four - <history"),
    (0, "threads four - <race"),
    (0, "threads four - --turns 0 <race"),
    (0, "draw four - --live 7000 --progress <ticks"),
    (0, "draw sparse moves --as data"),
    (0, "draw sparse moves --as graph"),
    (0, "plan four --live 7000"),
    (0, "plan four --live 7000 --classes 4 16 256"),
    (0, "plan four --objects 500x3 10x300 --asks 100x3 100x300"),
    (0, "threads --help"),
    (2, "draw four - --as pages"),
    (2, "threads four - --turns 10001"),
    (2, "check four - more"),
    (3, "play odd -"),
    (3, "play torn -"),
    (3, "play odd faulty --explain"),
    (3, "play torn faulty --explain"),
    (4, "play four faulty --explain"),
    (5, "play four nowhere --explain"),
    (7, "check four wrong --explain"),
]

TESTS = [
    ("call_tests", "tests::memory::of_a_slow_heap"),
    ("call_tests", "tests::memory::of_reserved_calls"),
    ("call_tests", "tests::memory::of_calls"),
    ("call_tests", "tests::players::ticks_end_where_memory_is_refused"),
    ("call_tests", "tests::servers::reserved_calls_are_sure"),
]


def write_files(folder):
    """Writes the files of the runs."""
    for name, text in FILES.items():
        drawn.written(f"{folder}/{name}", text.replace(";", "\n"))


def started(run, folder):
    """The words of a run, and its input."""
    words, _, name = run.partition(" <")
    return [drawn.program, *words.split()], contents(f"{folder}/{name}") if name else b""


def contents(path):
    """The bytes of a file."""
    with open(path, "rb") as it:
        return it.read()


# ---- Under valgrind ----


def drawn_runs(draw, folder):
    """Words of runs of two drawn traces and of drawn scripts, whose files are written."""
    for number in range(3):
        keys = drawn.configuration(draw)
        lines = drawn.trace(draw, keys, 2000)
        if number == 2:
            commands = [it for it in lines if drawn.is_command(it) and int(it.split()[0]) < keys["mutators"]]
            lines = [it for it in lines[:1] if it == drawn.SECOND] + commands
        drawn.written(f"{folder}/keys{number}", drawn.toml(keys))
        drawn.written(f"{folder}/lines{number}", drawn.text(lines))
        yield 0, f"{'threads' if number == 2 else 'play'} keys{number} - <lines{number}"


def watched(draw, folder, _):
    """Yields the findings of valgrind in each run, and whether the run ends otherwise than without it."""
    write_files(folder)
    for wanted, run in [*RUNS, *drawn_runs(draw, folder)]:
        words, given = started(run, folder)
        plain = subprocess.run(words, input=given, capture_output=True, cwd=folder)
        ran = subprocess.run([*WATCHED, *words], input=given, capture_output=True, cwd=folder)
        good = ran.returncode == plain.returncode == wanted and ran.stderr == plain.stderr
        yield None if good else f"{run}: status {plain.returncode}, then {ran.returncode}\n{ran.stderr.decode()}"


# ---- Refused ----


def refusing(words, given, number, folder):
    """Runs a program whose request of this number is refused: its status, output, errors, and whether one was."""
    variables = dict(os.environ, LD_PRELOAD=f"{folder}/refuse.so", REFUSE=str(number))
    ran = subprocess.run(words, input=given, capture_output=True, env=variables, cwd=folder, timeout=60)
    errors = b"".join(it for it in ran.stderr.splitlines(keepends=True) if it != b"refused\n")
    return (ran.returncode, ran.stdout, errors), len(errors) < len(ran.stderr)


def are_fronts(output, script):
    """Whether the entries of each mutator are those of the first commands of its script, in order."""
    entries = [it.split(" => ")[0] for it in output.decode().splitlines()]
    for m in {it.split()[0] for it in script}:
        mine, done = ([it for it in lines if it.split()[0] == m] for lines in (script, entries))
        if done != mine[: len(done)]:
            return False
    return True


def fault_of_scripts(script, ended, folder):
    """Returns the fault of a run of scripts, or None."""
    status, output, errors = ended
    checked = subprocess.run([drawn.program, "check", "four", "-"], input=output, capture_output=True, cwd=folder)
    if not are_fronts(output, script) or checked.returncode:
        return "no fronts of the scripts, or a wrong reply"
    wanted = {0: b"", 6: b"metronome: no memory\n", 8: b"metronome: run not complete\n"}
    if status not in wanted or errors != wanted[status]:
        return f"status {status} with {errors!r}"
    if (len(output.splitlines()) == len(script)) != (status == 0) or (status == 6 and output):
        return f"status {status} with {len(output)} bytes"
    return None


def fault_of_run(words, ended, ample):
    """Returns the fault of a run that writes no history of threads, by how it ends with ample memory, or None."""
    status, output, errors = ended
    if status == 6:
        is_front = ample[1].startswith(output) and output[-1:] in (b"", b"\n")
        return None if is_front and errors == b"metronome: no memory\n" else f"no front of the output, or {errors!r}"
    tells_less = "--explain" in words and ample[2].startswith(errors) and errors[-1:] in (b"", b"\n")
    is_same = ended[:2] == ample[:2] and (errors == ample[2] or tells_less)
    return None if is_same else f"status {status} with {errors!r}, or another output"


def is_as_wanted(words, wanted, ample):
    """Whether a run ends with its status and prints a fault, of which an explanation has more lines, except for a wrong
    reply's."""
    least = 0 if wanted == 0 else 2 if "--explain" in words and wanted != 7 else 1
    return ample[0] == wanted and (ample[2].count(b"\n") >= least if wanted else not ample[2])


def faults_of(wanted, run, folder):
    """Yields the fault of a run of the program for each request."""
    words, given = started(run, folder)
    ample, _ = refusing(words, given, 0, folder)
    if not is_as_wanted(words, wanted, ample):
        yield f"{run}: status {ample[0]} with ample memory, and {ample[2]!r}"
    script = given.decode().splitlines() if "<race" in run else None
    judged = lambda ended: fault_of_scripts(script, ended, folder) if script else fault_of_run(words, ended, ample)
    yield from each_request(run, words, given, folder, judged)


def fault_of_test(ended):
    """Returns the fault of a run of a test, or None."""
    status, output, errors = ended
    if status == 0 or b"the test failed: its result gives status 1\n" in output + errors:
        return None
    return f"status {status}: {(output + errors).decode(errors='replace').strip()}"


def each_request(name, words, given, folder, fault_of):
    """Yields the fault of a run for each request that is refused, up to the first that meets no refusal."""
    number, met = 0, True
    while met:
        number += 1
        ended, met = refusing(words, given, number, folder)
        fault = fault_of(ended)
        yield fault and f"{name}, request {number}: {fault}"
    print(f"{name}: {number - 1} requests for memory", flush=True)


def program_of_tests(crate, takes_built):
    """The program of a crate's tests, which is built where there is none or it is older than a source and isn't taken as it is."""
    program = f"{drawn.TOP}/crates/{crate}/out/{crate}_tests"
    sources = [f"{at}/{it}" for at, _, names in os.walk(f"{drawn.TOP}/crates") for it in names if it.endswith(".rt")]
    is_there = os.access(program, os.X_OK)
    if not is_there or (not takes_built and os.path.getmtime(program) < max(map(os.path.getmtime, sources))):
        subprocess.run(["rt", "test"], cwd=f"{drawn.TOP}/crates/{crate}", stdout=subprocess.DEVNULL, check=True)
    return program


def refused(_, folder, words):
    """Yields the fault of each run in which a request for memory is refused."""
    subprocess.run(["cc", "-shared", "-fPIC", "-O1", "-o", f"{folder}/refuse.so", f"{drawn.TOP}/tests/refuse.c"], check=True)
    write_files(folder)
    for wanted, run in RUNS:
        yield from faults_of(wanted, run, folder)
    for crate, test in TESTS if words.tests or words.built_tests else []:
        program = program_of_tests(crate, words.built_tests)
        yield from each_request(f"{crate} {test}", [program, test], b"", folder, fault_of_test)
