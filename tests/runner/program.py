"""The program that is tested, and runs of it."""
import contextlib
import os
import pty
import resource
import subprocess
import tempfile
import tty
from dataclasses import dataclass, field

TOP = os.path.dirname(os.path.dirname(os.path.dirname(os.path.abspath(__file__))))
BUILT = f"{TOP}/crates/metronome/out/metronome"
# The most seconds that a run may take.
LIMIT = 300


@dataclass(frozen=True)
class Ended:
    """How a run ended: its status, what it wrote, and how many bytes of its input it took, where that is known."""

    status: int
    output: bytes
    errors: bytes
    took: int | None = field(default=None, compare=False)


@dataclass(frozen=True)
class Streams:
    """The input of a run, whether a read fails at its end, whether it comes through a pipe, and how many bytes its output and
    its error stream have room for (None: any number)."""

    given: bytes = b""
    breaks: bool = False
    piped: bool = False
    room: int | None = None
    errors_room: int | None = None


class Program:
    """A program, by the path of its file."""

    def __init__(self, path):
        self.path = path

    def run(self, words, folder, streams=Streams()):
        """Runs the program in a folder; how it ended."""
        rooms = [it for it in (streams.room, streams.errors_room) if it is not None]
        # (the limit of a process is one for all its files; a write beyond it fails, since its signal stays ignored)
        limits = {"preexec_fn": lambda: resource.setrlimit(resource.RLIMIT_FSIZE, (rooms[0], rooms[0]))} if rooms else {}
        with contextlib.ExitStack() as opened:
            given, output, errors = (opened.enter_context(tempfile.TemporaryFile()) for _ in range(3))
            how = {"cwd": folder, "timeout": LIMIT, "restore_signals": not rooms, **limits}
            if streams.piped:
                how["input"] = streams.given
            else:
                how["stdin"] = opened.enter_context(broken(streams.given)) if streams.breaks else filled(given, streams.given)
            how["stdout"] = output if streams.room is not None else subprocess.PIPE
            how["stderr"] = errors if streams.errors_room is not None else subprocess.PIPE
            ran = subprocess.run([self.path, *words], check=False, **how)
            took = None if streams.breaks or streams.piped else os.lseek(given.fileno(), 0, os.SEEK_CUR)
            return Ended(ran.returncode, written(output, ran.stdout), written(errors, ran.stderr), took)


def filled(file, data):
    """A file, with data to read."""
    file.write(data)
    file.seek(0)
    return file


@contextlib.contextmanager
def broken(data):
    """An input that gives data, of at most 4000 bytes, and of which the next read fails: a terminal that is gone."""
    here, there = pty.openpty()
    tty.setraw(there)
    os.write(there, data)
    os.close(there)
    try:
        yield here
    finally:
        os.close(here)


def written(file, told):
    """Returns the text that was written into a file, if no pipe took it."""
    if told is not None:
        return told
    file.seek(0)
    return file.read()


@contextlib.contextmanager
def room(*links):
    """A new folder that has a link to each of these files and folders, by its name."""
    with tempfile.TemporaryDirectory() as folder:
        for it in links:
            os.symlink(it, f"{folder}/{os.path.basename(it)}")
        yield folder
