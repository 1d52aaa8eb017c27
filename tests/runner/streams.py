"""Inputs that end anywhere or are typed, outputs that fill up, and the writes that a run makes."""
import os
import select
import socket
import subprocess

from runner.lines import shown
from runner.program import LIMIT, Ended, Streams, filled

PLAY = ("play", "config", "-")
# The most seconds until a reply to a typed line comes.
PATIENCE = 60


def faults_of_cuts(story, program, folder):
    """Yields the faults if the trace ends behind any of its bytes, if reading fails there, and if the output has room for
    only that many bytes."""
    text = story.text(len(story.trace)).encode()
    for count in range(len(text) + 1):
        front = text[:count]
        lines = front.count(b"\n")
        output = story.replies(lines).encode()
        fault = b"" if front[-1:] in (b"", b"\n") else f"metronome: line {lines + 1}: line not ended\n".encode()
        wanted = Ended(4 if fault else 0, output, fault)
        yield from fault_of(program, folder, f"cut behind {count} bytes", Streams(front), wanted)
        wanted = Ended(5, output, b"metronome: cannot read\n")
        yield from fault_of(program, folder, f"broken behind {count} bytes", Streams(front, breaks=True), wanted)
    replies = story.replies(len(story.trace)).encode()
    for room in range(len(replies)):
        wanted = Ended(5, replies[:room], b"metronome: cannot write\n")
        yield from fault_of(program, folder, f"with room for {room} bytes", Streams(text, room=room), wanted)


def fault_of(program, folder, how, streams, wanted):
    """Yields the faults of a play that must end in this way."""
    ended = program.run(PLAY, folder, streams)
    if ended != wanted:
        yield f"  {how}: expected {wanted}, got {ended}"


def faults_of_typing(story, program, folder):
    """Yields the faults if each line is typed once the reply to the one before it is there."""
    how = {"stdin": subprocess.PIPE, "stdout": subprocess.PIPE, "stderr": subprocess.PIPE, "cwd": folder}
    with subprocess.Popen([program.path, *PLAY], **how) as typed:
        for event in story.trace:
            os.write(typed.stdin.fileno(), f"{event.text}\n".encode())
            reply = "" if event.reply is None else answer(typed.stdout)
            if reply != (event.reply or ""):
                yield f"  line {event.number}: typed: {event.text}: expected {event.reply}, got {reply or 'nothing'}"
                break
        output, errors = typed.communicate(timeout=LIMIT)
        ended, wanted = Ended(typed.returncode, output, errors), Ended(story.status, b"", story.errors())
        if ended != wanted:
            yield f"  typed, behind the last reply: expected {wanted}, got {ended}"


def answer(stream):
    """The line that a stream gives next; none if none comes in time."""
    line, more = b"", b"more"
    while more and not line.endswith(b"\n") and select.select([stream], [], [], PATIENCE)[0]:
        more = os.read(stream.fileno(), 4096)
        line += more
    return shown(line).removesuffix("\n")


def writes(program, words, folder, given):
    """Returns the bytes of each write of a run to its output."""
    here, there = socket.socketpair(socket.AF_UNIX, socket.SOCK_SEQPACKET)
    with here, open(f"{folder}/.given", "w+b") as file:
        how = {"stdin": filled(file, given), "stdout": there, "stderr": subprocess.DEVNULL, "cwd": folder}
        with subprocess.Popen([program.path, *words], **how):
            there.close()
            here.settimeout(LIMIT)
            return list(iter(lambda: here.recv(1 << 20), b""))
