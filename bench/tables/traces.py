"""Traces that the program plays: lines of workloads, and how close the space bound comes on them."""
import itertools
import os
import re
import sys

import shifting
import workloads as written
from measured import TOP, both, figure, instructions, on, seconds

sys.path.append(f"{TOP}/tests")
from traces import drawn
from traces.space import WAYS, lines_of, named

# For each workload: the instructions of an unverified heap in plain Rust for a line, and the goal.
LINES = {"small": (2031, 1000), "pointers": (1606, 850), "arrays": (15756, 2500), "moving": (3103, 1150)}


def instructions_and_nanoseconds(words):
    """Instructions and nanoseconds of a run."""
    return instructions(words), seconds(words) * 1e9


def rows_of_workloads(bench):
    """The rows of the workloads, and that of whole runs that have nothing to do."""
    found, idle = {kind: [] for kind in LINES}, []
    for pages in (*bench.pages, None):
        first = 0, 0
        if pages:
            config = bench.written("config", [f"pages = {pages}", "mutators = 1", "slots = 1"])
            first = instructions_and_nanoseconds([bench.program, "play", config, os.devnull])
            idle.append(first)
        for kind, (words, count) in written.written(bench, pages).items():
            whole = instructions_and_nanoseconds([bench.program, *words])
            found[kind].append([(it - before) / count for it, before in zip(whole, first)])
    for kind, (plain, goal) in LINES.items():
        *by_pages, own = found[kind]
        cells = [it for them in zip(both(by_pages), map(figure, own)) for it in them]
        yield f"`{kind}` ({goal:,})", f"{plain:,}", *cells
    count, nanos = both(idle)
    yield "none: a run that has nothing to do", "", count, "", nanos, ""


def workloads(bench):
    """Lines of the four workloads of bench/workloads.py, on heaps of 64, 512 and 4096 pages and on their own; a run that has
    nothing to do."""
    heads = [f"instructions, {on(bench.pages)}", "on its own", f"ns, {on(bench.pages)}", "on its own"]
    return ["A line of (the goal)", "unverified", *heads], rows_of_workloads(bench)


# ---- The space bound ----


def with_keys(text, keys, path):
    """Writes a configuration with these keys."""
    kept = drawn.text(it for it in text.splitlines() if it.split(" ")[0] not in keys)
    drawn.written(path, kept + drawn.toml(keys))


def named_pages(text, path, trace, way):
    """The least number of pages of which it is told that they suffice in a way, asked on 4096 and then on as many as are named,
    until a number comes again."""
    told, pages = {}, 4096
    while pages not in told and pages <= 4096:
        with_keys(text, WAYS[way](pages), path)
        told[pages] = max(named(lines_of(["pages", path, trace], ""), way), 1)
        pages = told[pages]
    return min(asked for asked, needed in told.items() if needed <= asked)


def least_pages(text, path, trace, way, most):
    """The least number of pages up to one that suffices with which no object is refused, in a way."""
    least = 1
    while least < most:
        half = (least + most) // 2
        with_keys(text, WAYS[way](half), path)
        if "refused 7" in lines_of(["play", path, trace], ""):
            least = half + 1
        else:
            most = half
    return least


def all_traces(bench):
    """Yields for each workload, also of those whose sizes shift, its name, the text of its configuration, and the file of its
    trace."""
    for kind, ((_, config, trace), _) in written.written(bench, None).items():
        with open(config, encoding="utf-8") as it:
            yield kind, it.read(), trace
    for kind in shifting.KINDS:
        lines = itertools.islice(shifting.trace(kind), written.lines_of(bench))
        yield kind, drawn.toml(shifting.SETTINGS), bench.written("shifting.trace", lines)


def rows_of_bound(bench, tried):
    """The rows of the space bound, with the least pages in the ways that are tried."""
    drawn.program, path = bench.program, f"{bench.folder}/config.toml"
    for kind, text, trace in all_traces(bench):
        own = re.search(r"(?m)^pages = (\d+)", text)[1]
        pages = {way: named_pages(text, path, trace, way) for way in WAYS}
        yield f"`{kind}`", own, *pages.values(), *(least_pages(text, path, trace, way, pages[way]) for way in tried)


def bound(bench):
    """How close the space bound comes on the workloads and on the two of bench/shifting.py: the pages of the configuration;
    those that `pages` names for each way, asked on 4096 pages and then again on as many as it names, the least that suffice;
    and the least with which the play meets no refusal for lack of space."""
    tried = ["without moving", "moving after each sweep"]
    return ["Workload", "pages", *WAYS, *(f"least {way}" for way in tried)], rows_of_bound(bench, tried)
