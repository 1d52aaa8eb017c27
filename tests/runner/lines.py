"""Lines of a file of cases: loops, tables, numbers in braces, escapes."""
import re
from dataclasses import dataclass

LOOP = re.compile(r"for (\w+) in (.+)")
TABLE = re.compile(r"each (\w+(?:, \w+)*)")
NUMBER = r"[\w +*/%()-]+"
BRACES = re.compile(
    r"(?<!\{)\{(?:(?P<count>\w+) x (?P<text>[^{}]*)"
    rf"|(?P<below>[^{{}}]*) if (?P<low>{NUMBER}) < (?P<high>{NUMBER}) else (?P<above>[^{{}}]*)"
    rf"|(?P<value>{NUMBER}))\}}"
)
ESCAPE = re.compile(rb"\\(?:x([0-9a-f]{2})|(.))")
ESCAPED = {b"n": b"\n", b"r": b"\r", b"t": b"\t", b"\\": b"\\"}


@dataclass(frozen=True)
class Line:
    """A line of a file, with its number."""

    number: int
    text: str


class Wrong(Exception):
    """A file of cases that isn't in the format."""


def read(path):
    """The lines of a file, its loops and tables written out."""
    with open(path, encoding="utf-8") as file:
        lines = [Line(number, text) for number, text in enumerate(file.read().split("\n"), 1)]
    while lines and not lines[-1].text:
        lines.pop()
    return list(spread(lines, {}))


def spread(lines, names):
    """Lines, with names of numbers and texts, as they are without loops and tables."""
    at = 0
    while at < len(lines):
        line = lines[at]
        loop, table = LOOP.fullmatch(line.text), TABLE.fullmatch(line.text)
        if not loop and not table:
            yield Line(line.number, told(line, names))
            at += 1
            continue
        begin, end = block(lines, at)
        rows = ranged(line, loop, names) if loop else list(rowed(lines[at + 1 : begin], table, names))
        if not rows and not (loop and names.keys() & set(re.findall(r"[a-z_]\w*", loop[2]))):
            # (a loop within another may have no turn for some of that one's)
            raise Wrong(f"line {line.number}: {line.text}: there is nothing of these")
        for row in rows:
            yield from spread(lines[begin + 1 : end], {**names, **row})
        at = end + 1


def block(lines, at):
    """Returns, for the loop or the table that begins at a place, the place before its first line, and the place of its end."""
    begin = at
    if TABLE.fullmatch(lines[at].text):
        begin = next((k for k in range(at, len(lines)) if lines[k].text == "do"), None)
        if begin is None:
            raise Wrong(f"line {lines[at].number}: a table without do")
    depth, end = 1, begin
    while depth:
        end += 1
        if end == len(lines):
            raise Wrong(f"line {lines[at].number}: no end")
        begins = LOOP.fullmatch(lines[end].text) or TABLE.fullmatch(lines[end].text)
        depth += bool(begins) - (lines[end].text == "end")
    return begin, end


def ranged(line, loop, names):
    """Yields the names of a loop: one number at a time, of a range or of a list."""
    low, dots, high = loop[2].partition("..")
    if dots:
        numbers = range(value(line, low, names), value(line, high, names))
    else:
        numbers = [value(line, it, names) for it in loop[2].split(", ")]
    return [{loop[1]: it} for it in numbers]


def rowed(lines, table, names):
    """Yields the names of a table: one row at a time. Its columns stand between |, and a number is one."""
    columns = table[1].split(", ")
    for line in lines:
        cells = [it.strip() for it in told(line, names).split(" | ")]
        if len(cells) != len(columns):
            raise Wrong(f"line {line.number}: {len(cells)} columns, and not {len(columns)}")
        yield {name: int(it) if re.fullmatch(r"0|[1-9]\d*", it) else it for name, it in zip(columns, cells)}


def value(line, text, names):
    """Returns the value of an expression of names and numbers."""
    try:
        return eval(text, {"__builtins__": {}}, names)
    except (NameError, SyntaxError, TypeError) as fault:
        raise Wrong(f"line {line.number}: {{{text}}}: {fault}") from fault


def told(line, names):
    """A line's text, with what its braces stand for, from the inmost on."""

    def meant(found):
        if found["count"]:
            return found["text"] * value(line, found["count"], names)
        if found["low"]:
            is_below = value(line, found["low"], names) < value(line, found["high"], names)
            branch = found["below" if is_below else "above"]
            return str(names.get(branch, branch))
        return str(value(line, found["value"], names))

    text, count = line.text, 1
    while count:
        text, count = BRACES.subn(meant, text)
    return text.replace("{{", "{").replace("}}", "}")


def data(text):
    """The bytes that a text with escapes stands for; an end of line is added but where the text ends in \\c."""
    is_cut = text.endswith("\\c")
    return escaped(text[:-2] if is_cut else text) + (b"" if is_cut else b"\n")


def escaped(text):
    """The bytes that a text with escapes stands for."""

    def meant(found):
        return bytes([int(found[1], 16)]) if found[1] else ESCAPED[found[2]]

    return ESCAPE.sub(meant, text.encode())


def shown(data):
    """Bytes, as a reader of a terminal can read them."""
    return data.decode(errors="backslashreplace")
