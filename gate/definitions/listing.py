"""Lists of the definitions on which contracts rest, as text, one for each crate."""
import re
import textwrap

from trust import FIRST_OUTER


def sentence(comment):
    """The first sentence of a comment."""
    first = re.split(r"(?<=[.]) (?=[A-Z`])", comment)[0].rstrip(".:")
    if re.match(r"a |[a-z][a-z']+[ ,:]", first):
        first = first[0].upper() + first[1:]
    return first.replace("*", r"\*").replace("<", "&lt;") + "." if first else ""


def value_of(definition):
    """The value of a constant, and the parts of a type."""
    if not definition.value:
        return ""
    if definition.place.name.rsplit("::", 1)[-1].isupper():
        return f" = `{definition.value}`"
    return " (" + ", ".join(f"`{it}`" for it in definition.value.split(", ")) + ")"


def line_of(definition, is_headline):
    """The line of a definition."""
    name = f"`{definition.place.name}`"
    said = sentence(definition.comment)
    return f"  - {f'**{name}**' if is_headline else name}{value_of(definition)}{': ' if said else ''}{said}"


def lines_of_crate(crate, trust, listed, headline):
    """The lines of a crate's definitions."""
    by_file = {}
    for place in sorted(listed, key=lambda it: trust.definitions[it].line):
        by_file.setdefault(place.file, []).append(place)
    for file in sorted(by_file, key=lambda it: (it.startswith("specs/"), it)):
        ending = ".rt" if file.startswith("src/") else ".antt"
        yield f"- {file}{ending}: {sentence(trust.files[crate].get(file, ''))}"
        yield from (line_of(trust.definitions[it], it in headline) for it in by_file[file])


def lines_of_others(others):
    """The lines of what is taken from the language, its library and packages."""
    by_module = {}
    for module, name in sorted(others):
        package, _, path = module.partition(".")
        by_module.setdefault(f"`{package}` {path.removeprefix('specs.')}", []).append(f"`{name}`")
    for module, names in by_module.items():
        yield f"- {module}: {', '.join(names)}"


def counted(number, what):
    """A number of things, in words."""
    return f"{number} {what}{'' if number == 1 else 's'}"


class Listing:
    """The lists, with what they count."""

    def __init__(self, trust):
        self.trust = trust
        self.headline = trust.closure(trust.headline)
        self.outer = trust.closure(trust.headline | trust.outer)
        self.listed = trust.closure(trust.headline | trust.outer | trust.core)
        self.without = sorted((it for it in self.listed if not trust.definitions[it].comment), key=self.place_in_order)

    def place_in_order(self, place):
        """By what definitions are put in order: crate, file and line."""
        return self.trust.crates.index(place.crate), place.file, self.trust.definitions[place].line

    def of_crate(self, crate):
        """The list of a crate, and the part of it on which the headline rests."""
        listed = [it for it in self.listed if it.crate == crate]
        return listed, [it for it in listed if it in self.headline]

    def others_of(self, crates):
        """The names that contracts and definitions of some crates take from the language, its library and packages."""
        cited = (self.trust.others.get(crate, set()) for crate in crates)
        return set().union(*cited, *(self.trust.definitions[it].others for it in self.listed if it.crate in crates))

    def counts(self):
        """The counts over all crates, as text."""
        text = (
            f"The contracts of {len(self.trust.calls)} public calls rest on {len(self.listed)} definitions, the headline on"
            f" {len(self.headline)} of them; the contracts from `{FIRST_OUTER}` on, with the headline, on {len(self.outer)}."
            f" Together they name {len(self.others_of(self.trust.crates))} of the language, its library and packages."
        )
        return "\n".join(textwrap.wrap(text, 128, break_on_hyphens=False)) + "\n"

    def page(self, crate):
        """The page of a crate, or nothing where no contract rests on a definition of it."""
        listed, of_headline = self.of_crate(crate)
        if not listed:
            return None
        lines = [
            f"# Definitions of `{crate}`",
            "",
            f"What contracts of public calls rest on in this crate: {counted(len(listed), 'definition')}, of which the headline rests",
            f"on {len(of_headline)}, in bold. docs/TRUST.md says how they are found. Behind each name stands the value of a",
            "constant or the parts of a type, and the first sentence above it.",
            "",
            *lines_of_crate(crate, self.trust, listed, self.headline),
        ]
        if others := self.others_of([crate]):
            lines += ["", "They name, of the language, its library and packages:", "", *lines_of_others(others)]
        return "\n".join(lines) + "\n"
