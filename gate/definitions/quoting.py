"""The page that quotes definitions: its blocks must be the text of the tree."""
import re

from tree import Place

# A block, with the file and the names that it quotes behind the language: `antt machine/specs/Headline.antt Holds Follows`.
PLACE = r"(?P<crate>\w+)/(?P<file>[\w/]+)\.(?:antt|rt)"
BLOCK = re.compile(rf"^(?P<head>```(?:antt|rust) {PLACE} (?P<names>[^\n]+))\n.*?^```$", re.M | re.S)

# The marks around counts.
COUNTS = re.compile(r"^<!-- gate/definitions: counts -->\n(.*?)^<!-- end -->$", re.M | re.S)


def quoted(trust, crate, file, name):
    """The text of a definition, or of a call up to its body."""
    definition = trust.definitions.get(Place(crate, file, name))
    owner, _, call = name.rpartition("::")
    contract = trust.contracts.get((crate, file, owner, call))
    if not definition and not contract:
        raise SystemExit(f"docs/TRUST.md quotes {name} of {crate}/{file}, which isn't there")
    return (definition or contract).text.rstrip("\n")


def quoting_page(page, trust, listing):
    """The page with its blocks and its counts as the tree has them."""

    def block(found):
        texts = [quoted(trust, found["crate"], found["file"], it) for it in found["names"].split()]
        return "\n".join([found["head"], "\n\n".join(texts), "```"])

    page = BLOCK.sub(block, page)
    return COUNTS.sub(lambda _: f"<!-- gate/definitions: counts -->\n{listing.counts()}<!-- end -->", page)
