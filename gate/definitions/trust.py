"""On which definitions the contracts rest."""
from declared import public_names, read_code
from specs import read_specs
from tree import TOP, Place, files

# The calls whose contracts are the headline: for each its crate, its type and its name.
HEADLINE = [("machine", "Recorded", "new"), ("machine", "Recorded", "run")]

# The first of the crates that a user of the program meets; those before it are the core.
FIRST_OUTER = "heap_server"


def place_of(module, name):
    """Returns the place where a name of a module is declared or defined."""
    crate, _, *parts = module.split(".")
    if parts[:1] != ["declared"]:
        return Place(crate, "specs/" + "/".join(parts), name)
    if "TheConstants" in parts:
        at = parts.index("TheConstants")
        return Place(crate, "src/" + "/".join(parts[1:at]), "::".join([*parts[at + 1 :], name]))
    if parts[-1] in ("TheVariants", "TheInside"):
        parts = parts[:-1]
    return Place(crate, "src/" + "/".join(parts[1:-1]), parts[-1])


class Trust:
    """All definitions with those on which each rests, what the files say of themselves, and what public contracts name."""

    def __init__(self):
        self.crates = files.listed(TOP)
        self.definitions, self.owners, self.types, self.files = {}, {}, {}, {}
        self.headline, self.core, self.outer, self.others, self.calls = set(), set(), set(), {}, []
        code = {crate: read_code(crate) for crate in self.crates}
        named = {crate: self.declare(crate, code[crate]) for crate in self.crates}
        for crate in self.crates:
            for place, (words, types) in named[crate].items():
                self.rest(place, words, types)
            self.follow(crate, code[crate])
        all_calls = [it for files in code.values() for file in files for it in file.calls]
        self.contracts = {(it.crate, it.file, it.owner, it.name): it for it in all_calls}
        calls = {(crate, owner, name) for crate, _, owner, name in self.contracts}
        if not calls.issuperset(HEADLINE):
            raise SystemExit(f"{set(HEADLINE) - calls} isn't there")

    def declare(self, crate, files):
        """Takes up the definitions of a crate; answers what each names."""
        specs, owners, self.files[crate] = read_specs(crate)
        self.files[crate].update((it.path, it.told()) for it in files)
        self.owners.update(owners)
        named = {}
        for place, (definition, words) in specs.items():
            self.definitions[place], named[place] = definition, (words, set())
        for file in files:
            for place, (definition, names) in file.declared.items():
                self.definitions[place], named[place] = definition, (names.definitions, names.types)
                self.types.setdefault((crate, place.name), []).append(place)
        for owner, names in ((owner, names) for file in files for owner, names in file.said.items()):
            for place in self.types.get((crate, owner), []):
                words, types = named[place]
                named[place] = words | names.definitions, types | names.types
                self.definitions[place].text += "".join(names.ghosts)
        return named

    def rest(self, place, words, types):
        """A definition rests on those that it names."""
        definition = self.definitions[place]
        definition.rests_on, definition.others = self.found(place.crate, place.file, words)
        definition.rests_on |= self.typed(types)

    def follow(self, crate, files):
        """Takes up what the public contracts of a crate name: those of its calls, and what is promised of its types' values."""
        public = public_names(files)
        cited = self.core if self.crates.index(crate) < self.crates.index(FIRST_OUTER) else self.outer
        for file in files:
            promised = [(place.name, names.promises) for place, (_, names) in file.declared.items()]
            promised += [(owner, names.promises) for owner, names in file.said.items()]
            for name, words in promised:
                cited |= self.found(crate, file.path, words)[0] if name in public else set()
            for call in file.calls:
                places, others = self.found(crate, file.path, call.named.definitions)
                places |= self.typed(call.named.types)
                if (crate, call.owner, call.name) in HEADLINE:
                    self.headline |= places
                if call.is_in(public):
                    cited |= places
                    self.others.setdefault(crate, set()).update(others)
                    self.calls.append(call)

    def found(self, crate, file, words):
        """The places of definitions that are named in a file, and the names that are none of the tree."""
        places, others = set(), set()
        for module, name in words:
            place = Place(crate, file, name) if module is None else place_of(module, name)
            place = self.owners.get(place, place)
            if place in self.definitions:
                places.add(place)
            elif module is not None:
                others.add((module, name))
        return places, others

    def typed(self, names):
        """The places of types."""
        return {place for name in names for place in self.types.get(name, [])}

    def closure(self, places):
        """These definitions and all on which they rest."""
        met, ahead = set(), set(places)
        while ahead:
            met |= ahead
            ahead = {it for place in ahead for it in self.definitions[place].rests_on} - met
        return met
