"""The part of a crate that some of its functions rest on: all that a check of changes of these functions needs.

A function is proved from its contract, its body, the contracts of those that it calls and the laws that its proof cites. So in a
check of changes of some functions every other that none of them calls can be left out, with its proof and the laws that only
those cite. Definitions, types and constants all stay. What a function may call is told by names, so that too much may stay and
never too little; and a check that misses what was left out tells of no fact in the functions' own proofs.
"""

import functools
import pathlib
import re
import sys

import calls
import mutate
from prover import ROOT

CALLED = re.compile(r"\b(\w+)\(")
LAW = re.compile(r"/proofs/(\w+)\.antt:")
WORD = re.compile(r"[^\s(){}\[\];,.:&!]+")
USED = re.compile(r"^use (?:crate::)?((?:\w+::)*)(?:(\w+)|\{([^{}]*)\});\n", re.M)


def used(item):
    """What a `use` item of the crate's own names brings, by its path in the crate."""
    path, name, listed = item.groups()
    return {path + word.strip() for word in (name or listed).split(",") if word.strip()}


def used_without(item, lost):
    """The item without what is lost, nothing where all of it is."""
    left = ", ".join(sorted(name.removeprefix(item.group(1)) for name in used(item) - lost))
    return item.group()[: item.start(1) - item.start()] + f"{item.group(1)}{{{left}}};" if left else ""


class Piece:
    """A function in its file: from its header, with the attributes above it, to the end of its body, and the folder of its proof."""

    def __init__(self, region):
        self.name, self.file, self.function = region.function.name, f"src/{region.path.name}", region.function
        above = re.search(r"(?:^ *#\[.*\]\n)*\Z", region.text[: region.header], re.M).start()
        self.text, self.span = region.text[above : region.end], (above, region.end)
        self.path, self.proof = self.name.split("::")[1:], region.function.proof

    def short(self):
        return self.path[-1]


class Crate:
    """The functions and the laws of a crate."""

    def __init__(self, crate):
        self.crate, self.place, self.sources = crate, ROOT / "crates" / crate, {}
        self.functions, self.by_file = {}, {}
        for path in sorted((self.place / "src").glob("*.rt")):
            self.sources[f"src/{path.name}"] = text = path.read_text()
            for region in mutate.regions_of(crate, path, text):
                if region.function:
                    self.functions[region.function.name] = Piece(region)
                    self.by_file[path.name, region.name] = region.function.name
        self.laws = {path.stem: path.read_text() for path in (self.place / "proofs").glob("*.antt") if path.stem != "Lib"}
        answers = {str(path.parent.relative_to(self.place)) for path in (self.place / "proofs").glob("*/**/*.antt")}
        strays = answers - {one.proof for one in self.functions.values()}
        if strays:
            sys.exit(f"tests/parts.py: of no function of {crate} as it is read here: {', '.join(sorted(strays))}")

    def files_of(self, function):
        """The files of a function's proof, by their paths in the crate."""
        return {f"{function.proof}/{path.name}": path.read_text() for path in sorted((self.place / function.proof).glob("*.antt"))}

    def proof_of(self, function):
        return "".join(self.files_of(function).values())

    def kept(self, names):
        """The functions of these names and all that they rest on, and the laws that their proofs cite."""
        functions, laws, open_ = set(), set(), list(names)
        while open_:
            one = self.functions[open_.pop()]
            functions.add(one.name)
            laws |= self.cited(one.text + self.proof_of(one))
            called = set(CALLED.findall(one.text))
            proofs = self.proof_of(one) + "".join(self.laws[law] for law in laws)
            for other in self.functions.values():
                if other.name not in functions and (other.short() in called or f"{self.module(other)}." in proofs):
                    open_.append(other.name)
        return functions, laws

    def module(self, function):
        return ".".join(["Rattle", self.crate, "proofs", *function.path])

    def cited_by(self, laws):
        """Some laws and those that they cite."""
        return set(laws) | self.cited("".join(self.laws[law] for law in laws))

    def cited(self, text):
        """The laws that a function or its proof cites, and those that these cite."""
        found, open_ = set(), [text]
        while open_:
            text = open_.pop()
            new = {law for law in self.laws if law not in found and re.search(rf"\bproofs(?:\.|::){law}\b", text)}
            found |= new
            open_ += [self.laws[law] for law in new]
        return found

    def words(self, functions, laws):
        """Every word of the functions, of their proofs and of the laws, and of the definitions that these name, and so on."""
        texts = [self.functions[name].text + self.proof_of(self.functions[name]) for name in functions] + [self.laws[law] for law in laws]
        found, open_ = set(), {word for text in texts for word in WORD.findall(text)}
        while open_:
            found |= open_
            open_ = {word for name in open_ for word in self.defined_words.get(name, ())} - found
        return found

    @functools.cached_property
    def defined_words(self):
        found = {}
        for (crate, side, _), module in known().known.items():
            for name, one in module.definitions.items() if (crate, side) == (self.crate, "specs") else ():
                found.setdefault(name, set()).update(WORD.findall("\n".join(one.around + one.lines())))
        return found

    def nearest(self, touched):
        """The functions that a change of definitions, constants or contracts can break first: those that it touches, whose bodies read
        a constant that it touches, or whose contracts stand the fewest steps before a definition that it does; and of these such as
        rest on no other of them."""
        for steps in range(calls.STEPS + 1):
            found = {name for one in calls.functions(self.crate) if touched & self.before(one, steps) for name in self.bodies(one)}
            if found:
                # Methods of one name rest on each other as it is told here.
                return {name for name in found if not found & self.kept([name])[0] - {name}} or found
        return set()

    def bodies(self, function):
        """The functions here that are one of tests/calls.py; those of its impls where a trait states it and gives no body."""
        module = pathlib.Path(function.file)
        name = "::".join(function.name.split("::")[1 + (module.stem not in ("lib", "main")) :])
        if (module.name, name) in self.by_file:
            return {self.by_file[module.name, name]}
        return {name for name, one in self.functions.items() if one.short() == function.short}

    def before(self, function, steps):
        constants = {f"const {name}" for name in known().read_by(function)}
        return {function.name} | constants | known().cited(function, steps)

    def methods_beside(self, names):
        """The methods that rest on none of the functions: a type without one of its methods would be another module to all that use
        the type, and these would be checked anew."""
        methods = [name for name, one in self.functions.items() if one.path[-2:-1] and one.path[-2][0].isupper()]
        return [name for name in methods if not self.kept([name])[0] & set(names)]

    def without_rest(self, names):
        """What a copy of the crate loses where only these functions are checked: pieces of its files, and files of its proofs."""
        functions, laws = self.kept([*names, *self.methods_beside(names)])
        gone = [one for name, one in self.functions.items() if name not in functions]
        pieces = [(one.file, *one.span, "") for one in gone]
        lost = {"::".join(one.path) for one in gone}
        for file, text in self.sources.items():
            pieces += [(file, m.start(), m.end() - 1, used_without(m, lost)) for m in USED.finditer(text) if used(m) & lost]
        node = self.place / "proofs" / "Lib.antt"
        for m in re.finditer(r"^(?:pub )?mod (\S+)$", node.read_text() if node.exists() else "", re.M):
            if m.group(1) not in laws:
                pieces.append(("proofs/Lib.antt", m.start(), m.end(), ""))
        paths = [path for one in gone for path in self.files_of(one)] + [f"proofs/{law}.antt" for law in self.laws if law not in laws]
        return Rest(pieces, paths)


class Rest:
    """What is left out, as a change of the crate."""

    def __init__(self, pieces, paths):
        self.pieces, self.paths, self.files, self.function = pieces, paths, {}, None


@functools.lru_cache(None)
def of(crate):
    return Crate(crate)


@functools.lru_cache(None)
def known():
    return calls.Calls()


def rest_of(changes):
    """What a check of changes of functions of one crate can leave out."""
    return of(changes[0].crate).without_rest([change.function.name for change in changes])
