"""The functions of the crates, as their sources have them: what each asks and promises, what it calls, and what an edit touches."""

import functools
import re

import definitions
from definitions import ROOT, crates

# How many steps behind what a contract names a definition may stand: each step goes to what a definition names.
STEPS = 2
# The type that the methods of an impl are of.
KIND = re.compile(r"^impl(?:<[^>]*>)? (?:[\w:]+(?:<[^>]*>)? for )?(\w+)", re.M)
# A trait, and whether it is public: what it states, each of its impls does.
TRAIT = re.compile(r"^(pub )?trait (\w+)")
# What an impl gives for a ghost member of its trait: a contract of the trait speaks of it.
LAW = re.compile(r"^ *ghost \w+ = \{ .*? \};$", re.M | re.S)
CONSTANT = re.compile(r"\b((?:[A-Z]\w*[a-z]\w*::)?[A-Z][A-Z0-9_]*)\b")


def libraries():
    return [name for name in crates() if (ROOT / "crates" / name / "src" / "lib.rt").exists()]


def stands_on(crate):
    """The crates that one stands on."""
    line = re.search(rf"^{crate}\b[^:]*:(.*)$", (ROOT / "crates.txt").read_text(), re.M)
    return line.group(1).split() if line else []


class Function:
    """A function: its whole name, where it stands, its clauses and its body, what its impl states, and whether another crate can call it."""

    def __init__(self, crate, path, kind, text, public, laws=""):
        self.crate, self.file, self.public, self.laws = crate, f"src/{path.name}", public, laws
        self.short = re.match(r".*?\bfn (\w+)", text).group(1)
        module = [path.stem] * (path.stem not in ("lib", "main"))
        self.name = "::".join([crate, *module, *kind, self.short])
        indent = re.match(r" *", text).group()
        body = re.search(r"\{$", text, re.M)
        ended = re.search(rf"^{indent}\}}$", text, re.M)
        stated = re.search(r";$", text, re.M)
        self.of_trait = stated is not None and (body is None or stated.start() < body.start())
        if self.of_trait:
            self.clauses, self.body = text[: stated.start()], ""
        else:
            self.clauses, self.body = text[: body.start()], text[body.end() : ended.end() if ended else len(text)]

    def asks(self):
        """The clauses that a caller must meet."""
        found = re.findall(r"^ *requires(?: \w+)? \{ (.*?) \}$", self.clauses, re.M | re.S)
        return [" ".join(clause.split()) for clause in found]

    def promises(self):
        return re.search(r"^ *ensures(?: \w+)? \{", self.clauses, re.M) is not None


def functions(crate):
    """Every function of a crate, in order of its sources."""
    for path in sorted((ROOT / "crates" / crate / "src").glob("*.rt")):
        yield from functions_in(crate, path, path.read_text())


def functions_in(crate, path, text):
    """The functions of a file of a crate that has the text."""
    kind, stated, laws = [], False, ""
    for item in re.split(r"^(?=impl\b|(?:pub )?trait\b|\}$| *(?:pub (?:extern \"C\" )?)?fn )", text, flags=re.M):
        if item.startswith("impl"):
            kind, stated, laws = [KIND.match(item).group(1)], False, "\n".join(LAW.findall(item))
        elif TRAIT.match(item):
            kind, stated, laws = [TRAIT.match(item).group(2)], TRAIT.match(item).group(1) is not None, ""
        elif item.startswith("}"):
            kind, stated, laws = [], False, ""
        elif re.match(r" *(?:pub (?:extern \"C\" )?)?fn ", item):
            inside = kind if item.startswith(" ") else []
            public = path.name in shown(crate) and (stated or item.lstrip().startswith("pub "))
            yield Function(crate, path, inside, item, public, laws if inside else "")


@functools.lru_cache(None)
def shown(crate):
    """The files of a crate whose public functions another crate can call."""
    source = ROOT / "crates" / crate / "src"
    top = next(path for path in (source / "lib.rt", source / "main.rt") if path.exists())
    return [top.name] + [f"{name}.rt" for name in re.findall(r"^pub mod (\w+);", top.read_text(), re.M)]


def public_calls(crate):
    return [function for function in functions(crate) if function.public]


# ---- What an edit touches


def pieces_of(edit):
    """Each file of the crate that a must-fail edit names, with what is to go and what comes in its place."""
    file = old = None
    for line in edit.read_text().split("\n"):
        word, _, rest = line.partition(":")
        if word == "file":
            file = rest.strip()
        elif word == "old":
            old = rest[1:]
        elif word == "new":
            yield file, old, rest[1:]


def parts_of(crate, file, text):
    """What a file declares, by name: definitions with their module, or functions and constants."""
    path = ROOT / "crates" / crate / file
    if path.suffix == ".antt":
        side, *module = path.relative_to(ROOT / "crates" / crate).with_suffix("").parts
        where = crate, side, ".".join(module)
        return {(where, name): d.lines() for name, d in definitions.Module(text).definitions.items()}
    found = {function.name: function.clauses + function.body for function in functions_in(crate, path, text)}
    for item in re.split(r"^(?=impl\b|\}$)", text, flags=re.M):
        kind = "".join(KIND.findall(item.split("\n")[0]))
        for name, value in constants_in(item):
            found[f"const {kind}::{name}" if kind else f"const {name}"] = value
    return found


def constants_in(text):
    """Each constant or static of a text, with its type and value."""
    return re.findall(r"^ *(?:pub )?(?:const|static) (\w+): (.*?);$", text, re.M | re.S)


def touched(crate, edit):
    """The names of what a must-fail edit changes."""
    texts = {}
    for file, old, new in pieces_of(edit):
        before, after = texts.get(file) or 2 * ((ROOT / "crates" / crate / file).read_text(),)
        texts[file] = before, after.replace(old, new)
    found = set()
    for file, (before, after) in texts.items():
        one, other = parts_of(crate, file, before), parts_of(crate, file, after)
        found |= {name for name in one.keys() | other.keys() if one.get(name) != other.get(name)}
    return found


class Calls:
    """Every function of the libraries, and what each call rests on."""

    def __init__(self):
        self.all = {function.name: function for crate in libraries() for function in functions(crate)}
        self.short = {}
        for function in self.all.values():
            self.short.setdefault(function.short, []).append(function)
        self.below = {name: {name, *stands_on(name)} for name in crates()}
        self.known = definitions.modules()
        self.texts, self.kept = {}, {}

    def source(self, function):
        path = ROOT / "crates" / function.crate / function.file
        return self.texts.setdefault(path, path.read_text())

    def called(self, function):
        """The functions that one names before a bracket: of its own file, or imported there, or by the type, or the trait of a type parameter, before the name."""
        names = set(re.findall(r"((?:\w+::)?\w+)\(", function.body))
        bounds = dict(re.findall(r"\b(\w+): (\w+)", function.clauses.split("(")[0]))
        for name in names:
            kind, _, last = name.rpartition("::")
            if kind in bounds:
                kind = bounds[kind]
                name = f"{kind}::{last}"
            for other in self.short.get(last, []):
                if other.crate not in self.below[function.crate]:
                    continue
                if kind and f"::{other.name}".endswith(f"::{name}") or not kind and self.is_seen(function, other):
                    yield other

    def is_seen(self, function, other):
        """Whether a bare name can mean the other: a method of any type, or a function of the file or imported into it."""
        if other.name.split("::")[-2][:1].isupper():
            return f".{other.short}(" in function.body
        if (other.crate, other.file) == (function.crate, function.file):
            return True
        return re.search(rf"^use [^;]*\b{other.short}\b[^;]*;", self.source(function), re.M) is not None

    def reached(self, call, parts):
        """The call, what it calls, and what those of these that no other crate can call do in turn; with `parts` all do."""
        seen, open_ = {}, [call]
        while open_:
            function = open_.pop()
            if function.name not in seen:
                seen[function.name] = function
                if parts or function is call or not function.public:
                    open_ += self.called(function)
                if function.of_trait:
                    open_ += [one for one in self.short[function.short] if (one.crate, one.file) == (function.crate, function.file)]
        return seen.values()

    def cited(self, function, steps=STEPS):
        """The definitions that a function's contract names, and those that stand up to so many steps behind them."""
        imports, aliases = definitions.imports_of(self.source(function))
        found = set(definitions.cited(function.clauses + function.laws, None, imports, aliases, self.known))
        for _ in range(steps):
            for where, name in list(found):
                if where in self.known and name in self.known[where].definitions:
                    module, one = self.known[where], self.known[where].definitions[name]
                    found |= set(definitions.cited("\n".join(one.around + one.lines()), where, module.imports, module.aliases, self.known))
        return found

    def read_by(self, function):
        """The constants that a function reads, and those of its file that these are made of."""
        made = dict(constants_in(self.source(function)))
        found, open_ = set(), CONSTANT.findall(function.body)
        while open_:
            name = open_.pop()
            if name not in found:
                found.add(name)
                open_ += CONSTANT.findall(made.get(name, ""))
        return found

    def rests_on(self, call, parts):
        """What an edit that is cited for a call may touch (docs/DECISIONS.md); `parts` where it is a way in."""
        if (call.name, parts) not in self.kept:
            found = set()
            for function in self.reached(call, parts):
                found |= {function.name} | self.cited(function)
                found |= {f"const {name}" for name in self.read_by(function)}
            self.kept[call.name, parts] = found
        return self.kept[call.name, parts]
