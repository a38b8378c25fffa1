"""The definitions and theorems of the crates' specs and proofs, as their files have them: what each says, and what it cites."""

import pathlib
import re

ROOT = pathlib.Path(__file__).resolve().parent.parent
WORD = re.compile(r"[^\s(){}\[\];,.]+(?:\.[^\s(){}\[\];,.]+)?")
USE = re.compile(r"use Rattle\.(\w+)\.(specs|proofs)\.([^\s{};]+?)(?:\.\{([^}]*)\}| as ([^\s;]+))")
BOUND = re.compile(r"[({]([^(){}:]+) :")
HEAD = re.compile(r" *(?:abbrev |unfoldable )?(?:pub )?(?:(?:record|data) (\S+)|(\S+)(?=(?: \{[^}]*\})? :(?: |$)))")


def crates():
    return re.findall(r"^(\w+)(?: \w+)*:", (ROOT / "crates.txt").read_text(), re.M)


def counted(lines, comment):
    return [line for line in lines if line.strip() and not line.strip().startswith(comment) and not re.match(r"(?:ghost |pub )?use |(?:pub )?mod ", line)]


class Definition:
    """A declaration: its statement, which of a record is all of it, its body, and the headers of the modules around it."""

    def __init__(self, indent, around):
        self.indent, self.around, self.statement, self.body = indent, around, [], []

    def lines(self):
        return self.statement + self.body

    def is_lemma(self):
        """Whether it is a proof: what others compute with is marked, a record, or a type."""
        text = " ".join(self.statement)
        return not re.match(r" *(?:abbrev |unfoldable |(?:pub )?(?:record|data) )", text) and not re.search(r"Type \d+$", text)


class Module:
    """A file of definitions: what each says, and where the names that it uses come from."""

    def __init__(self, text):
        self.imports, self.aliases = imports_of(text)
        self.definitions, headers, current = {}, [], None
        for line in counted(text.split("\n"), "--"):
            indent = len(line) - len(line.lstrip())
            if headers and not headers[-1][1].endswith("where"):
                headers[-1][1] += line
                continue
            headers = [header for header in headers if header[0] < indent]
            if re.match(r" *(?:pub )?module ", line):
                headers.append([indent, line])
                current = None
                continue
            head = HEAD.match(line)
            if head and (current is None or indent <= current.indent):
                current = self.definitions.setdefault(head.group(1) or head.group(2), Definition(indent, [h[1] for h in headers]))
            if current:
                in_body = current.body or (current.statement and not head and indent <= current.indent)
                (current.body if in_body else current.statement).append(line)


def imports_of(text):
    """Names by the (crate, side, module) that they are imported from, and the modules imported whole under another name."""
    names, aliases = {}, {}
    for crate, side, module, listed, alias in USE.findall(text):
        if alias:
            aliases[alias] = (crate, side, module)
        for name in listed.split(","):
            names[name.strip()] = (crate, side, module)
    return names, aliases


def modules():
    found = {}
    for crate in crates():
        for side in ("specs", "proofs"):
            folder = ROOT / "crates" / crate / side
            for path in folder.glob("**/*.antt"):
                found[crate, side, ".".join(path.relative_to(folder).with_suffix("").parts)] = Module(path.read_text())
    return found


def cited(text, here, imports, aliases, known):
    """The definitions that a text names, but for names that it binds itself."""
    bound = {name for names in BOUND.findall(text) for name in names.split()} if here else ()
    for word in WORD.findall(text):
        if word in bound:
            continue
        first, dot, last = word.partition(".")
        if dot and first in aliases:
            yield aliases[first], last
        elif here and first in known[here].definitions:
            yield here, first
        elif first in imports:
            yield imports[first], first
