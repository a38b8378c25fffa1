"""Small wrong edits of a crate's code, listed from its sources: each is one replacement in one file.

A mutant's name is CRATE/FILE:FUNCTION:LINE:COLUMN-EDIT. LINE counts from the function's opening brace and COLUMN from
the start of the line, so that a name stands while its function does; of a constant, FUNCTION is its name.
Contracts, comments, `use` items and declarations of types are left alone.
"""

import re

import prover
from calls import KIND

TOKEN = re.compile(
    r"//[^\n]*|\s+|[A-Za-z_]\w*|\d+(?:[ui](?:8|16|32|64|size))?|<=|>=|==|!=|&&|\|\||=>|->|\+=|-=|::|\.\.|'[a-z]+|."
)
# In a body a string is one token, whose brackets and semicolons are none of the code's; of a constant it is the value.
IN_BODY = re.compile(rf'"(?:[^"\\]|\\[\s\S])*"|{TOKEN.pattern}')
COMPARE = {"<": "<=", "<=": "<", ">": ">=", ">=": ">", "==": "!=", "!=": "=="}
RECKON = {"+": "-", "-": "+", "*": "+", "/": "*", "%": "/", "+=": "-=", "-=": "+=", "&&": "||", "||": "&&"}
WORDS = {
    "<": "lt", "<=": "le", ">": "gt", ">=": "ge", "==": "eq", "!=": "ne", "+": "plus", "-": "minus", "*": "times",
    "/": "over", "%": "rest", "+=": "add", "-=": "take", "&&": "and", "||": "or",
}
OPEN, CLOSE = "([{", ")]}"


class Mutant(prover.Change):
    """One replacement in one file: the characters from `start` to `end` become `new`."""

    def __init__(self, region, name, start, end, new):
        self.crate, self.name, self.function = region.crate, name, region.function
        self.start, self.new, self.pieces = start, new, [(f"src/{region.path.name}", start, end, new)]
        self.constant = None if region.function else region.name


class Token:
    def __init__(self, text, at):
        self.text, self.at, self.end = text, at, at + len(text)

    def is_word(self):
        return bool(re.match(r"[A-Za-z_]", self.text))

    def is_number(self):
        return self.text[0].isdigit()

    def is_operand(self):
        return self.is_word() and self.text not in ("return", "in", "if", "else", "match", "while", "as") or self.is_number() or self.text in (")", "]")


def tokens_of(text, start, end, token):
    found = []
    for m in token.finditer(text, start, end):
        if not m.group().isspace() and not m.group().startswith("//"):
            found.append(Token(m.group(), m.start()))
    return found


class Words:
    """What the sources declare: the parameters of functions, the fields of structs, the variants of enums, constants."""

    def __init__(self):
        self.calls, self.structs, self.enums, self.constants = {}, {}, {}, {}

    def read(self, text):
        for m in re.finditer(r"\bfn (\w+)(?:<[^>]*>)?\(([^)]*)\)", text):
            kinds = [p.split(":", 1)[1].strip() for p in m.group(2).split(",") if ":" in p]
            self.calls.setdefault(m.group(1), []).append(kinds)
        for m in re.finditer(r"\bstruct (\w+)(?:<[^>]*>)? \{\n(.*?)\n\}", text, re.S):
            self.structs[m.group(1)] = dict(re.findall(r"(\w+): ([^\n]+),", m.group(2)))
        for m in re.finditer(r"\benum (\w+) \{\n(.*?)\n\}", text, re.S):
            self.enums[m.group(1)] = dict(re.findall(r"^    (\w+)(\(.*\))?,$", m.group(2), re.M))
        for m in re.finditer(r"^impl (\w+) \{\n(.*?)\n\}", text, re.S | re.M):
            for name, kind in re.findall(r"const (\w+): ([^=]+) =", m.group(2)):
                self.constants.setdefault(m.group(1), {})[name] = kind

    def kinds(self, call, count):
        """The types of a call's arguments, where every function of that name with so many agrees on them."""
        fitting = [k for k in self.calls.get(call, []) if len(k) == count]
        return fitting[0] if fitting and all(k == fitting[0] for k in fitting) else None

    def sibling_field(self, name):
        """Another field of the same type in the smallest struct that has one."""
        for fields in sorted(self.structs.values(), key=len):
            if name in fields:
                other = following(name, fields)
                if other:
                    return other
        return None


def following(name, kinds):
    """The next name of the same type, in a ring."""
    same = [n for n, k in kinds.items() if k == kinds[name]]
    other = same[(same.index(name) + 1) % len(same)]
    return other if other != name else None


class Region:
    """A function's body, with the types of its parameters, or a constant's value, with none."""

    def __init__(self, crate, path, text, name, start, end, kinds, header):
        self.crate, self.path, self.text, self.name, self.kinds = crate, path, text, name, kinds
        self.start, self.end, self.header = start, end, header
        self.function = None if kinds is None else prover.Function(self)
        self.tokens = tokens_of(text, start, end, TOKEN if kinds is None else IN_BODY)
        self.partner = {}
        stack = []
        for i, t in enumerate(self.tokens):
            if t.text in OPEN:
                stack.append(i)
            elif t.text in CLOSE:
                self.partner[i] = stack[-1]
                self.partner[stack.pop()] = i

    def mutant(self, at, end, new, edit):
        line = self.text.count("\n", self.start, at)
        column = at - self.text.rfind("\n", 0, at)
        name = f"{self.crate}/{self.path.name}:{self.name}:{line}:{column}-{edit}"
        return Mutant(self, name, at, end, new)

    def is_literal(self, i):
        """Whether the brace opens a struct literal."""
        t = self.tokens
        return i > 0 and re.match(r"[A-Z]\w*[a-z]", t[i - 1].text) and i + 2 < len(t) and t[i + 1].is_word() and t[i + 2].text in ":,}"

    def entries(self, i):
        """The parts between the commas of a bracket, each as (first token, last token)."""
        parts, first, j = [], i + 1, i + 1
        while j <= self.partner[i]:
            if j == self.partner[i] or self.tokens[j].text == ",":
                if j > first:
                    parts.append((first, j - 1))
                first = j + 1
            j = self.partner[j] + 1 if self.tokens[j].text in OPEN else j + 1
        return parts

    def words(self, part):
        return self.text[self.tokens[part[0]].at : self.tokens[part[1]].end]

    def swapped(self, parts, kinds, edit):
        """Two neighbours of one type change places."""
        for a in range(len(parts)):
            for b in range(a + 1, len(parts)):
                if kinds[a] == kinds[b]:
                    old = self.words(parts[a]), self.words(parts[b])
                    if old[0] != old[1]:
                        start, end = self.tokens[parts[a][0]].at, self.tokens[parts[b][1]].end
                        between = self.text[self.tokens[parts[a][1]].end : self.tokens[parts[b][0]].at]
                        yield self.mutant(start, end, old[1] + between + old[0], edit)
                    break


def operators(r, words):
    for i, t in enumerate(r.tokens):
        binary = i > 0 and r.tokens[i - 1].is_operand()
        if t.text in COMPARE:
            new = COMPARE[t.text]
            yield r.mutant(t.at, t.end, new, f"{WORDS[t.text]}-{WORDS[new]}")
        elif t.text in RECKON and binary:
            yield r.mutant(t.at, t.end, RECKON[t.text], f"{WORDS[t.text]}-{WORDS[RECKON[t.text]]}")
        elif t.text == "-":
            yield r.mutant(t.at, t.end, "", "sign-kept")
        elif t.text in ("true", "false"):
            new = "false" if t.text == "true" else "true"
            yield r.mutant(t.at, t.end, new, f"{t.text}-{new}")


def numbers(r, words):
    for i, t in enumerate(r.tokens):
        if t.is_number() and r.tokens[i - 1].text != ".":
            value, kind = re.match(r"(\d+)(.*)", t.text).groups()
            new = 0 if value == "1" else int(value) + 1
            yield r.mutant(t.at, t.end, f"{new}{kind}", f"{value}-{new}")


def conditions(r, words):
    for i, t in enumerate(r.tokens):
        if t.text not in ("if", "while") or r.tokens[i + 1].text == "let":
            continue
        if r.tokens[i + 1].text == "!":
            yield r.mutant(r.tokens[i + 1].at, r.tokens[i + 1].end, "", "negated")
            continue
        j = i + 1
        # A test of an arm ends at its arrow.
        while r.tokens[j].text != "=>" and (r.tokens[j].text != "{" or r.is_literal(j)):
            j = r.partner[j] + 1 if r.tokens[j].text in OPEN else j + 1
        # `==` and `!=` change places among the operators.
        if not any(t.text in ("==", "!=") for t in r.tokens[i + 1 : j]):
            at, end = r.tokens[i + 1].at, r.tokens[j - 1].end
            yield r.mutant(at, end, f"!({r.text[at:end]})", "negated")


def indices(r, words):
    for i, t in enumerate(r.tokens):
        if t.text != "[" or i == 0 or not r.tokens[i - 1].is_operand():
            continue
        inner = r.tokens[i + 1 : r.partner[i]]
        at, end = inner[0].at, inner[-1].end
        if inner[0].text == "..":
            yield r.mutant(at, end, f"{inner[1].text}..", "front-back")
        elif inner[-1].text == "..":
            yield r.mutant(at, end, f"..{inner[0].text}", "back-front")
        elif len(inner) == 1 and inner[0].is_word():
            yield r.mutant(at, end, "0", "first")
            yield r.mutant(at, end, f"{inner[0].text} + 1", "next")


def statements(r, words):
    """Statements that store, call or return, each left out."""
    starts, inside = [0], 0
    for i, t in enumerate(r.tokens):
        inside += (t.text in "([") - (t.text in ")]")
        if t.text == "{":
            starts.append(starts[-1] if r.is_literal(i) else i + 1)
        elif t.text == "}":
            starts.pop()
            after = r.tokens[i + 1].text if i + 1 < len(r.tokens) else ""
            if not r.is_literal(r.partner[i]) and after not in ("else", ";", ")", ",", "."):
                starts[-1] = i + 1
        elif t.text == ";" and not inside:
            first, starts[-1] = starts[-1], i + 1
            in_else = first > 1 and r.tokens[first - 1].text == "{" and r.tokens[first - 2].text == "else"
            if r.tokens[first].text not in ("let", "if", "while", "match") and not in_else:
                yield r.mutant(r.tokens[first].at, t.end, "", "dropped")


def arguments(r, words):
    for i, t in enumerate(r.tokens):
        if t.text == "(" and i > 0 and r.tokens[i - 1].is_word():
            parts = r.entries(i)
            kinds = words.kinds(r.tokens[i - 1].text, len(parts))
            if kinds:
                yield from r.swapped(parts, kinds, "swapped")
        elif t.text == "{" and r.is_literal(i):
            fields = words.structs.get(r.tokens[i - 1].text)
            parts = r.entries(i)
            if fields and all(r.tokens[a + 1].text == ":" for a, _ in parts):
                kinds = [fields.get(r.tokens[a].text) for a, _ in parts]
                yield from r.swapped([(a + 2, b) for a, b in parts], kinds, "swapped")


def variants(r, words):
    """A variant, a constant of a record type or a field, in place of another of its type."""
    t = r.tokens
    for i in range(len(t) - 2):
        if t[i + 1].text == "::":
            kind, name = t[i].text, t[i + 2].text
            last = r.partner[i + 3] if i + 3 < len(t) and t[i + 3].text == "(" else i + 2
            if last + 1 < len(t) and t[last + 1].text == "=>" or t[i - 1].text == "let":
                continue
            if name in words.enums.get(kind, {}):
                plain = {n: k for n, k in words.enums[kind].items() if not k}
                new = following(name, plain) if name in plain else next(iter(plain), None)
                if new:
                    yield r.mutant(t[i + 2].at, t[last].end, new, f"{name}-{new}")
            elif name in words.constants.get(kind, {}):
                new = following(name, words.constants[kind])
                if new:
                    yield r.mutant(t[i + 2].at, t[i + 2].end, new, f"{name}-{new}")
        elif t[i].text == "." and t[i + 1].is_word() and t[i + 2].text != "(":
            new = words.sibling_field(t[i + 1].text)
            if new:
                yield r.mutant(t[i + 1].at, t[i + 1].end, new, f"{t[i + 1].text}-{new}")


def values(r, words):
    """A parameter handed back in place of another of its type."""
    t = r.tokens
    for i, name in enumerate(t):
        if name.text in (r.kinds or {}) and i > 0 and i + 1 < len(t):
            returned = t[i - 1].text == "return" and t[i + 1].text == ";"
            handed = t[i - 1].text in "{}" and t[i + 1].text == "}" and not (t[i - 1].text == "{" and r.is_literal(i - 1))
            if returned or handed:
                new = following(name.text, r.kinds)
                if new:
                    yield r.mutant(name.at, name.end, new, f"{name.text}-{new}")


EDITS = (operators, numbers, conditions, indices, statements, arguments, variants, values)


def regions_of(crate, path, text):
    """Each function's body and each constant's value."""
    lines = text.split("\n")
    starts = [0]
    for line in lines:
        starts.append(starts[-1] + len(line) + 1)
    kind, function, header, body = "", None, 0, None
    for k, line in enumerate(lines):
        m = KIND.match(line)
        if m:
            kind = m.group(1) + "::"
        elif line == "}":
            if body is None:
                kind = ""
        m = re.match(r"\s*(?:#\[.*\] )?(?:pub )?(?:extern \"C\" )?fn (\w+)", line)
        if m:
            function, header = (kind if line.startswith(" ") else "") + m.group(1), starts[k]
        # Without a contract, the brace stands behind the header.
        opening = re.fullmatch(r"(\s*)(?:.*\bfn \w.* |\).* )?\{", line)
        # What a trait states has no body.
        if function and body is None and not m and line.endswith(";"):
            function = None
        if function and body is None and opening:
            body, closing = starts[k] + len(line) - 1, opening.group(1) + "}"
        elif body and line == closing:
            m = re.search(r"\(([^)]*)\)", text[header:body])
            kinds = dict(tuple(w.strip() for w in p.split(":", 1)) for p in m.group(1).split(",") if ":" in p)
            yield Region(crate, path, text, function, body, starts[k] + len(line), kinds, header)
            function, body = None, None
        m = re.match(r"\s*(?:pub )?(?:const|static) (\w+): [^=]+ = ", line)
        if m and body is None:
            start = starts[k] + m.end()
            end = text.index(";\n", start)
            if line.rstrip().endswith("["):
                end = text.index("\n];", start) + 2
            yield Region(crate, path, text, kind + m.group(1), start, end, None, starts[k])


def mutants_of(root, below, every=1):
    """The mutants of the crates, each given with those that it stands on, in order of their sources: in each function, every so many-th."""
    found = []
    for crate in below:
        words = Words()
        for name in below[crate] + [crate]:
            for path in sorted((root / "crates" / name / "src").glob("*.rt")):
                words.read(path.read_text())
        for path in sorted((root / "crates" / crate / "src").glob("*.rt")):
            text = path.read_text()
            for region in regions_of(crate, path, text):
                each = {m.name: m for edit in EDITS for m in edit(region, words)}
                found += sorted(each.values(), key=lambda m: (m.start, m.name))[::every]
    return found
