"""Changes of the crates' files put before the prover, several in one check where they are of different functions.

A change has a `crate`, its `pieces`, each a file of the crate as it stands, where a piece of it starts and ends and what
comes in its place, the `files` that come, and the `function` whose body alone it changes, or None. A check starts from the checked modules of
the crate as it stands, so that the prover checks anew only what the changes touch. What the changed functions do not rest on can be
left out (tests/parts.py). The crates must be proved, and the libraries built.
"""

import concurrent.futures
import copy
import functools
import os
import pathlib
import re
import shutil
import subprocess
import sys
import tempfile
import threading

from calls import KIND

ROOT = pathlib.Path(__file__).resolve().parent.parent
# What this run works on: checked modules, and a bench for each job. rt ci takes no file of Rattle or antt in the checkout but the crates'.
RUN = pathlib.Path(tempfile.gettempdir()) / f"flehwella-run-{os.getpid()}"
# Of a processor: a check that others go before may take far longer by the clock. A lot whose goals are searched for in vain takes some hundred.
SECONDS = 900
# The changes of one check: with more of them little is saved, and the jobs end less evenly.
LOT = 16
# Errors that only say that a proof names what the changed code no longer has, or rests on another that was refused.
NAMING = ("that can be named from here", "is not in scope", "was not admitted", "has no field")
# What is said of a function's goals: of one by its place, of those that a function without a file leaves open.
UNPROVED = (": it is not proved that ", "`search` did not prove ")
# An open goal, told by its place in the sources, and a function from its attributes to its end.
OPEN = re.compile(r"^note: (\S*/(\w+)/src/(\w+)\.rt):(\d+):\d+: (it is not proved that .*)$", re.M)
# A type where it is declared: of its methods the prover speaks as of that module's, wherever their impl stands.
DECLARED = re.compile(r"^(?:pub )?(?:struct|enum) (\w+)", re.M)
FUNCTION = re.compile(r"^(?: *#\[.*\]\n)*( *)(?:#\[.*\] )?(?:pub )?(?:extern \"C\" )?fn (\w+)(?:.*\n)+?\1\}$", re.M)
REFUSED, PROVED, REJECTED, UNTOLD = "refused", "still proved", "does not compile", "could not tell"


def crates():
    """Each crate of crates.txt and those that it stands on."""
    found = {}
    for line in (ROOT / "crates.txt").read_text().split("\n"):
        name, colon, below = line.split("#")[0].partition(":")
        if colon:
            found[name.split()[0]] = below.split()
    return found


def is_program(crate):
    return (ROOT / "crates" / crate / "src" / "main.rt").exists()


def built(crate):
    """Where rt leaves what it makes of a crate."""
    return ROOT / "crates" / crate / "out"


@functools.lru_cache(None)
def modules_of(crate):
    """The folder in which rt keeps the crate's checked modules, by the name that this build of the prover gives it."""
    found = [folder for folder in (built(crate) / "incremental").glob("*") if not folder.name.endswith("-offers")]
    return found[0] if found else sys.exit(f"{crate} is not built: tools/built makes the programs, the library and ways")


def is_static(crate):
    return re.search(rf"^{crate} +staticlib\b", (ROOT / "crates.txt").read_text(), re.M) is not None


class Prover:
    """The kit's prover, called as rt calls it."""

    def __init__(self):
        self.below = crates()
        rt = shutil.which("rt") or sys.exit(f"{sys.argv[0]}: rt is not on the PATH")
        self.kit = pathlib.Path(rt).resolve().parent.parent
        self.spent = threading.local()
        self.logic = ["--antt-project", self.kit / "rattle" / "logic" / "antt-project.json", "--logic-built", self.kit / "logic_built"]

    def check(self, crate, file, incremental, sources={}):
        """The verdict on a crate, over the libraries that rt built, or over those that are given by their root files."""
        words = [self.kit / "bin" / "rattle", "check", "--crate-name", crate, file, "--jobs", "1", "--links", f"{crate}="]
        words += ["--crate-type", "staticlib"] * is_static(crate)
        for name in ["core"] * bool(sources) + ["std"] + self.below[crate]:
            if name in sources:
                words += ["--lib", f"{name}:{','.join(['core', 'std', *self.below[name]])}={sources[name]}"]
            else:
                folder = built(name) / "rlib" if name in self.below else self.kit / "rlibs"
                words += ["--extern", f"{name}={folder / f'{name}.rlib'}", "-L", f"dependency={folder}"]
        status, said = self.ran(words + self.logic + ["--incremental", incremental])
        said = OPEN.sub(named, said)
        verdict = [line for line in said.split("\n") if line.startswith("logic=")]
        if status == 0 and verdict and verdict[-1].startswith("logic=proved"):
            return PROVED, said
        if status == 1 and verdict and verdict[-1].startswith("logic=not-proved"):
            return REFUSED, said
        return (REJECTED if status in (1, 2) else UNTOLD), said

    def ran(self, words):
        """How a command ended, negative where it was stopped, and what it said."""
        limited = ["sh", "-c", f'ulimit -t {SECONDS}; exec "$@"', "sh"]
        process = subprocess.Popen(limited + words, stdin=subprocess.DEVNULL, stdout=subprocess.PIPE, stderr=subprocess.STDOUT)
        said = process.stdout.read().decode("utf-8", "replace")
        _, status, usage = os.wait4(process.pid, 0)
        self.spent.seconds = getattr(self.spent, "seconds", 0) + usage.ru_utime + usage.ru_stime
        process.returncode = os.waitstatus_to_exitcode(status)
        return process.returncode, said

    def spent_since(self):
        """The seconds of a processor that checks of this thread took since this was asked last."""
        seconds, self.spent.seconds = getattr(self.spent, "seconds", 0), 0
        return seconds


def named(goal):
    """What is said of an open goal, as a line of the function that stands there, or else as an error at no function's place."""
    path, crate, _, line, what = goal.groups()
    text = pathlib.Path(path).read_text()
    for one in FUNCTION.finditer(text):
        if text.count("\n", 0, one.start()) < int(line) <= text.count("\n", 0, one.end()) + 1:
            kind = KIND.findall(text, 0, one.start())[-1:] if one.group(1) else []
            return f"fn {'::'.join([crate, *module_path(pathlib.Path(path), kind), *kind, one.group(2)])}: {what}"
    return f"{path}:{line}: error: {what}"


@functools.lru_cache(None)
def declaring(source):
    """The types that a crate's sources declare, each with the modules that do."""
    found = {}
    for path in sorted(source.glob("*.rt")):
        for kind in DECLARED.findall(path.read_text()):
            found.setdefault(kind, []).append(path.stem)
    return found


def module_path(path, kind):
    """The module of a function, from the file that it stands in and the type that it is a method of, if it is of one."""
    declared = declaring(path.parent).get(kind[0], []) if kind else []
    module = declared[0] if declared and path.stem not in declared else path.stem
    return [module] * (module not in ("lib", "main"))


class Seeds:
    """What rt keeps of each crate as it stands, in a copy that no check touches."""

    def __init__(self, prover):
        self.prover, self.lock = prover, threading.Lock()

    def of(self, crate):
        folder = RUN / "seed" / crate
        with self.lock:
            if not folder.exists():
                shutil.copytree(modules_of(crate), folder)
        return folder


def linked(file, to):
    """A copy of what rt keeps: of a checked module a link suffices, since the prover replaces it and never writes into it."""
    return (os.link if file.endswith(".oantt") else shutil.copy2)(file, to)


class Bench:
    """A place where one crate at a time is checked with changes made."""

    def __init__(self, seeds, number):
        self.seeds, self.prover = seeds, seeds.prover
        self.place, self.holds = RUN / f"bench-{number}", []

    def lay(self, crates):
        """A copy of the crates, and of their checked modules."""
        shutil.rmtree(self.modules(), ignore_errors=True)
        for crate in crates:
            for part in ("src",) if self.holds == crates else ("src", "specs", "proofs"):
                if (ROOT / "crates" / crate / part).exists():
                    shutil.copytree(ROOT / "crates" / crate / part, self.place / crate / part, dirs_exist_ok=True)
            shutil.copytree(self.seeds.of(crate), self.modules() / modules_of(crate).name, copy_function=linked, dirs_exist_ok=True)

    def modules(self):
        return self.place / "modules"

    def root(self, crate):
        return self.place / crate / "src" / ("main.rt" if is_program(crate) else "lib.rt")

    def hold(self, crates):
        """The crates as they stand; what the last changes of the same crates touched is put back."""
        if self.holds != crates:
            shutil.rmtree(self.place, ignore_errors=True)
        self.lay(crates)
        self.holds = crates

    def check(self, crate, changes=(), rest=None):
        """The verdict on the crate with the changes made, without the rest where one is given (tests/parts.py)."""
        self.hold([crate])
        self.change(crate, [*changes, *filter(None, [rest])])
        for path in rest.paths if rest else ():
            (self.place / crate / path).unlink(missing_ok=True)
            self.holds = []
        return self.prover.check(crate, self.root(crate), self.modules())

    def check_above(self, crate, above, changes):
        """The verdict on a crate that stands on the changed one: that one and those in between are given as sources, so that of
        them too the prover checks anew only what the changes touch."""
        below = self.prover.below
        between = [name for name in below[above] if name == crate or crate in below.get(name, [])]
        self.hold([*between, above])
        self.change(crate, changes)
        return self.prover.check(above, self.root(above), self.modules(), {name: self.root(name) for name in between})

    def change(self, crate, changes):
        pieces = {}
        for change in changes:
            for file, *piece in change.pieces:
                pieces.setdefault(file, []).append(piece)
            for file, text in change.files.items():
                path = self.place / crate / file
                path.parent.mkdir(parents=True, exist_ok=True)
                path.write_text(text)
                self.holds = []
        for file in pieces:
            path = self.place / crate / file
            path.write_text(replaced(path.read_text(), pieces[file]))
            # A bench that holds the crate puts back its sources alone.
            if not file.startswith("src/"):
                self.holds = []


def replaced(text, pieces):
    """The text with its pieces replaced; lines stay where they are, since an error is told by its line."""
    for start, end, new in sorted(pieces, reverse=True):
        kept = "\n" * (text.count("\n", start, end) - new.count("\n"))
        text = text[:start] + new + kept + text[end:]
    return text


def errors_of(said):
    # The prover breaks a long line before these words.
    said = re.sub(r"\n +(?=has no field)", " ", said)
    return [line for line in said.split("\n") if ": error" in line or line.startswith("error")]


def facts_of(said):
    """What tells of a fact that no longer holds: an error, or a goal that is not proved."""
    errors = [line for line in errors_of(said) if not any(words in line for words in NAMING)]
    return errors + [line for line in said.split("\n") if line.startswith("fn ") and any(words in line for words in UNPROVED)]


def in_crate(line):
    """A line as it reads in the crate's folder."""
    return re.sub(r"/\S*/bench-\d+/\w+/", "", line)[:200]


def complaint(said):
    """The first line that tells of a fact; else the first error of any kind, or of a function that is not proved."""
    errors, facts = errors_of(said), facts_of(said)
    if errors and not facts:
        return "by name only: " + in_crate(errors[0])
    unproved = [line for line in said.split("\n") if line.startswith("fn ") and not line.endswith(": proved")]
    return in_crate((facts + unproved + [""])[0])


class Function:
    """A function's place in its crate: its name, the folder of its proof, and the lines of its body."""

    def __init__(self, region):
        *kind, short = region.name.split("::")
        path = [*module_path(region.path, kind), *kind, short]
        self.name = "::".join([region.crate, *path])
        self.proof = "/".join(["proofs", *path])
        self.source = re.compile(rf"/src/{re.escape(region.path.name)}:(\d+):")
        self.lines = range(region.text.count("\n", 0, region.start) + 1, region.text.count("\n", 0, region.end) + 2)

    def called(self, name):
        """A copy of it under another name, which has no lines of its own."""
        other = copy.copy(self)
        other.name = "::".join([*self.name.split("::")[:-1], name])
        other.proof = "/".join([*self.proof.split("/")[:-1], name])
        other.lines = range(0)
        return other

    def has(self, fact):
        """Whether it is in its own proof, or in the search for what that leaves, that a fact no longer holds."""
        return fact.startswith(f"fn {self.name}: ") or not fact.startswith("fn ") and re.search(rf"/{self.proof}/\w+\.antt:", fact) is not None

    def is_rejected(self, said):
        """Whether the compiler rejects a line of its body."""
        places = (self.source.search(error) for error in errors_of(said))
        return any(place and int(place.group(1)) in self.lines for place in places)


def told_together(bench, lot, rest=None):
    """Of changes of one crate that do not meet, made at once: those that are refused by a fact, each with the error. The rest of the
    crate is left out where one is given.

    Each change tells which facts are its own, and which of these refuse it. A function is proved from the contracts of those that it
    calls, so that an error of a fact in its proof comes from its own change. Of a change that is not told of, nothing is known: its
    error may be hidden by that of a function that it calls. Where the compiler rejects some, the others are made once more; where a
    fact no longer holds that is no change's own, the lot tells of none.
    """
    while lot:
        verdict, said = bench.check(lot[0].crate, lot, rest)
        if verdict == REFUSED:
            facts = facts_of(said)
            if not all(any(change.owns(fact) for change in lot) for fact in facts):
                return {}
            found = {change: [fact for fact in facts if change.is_refused_by(fact)] for change in lot}
            return {change: in_crate(own[0]) for change, own in found.items() if own}
        rejected = [change for change in lot if change.function and change.function.is_rejected(said)]
        if verdict != REJECTED or not rejected:
            return {}
        lot = [change for change in lot if change not in rejected]
    return {}


class Change:
    """A change of the crates' files. One of a function's body is refused by a fact in the function's own proof."""

    files = {}

    def owns(self, fact):
        return self.function.has(fact)

    def is_refused_by(self, fact):
        return self.owns(fact)


def lots_of(changes, most=LOT):
    """Changes of one crate in lots of at most so many, the largest last: in each at most one of a function, and one of anything else
    by itself."""
    alone, of = [], {}
    for change in changes:
        if change.function is None:
            alone.append([change])
        else:
            of.setdefault(change.function.name, []).append(change)
    lots = []
    while of:
        # Functions with most changes left come first, so that few are left over to be tried by themselves.
        longest = sorted(of, key=lambda name: -len(of[name]))[:most]
        lots.append([of[name].pop(0) for name in longest])
        of = {name: left for name, left in of.items() if left}
    return alone + lots[::-1]


class Work:
    """The lots still to try, by crate, each crate's from its last. A bench goes on with the crate that it holds and then takes one that
    no other holds, that with the largest lot, so that short ones are left for the end. At last it helps another."""

    def __init__(self, lots):
        self.lock, self.held, self.left = threading.Lock(), {}, {}
        for lot in lots:
            self.left.setdefault(lot[0].crate, []).append(lot)

    def next(self, number):
        with self.lock:
            left = [crate for crate in self.left if self.left[crate]]
            if not left:
                return None
            if self.held.get(number) not in left:
                free = [crate for crate in left if crate not in self.held.values()]
                self.held[number] = max(free or left, key=lambda crate: max(map(len, self.left[crate])))
            return self.left[self.held[number]].pop()


def try_all(lots, seeds, jobs, try_lot):
    """Hands each lot to `try_lot` with a bench, so many at a time."""
    work = Work(lots)

    def one(number):
        bench = Bench(seeds, number)
        while lot := work.next(number):
            try_lot(bench, lot)

    with concurrent.futures.ThreadPoolExecutor(jobs) as pool:
        for done in [pool.submit(one, number) for number in range(jobs)]:
            done.result()
