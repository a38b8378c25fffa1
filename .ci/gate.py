#!/usr/bin/env python3
"""The gate: rt's verdict on the checkout as it stands, and then each test of tests/gate.

Its very last line is "N passed, M failed", both counted; it exits with 0 only where nothing failed. rt proves every crate, tries
every wrong edit and holds each file to the formatter's layout. Tests run two at a time, each with its output shown whole and in
order. A line `# gate: alone` in a test says that it uses every core by itself, and `# gate: after NAME` that it uses what that
test makes. target/rt-ci.log keeps what rt said, target/seconds.tsv the seconds of each part, from its start to its end and of a
processor, target/gate.txt the last line with the commit that it speaks of.
"""

import os
import pathlib
import re
import subprocess
import sys
import threading
import time

ROOT = pathlib.Path(__file__).resolve().parent.parent
TARGET = ROOT / "target"
TOGETHER = 2


class Part:
    """One part of the gate: it closes with a line of its counts, and has failed where it does not."""

    def __init__(self, name, command, text=""):
        self.name, self.command = name, command
        self.alone = re.search(r"^# gate: alone$", text, re.M) is not None
        self.after = re.findall(r"^# gate: after (\S+)$", text, re.M)
        self.said, self.fault, self.seconds, self.spent, self.passed, self.failed = b"", "", 0, 0, 0, 1
        self.started, self.done = False, threading.Event()

    def run(self, live):
        self.started, start = True, time.monotonic()
        try:
            self.count(self.status(live))
        except OSError as error:
            self.fault = f"{self.name}: could not run: {error}\n"
        finally:
            self.seconds = time.monotonic() - start
            self.done.set()

    def status(self, live):
        process = subprocess.Popen(self.command, cwd=ROOT, stdin=subprocess.DEVNULL, stdout=subprocess.PIPE, stderr=subprocess.STDOUT)
        for line in process.stdout:
            self.said += line
            if live:
                show(line)
        _, status, usage = os.wait4(process.pid, 0)
        self.spent, process.returncode = usage.ru_utime + usage.ru_stime, os.waitstatus_to_exitcode(status)
        return process.returncode

    def count(self, status):
        """A part that exits with another status than 0 has failed too, though it counted no failure."""
        lines = [line for line in self.said.decode("utf-8", "replace").split("\n") if line.strip()]
        closing = re.fullmatch(r"(\d+) passed, (\d+) failed", lines[-1] if lines else "")
        if closing:
            self.passed, self.failed = int(closing.group(1)), int(closing.group(2))
            self.failed = self.failed or int(status != 0)
        else:
            self.fault = f"{self.name}: no closing line, exit status {status}\n"

    def close(self):
        return f"{self.fault}== {self.name}: {self.seconds:.0f} s, of a processor {self.spent:.0f}\n".encode()


class Proofs(Part):
    """rt's part. It fails too without the one line that says that all is well, and where that counts an edit that says nothing."""

    def count(self, status):
        super().count(status)
        well = re.findall(rb"^rt: ok; .*$", self.said, re.M)
        if len(well) != 1 or re.search(rb", \d+ bad\b", well[0]):
            self.failed += 1
            self.fault += f"{self.name}: {'an edit is bad' if len(well) == 1 else 'not one line rt: ok'}\n"


def show(said):
    sys.stdout.buffer.write(said)
    sys.stdout.buffer.flush()


def tell(part):
    """Runs a part by itself, and shows what it prints as it comes."""
    show(f"== {part.name}\n".encode())
    part.run(live=True)
    show(part.close())


def together(parts):
    """Runs parts two at a time, each once those that it comes after are done, and shows them in their order."""
    named, change = {part.name.split("/")[-1]: part for part in parts}, threading.Condition()

    def ready(part):
        return not part.started and all(name not in named or named[name].done.is_set() for name in part.after)

    def work():
        while True:
            with change:
                change.wait_for(lambda: any(map(ready, parts)) or all(part.started for part in parts))
                part = next(filter(ready, parts), None)
                if part is None:
                    return
                part.started = True
            part.run(live=False)
            with change:
                change.notify_all()

    workers = [threading.Thread(target=work, daemon=True) for _ in range(TOGETHER)]
    for worker in workers:
        worker.start()
    for part in parts:
        part.done.wait()
        show(f"== {part.name}\n".encode() + part.said + part.close())


def keep(parts, whole):
    """The seconds, for tests/seconds."""
    rows = [("part", part.name, f"{part.seconds:.0f}", f"{part.spent:.0f}") for part in parts]
    rows += [("whole", "the gate", f"{whole:.0f}", f"{sum(part.spent for part in parts):.0f}")]
    (TARGET / "seconds.tsv").write_text("".join("\t".join(row) + "\n" for row in rows))


def commit():
    words = ["git", "describe", "--always", "--dirty", "--abbrev=40", "--exclude", "*"]
    return subprocess.run(words, cwd=ROOT, capture_output=True, text=True, check=False).stdout.strip()


def main():
    os.environ["LC_ALL"] = "C.UTF-8"
    start = time.monotonic()
    proofs = Proofs("rt ci", ["rt", "ci"])
    tests = [Part(f"tests/gate/{path.name}", [path], path.read_text()) for path in sorted((ROOT / "tests" / "gate").iterdir())]
    parts = [proofs, *tests]
    # rt comes first, so that it sees the checkout as it is.
    tell(proofs)
    # What follows must find nothing that an earlier run built.
    subprocess.run(["rm", "-rf", TARGET], check=True)
    TARGET.mkdir()
    (TARGET / "rt-ci.log").write_bytes(proofs.said)
    while tests:
        run = next((k for k, part in enumerate(tests) if part.alone), len(tests))
        if run:
            together(tests[:run])
        else:
            tell(tests[0])
        tests = tests[run or 1 :]
    passed, failed = sum(part.passed for part in parts), sum(part.failed for part in parts)
    failed += passed == 0
    keep(parts, time.monotonic() - start)
    print(f"the whole gate: {time.monotonic() - start:.0f} s")
    (TARGET / "gate.txt").write_text(f"{commit()}: {passed} passed, {failed} failed\n")
    print(f"{passed} passed, {failed} failed")
    return 1 if failed else 0


if __name__ == "__main__":
    sys.exit(main())
