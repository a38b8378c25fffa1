#!/usr/bin/env python3
"""Runs the vectors of tests/vectors through a program that speaks docs/PROBE.md.

usage: tests/vectors.py PROGRAM.. [--calls columns,offer,..] [--list LISTPROGRAM]

PROGRAM.. is a command with its arguments (for example `second probe`). With
--list, LISTPROGRAM (one word, or a command with arguments in quotes) is also run
once for each day file and its output compared byte for byte; with --list and no
PROGRAM only the day files are run. Prints a line for each failure and at last
`N passed, M failed`; the exit status is 1 if any failed.
"""

import json
import pathlib
import shlex
import struct
import subprocess
import sys

VECTORS = pathlib.Path(__file__).resolve().parent / "vectors"
STATES = ["fresh", "open", "closed"]
FRESH_DAY = bytes(21)
FILLER = b"\xa5"
ROOM_MAX = 2304
COLUMN_MAX = 80
BODY_MAX = 8192
QUANTITY_MAX = 1_000_000


class Skip(Exception):
    """The vector cannot be told in a frame."""


class Wrong(Exception):
    """The reply is not the one expected."""


# ---- Frames and replies


def frame(call, body):
    if len(body) > BODY_MAX:
        raise Skip(f"a body of {len(body)} bytes")
    return struct.pack(">BH", call, len(body)) + body


def room_field(length):
    if length > ROOM_MAX:
        raise Skip(f"room of {length} bytes")
    return struct.pack(">H", length)


def lengths_field(columns):
    longest = max(columns)
    if longest > COLUMN_MAX:
        raise Skip(f"a column of {longest} entries")
    return bytes(columns)


def pack(form, values):
    return struct.pack(f">{len(values)}{form}", *values)


def run(program, frames):
    """All frames through one run of the program, as the bodies of its replies."""
    done = subprocess.run(program, input=b"".join(frames), stdout=subprocess.PIPE)
    replies, at = [], 0
    while at + 4 <= len(done.stdout):
        (length,) = struct.unpack_from(">I", done.stdout, at)
        if at + 4 + length > len(done.stdout):
            break
        replies.append(done.stdout[at + 4 : at + 4 + length])
        at += 4 + length
    sound = done.returncode == 0 and len(replies) == len(frames) and at == len(done.stdout)
    if not sound:
        print(f"{shlex.join(program)}: {len(replies)} replies to {len(frames)} frames, "
              f"exit status {done.returncode}")
    return replies, sound


class Reply:
    """A reply's body, read from the front."""

    def __init__(self, body):
        self.body, self.at = body, 0

    def take(self, form):
        size = struct.calcsize(">" + form)
        if self.at + size > len(self.body):
            raise Wrong(f"reply cut short: {self.body.hex()}")
        values = struct.unpack_from(">" + form, self.body, self.at)
        self.at += size
        return values if len(values) != 1 else values[0]

    def rest(self):
        rest = self.body[self.at :]
        self.at = len(self.body)
        return rest

    def answer(self, form):
        """What an accepted call gives back, or the refusal as [number, place]."""
        first = self.take("B")
        if first == 0:
            values = self.take(form)
            return None, values if isinstance(values, tuple) else (values,)
        if first == 1:
            return list(self.take("BI")), ()
        raise Wrong(f"answer starts with {first}")


def same(what, got, expected):
    if got != expected:
        raise Wrong(f"{what}: got {got}, expected {expected}")


def same_room(room, length, written):
    expected = written + FILLER * (length - len(written))
    if room != expected:
        raise Wrong(f"room: got {room.hex()}, expected {expected.hex()}")


# ---- One maker of frames and one check of replies for each call


def columns_frame(v):
    columns = [v["n0"], v["pc"], v["mdown"], v["mup"]]
    lengths = [len(c) for c in columns] + [len(v["cls"])] + v["out_lens"]
    return frame(1, lengths_field(lengths) + b"".join(pack("i", c) for c in columns)
                 + bytes(v["cls"]))


def columns_check(v, reply):
    expect = v["expect"]
    refused, totals = reply.answer("Biiiii")
    outs = [list(reply.take(f"{n}i")) if n > 1 else [reply.take("i")] if n else []
            for n in v["out_lens"]]
    same("refusal", refused, expect.get("refused"))
    if refused:
        untouched = struct.unpack(">i", FILLER * 4)[0]
        same("columns after a refusal", outs, [[untouched] * n for n in v["out_lens"]])
        return
    names = ["verdict", "P", "S1", "S2", "S3", "balance"]
    same("totals", dict(zip(names, totals)), {n: expect[n] for n in names})
    for name, got in zip(["n1", "n2", "n3"], outs):
        same(name, got, expect[name])


def day_value(v):
    last = v["last"]
    return struct.pack(">BHBIHHIBHBB", STATES.index(v["state"]), v["day"], v["quarters"],
                       v["run"], v["pos_limit"], v["mar_limit"], v["groups"],
                       0 if last is None else 1, *(last or (0, 0, 0)))


def offer_frame(day, data, room):
    return frame(2, day + room_field(room) + data)


def offer_check(v, reply, day):
    expect = v["expect"]
    refused, taken = reply.answer("II")
    after = reply.take("21s")
    same("refusal", refused, expect.get("refused"))
    if refused:
        same("day value after a refusal", after.hex(), day.hex())
        written = b""
    else:
        written = bytes.fromhex(expect["written"])
        same("used and written", list(taken), [expect["used"], len(written)])
    same_room(reply.rest(), v["room"], written)


def write_day_frame(v):
    return frame(4, struct.pack(">HBIHH", v["day"], v["quarters"], v["run"], v["pos_limit"],
                                v["mar_limit"]) + room_field(v["room_len"]))


def write_block_frame(v):
    """A call that names no kinds is of 03h units, whose ends are the full ones."""
    columns = [v["number"], v["cls"], v["coincide"], v["nominated"], v["N"], v["PC"],
               v["mdown"], v["mup"], v["made"]]
    if "unit_kind" in v:
        columns += [v["unit_kind"], v["lower"], v["upper"]]
    else:
        columns += [[each] * len(v["number"]) for each in (3, -QUANTITY_MAX, QUANTITY_MAX)]
    return frame(5, struct.pack(">HBBI", v["brp"], v["zone"], v["quarter"], v["pos_made"])
                 + lengths_field([len(c) for c in columns]) + room_field(v["room_len"])
                 + b"".join(pack(form, c) for form, c in zip("HBBBiiiiIBii", columns)))


def write_end_frame(v):
    return frame(6, struct.pack(">I", v["count"]) + room_field(v["room_len"]))


def write_check(v, reply):
    expect = v["expect"]
    refused, written = reply.answer("I")
    same("refusal", refused, expect.get("refused"))
    record = b"" if refused else bytes.fromhex(expect["written"])
    if not refused:
        same("written", written[0], len(record))
    same_room(reply.rest(), v["room_len"], record)


def take_step(reply):
    first = reply.take("B")
    if first == 0:
        return list(reply.take("IIB"))
    return list(reply.take("BI")) if first == 1 else "done"


def extent_step(data, start, length):
    """An extent of the vectors (start, length) as a reply of the probe."""
    return [start, start + length, 2 if data[start] == 0x0F else 1]


def walk_frame(v):
    """Asks twice at the end, since done and a refusal must leave it where it stands."""
    return frame(8, bytes([len(v["expect"]["extents"]) + 2]) + bytes.fromhex(v["data"]))


def walk_check(v, reply):
    data, expect = bytes.fromhex(v["data"]), v["expect"]
    steps = [extent_step(data, *e) for e in expect["extents"]] + [expect["end"]] * 2
    same("steps", [take_step(reply) for _ in steps], steps)


def walk_at_frame(v):
    return frame(7, struct.pack(">BI", STATES.index(v["state"]), v["place"])
                 + bytes.fromhex(v["data"]))


def walk_at_check(v, reply):
    expect = v["expect"]
    if "refused" in expect:
        step = expect["refused"]
    elif expect == "done":
        step = expect
    else:
        step = [expect["start"], expect["place"], STATES.index(expect["state"])]
        same("length", expect["start"] + expect["length"], expect["place"])
    same("step", take_step(reply), step)


def c_call_frame(v):
    day, block = bytes.fromhex(v["day"]), bytes.fromhex(v["block"])
    return frame(9, struct.pack(">BH", len(day), len(block)) + room_field(v["room"])
                 + day + block)


def c_call_check(v, reply):
    same("reply", reply.take("i"), v["expect"]["reply"])
    same_room(reply.rest(), v["room"], bytes.fromhex(v["expect"]["written"]))


def read_line_frame(v):
    return frame(10, bytes.fromhex(v["data"]))


def read_line_check(v, reply):
    expect = v["expect"]
    refused, values = reply.answer("IHBiii")
    same("refusal", refused, expect.get("refused"))
    if not refused:
        names = ["used", "number", "quarter", "N", "mdown", "mup"]
        same("line", dict(zip(names, values)), {n: expect[n] for n in names})


def write_line_frame(v):
    return frame(11, struct.pack(">HBiii", v["number"], v["quarter"], v["N"], v["mdown"],
                                 v["mup"]) + room_field(v["room_len"]))


CALLS = {
    "columns": (columns_frame, columns_check),
    "c_call": (c_call_frame, c_call_check),
    "write_day": (write_day_frame, write_check),
    "write_block": (write_block_frame, write_check),
    "write_end": (write_end_frame, write_check),
    "walk": (walk_frame, walk_check),
    "walk_at": (walk_at_frame, walk_at_check),
    "read_line": (read_line_frame, read_line_check),
    "write_line": (write_line_frame, write_check),
}


# ---- Running


class Case:
    """A vector with the frames that lead to its reply, one a round."""

    def __init__(self, line, vector):
        self.name = f"calls.jsonl:{line} {vector['call']}"
        self.vector = vector
        if vector["call"] in ("offer", "offer_value"):
            self.day = day_value(vector) if "state" in vector else FRESH_DAY
            self.before = [bytes.fromhex(b) for b in vector.get("before", [])]
            self.data = bytes.fromhex(vector["data"])
            offer_frame(self.day, self.data, vector["room"])
        else:
            self.day, self.before = None, []
            self.frame = CALLS[vector["call"]][0](vector)

    def next_frame(self):
        if self.before:
            return offer_frame(self.day, self.before[0], ROOM_MAX)
        if self.day is not None:
            return offer_frame(self.day, self.data, self.vector["room"])
        return self.frame

    def take_reply(self, body):
        """True once the vector's own reply is there and right."""
        reply = Reply(body)
        if self.before:
            refused, _ = reply.answer("II")
            if refused:
                raise Wrong(f"a record before it is refused: {refused}")
            self.day = reply.take("21s")
            self.before.pop(0)
            return False
        if self.day is not None:
            offer_check(self.vector, reply, self.day)
        else:
            CALLS[self.vector["call"]][1](self.vector, reply)
        if reply.at != len(body):
            raise Wrong(f"{len(body) - reply.at} bytes after the reply")
        return True


def run_calls(program, wanted):
    passed = failed = skipped = 0
    waiting = []
    with open(VECTORS / "calls.jsonl") as lines:
        for number, line in enumerate(lines, 1):
            vector = json.loads(line)
            if wanted is not None and vector["call"] not in wanted:
                continue
            try:
                waiting.append(Case(number, vector))
            except (Skip, struct.error, ValueError) as why:
                print(f"calls.jsonl:{number} {vector['call']}: skipped: {why}")
                skipped += 1
    # A day value comes from the reply before it, so a case with n records before
    # its own needs n rounds more; each round is one run of the program.
    while waiting:
        replies, sound = run(program, [case.next_frame() for case in waiting])
        failed += not sound
        still = []
        for index, case in enumerate(waiting):
            try:
                if index >= len(replies):
                    raise Wrong("no reply")
                if case.take_reply(replies[index]):
                    passed += 1
                else:
                    still.append(case)
            except Wrong as why:
                print(f"{case.name}: {why}")
                failed += 1
        waiting = still
    return passed, failed, skipped


def run_days(program):
    passed = failed = 0
    for day in sorted(VECTORS.glob("*.day")):
        with open(day, "rb") as stdin:
            done = subprocess.run(program, stdin=stdin, stdout=subprocess.PIPE)
        expected = day.with_suffix(".out").read_bytes()
        if done.stdout == expected:
            passed += 1
            continue
        failed += 1
        got, wanted = done.stdout.splitlines(True), expected.splitlines(True)
        line = next((i for i, (a, b) in enumerate(zip(got, wanted)) if a != b),
                    min(len(got), len(wanted)))
        print(f"{day.name}: line {line + 1}: got {got[line:line + 1]}, "
              f"expected {wanted[line:line + 1]}, exit status {done.returncode}")
    return passed, failed


def main(words):
    program, wanted, list_program = [], None, None
    while words:
        word = words.pop(0)
        if word in ("--calls", "--list") and not words:
            sys.exit(f"{word} needs a value")
        if word == "--calls":
            wanted = set(words.pop(0).split(","))
            unknown = wanted - set(CALLS) - {"offer", "offer_value"}
            if unknown:
                sys.exit(f"no such call: {', '.join(sorted(unknown))}")
        elif word == "--list":
            list_program = shlex.split(words.pop(0))
        else:
            program.append(word)
    if not program and not list_program:
        sys.exit(__doc__)
    passed = failed = skipped = 0
    if program:
        passed, failed, skipped = run_calls(program, wanted)
    if list_program:
        more_passed, more_failed = run_days(list_program)
        passed, failed = passed + more_passed, failed + more_failed
    if skipped:
        print(f"{skipped} skipped")
    print(f"{passed} passed, {failed} failed")
    return 1 if failed else 0


if __name__ == "__main__":
    sys.exit(main(sys.argv[1:]))
