#!/usr/bin/env python3
"""A few frames of docs/PROBE.md and the replies that it and documents 01 and 02 give: tests/probe/stdin and stdout.

usage: tests/frames.py --write    writes the two files
       tests/frames.py --check    tells whether they are as it would write them
"""

import pathlib
import struct
import sys

PROBE = pathlib.Path(__file__).resolve().parent / "probe"
NOT_FITTING = b""
FILLER = b"\xa5"
UNTOUCHED = [struct.unpack(">i", FILLER * 4)[0]]
# Number, quarter, N, M- and M+ of a line of a partner's export.
VALUES = struct.Struct(">HBiii")


def i32s(*numbers):
    return struct.pack(f">{len(numbers)}i", *numbers)


def frame(call, body):
    return struct.pack(">BH", call, len(body)) + body


def reply(body):
    return struct.pack(">I", len(body)) + body


def columns(n0, pc, low, high, classes, written=(3, 3, 3)):
    lengths = [len(column) for column in (n0, pc, low, high, classes)]
    return frame(1, bytes([*lengths, *written]) + i32s(*n0, *pc, *low, *high) + bytes(classes))


def accepted(verdict, *numbers):
    return reply(bytes([0, verdict]) + i32s(*numbers))


def refusal(number, place):
    return struct.pack(">BBI", 1, number, place)


def refused(number, place, written=3):
    return reply(refusal(number, place) + i32s(*UNTOUCHED * (6 + written)))


def read_line(data):
    return frame(10, data)


def write_line(values, room):
    return frame(11, VALUES.pack(*values) + struct.pack(">H", room))


def line_read(used, values):
    return reply(struct.pack(">BI", 0, used) + VALUES.pack(*values))


def line_written(line, room):
    return reply(struct.pack(">BI", 0, len(line)) + line.ljust(room, FILLER))


def line_refused(number, place, room=0):
    return reply(refusal(number, place) + FILLER * room)


# The day list's three units: P, S1, S2, S3 and balance, then n1, n2 and n3.
UNITS = ([5000, 3000, 9000], [-4000, -2000, -7999], [0, 2400, 7000], [4500, 6000, 9500])
RIGHT = accepted(5, -13999, 16500, 13999, 14399, -400, 4500, 3000, 9000, 2999, 2000, 9000, 2999, 2400, 9000)
# The first of the units as a line of a partner's export.
LINE, LINE_VALUES = b"11;40;5,000;I;0,000;I;4,500;I\n", (11, 40, 5000, 0, 4500)
# What a frame may hold at the most, and one more.
NO_DAY = bytes(16)
LIMITS = [
    (read_line(b"1" * 8192), line_refused(20, 0)),
    (read_line(b"1" * 8193), reply(NOT_FITTING)),
    (write_line(LINE_VALUES, 2304), line_written(LINE, 2304)),
    (write_line(LINE_VALUES, 2305), reply(NOT_FITTING)),
    (columns(*[[0] * 80] * 5, written=(80, 80, 80)), refused(5, 0, written=234)),
    (columns(*[[0] * 80] * 5, written=(80, 80, 81)), reply(NOT_FITTING)),
    (frame(3, NO_DAY + b"\1" + bytes(4)), reply(refusal(1, 0))),
    (frame(3, NO_DAY + b"\2" + bytes(4)), reply(NOT_FITTING)),
    (frame(7, b"\2" + bytes(4)), reply(b"\2")),
    (frame(7, b"\3" + bytes(4)), reply(NOT_FITTING)),
    (frame(8, b"\2"), reply(2 * refusal(1, 0))),
    (frame(8, b"\0"), reply(NOT_FITTING)),
    (frame(9, bytes(5)), reply(i32s(-1))),
    (frame(9, bytes(6)), reply(NOT_FITTING)),
]
CASES = [
    (columns(*UNITS, [0, 0, 1]), RIGHT),
    (columns(*UNITS, [0, 2, 1]), refused(7, 1)),
    (columns(*UNITS, [0, 0, 1], written=(3, 3, 4)), refused(15, 0, written=4)),
    (frame(1, bytes(9)), reply(NOT_FITTING)),
    (frame(0, b"body"), reply(NOT_FITTING)),
    (read_line(LINE + b"rest"), line_read(30, LINE_VALUES)),
    (read_line(b""), line_refused(20, 0)),
    (read_line(b"12;0;0,000;P;2,400;P;6,000;I\n"), line_refused(20, 11)),
    (read_line(b"7;" + b"9" * 30 + b";1,000;I;0,000;I;1,000;I\n"), line_refused(4, 2)),
    (read_line(b"7;5;1000,001;I;0,000;I;1,000;I\n"), line_refused(8, 4)),
    (read_line(b"7;5;1,000;I;2,000;I;1,999;I\n"), line_refused(9, 20)),
    (write_line(LINE_VALUES, 32), line_written(LINE, 32)),
    (write_line(LINE_VALUES, 29), line_refused(12, 0, room=29)),
    (frame(11, VALUES.pack(*LINE_VALUES) + b"\0"), reply(NOT_FITTING)),
    *LIMITS,
    (columns(*UNITS, [0, 0, 1])[:-1], b""),
]


def main(words):
    files = {PROBE / "stdin": b"".join(case[0] for case in CASES), PROBE / "stdout": b"".join(case[1] for case in CASES)}
    if words == ["--write"]:
        for path, content in files.items():
            path.write_bytes(content)
    elif words == ["--check"]:
        stale = [path for path, content in files.items() if path.read_bytes() != content]
        for path in stale:
            print(f"tests/probe/{path.name} is not what tests/frames.py writes")
        return 1 if stale else 0
    else:
        sys.exit(__doc__)
    return 0


if __name__ == "__main__":
    sys.exit(main(sys.argv[1:]))
