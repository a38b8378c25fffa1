#!/usr/bin/env python3
"""The figures of documents 01 and 02, worked out without the library, and what the compiled calls make of them.

usage: tests/figures.py PROGRAM..

PROGRAM.. is a command that speaks docs/PROBE.md. Each figure is given to it as a block that is offered and as columns, and
must come out as worked out here. What "Small figures" tells of a figure is asserted of that, and what request §6 makes of a
tie; each case of "Readings to rule out" is also worked out under the wrong reading, and must come out otherwise. Prints a line
for each figure that comes out wrong, and at last `N passed, M failed`; the exit status is 1 if any failed.
"""

import struct
import subprocess
import sys
from fractions import Fraction

from frames import columns, frame, i32s, refusal

LIMIT = 1_000_000


def unit(n0, pc=0, low=-LIMIT, high=LIMIT, cls=0):
    """A nominated unit."""
    return {"n0": n0, "pc": pc, "low": low, "high": high, "cls": cls, "coincide": 0, "nominated": 1, "implicit": False}


def not_nominated(pc, cls, coincide):
    """What was sold is taken where BRP and BSP coincide, or the unit is not enabled."""
    implicit = bool(coincide) or cls == 0
    return {**unit(-pc if implicit else 0, pc, cls=cls), "coincide": coincide, "nominated": 0, "implicit": implicit}


def wide(p, *n0s):
    """Nominated units of class 0 with wide margins; the first one's PC is P."""
    return [unit(n0, 0 if i else p) for i, n0 in enumerate(n0s)]


# ---- The steps, and the readings to rule out

# The places in a unit record of what is out of range.
QUANTITIES = {"n0": 6, "pc": 10, "low": 14, "high": 18}


def step1(u, wrong):
    n0 = u["n0"]
    if wrong == "zero clamped" and n0 == 0 or wrong == "both sides clamped" and n0 != 0:
        return max(u["low"], min(u["high"], n0))
    if n0 > 0 and n0 > u["high"]:
        return u["high"]
    if n0 < 0 and n0 < u["low"]:
        return u["low"]
    return n0


def step3(u, n2):
    if 0 < n2 < u["low"]:
        return u["low"]
    if 0 > n2 > u["high"]:
        return u["high"]
    return n2


def shares(sizes, bearing, cut, wrong):
    """What each unit loses of a cut that is shared by size among the bearing ones."""
    total = sum(sizes) if wrong == "directions together" else sum(s for s, b in zip(sizes, bearing) if b)
    exact = [Fraction(cut * s, total) if b and total else Fraction(0) for s, b in zip(sizes, bearing)]
    if wrong == "rounded alone":
        return [int(e + Fraction(1, 2)) for e in exact]
    lost = [int(e) for e in exact]
    by_remainder = sorted(range(len(exact)), key=lambda i: (lost[i] - exact[i], -sizes[i], i))
    for i in by_remainder[: min(cut, total) - sum(lost)]:
        lost[i] += 1
    return lost


def step2(units, n1, excess, wrong):
    sign = 1 if excess > 0 else -1
    runs = [n * sign > 0 for n in n1]
    sizes = [abs(u["n0"] if wrong == "sizes before step 1" else n) for u, n in zip(units, n1)]
    left, n2 = abs(excess), list(n1)
    for classes in [[0, 1]] if wrong == "classes together" else [[0], [1]]:
        bearing = [r and u["cls"] in classes for r, u in zip(runs, units)]
        cut = min(left, sum(abs(n) for n, b in zip(n1, bearing) if b))
        left -= cut
        n2 = [n - sign * lost for n, lost in zip(n2, shares(sizes, bearing, cut, wrong))]
    return n2


def reason(u, n1, n2, n3):
    return (1 * u["implicit"] + 2 * (n1 != u["n0"]) + 4 * (n2 != n1) + 8 * (n3 != n2)
            + 16 * (n3 == 0 and not u["low"] <= 0 <= u["high"]))


def judge(units, wrong=None):
    for index, u in enumerate(units):
        for field, place in QUANTITIES.items():
            if abs(u[field]) > LIMIT:
                return {"refused": [8], "unit": [index], "place": [place]}
    p = sum(u["pc"] for u in units)
    low, high = min(0, -p), max(0, -p)
    n1 = [step1(u, wrong) for u in units]
    s1 = sum(n1)
    excess = max(0, s1 - high) + min(0, s1 - low)
    n2 = step2(units, n1, excess, wrong)
    n3 = [step3(u, n) for u, n in zip(units, n2)]
    s3 = sum(n3)
    verdict = (excess > 0) + 2 * (excess < 0) + 4 * (not low <= s3 <= high)
    balance = abs(p) - abs(s3) if wrong == "absolute values" else -p - s3
    return {"n0": [u["n0"] for u in units], "n1": n1, "n2": n2, "n3": n3,
            "reasons": [reason(*us) for us in zip(units, n1, n2, n3)],
            "verdict": [verdict], "P": [p], "S1": [s1], "S2": [sum(n2)], "S3": [s3], "balance": [balance]}


# ---- The figures: name, units, and what the document tells of them

TURNED = {"low": -80, "high": -50}
DAY_LIST = [unit(5000, -4000, 0, 4500), unit(3000, -2000, 2400, 6000), unit(9000, -7999, 7000, 9500, 1)]
SMALL = [
    ("5, 5; P -9", wide(-9, 5, 5), {"n3": [4, 5]}),
    ("1, 1, 1; P -2", wide(-2, 1, 1, 1), {"n3": [0, 1, 1]}),
    ("3, -5; P 0", wide(0, 3, -5), {"n3": [3, -3]}),
    ("4, -9; P -10", wide(-10, 4, -9), {"n3": [4, -4], "balance": [10]}),
    ("6 class 0, 10 class 1; P -7", [unit(6, -7), unit(10, cls=1)], {"n3": [0, 7]}),
    ("10, M- -80, M+ -50; P 40", [unit(10, 40, **TURNED)],
     {"n1": [-50], "n2": [-40], "n3": [-50], "balance": [10], "verdict": [6], "reasons": [14]}),
    ("10, M- -80, M+ -50; P 0", [unit(10, 0, **TURNED)], {"n3": [0], "reasons": [22]}),
    ("Not nominated, PC -500, class 0, coincide 1", [not_nominated(-500, 0, 1)], {"n0": [500], "reasons": [1]}),
    ("Not nominated, PC -500, class 1, coincide 1", [not_nominated(-500, 1, 1)], {"n0": [500], "reasons": [1]}),
    ("Not nominated, PC -500, class 1, coincide 0", [not_nominated(-500, 1, 0)], {"n0": [0], "reasons": [0]}),
    ("Not nominated, PC -500, class 0, coincide 0", [not_nominated(-500, 0, 0)], {"n0": [500], "reasons": [1]}),
    ("The day list's three units", DAY_LIST,
     {"verdict": [5], "P": [-13999], "S1": [16500], "S2": [13999], "S3": [14399], "balance": [-400],
      "reasons": [6, 12, 0], "n0": [5000, 3000, 9000], "n1": [4500, 3000, 9000],
      "n2": [2999, 2000, 9000], "n3": [2999, 2400, 9000]}),
    ("64 units of 1,000,000; P 0", wide(0, *[LIMIT] * 64), {"n3": [0] * 64}),
    ("n0 1,000,000", [unit(LIMIT)], {"n0": [LIMIT]}),
    ("n0 -1,000,000", [unit(-LIMIT)], {"n0": [-LIMIT]}),
    ("PC 1,000,000", [unit(0, LIMIT)], {"P": [LIMIT]}),
    ("PC -1,000,000", [unit(0, -LIMIT)], {"P": [-LIMIT]}),
    ("M- 1,000,000", [unit(0, low=LIMIT)], {"n0": [0]}),
    ("M+ -1,000,000", [unit(0, high=-LIMIT)], {"n0": [0]}),
    ("n0 1,000,001", [unit(LIMIT + 1)], {"refused": [8]}),
    ("n0 -1,000,001", [unit(-LIMIT - 1)], {"refused": [8]}),
    ("PC 1,000,001", [unit(0, LIMIT + 1)], {"refused": [8]}),
    ("PC -1,000,001", [unit(0, -LIMIT - 1)], {"refused": [8]}),
    ("M- 1,000,001", [unit(0, low=LIMIT + 1)], {"refused": [8]}),
    ("M- -1,000,001", [unit(0, low=-LIMIT - 1)], {"refused": [8]}),
    ("M+ 1,000,001", [unit(0, high=LIMIT + 1)], {"refused": [8]}),
    ("M+ -1,000,001", [unit(0, high=-LIMIT - 1)], {"refused": [8]}),
]
TIES = [  # Request §6
    ("1, 3; P -2", wide(-2, 1, 3), {"n3": [1, 1]}),
    ("3, 1; P -2", wide(-2, 3, 1), {"n3": [1, 1]}),
    ("-1, -3; P 2", wide(2, -1, -3), {"n3": [-1, -1]}),
    ("1, 3, 5, 7; P -8", wide(-8, 1, 3, 5, 7), {"n3": [1, 2, 2, 3]}),
]
READINGS = [
    ("4 class 0, 12 class 1; P -8", [unit(4, -8), unit(12, cls=1)], "classes together"),
    ("20, 10, -15; P 0", wide(0, 20, 10, -15), "directions together"),
    ("-20, -10, 15; P 0", wide(0, -20, -10, 15), "directions together"),
    ("10 with M+ 2, 2; P -2", [unit(10, -2, high=2), unit(2)], "sizes before step 1"),
    ("7, 7, 7, 7; P -22", wide(-22, 7, 7, 7, 7), "rounded alone"),
    ("-2, -2, -2; P 5", wide(5, -2, -2, -2), "rounded alone"),
    ("0, M- 5, M+ 9; P -9", [unit(0, -9, 5, 9)], "zero clamped"),
    ("0, M- -9, M+ -5; P 9", [unit(0, 9, -9, -5)], "zero clamped"),
    ("3, M- 5, M+ 9; P -9", [unit(3, -9, 5, 9)], "both sides clamped"),
    ("-3, M- -9, M+ -5; P 9", [unit(-3, 9, -9, -5)], "both sides clamped"),
    ("3 with M- 5, 5; P -6", [unit(3, -6, low=5), unit(5)], "both sides clamped"),
    ("-30; P 40", wide(40, -30), "absolute values"),
    ("-3 with M+ -5, 2; P -10", [unit(-3, -10, high=-5), unit(2)], "absolute values"),
]

# Name, the minute made for a run at minute 240 and a limit of 120, and what the document tells.
RUN, AGE_LIMIT = 240, 120
AGES = [("Age 120 of 120", 120, None), ("Age 121 of 120", 119, 10), ("A minute ahead", 241, 17)]
DATE_FOR_AGE = ("Made at minute 100, age 140 of 120", 100)


def aged(made, wrong=None):
    """What a group record made at a minute is refused for: its age is the run's minute less its own."""
    age = made if wrong == "date for age" else RUN - made
    return 17 if age < 0 else None if age <= AGE_LIMIT else 10


# ---- The calls

GROUP, UNIT, GROUP_RESULT, UNIT_RESULT = 10, 26, 27, 20
SUMS = "P", "S1", "S2", "S3", "balance"
KEY = struct.pack(">HBB", 7, 2, 40)
# A day of 96 quarters with no block yet: its state, day, quarters, run, limits, groups and last key.
OPEN_DAY = struct.pack(">BHBIHHIBHBB", 1, 9510, 96, RUN, AGE_LIMIT, 1440, 0, 0, 0, 0, 0)


def block(units, made=RUN):
    """The bytes of a block with the units."""
    records = b"\x02" + KEY + struct.pack(">BI", len(units), made)
    for number, u in enumerate(units):
        marks = struct.pack(">BHBBB", 3, number, u["cls"], u["coincide"], u["nominated"])
        n = u["n0"] if u["nominated"] else 0
        records += marks + i32s(n, u["pc"], u["low"], u["high"]) + struct.pack(">I", RUN)
    return records


def offered(units, made=RUN):
    """A block that is offered to the day, with just the room that its result needs."""
    return frame(2, OPEN_DAY + struct.pack(">H", GROUP_RESULT + UNIT_RESULT * len(units)) + block(units, made))


def told_of(units, reply):
    """What an offer's reply tells: the words of `judge`, or a refusal's number and place."""
    if reply[0]:
        return struct.unpack(">BI", reply[1:6])
    room = reply[9 + len(OPEN_DAY) :]
    out = {"verdict": [room[5]], **{word: [value] for word, value in zip(SUMS, struct.unpack(">5i", room[7:GROUP_RESULT]))}}
    results = [room[GROUP_RESULT + UNIT_RESULT * i :][:UNIT_RESULT] for i in range(len(units))]
    out["reasons"] = [result[3] for result in results]
    quantities = [struct.unpack(">4i", result[4:]) for result in results]
    return {**out, **{word: [each[k] for each in quantities] for k, word in enumerate(("n0", "n1", "n2", "n3"))}}


def as_columns(units):
    """A group given as columns, the three that are written of its own length."""
    numbers = [[u[field] for u in units] for field in ("n0", "pc", "low", "high", "cls")]
    return columns(*numbers, written=[len(units)] * 3)


def columns_give(units, out):
    """The reply to that: verdict and sums, n1, n2 and n3, or the refusal at the unit's index and columns as they were."""
    if "refused" in out:
        return refusal(8, out["unit"][0]) + b"\xa5" * 4 * 3 * len(units)
    sums = bytes([0, *out["verdict"]]) + i32s(*(out[word][0] for word in SUMS))
    return sums + i32s(*out["n1"], *out["n2"], *out["n3"])


def is_right(units, out, offer, judged):
    """Whether the two replies tell what was worked out."""
    right = (8, GROUP + UNIT * out["unit"][0] + out["place"][0]) if "refused" in out else out
    return told_of(units, offer) == right and judged == columns_give(units, out)


# ---- All of them


def groups():
    """Each figure of a group: its name, its units, and what comes of them."""
    for name, units, told in SMALL + TIES:
        out = judge(units)
        for word, values in told.items():
            assert out.get(word) == values, (name, word, out)
        yield name, units, out
    for name, units, wrong in READINGS:
        out = judge(units)
        assert judge(units, wrong) != out, (name, wrong, out)
        yield name, units, out


def ages():
    """Each figure of an age: its name, the minute, and the number that it is refused for."""
    for name, made, told in AGES:
        assert aged(made) == told, name
        yield name, made, told
    name, made = DATE_FOR_AGE
    assert aged(made, "date for age") != aged(made), name
    yield name, made, aged(made)


def replies_of(program, frames):
    """The body of each reply frame."""
    said, bodies = subprocess.run(program, input=b"".join(frames), stdout=subprocess.PIPE, check=True).stdout, []
    while said:
        end = 4 + struct.unpack(">I", said[:4])[0]
        bodies.append(said[4:end])
        said = said[end:]
    return bodies


def main(program):
    figures, one = list(groups()), [unit(0)]
    frames = [each for _, units, _ in figures for each in (offered(units), as_columns(units))]
    frames += [offered(one, made) for _, made, _ in ages()]
    replies = replies_of(program, frames)
    wrong = [] if len(replies) == len(frames) else [f"{len(replies)} replies to {len(frames)} frames"]
    pairs = zip(figures, zip(replies[::2], replies[1::2]))
    wrong += [name for (name, units, out), both in pairs if not is_right(units, out, *both)]
    for (name, _, number), reply in zip(ages(), replies[2 * len(figures) :]):
        told = told_of(one, reply)
        if told != (number, 6) if number else isinstance(told, tuple):
            wrong.append(name)
    for name in wrong:
        print(f"{name}: the calls give something else")
    print(f"{len(figures) + len(list(ages())) - len(wrong)} passed, {len(wrong)} failed")
    return 1 if wrong else 0


if __name__ == "__main__":
    sys.exit(main(sys.argv[1:]) if sys.argv[1:] else __doc__)
