#!/usr/bin/env python3
"""Writes crates/planning/stdin, lines for the program `planning`, and crates/planning/stdout, the answers that it must give.

    tools/planning_lines.py            # writes both files, and the two of crates/cell_report
    tools/planning_lines.py numbers    # every carrier number with its frequency in kHz, a line each, on standard output
    tools/planning_lines.py long       # lines about as long as a line may be, on standard output, and
    tools/planning_lines.py answers    # the answers to the lines on standard input, on standard output
    tools/planning_lines.py joins      # lines `join` of E10, also long ones, on standard output
    tools/planning_lines.py feeds      # lines `feed` of E10, also long ones, with others between them, on standard output
    tools/planning_lines.py dates      # a time of each day from 1970-01-01 to 9999-12-31, as its minute and its date, on standard output, and
    tools/planning_lines.py days       # lines `minute` and `date` for the same times
    tools/planning_lines.py reports F  # inputs for the program `cell_report` and its outputs, as files N.in and N.out of the folder F

What is answered follows document 02 alone. The format of a line is this project's own (docs/PLANNING.md). It shares nothing with the programs. A request
adds its forms of a line to FORMS and its lines to LINES.
"""

import array
import bisect
import datetime
import itertools
import pathlib
import random
import sys

LARGEST = 2**64 - 1
LONGEST = 2**20  # bytes of a line, without its LF

# ---- E5: the table of TS 38.104, as document 02 has it: first and last number, step, and the first number's frequency in kHz

RASTER = [
    (0, 599999, 5, 0),
    (600000, 2016666, 15, 3000000),
    (2016667, 3279165, 60, 24250080),
]


def every_frequency():
    """The frequency of each number, at the number's place."""
    frequencies = array.array("Q")
    for first, last, step, start in RASTER:
        assert len(frequencies) == first
        frequencies.extend(range(start, start + (last - first + 1) * step, step))
    assert all(a < b for a, b in zip(frequencies, frequencies[1:]))
    return frequencies


FREQUENCIES = every_frequency()


def khz_of(_, number):
    return f"khz {FREQUENCIES[number]}" if number < len(FREQUENCIES) else "refused 14"


def number_of(_, khz):
    """The number whose frequency it is: looked up, not computed."""
    place = bisect.bisect_left(FREQUENCIES, khz)
    found = place < len(FREQUENCIES) and FREQUENCIES[place] == khz
    return f"number {place}" if found else "refused 14"


def around(n, reach):
    return [m for m in range(n - reach, n + reach + 1) if 0 <= m <= LARGEST]


def ends_of_64_bits():
    return [2**31, 2**32 - 1, 2**32, 2**32 + 5, 2**32 + 600000, 2**63 - 1, 2**63, 2**63 + 600000] + around(LARGEST, 3)


def would_wrap():
    """Numbers whose product with a step, taken modulo 2^64, is on the raster again."""
    return [turn * 2**64 // step + more for step in (5, 15, 60) for turn in (1, 2, 4) for more in (0, 1, 2)]


def carrier_lines():
    chosen = random.Random(38104)
    numbers = []
    frequencies = []
    for first, last, step, start in RASTER:
        end = start + (last - first) * step
        numbers += around(first, 3) + around(last, 3)
        frequencies += around(start, 2 * step + 1) + around(end, 2 * step + 1)
        inside = [chosen.randint(first, last) for _ in range(20)]
        numbers += inside
        frequencies += [start + (n - first) * step for n in inside]
        # every remainder, once in the range
        frequencies += [start + (inside[0] - first) * step + more for more in range(step)]
    frequencies += range(24249990, 24250081)  # the gap and both its ends
    frequencies += [24250000, 24250075, 99999960, 99999961, 99999975, 100000000, 100000020]
    both = ends_of_64_bits() + would_wrap() + [chosen.randint(0, 2 ** chosen.randint(1, 64) - 1) for _ in range(60)]
    lines = [f"number {n}" for n in numbers + both] + [f"khz {f}" for f in frequencies + both]
    return [line.encode("ascii") for line in dict.fromkeys(lines)]


# leading zeros say nothing, and a number of 64 bits may have any count of them
ZEROS = [
    b"number 00",
    b"number 007",
    b"khz 0035",
    b"khz 0000000000000000000000000000000000000000000000024250080",
    b"number " + b"0" * 40 + b"3279165",
    b"number 00018446744073709551615",
    b"khz 000018446744073709551615",
    b"khz " + b"0" * 70000 + b"3000000",
]

NOT_LINES = [
    b"",
    b" ",
    b"  ",
    b"number",
    b"number ",
    b"number  ",
    b"khz",
    b"khz ",
    b" number 5",
    b" khz 5",
    b"number  5",
    b"khz  5",
    b"number 5 ",
    b"khz 5 ",
    b"number 5 6",
    b"khz 5 6",
    b"khz 5 6 7",
    b"number 5 6 ",
    b"number +5",
    b"number -5",
    b"number -0",
    b"khz -5",
    b"number 5.0",
    b"khz 5,000",
    b"khz 24 250 080",
    b"number 0x5",
    b"number 1e3",
    b"number five",
    b"number 5a",
    b"number a5",
    b"number 5/",
    b"number 5:",
    b"khz /",
    b"khz :",
    b"number number 5",
    b"khz number 5",
    b"number khz",
    b"number5",
    b"khz5",
    b"khz 5khz",
    b"khz 5 khz",
    b"5",
    b"5 number",
    b"Number 5",
    b"NUMBER 5",
    b"kHz 5",
    b"KHZ 5",
    b"numbe 5",
    b"numbers 5",
    b"kh 5",
    b"khzz 5",
    b"mhz 5",
    b"# number 5",
    b"number 5\r",
    b"khz 5\r",
    b"\r",
    b"number\t5",
    b"\tkhz 5",
    b"number 5\t",
    b"number 5\x00",
    b"number\x005",
    b"\x00",
    b"number \x005",
    b"\xef\xbb\xbfnumber 5",
    b"number\xc2\xa05",
    b"number \xef\xbc\x95",
    b"khz \xff",
    b"number 18446744073709551616",
    b"number 18446744073709551617",
    b"number 18446744073709551625",
    b"number 18446744073709551621",
    b"number 18446744073709551620",
    b"number 99999999999999999999",
    b"number 184467440737095516150",
    b"number 184467440737095516160",
    b"number 340282366920938463463374607431768211456",
    b"number 00018446744073709551616",
    b"khz 18446744073709551616",
    b"khz 18446744073709551621",
    b"khz 36893488147419103232",
    b"khz 18446744073709551616 5",
    b"khz 5 18446744073709551616",
]

# ---- E6: a register of cells from the commits

LARGEST_CELL = 2**32 - 1  # "Cell numbers grow from 16 to 32 bits in entries and register" (E7)
LARGEST_SLOT = 2**63 - 2
WIDEST = 400000
PLACES = 512


class Register:
    """The entries of the slots so far, as document 02 has them: live cells with carrier and width, and what the report counts. E13: a slot above 2^63-2
    gives 1, and the register is not made."""

    def __init__(self, whole_mhz_from=LARGEST_SLOT):
        self.whole_mhz_from = whole_mhz_from
        self.is_made = whole_mhz_from <= LARGEST_SLOT
        self.last_seen = None
        self.live = {}
        self.made = 0
        self.superseded = 0
        self.released = 0
        self.unaccounted = 0  # what a stored register's figures fail to add up by

    def sees(self, slot):
        """Nothing where the slot is new, and seen from now on; else the answer. "unless the slot itself gives 2, which comes first"."""
        if not self.is_made:
            return "refused 1"
        if slot > LARGEST_SLOT:
            return "refused 2"
        if self.last_seen is not None and slot <= self.last_seen:
            return "old"
        self.last_seen = slot
        return None

    def assigned(self, slot, cell, carrier, width):
        """"14 comes before both, and a width outside its limits gives 14 too"; "23, a width not in whole MHz at or after that slot, checked after 14 and
        before 15"."""
        if carrier >= len(FREQUENCIES) or not 1 <= width <= WIDEST:
            return "refused 14"
        if slot >= self.whole_mhz_from and width % 1000 != 0:
            return "refused 23"
        if cell not in self.live and len(self.live) == PLACES:
            return "refused 15"
        self.superseded += cell in self.live
        self.made += 1
        self.live[cell] = (carrier, width)
        return "done"

    def freed(self, cell):
        if cell not in self.live:
            return "refused 16"
        del self.live[cell]
        self.released += 1
        return "done"


def begin_register(planner, whole_mhz_from=LARGEST_SLOT):
    planner.register, planner.positions = Register(whole_mhz_from), {}
    return begun(planner)


def begun(planner):
    return "made" if planner.register.is_made else "refused 1"


def assign(planner, slot, cell, carrier, width):
    return planner.register.sees(slot) or planner.register.assigned(slot, cell, carrier, width)


def release(planner, slot, cell):
    """"a release drops it"."""
    answer = planner.register.sees(slot) or planner.register.freed(cell)
    if answer == "done":
        planner.positions.pop(cell, None)
    return answer


def report_of(planner):
    """The four figures; "made equals the other three together"; "the one line `refused,1`" of a register that is not made."""
    register = planner.register
    if not register.is_made:
        return "refused,1"
    others = [register.superseded, register.released, len(register.live)]
    assert register.made - register.unaccounted == sum(others)
    return ",".join(map(str, [register.made] + others))


def cells_of(planner):
    """How many are live, and each of them by number, with its position where it has one (E11)."""
    if not planner.register.is_made:
        return "refused 1"
    live = planner.register.live
    place = lambda cell: "{} {}".format(*planner.positions.get(cell, ("-", "-")))
    return "; ".join([f"{len(live)}"] + [f"{cell} {carrier} {width} {place(cell)}" for cell, (carrier, width) in sorted(live.items())])


LOOK = [b"report", b"cells"]

# an edge of the raster and its neighbours, and what a number of 64 bits may be besides
CARRIERS_TAKEN = [0, 1, 599999, 600000, 2016666, 2016667, 3279164, 3279165]
CARRIERS_REFUSED = [3279166, 3279167, 2**31, 2**32, 2**32 + 600000, 2**63 - 1, 2**63, LARGEST]
WIDTHS_TAKEN = [1, 2, 399999, 400000]
WIDTHS_REFUSED = [0, 400001, 2**32, 2**32 + 20000, 2**63, LARGEST]
SLOTS_REFUSED = [2**63 - 1, 2**63, 2**63 + 5, LARGEST]


def assignment(slot, cell, carrier=632628, width=20000):
    return f"entry {slot} a {cell} {carrier} {width}".encode("ascii")


def removal(slot, cell):
    return f"entry {slot} r {cell}".encode("ascii")


def first_entries():
    """Before any `register` line, and in the register that such a line begins."""
    lines = LOOK + [removal(0, 7), assignment(0, 7), assignment(1, 7)] + LOOK
    lines += [assignment(1, 7), assignment(0, 8), removal(1, 7), assignment(2, 7, 10, 20)] + LOOK + [removal(3, 7), removal(4, 7)] + LOOK
    return lines + [b"register"] + LOOK + [assignment(0, 7), removal(1, 7), assignment(5, 7), assignment(5, 7), assignment(4, 7)] + LOOK


def limit_lines():
    """Each edge of carrier, width, cell and slot. A refused entry's slot is seen, and one that gives 2 is not."""
    lines = [b"register"]
    slot = 0
    for carrier in CARRIERS_TAKEN + CARRIERS_REFUSED:
        for width in WIDTHS_TAKEN + WIDTHS_REFUSED:
            lines += [assignment(slot, slot % 9, carrier, width), removal(slot, slot % 9)]
            slot += 1
        lines += LOOK
    for cell in [0, 1, 255, 256, 257, 32767, 32768, 65534, 65535, 65536, 65537, 131071, 131072, 2**31 - 1, 2**31, 2**32 - 2, 2**32 - 1]:
        lines += [assignment(slot, cell), assignment(slot + 1, cell, 5, 6)] + LOOK + [removal(slot + 2, cell), removal(slot + 3, cell)]
        slot += 4
    for beyond in SLOTS_REFUSED:
        lines += [assignment(beyond, 3), removal(beyond, 3), assignment(beyond, 3, LARGEST, 0)]
    lines += LOOK + [assignment(slot, 3)] + LOOK
    for late in [2**31, 2**32 - 1, 2**32, 2**62, 2**63 - 4, 2**63 - 3]:
        lines += [assignment(late, late % 2**16), assignment(late, 4), assignment(late - 1, 4)]
    lines += LOOK + [assignment(2**63 - 2, 3, 7, 8)] + LOOK
    # the last slot is seen: what follows is older, or gives 2
    for after in [2**63 - 2, 2**63 - 3, 0] + SLOTS_REFUSED:
        lines += [assignment(after, 3), removal(after, 3), removal(after, 9), assignment(after, 3, LARGEST)]
    lines += LOOK
    # the last slot first of all, by an entry that is refused
    lines += [b"register", removal(2**63 - 1, 1), removal(2**63 - 2, 1), assignment(2**63 - 2, 1), assignment(0, 1), assignment(LARGEST, 1)] + LOOK
    return lines


def filling(cells, slot):
    return [assignment(slot + place, cell, place % 3279166, place % WIDEST + 1) for place, cell in enumerate(cells)]


def places_served(cells, live, slot, chosen):
    """With 512 live: a new cell is refused, a live one is not; a freed place serves again, once."""
    lines = []
    others = [cell for cell in cells if cell not in live]
    live = list(live)
    for turn in range(60):
        new = others[turn % len(others)]
        freed = live[chosen.randrange(len(live))]
        lines += [assignment(slot, new), assignment(slot + 1, freed, turn, turn + 1), removal(slot + 2, new), removal(slot + 3, freed)]
        lines += [removal(slot + 4, freed), assignment(slot + 5, new), assignment(slot + 6, freed), b"report"]
        slot += 7
        live.remove(freed)
        live.append(new)
        others.remove(new)
        others.append(freed)
    return lines, live, slot


def full_lines():
    """512 cells and one more, brought in rising, falling and in no order; every pair of causes there; then all are released."""
    chosen = random.Random(512)
    lines = []
    orders = [list(range(600)), list(range(65535, 64935, -1)), chosen.sample(range(65536), 600)]
    for cells in orders:
        lines += [b"register"] + filling(cells[:511], 0) + [b"report", assignment(511, cells[511]), b"cells"]
        lines += filling(cells[512:520], 512) + [b"report"]
        more, live, slot = places_served(cells, cells[:512], 520, chosen)
        lines += more + [b"cells"]
        more, slot = pairs_of_causes(cells, live, slot)
        lines += more + LOOK
        leaving = chosen.sample(live, len(live))
        lines += [removal(slot + place, cell) for place, cell in enumerate(leaving[:400])] + LOOK
        lines += [removal(slot + 400 + place, cell) for place, cell in enumerate(leaving[400:])] + LOOK
        lines += filling(cells[:512], slot + 512) + [assignment(slot + 1024, cells[512])] + LOOK
    return lines


def pairs_of_causes(cells, live, slot):
    """With 512 live, each slot (above the limit, older, the last one seen, new) with each entry: carrier and width outside or inside their limits, for a
    cell that is live and for a new one; releases of both."""
    new = next(cell for cell in cells if cell not in live)
    lines = [removal(slot, new)]
    for cell, carrier, width in itertools.product([live[0], new], [5, 3279166, LARGEST], [1, 0, 400001]):
        for given in [2**63 - 1, LARGEST, 0, slot, slot + 1]:
            lines.append(assignment(given, cell, carrier, width))
        slot += 1
        lines.append(b"report")
    for cell in [new, live[1]]:
        for given in [2**63 - 1, LARGEST, 0, slot, slot + 1]:
            lines.append(removal(given, cell))
        slot += 1
        lines.append(b"report")
    # refused with 14: the cell is not live, so its release gives 16; and with a place free 15 is given no more
    for carrier, width in [(3279166, 1), (5, 0)]:
        lines += [assignment(slot + 1, new, carrier, width), removal(slot + 2, new), b"report"]
        slot += 2
    lines += [assignment(slot + 1, new), assignment(slot + 2, live[1])]
    live.remove(live[1])
    live.append(new)
    return lines, slot + 3


def random_run(chosen, count, pool, most_of_a_step):
    """Entries of many kinds; most of their slots rise."""
    slot = chosen.randint(0, 3)
    lines = [b"register"]
    for place in range(count):
        kind = chosen.random()
        if kind < 0.03:
            given = chosen.choice(SLOTS_REFUSED)
        elif kind < 0.15:
            given = chosen.randint(0, slot)
        else:
            slot += chosen.randint(1, most_of_a_step)
            given = slot
        cell = chosen.choice(pool)
        if chosen.random() < 0.35:
            lines.append(removal(given, cell))
        else:
            carrier = chosen.choice(CARRIERS_REFUSED) if chosen.random() < 0.04 else chosen.randint(0, 3279165)
            width = chosen.choice(WIDTHS_REFUSED) if chosen.random() < 0.04 else chosen.choice([chosen.randint(1, WIDEST), 5000, 20000, 100000])
            lines.append(assignment(given, cell, carrier, width))
        if place % 40 == 39:
            lines.append(b"report")
        if place % (10 * len(pool)) == 10 * len(pool) - 1:
            lines.append(b"cells")
    return lines + LOOK


def random_runs():
    chosen = random.Random(6)
    lines = []
    for _ in range(30):
        lines += random_run(chosen, 150, chosen.sample(range(65536), chosen.randint(1, 12)), 2)
    for _ in range(4):
        lines += random_run(chosen, 1200, chosen.sample(range(65536), 100), 5)
    # so many cells that places run out
    lines += random_run(chosen, 4000, chosen.sample(range(65536), 1000), 1)
    return lines


def two_offices():
    """The same entries in slot order, in one register alone and in another with repeats and older ones between them: both hold the same."""
    chosen = random.Random(2)
    lines = []
    for _ in range(8):
        first = random_run(chosen, 150, chosen.sample(range(65536), 20), 3)[1:-2]
        entries = [line for line in first if line.startswith(b"entry")]
        second = []
        for place, line in enumerate(entries):
            second.append(line)
            if chosen.random() < 0.3:
                second += [chosen.choice(entries[: place + 1]) for _ in range(chosen.randint(1, 3))]
        lines += [b"register"] + entries + LOOK + [b"register"] + second + LOOK
    return lines


ZEROS_IN_ENTRIES = [
    b"register",
    b"entry 00 a 007 00632628 020000",
    b"entry 0001 a 00065535 0 1",
    b"entry 2 a 000000000000000000000000000000000065535 0000000000000000000000000000003279165 0400000",
    b"entry 0003 r 0007",
    b"entry 00000000009223372036854775807 r 7",
    b"report",
    b"cells",
]

NOT_ENTRIES = [
    b"register ",
    b" register",
    b"register  ",
    b"register\r",
    b"register\t",
    b"register\x00",
    b"register x",
    b"registers",
    b"registe",
    b"Register",
    b"REGISTER",
    b"register register",
    b"report ",
    b" report",
    b"report 1",
    b"report\r",
    b"reports",
    b"repor",
    b"Report",
    b"cells ",
    b" cells",
    b"cells 1",
    b"cells\r",
    b"cell",
    b"cellss",
    b"Cells",
    b"entry",
    b"entry ",
    b"entry  ",
    b"entry a",
    b"entry r",
    b"entry 90",
    b"entry 90 ",
    b"entry 90 a",
    b"entry 90 a ",
    b"entry 90 r",
    b"entry 90 r ",
    b"entry 90 a 1",
    b"entry 90 a 1 ",
    b"entry 90 a 1 2",
    b"entry 90 a 1 2 ",
    b"entry 90 a 1 2 3 ",
    b"entry 90 a 1 2 3 4",
    b"entry 90 r 1 ",
    b"entry 90 r 1 2",
    b"entry 90 r 1 2 3",
    b"entry 90 a  1 2 3",
    b"entry 90 a 1  2 3",
    b"entry 90 a 1 2  3",
    b"entry 90  a 1 2 3",
    b"entry  90 a 1 2 3",
    b" entry 90 a 1 2 3",
    b"entry 90 r  1",
    b"entry 90  r 1",
    b"entry  90 r 1",
    b" entry 90 r 1",
    b"entry 90 a 1 2 3\r",
    b"entry 90 r 1\r",
    b"entry 90 a 1 2 3\t",
    b"entry 90 a 1 2 3\x00",
    b"entry 90 r 1\x00",
    b"entry\t90 r 1",
    b"entry 90\tr 1",
    b"entry 90 r\t1",
    b"entry 90 A 1 2 3",
    b"entry 90 R 1",
    b"entry 90 b 1 2 3",
    b"entry 90 q 1",
    b"entry 90 s 1",
    b"entry 90 aa 1 2 3",
    b"entry 90 ar 1 2 3",
    b"entry 90 rr 1",
    b"entry 90 ra 1",
    b"entry 90 a1 2 3",
    b"entry 90 r1",
    b"entry 90a 1 2 3",
    b"entry 90r 1",
    b"entry 90  1 2 3",
    b"entry 90 1 2 3",
    b"entry 90 1 a 2 3",
    b"entry a 90 1 2 3",
    b"entry r 90 1",
    b"entry90 r 1",
    b"Entry 90 r 1",
    b"ENTRY 90 r 1",
    b"entries 90 r 1",
    b"entr 90 r 1",
    b"90 r 1",
    b"a 1 2 3",
    b"r 1",
    b"entry +90 a 1 2 3",
    b"entry -90 a 1 2 3",
    b"entry 90 a +1 2 3",
    b"entry 90 a -1 2 3",
    b"entry 90 a 1 -2 3",
    b"entry 90 a 1 2 -3",
    b"entry 90 a 1 2 +3",
    b"entry 90 r -1",
    b"entry 90 r +1",
    b"entry -0 r 1",
    b"entry 90 a 1,2,3",
    b"entry 90 a 1 2 3.0",
    b"entry 90 a 1 0x2 3",
    b"entry 90 a 1 2 3e3",
    b"entry 90 a one 2 3",
    b"entry 90 a 1 2 3k",
    b"entry 90 a 1 2 k3",
    b"entry 90 a 1/ 2 3",
    b"entry 90 a 1 :2 3",
    b"entry 90 a 4294967296 2 3",
    b"entry 90 a 18446744073709551615 2 3",
    b"entry 90 a 18446744073709551616 2 3",
    b"entry 90 a 4294967297 2 3",
    b"entry 90 a 0004294967296 2 3",
    b"entry 90 r 4294967296",
    b"entry 90 r 4294967297",
    b"entry 90 r 18446744073709551615",
    b"entry 90 r 18446744073709551616",
    b"entry 90 r 18446744073709551617",
    b"entry 18446744073709551616 a 1 2 3",
    b"entry 18446744073709551706 a 1 2 3",
    b"entry 18446744073709551616 r 1",
    b"entry 90 a 1 18446744073709551616 3",
    b"entry 90 a 1 18446744073709551618 3",
    b"entry 90 a 1 2 18446744073709551616",
    b"entry 90 a 1 2 18446744073709551619",
    b"entry 18446744073709551615 a 4294967296 2 3",
    b"entry 0 a 4294967296 2 3",
    b"entry 90 a 1 2 3 entry 91 r 1",
    b"entry 90 r 1 register",
    b"number 5 a 1 2 3",
    b"entry 90 number 5",
    b"entry 90 a 1 2 3 - -",
    b"entry 90 a\xc2\xa01 2 3",
    b"entry 90 \xff 1 2 3",
]

# E8: lines that are no entries
DATES_AND_WINDOWS = [
    b"minute 1970 1 1 0 0",
    b"date 0",
    b"windows 0",
    b"ask 0",
]


def bad_lines_between():
    """Bad lines change nothing: what is live and what is counted stays, and slot 90 is not seen."""
    before = [b"register", assignment(3, 1), assignment(4, 2), removal(5, 1)] + LOOK
    lines = [line for bad in NOT_ENTRIES for line in (bad, b"report")]
    return before + lines + DATES_AND_WINDOWS + LOOK + [assignment(90, 1, 2, 3), removal(90, 1)] + LOOK


def register_lines():
    lines = first_entries() + limit_lines() + full_lines() + random_runs() + two_offices() + ZEROS_IN_ENTRIES
    assert sum(line.startswith(b"entry") for line in lines) > 20000
    return lines


# ---- E7: longer cell numbers, and registers that were stored with cells of 16 bits

LARGEST_STORED_CELL = 2**16 - 1


def begin_stored(planner, following, made, superseded, released, count, *rest):
    """"Stored cells keep number and assignment": the register that a stored one of 16-bit cells widens to."""
    cells = [rest[place : place + 3] for place in range(0, len(rest), 3)]
    numbers = [cell[0] for cell in cells]
    if len(rest) != 3 * count or count > PLACES:
        return "bad line"
    if any(number > LARGEST_STORED_CELL for number in numbers) or any(a >= b for a, b in zip(numbers, numbers[1:])):
        return "bad line"
    if any(carrier >= len(FREQUENCIES) or not 1 <= width <= WIDEST for _, carrier, width in cells):
        return "bad line"
    # "takes the slot .. from the settings that it is read with": those of the latest line that named some
    register = Register(planner.register.whole_mhz_from)
    register.last_seen = following - 1 if following > 0 else None
    register.live = {cell: (carrier, width) for cell, carrier, width in cells}
    register.made, register.superseded, register.released = made, superseded, released
    register.unaccounted = made - superseded - released - count
    planner.register, planner.positions = register, {}  # E11: its cells have no positions
    return begun(planner)


def stored_line(following, made, superseded, released, cells, count=None):
    """The line for a stored register; its count may be another than that of its cells."""
    numbers = [following, made, superseded, released, len(cells) if count is None else count]
    return b"stored " + " ".join(map(str, numbers + [number for cell in cells for number in cell])).encode("ascii")


def stored_after(lines):
    """The line for what a register of these entries holds."""
    planner = Planner()
    for line in lines:
        answer(planner, line)
    register = planner.register
    following = 0 if register.last_seen is None else register.last_seen + 1
    cells = [(cell,) + assigned for cell, assigned in sorted(register.live.items())]
    return stored_line(following, register.made, register.superseded, register.released, cells)


def longer_cells():
    """Cells that are one number in their last 16, 24 or 31 bits are cells of their own, and stand by number."""
    alike = [7, 7 + 2**16, 7 + 2**17, 7 + 2**24, 7 + 2**31, 7 + 2**31 + 2**16]
    edges = [65534, 65535, 65536, 65537, 131071, 2**31 - 1, 2**31, 2**32 - 2, 2**32 - 1]
    lines = [b"register"]
    slot = 0
    for cells in (alike, edges, edges[::-1]):
        for cell in cells:
            lines += [removal(slot, cell), assignment(slot + 1, cell, slot, slot + 1)]
            slot += 2
        lines += LOOK
        for cell in cells[::2]:
            lines += [assignment(slot, cell, slot, slot + 1), removal(slot + 1, cell), removal(slot + 2, cell)] + LOOK
            slot += 3
        for cell in cells:
            lines.append(removal(slot, cell))
            slot += 1
        lines += LOOK
    return lines


def longer_runs():
    chosen = random.Random(7)
    lines = []
    for _ in range(6):
        pool = [chosen.randrange(2**32) for _ in range(8)]
        lines += random_run(chosen, 150, pool + [cell % 2**16 for cell in pool], 2)
    # so many cells that places run out
    lines += random_run(chosen, 1500, chosen.sample(range(2**32 - 1200, 2**32), 700), 1)
    return lines


def gone_on_with():
    """Old entries, then the register that was stored after them, then new entries; and the same entries in one register. Reports and cells agree."""
    chosen = random.Random(1632)
    lines = []
    for count, many in [(0, 3), (1, 3), (40, 20), (150, 60), (1400, 700)]:
        old_pool = chosen.sample(range(2**16), many)
        new_pool = old_pool + [chosen.randrange(2**16, 2**32) for _ in range(many)]
        old = [line for line in random_run(chosen, count, old_pool, 1) if line.startswith(b"entry")]
        start = max([int(line.split()[1]) for line in old if int(line.split()[1]) <= LARGEST_SLOT], default=0)
        new = []
        for place in range(120):
            cell = chosen.choice(new_pool)
            slot = start + 1 + place if chosen.random() < 0.9 else chosen.randint(0, start)
            new.append(removal(slot, cell) if chosen.random() < 0.3 else assignment(slot, cell, chosen.randrange(3279166), chosen.randint(1, WIDEST)))
        lines += [b"register"] + old + LOOK + [stored_after(old)] + LOOK + new + LOOK
        lines += [b"register"] + old + new + LOOK + [b"register", stored_after(old)] + old + LOOK
    return lines


def stored_places():
    """So many cells, the least and the largest numbers, and the next slot at its ends."""
    lines = []
    for cells in (range(511), range(512), range(2**16 - 512, 2**16), range(0, 2**16, 128)):
        held = [(cell, place, place + 1) for place, cell in enumerate(cells)]
        lines += [stored_line(1000, 1000 + len(held), 600, 400, held)] + LOOK + [assignment(999, 700), assignment(1000, 2**16), assignment(1001, 2**16 + 1)]
        lines += [assignment(1002, held[-1][0], 5, 6), removal(1003, held[0][0]), assignment(1004, 2**32 - 1)] + LOOK
    ends = [(0, 0, 1), (65535, 3279165, 400000)]
    for following in [0, 1, 2**63 - 2, 2**63 - 1, 2**63, LARGEST]:
        lines += [stored_line(following, 2, 0, 0, ends), removal(0, 0), assignment(2**63 - 3, 1), removal(2**63 - 2, 65535), assignment(2**63 - 1, 2)] + LOOK
    # figures that no entries leave are gone on with too
    lines += [stored_line(5, 2**63, 1, 2, ends), assignment(5, 0), removal(6, 0), assignment(7, 65536)] + LOOK
    return lines + [stored_line(0, 0, 0, 0, []), b"stored 00 000 0 0 0000"] + LOOK + [b"stored 01 002 0000 1 0001 00065535 003279165 0000400000"] + LOOK


def not_stored():
    """Bad lines, each behind a register that stays as it is."""
    two = [(7, 5, 1), (9, 5, 1)]
    three = two + [(11, 5, 1)]
    bad = [b"stored", b"stored ", b"stored 0", b"stored 0 0 0 0", b"stored 0 0 0 0 ", b"stored 0 0 0 0 0 ", b"stored 0 0 0 0  0", b" stored 0 0 0 0 0"]
    bad += [b"stored  0 0 0 0 0", b"stored 0 0 0 0 0\r", b"stored\t0 0 0 0 0", b"Stored 0 0 0 0 0", b"stor 0 0 0 0 0", b"storeds 0 0 0 0 0", b"stored0 0 0 0 0"]
    bad += [b"stored -0 0 0 0 0", b"stored +1 0 0 0 0", b"stored 0 0 0 0 x", b"stored 0 0 0 0 0x0", b"stored 0,0,0,0,0", b"stored 0 0 0 0 1 7 5 1.0", b"stored \xff 0 0 0 0"]
    # the count and the fields
    bad += [stored_line(1, 1, 0, 0, two, count) for count in [0, 1, 3, 512, 2**32 + 2, 2**63 + 2, 2 * 2**64 // 3, 2**64 // 3 + 2, LARGEST]]
    bad += [stored_line(1, 1, 0, 0, [], count) for count in [1, 512, 513, (2**64 + 2) // 3, (2**65 + 1) // 3, LARGEST, LARGEST + 1]]
    bad += [stored_line(1, 1, 0, 0, two) + more for more in (b" ", b" 11", b" 11 5", b" 11 5 1", b" 11 5 1 ", b" a 5 1")]
    bad += [stored_line(1, 1, 0, 0, three)[: -len(cut)] for cut in (b" 1", b" 5 1", b" 11 5 1")]
    # more than 512 cells, and so many numbers as no line has
    for count in (513, 514, 681, 682, 683, 3000):
        many = [(cell, 5, 1) for cell in range(count)]
        bad += [stored_line(1, 1, 0, 0, many), stored_line(1, 1, 0, 0, many, 512)]
    # cells: above 65,535, the same twice, falling
    for cell in [2**16, 2**16 + 1, 2**17 - 1, 2**31, 2**32 - 1, 2**32, 2**32 + 11, 2**48 + 11, 2**63, LARGEST, LARGEST + 1, LARGEST + 12]:
        bad += [stored_line(1, 1, 0, 0, two + [(cell, 5, 1)]), stored_line(1, 1, 0, 0, [(cell, 5, 1)])]
    bad += [stored_line(1, 1, 0, 0, cells) for cells in (two + two[1:], two[:1] + two, two[::-1], three[::-1], [three[0], three[2], three[1]], [(0, 5, 1), (0, 5, 1)])]
    bad.append(stored_line(1, 1, 0, 0, [(cell, 5, 1) for cell in list(range(511)) + [510]]))
    # carriers and widths
    for place in range(3):
        for carrier, width in [(c, 1) for c in CARRIERS_REFUSED + [LARGEST + 1, LARGEST + 6]] + [(5, w) for w in WIDTHS_REFUSED + [LARGEST + 1, LARGEST + 2]]:
            bad.append(stored_line(1, 1, 0, 0, three[:place] + [(three[place][0], carrier, width)] + three[place + 1 :]))
    # numbers that do not fit
    for place in range(4):
        for large in (LARGEST + 1, LARGEST + 2, 10**20):
            bad.append(stored_line(*[large if place == other else 1 for other in range(4)], two))
    lines = [stored_line(4, 3, 0, 1, two)] + LOOK
    for line in bad:
        assert answer(Planner(), line) == "bad line", line
        lines += [line, b"report"]
    return lines + LOOK + [assignment(4, 7), assignment(5, 65536)] + LOOK


def stored_lines():
    return longer_cells() + longer_runs() + gone_on_with() + stored_places() + not_stored()


# ---- E13: from a slot on, widths in whole MHz

ODD_WIDTHS = [1, 999, 1001, 1500, 399999, 20001]
WHOLE_WIDTHS = [1000, 2000, 20000, 400000]


def begins_at(slot):
    return f"register {slot}".encode("ascii")


def about_the_slot():
    """Each width at the slot, one before it and one after it, for a new cell and for a live one, which keeps its odd width; then it is released."""
    lines = []
    for named in [0, 1, 2, 7, 2**32, LARGEST_SLOT - 1, LARGEST_SLOT]:
        slots = [slot for slot in (named - 1, named, named + 1) if 0 <= slot <= LARGEST_SLOT + 1]
        for width in ODD_WIDTHS + WHOLE_WIDTHS + [0, 400001, 401000, 2**64 - 616]:
            for slot in slots:
                lines += [begins_at(named), assignment(slot, 5, 10, width), b"cells"]
            lines += [begins_at(named)] + [assignment(slot, 5, 10, width) for slot in slots] + LOOK
        if named > 2:
            lines += [begins_at(named), assignment(named - 2, 5, 10, 1500), assignment(named - 1, 6, 11, 999), assignment(named, 5, 12, 1500)] + LOOK
            lines += [assignment(named, 5, 12, 2000), removal(named, 6), removal(named + 1, 6), assignment(named + 1, 6, 1, 1000)] + LOOK
    return lines


def causes_with_23():
    """23 beside 2, an older slot, 14 and 15, for a live cell and a new one with 512 live; the refused slot is seen, and a release has no width."""
    lines = [begins_at(600)] + filling(range(512), 0) + LOOK
    slot = 600
    for cell, carrier, width in itertools.product([3, 1000], [5, 3279166], [1000, 1500, 400001]):
        for given in [2**63 - 1, 0, slot, slot, slot + 1]:
            lines.append(assignment(given, cell, carrier, width))
        lines.append(b"report")
        slot += 2
    lines += [removal(slot, 1000), removal(slot + 1, 3), assignment(slot + 2, 1000, 5, 1500)]
    lines += [assignment(slot + 3, 1000, 5, 3000), assignment(slot + 4, 1001, 5, 1500)]
    return lines + LOOK


def not_made():
    """Slots that may not be named: every line about the register gives 1, and nothing changes."""
    lines = []
    for named in [LARGEST_SLOT + 1, 2**63, LARGEST]:
        lines += [begins_at(named)] + LOOK + [assignment(0, 1), assignment(2**63 - 1, 1), removal(0, 1), assignment(0, 1, 3279166, 0)]
        lines += [b"number 5", b"khz 5"] + LOOK
        # a stored register is read with the same settings, and a line that is none leaves them
        lines += [stored_line(5, 1, 0, 0, [(7, 10, 1500)])] + LOOK + [assignment(9, 7), b"register x", b"stored 1"] + LOOK
        lines += [begins_at(LARGEST_SLOT), stored_line(5, 1, 0, 0, [(7, 10, 1500)])] + LOOK
    return lines


def stored_with_a_slot():
    """A stored register takes the slot of the latest line that named one: its odd widths stay, whatever is refused behind the slot."""
    stored = stored_line(9, 3, 0, 1, [(7, 10, 1500), (8, 11, 999)])
    lines = []
    for named in [0, 8, 9, 10, 12, LARGEST_SLOT]:
        lines += [begins_at(named), stored] + LOOK + [assignment(slot, 7 + slot % 3, 12, 1500 + slot) for slot in range(8, 13)] + LOOK
        lines += [assignment(13, 7, 12, 2000), removal(14, 8), removal(15, 9)] + LOOK
        lines += [stored, assignment(9, 1, 2, 3), b"register", stored, assignment(9, 1, 2, 3)] + LOOK
    return lines


def odd_runs():
    """Entries of many kinds with a slot in their midst."""
    chosen = random.Random(13)
    lines = []
    for turn in range(6):
        run = random_run(chosen, 300, range(30), 3)[1:]
        lines += [begins_at(chosen.choice([0, 100, 300, 500]))]
        for line in run:
            fields = line.split(b" ")
            if len(fields) == 6 and chosen.random() < 0.5:
                fields[5] = str(1000 * chosen.randint(1, 400)).encode("ascii")
            lines.append(b" ".join(fields))
        lines += LOOK
    return lines


ZEROS_IN_SLOTS = [
    b"register 0000",
    b"report",
    b"register 0009223372036854775806",
    b"report",
    b"register 0009223372036854775807",
    b"report",
    b"register 00018446744073709551615",
]

NOT_SLOTS = [
    b"register -1",
    b"register 5 ",
    b"register 5 6",
    b"register  5",
    b" register 5",
    b"register 5\r",
    b"register 5x",
    b"register x5",
    b"register 18446744073709551616",
    b"register5",
    b"Register 5",
    b"registers 5",
]


def whole_mhz_lines():
    # what is no line leaves the register that is not made
    no_lines = ZEROS_IN_SLOTS + LOOK + [b"register 5"] + NOT_SLOTS + LOOK + [b"register"]
    return about_the_slot() + causes_with_23() + not_made() + stored_with_a_slot() + odd_runs() + no_lines


# ---- E6: inputs of the program `cell_report`


def ended(lines):
    return b"".join(line + b"\n" for line in lines)


def entries_of(lines):
    return [line for line in lines if line.startswith(b"entry")]


def report_input():
    """The gate's input: places run out, entries are refused and older ones go by, from a slot on for odd widths too, and positions that are done, refused
    and older; no LF ends the last line."""
    run = entries_of(random_run(random.Random(16), 3000, range(40000, 41000), 2))
    chosen = random.Random(17)
    between = [entry for line in run for entry in ([line, position_beside(chosen, line)] if chosen.random() < 0.2 else [line])]
    return ended([begins_at(3500)] + between) + assignment(2**63 - 2, 7)


def position_beside(chosen, line):
    """A position of the entry's cell, or of another, in the slot behind the entry's, in its own, or above the last slot."""
    _, slot, _, cell, *_ = line.split(b" ")
    slot = chosen.choice([int(slot) + 1, int(slot), LARGEST_SLOT + 1])
    return f"entry {slot} p {int(cell) + chosen.randint(0, 1)} {chosen.choice([5, LIMIT + 1])} -7".encode("ascii")


def report_inputs():
    """Others: of entry lines alone, and with one other line at each place where it may stand."""
    some = [assignment(3, 1), assignment(4, 2), removal(5, 1), removal(5, 2), assignment(6, 2), removal(9, 9), assignment(LARGEST, 5)]
    inputs = [b"", ended(some), ended(some)[:-1], ended(some[:1]), some[0], ended(entries_of(limit_lines()))]
    inputs += [ended(entries_of(full_lines()))] + [ended(entries_of(run)) for run in (random_runs(), two_offices(), ZEROS_IN_ENTRIES)]
    inputs += [ended(entries_of(run)) for run in (longer_cells(), longer_runs())]
    # E13: a first line that begins the register
    for named in [0, 4, 6, 7, LARGEST_SLOT, LARGEST_SLOT + 1, LARGEST]:
        odd = [assignment(slot, slot, 5, 1500) for slot in (3, 4, 5, 6, 7)]
        first = begins_at(named)
        inputs += [ended([first] + some), ended([first] + odd), first, ended(odd + [first]), ended([first] * 2)]
    # E11: positions are seen, and are in no figure
    placed = [line.encode("ascii") for line in entries_of_positions()]
    inputs += [ended(entries_of(placed)), ended(entries_of(placed)[-4:]), ended([begins_at(LARGEST_SLOT + 1)] + entries_of(placed))]
    others = NOT_SLOTS + NOT_ENTRIES + NOT_POSITIONS + DATES_AND_WINDOWS + NOT_LINES
    others += [b"register", b"report", b"cells", b"number 5", b"khz 5", b"stored 0 0 0 0 0", assignment(7, 1) + b" " * LONGEST]
    for other in others:
        inputs += [ended(some + [other]), ended([other] + some), ended(some[:3] + [other] + some[3:])] + ([ended(some) + other] if other else [])
    # a line as long as one may be, and one that is a byte longer
    for length in (LONGEST - 1, LONGEST, LONGEST + 1, 3 * LONGEST):
        long_line = b"entry " + b"0" * (length - 13) + b"9 r 456"[:7]
        assert len(long_line) == length
        inputs += [ended(some + [long_line] + some), ended(some) + long_line, ended([long_line])]
    return inputs


# ---- E11: positions, conflicts within reach, and the first free carrier

SIGNED = "a number with a sign"
LIMIT = 2_000_000
FARTHEST = 6_000_000
LAST_CARRIER = len(FREQUENCIES) - 1


def position(planner, slot, cell, x, y):
    """"gives 16 for a cell that is not live and adds to no figure of the report"; 2, older, 21, then 16."""
    answer = planner.register.sees(slot)
    if answer:
        return answer
    if abs(x) > LIMIT or abs(y) > LIMIT:
        return "refused 21"
    if cell not in planner.register.live:
        return "refused 16"
    planner.positions[cell] = (x, y)
    return "done"


def near_cells(planner, x, y, distance):
    """"lie within the distance of the position, equality included, squares compared. Cells without a position always count as near."."""
    for cell, (carrier, width) in sorted(planner.register.live.items()):
        there = planner.positions.get(cell)
        if there is None or (there[0] - x) ** 2 + (there[1] - y) ** 2 <= distance**2:
            yield cell, FREQUENCIES[carrier], width


def refusal(planner, carriers, width, x, y, distance):
    """"21 first, then 14 for a carrier, width or range end outside its limits"; a register that is not made gives 1 before anything else."""
    if not planner.register.is_made:
        return "refused 1"
    if abs(x) > LIMIT or abs(y) > LIMIT or not 0 <= distance <= FARTHEST:
        return "refused 21"
    if any(carrier > LAST_CARRIER for carrier in carriers) or not 1 <= width <= WIDEST:
        return "refused 14"
    return None


def conflicts(planner, carrier, width, x, y, distance):
    """"its centre less half its width up to, not including, its centre plus half its width, counted in half kHz": two such spans share a half kHz."""
    given = refusal(planner, [carrier], width, x, y, distance)
    if given:
        return given
    centre = 2 * FREQUENCIES[carrier]
    here = (centre - width, centre + width)
    listed = [cell for cell, khz, of in near_cells(planner, x, y, distance) if max(here[0], 2 * khz - of) < min(here[1], 2 * khz + of)]
    return " ".join(map(str, [len(listed)] + listed))


def free(planner, first, last, width, x, y, distance):
    """"the lowest that conflicts with none": every number that a near cell takes is marked."""
    given = refusal(planner, [first, last], width, x, y, distance)
    if given:
        return given
    taken = bytearray(max(last + 1 - first, 0))
    for _, khz, of in near_cells(planner, x, y, distance):
        # the numbers whose frequency is less than half of both widths away
        below, above = 2 * khz - of - width, 2 * khz + of + width
        low = bisect.bisect_right(FREQUENCIES, below // 2) if below >= 0 else 0
        high = bisect.bisect_left(FREQUENCIES, (above + 1) // 2)
        low, high = max(low, first), min(high, last + 1)
        if low < high:
            taken[low - first : high - first] = b"\x01" * (high - low)
    place = taken.find(0)
    return "refused 22" if place < 0 else f"free {first + place}"


def entries_of_positions():
    """Each cause of a position, every two of them together, and what becomes of a position."""
    lines = ["register", "entry 0 p 7 0 0", "entry 0 p 7 0 0", "entry 1 a 7 632628 20000", "cells"]
    slot = 2
    edges = [-LIMIT - 1, -LIMIT, -LIMIT + 1, -1, 0, 1, LIMIT - 1, LIMIT, LIMIT + 1]
    for x, y in itertools.product(edges, edges):
        lines += [f"entry {slot} p 7 {x} {y}", "cells"]
        slot += 1
    for when, cell, x in itertools.product(["first", "last", "new", "beyond", "largest"], [7, 8, 2**32 - 1], [0, LIMIT + 1, -(2**63 - 1), 2**63 - 1]):
        slot += when == "new"
        given = {"first": 0, "last": slot - 1, "new": slot - 1, "beyond": LARGEST_SLOT + 1, "largest": 2**64 - 1}[when]
        lines.append(f"entry {given} p {cell} {x} -5")
    slot += 1
    lines += [f"entry {slot} p 7 11 -12", f"entry {slot + 1} a 7 5 6", "cells", f"entry {slot + 2} a 7 3279166 6", f"entry {slot + 3} a 3 5 6", "cells"]
    lines += [f"entry {slot + 4} r 3", "cells", f"entry {slot + 5} r 7", f"entry {slot + 6} a 7 5 6", "cells", f"entry {slot + 7} p 7 1 2", "cells"]
    return lines


def questions_at_the_edges():
    """Overlap to half a kHz, distances exactly equal and one more, at each joint of the raster's ranges."""
    lines = []
    for carrier in [0, 1, 300_000, 599_999, 600_000, 1_000_000, 2_016_666, 2_016_667, LAST_CARRIER]:
        for of in [1, 9, 10, 15, 30, 59, 60, 61, WIDEST]:
            lines += ["register", f"entry 0 a 9 {carrier} {of}", "entry 1 p 9 -3000 4000"]
            for other in range(max(carrier - 4, 0), min(carrier + 5, LAST_CARRIER + 1)):
                apart = 2 * abs(FREQUENCIES[other] - FREQUENCIES[carrier])
                for width in {max(1, min(WIDEST, apart - of + more)) for more in (-1, 0, 1)}:
                    lines += [f"conflicts {other} {width} 0 0 {distance}" for distance in (4999, 5000)]
                    lines.append(f"free {other} {min(other + 300_000, LAST_CARRIER)} {width} 0 0 5000")
                    lines.append(f"free {other} {carrier} {width} 0 0 5000")
    return lines


def limits_of_questions():
    lines = ["register", "entry 0 a 9 600000 20000", "entry 1 a 4 700000 20000", "entry 2 p 4 2000000 -2000000"]
    places = itertools.product([-LIMIT - 1, -LIMIT, 0, LIMIT, 2**63 - 1], [-(2**63 - 1), -LIMIT, LIMIT, LIMIT + 1])
    for (x, y), distance in itertools.product(places, [0, FARTHEST, FARTHEST + 1, 2**64 - 1]):
        for carrier, width in itertools.product([600_000, LAST_CARRIER + 1, 2**64 - 1], [0, 1, WIDEST, WIDEST + 1]):
            lines.append(f"conflicts {carrier} {width} {x} {y} {distance}")
    for first, last, width, x in itertools.product([0, 600_000, LAST_CARRIER, LAST_CARRIER + 1], [0, 600_000, LAST_CARRIER, LAST_CARRIER + 1], [0, 1, WIDEST], [0, LIMIT + 1]):
        lines.append(f"free {first} {last} {width} {x} 0 100")
    return lines


def random_office(chosen, cells_live, questions):
    lines, slot = ["register"], 0
    base = chosen.choice([0, 590_000, 620_000, 2_000_000, 3_250_000])
    for cell in chosen.sample(range(2**32), cells_live):
        width = chosen.choice([5000, 20000, 100000, chosen.randint(1, WIDEST)])
        lines.append(f"entry {slot} a {cell} {chosen.randint(base, min(base + 30_000, LAST_CARRIER))} {width}")
        if chosen.random() < 0.9:
            lines.append(f"entry {slot + 1} p {cell} {chosen.randint(-5000, 5000)} {chosen.randint(-5000, 5000)}")
        slot += 2
    lines.append("cells")
    for _ in range(questions):
        place = f"{chosen.randint(-5000, 5000)} {chosen.randint(-5000, 5000)} {chosen.choice([0, 1000, 4000, 15000])}"
        width = chosen.choice([1, 5000, 20000, 100000, chosen.randint(1, WIDEST)])
        first = chosen.randint(base, min(base + 30_000, LAST_CARRIER))
        lines += [f"conflicts {first} {width} {place}", f"free {first} {min(first + chosen.choice([0, 10, 3000, LAST_CARRIER]), LAST_CARRIER)} {width} {place}"]
    return lines


def position_lines():
    chosen = random.Random(11)
    lines = entries_of_positions() + questions_at_the_edges() + limits_of_questions()
    for cells_live in [0, 1, 5, 40, 511, 512]:
        lines += random_office(chosen, cells_live, 60)
    # 512 cells all over the raster, the whole of it in conflict, and then one cell fewer
    lines += ["register"] + [f"entry {cell} a {cell} {LAST_CARRIER * cell // 511} {WIDEST}" for cell in range(512)] + [f"free 0 {LAST_CARRIER} {WIDEST} 0 0 0"]
    return lines + ["entry 512 r 300", f"free 0 {LAST_CARRIER} 1000 0 0 0", f"free 0 {LAST_CARRIER} {WIDEST} 0 0 0"]


NOT_POSITIONS = [
    b"entry 90 p",
    b"entry 90 p ",
    b"entry 90 p 1",
    b"entry 90 p 1 2",
    b"entry 90 p 1 2 ",
    b"entry 90 p 1  2 3",
    b"entry 90 p 1 2 3 ",
    b"entry 90 p 1 2 3 4",
    b"entry 90 p 4294967296 2 3",
    b"entry 90 p -1 2 3",
    b"entry -90 p 1 2 3",
    b"entry 90 p 1 - 3",
    b"entry 90 p 1 --2 3",
    b"entry 90 p 1 2- 3",
    b"entry 90 p 1 +2 3",
    b"entry 90 p 1 2 3.0",
    b"entry 90 p 1 9223372036854775808 3",
    b"entry 90 p 1 2 -9223372036854775808",
    b"entry 90 p 1 2 18446744073709551615",
    b"entry 90 P 1 2 3",
    b"entry 90 q 1 2 3",
    b"conflicts",
    b"conflicts ",
    b"conflicts 5",
    b"conflicts 5 1 0 0",
    b"conflicts 5 1 0 0 ",
    b"conflicts 5 1 0 0 0 0",
    b"conflicts -5 1 0 0 0",
    b"conflicts 5 -1 0 0 0",
    b"conflicts 5 1 0 0 -1",
    b"conflicts  5 1 0 0 0",
    b"conflict 5 1 0 0 0",
    b"conflicts 18446744073709551616 1 0 0 0",
    b"free",
    b"free 0 5 1 0 0",
    b"free 0 5 1 0 0 0 0",
    b"free -0 5 1 0 0 0",
    b"free 0 5 1 0 0 x",
    b"free 0 5  1 0 0 0",
    b"freed 0 5 1 0 0 0",
]

ZEROS_IN_POSITIONS = [
    b"register",
    b"entry 0 a 7 632628 20000",
    b"entry 01 p 007 -0 -00012",
    b"cells",
    b"entry 2 p 7 0000000000000000000000000000000000002000000 -0000000000000000000000000000000000002000000",
    b"cells",
    b"conflicts 000632628 0020000 02000000 -02000000 00",
    b"free 00 0632628 01 -0 -0 00000006000000",
]


def positions_in_a_group():
    """A register that is not made gives 1 to all; a stored one has no positions; what is no line changes nothing."""
    asks = [b"entry 9 p 7 2000001 0", b"conflicts 3279166 0 2000001 0 0", b"free 0 0 0 2000001 0 0", b"cells"]
    stored = stored_line(5, 2, 1, 0, [(7, 632628, 20000)])
    lines = [b"register 9223372036854775807"] + asks + [b"register 0", assignment(0, 7), b"entry 1 p 7 -5 6"] + asks
    lines += [b"register x", b"cells", stored, b"cells", b"entry 5 p 7 8 -9", b"cells", stored[:-1] + b"x", b"cells", stored, b"cells"]
    bad = [line for bad in NOT_POSITIONS for line in (bad, b"cells")]
    return lines + bad + ZEROS_IN_POSITIONS


# ---- E10: two lists of commits joined into one, and a list fed to the register

LARGEST_VALUE = 2**63 - 1
LONGEST_LIST = 4096
LONGEST_JOIN = 8192


def is_consecutive(slots):
    return all(after == before + 1 for before, after in zip(slots, slots[1:]))


def joined(places, first, second):
    """The number of a refusal, or the joined list, of two lists of slots and values: 2, 18, 19 and 20 in that order."""
    both = first + second
    if any(slot > LARGEST_SLOT or value > LARGEST_VALUE for slot, value in both):
        return 2
    lists = [[slot for slot, _ in entries] for entries in (first, second)]
    if places < LONGEST_JOIN or any(len(slots) > LONGEST_LIST or not is_consecutive(slots) for slots in lists):
        return 18
    # "a gap between the lists": their slots together are not consecutive
    if not is_consecutive(sorted({slot for slot, _ in both})):
        return 19
    # "one slot with two values"
    if len(set(both)) != len({slot for slot, _ in both}):
        return 20
    return sorted(set(both))


def join_answer(_, fields):
    """The answer to a line `join PLACES s v .. | s v ..`, given the fields behind its word."""
    if fields.count(b"|") != 1:
        return "bad line"
    bar = fields.index(b"|")
    sides = [[number_in(field) for field in side] for side in (fields[:bar], fields[bar + 1 :])]
    if any(None in side for side in sides) or len(sides[0]) % 2 != 1 or len(sides[1]) % 2 != 0:
        return "bad line"
    places, *first = sides[0]
    result = joined(places, pairs_of(first), pairs_of(sides[1]))
    if isinstance(result, int):
        return f"refused {result}"
    return " ".join([f"{len(result)}"] + [f"{slot} {value}" for slot, value in result])


def pairs_of(numbers):
    return list(zip(numbers[::2], numbers[1::2]))


# the letter of an entry, the numbers that stand behind it, and what takes them
CHANGES = {
    b"a": ((LARGEST_CELL, LARGEST, LARGEST), assign),
    b"r": ((LARGEST_CELL,), release),
    b"p": ((LARGEST_CELL, SIGNED, SIGNED), position),
}


def fed_entries(fields):
    """The entries `s v ENTRY` of a list that is fed, or None: slot, value, and what is done with the numbers behind the letter."""
    entries = []
    at = 0
    while at < len(fields):
        behind, taken = CHANGES.get(fields[at + 2], ((), None)) if at + 2 < len(fields) else ((), None)
        end = at + 3 + len(behind)
        if taken is None or len(fields) < end:
            return None
        numbers = numbers_in((LARGEST, LARGEST) + behind, fields[at : at + 2] + fields[at + 3 : end])
        if numbers is None:
            return None
        entries.append((numbers[0], numbers[1], taken, numbers[2:]))
        at = end
    return entries


def feed_answer(planner, fields):
    """The answer to a line `feed s v ENTRY s v ENTRY ..`, given the fields behind its word: 1 of a register that is not made (E13), 2, 18 or
    19, in that order, and nothing is fed; else "from the slot after the last one seen", and "it hands back the first refused slot, if any, with its
    number"."""
    entries = fed_entries(fields)
    if entries is None:
        return "bad line"
    if not planner.register.is_made:
        return "refused 1"
    last_seen = planner.register.last_seen
    following = 0 if last_seen is None else last_seen + 1
    if any(slot > LARGEST_SLOT or value > LARGEST_VALUE for slot, value, _, _ in entries):
        return "refused 2"
    if len(entries) > LONGEST_JOIN or not is_consecutive([entry[0] for entry in entries]):
        return "refused 18"
    if entries and entries[0][0] > following:
        return "refused 19"
    refused = []
    for slot, _, taken, numbers in entries:
        if slot >= following:
            outcome = taken(planner, slot, *numbers)
            refused += [f"fed, slot {slot} {outcome}"] if outcome != "done" else []
    return (refused + ["fed"])[0]


def join_line(first, second, places=LONGEST_JOIN):
    fields = ["join", f"{places}"] + [f"{n}" for entry in first for n in entry] + ["|"] + [f"{n}" for entry in second for n in entry]
    return " ".join(fields).encode("ascii")


def agreed(begin, count):
    """A list of one group: each slot has one value wherever it stands."""
    return [(slot, (7 * slot + 3) % 10) for slot in range(begin, begin + count)]


def other_value(entries, place):
    """The list with another value at a place."""
    slot, value = entries[place]
    return entries[:place] + [(slot, value + 1)] + entries[place + 1 :]


def in_both_orders(first, second, places=LONGEST_JOIN):
    return [join_line(first, second, places), join_line(second, first, places)]


def meeting_lines():
    """Two short lists in every way that they can lie: apart, touching, overlapping, one within the other, the same, empty."""
    lists = [[]] + [agreed(begin, count) for begin in range(6) for count in range(1, 5)]
    lines = [join_line(first, second) for first in lists for second in lists]
    # another value at each place of the first list, in the other list or not
    for first, second in itertools.product(lists[1:], lists[1:]):
        if set(first) & set(second):
            lines += [join_line(other_value(first, place), second) for place in {0, len(first) - 1}]
    return lines


def slot_end_lines():
    """Lists at the last slot, and values at the largest."""
    ends = [2**32, 2**62, LARGEST_SLOT]
    lines = []
    for end in ends:
        for count, more in itertools.product(range(1, 4), range(4)):
            lines += in_both_orders(agreed(end - count + 1, count), agreed(end - more, more))
            lines += in_both_orders(agreed(end - count - more, count), agreed(end - 1, 2))
    for value in [2**32, 2**62, LARGEST_VALUE - 1, LARGEST_VALUE]:
        lines += in_both_orders([(5, value)], [(5, value), (6, 0)]) + in_both_orders([(5, value)], [(5, value - 1), (6, 0)])
    # the least and the last slot are no neighbours
    return lines + in_both_orders([(0, 1)], [(LARGEST_SLOT, 1)]) + in_both_orders([(0, 1)], [(2**63 - 1, 1)]) + in_both_orders([(0, 1)], [(LARGEST, 1)])


def cause_lines():
    """Each pair of causes, with each number of places about the limit."""
    whole = agreed(10, 3)
    too_large = [[(LARGEST_SLOT + 1, 1)], [(10, LARGEST_VALUE + 1)], [(LARGEST, LARGEST)], whole + [(13, 2**63)], whole + [(2**63 - 1, 4)]]
    apart = [[(10, 3), (10, 3)], [(10, 3), (12, 7)], [(11, 0), (10, 3)], whole + [(12, 7)], [(9, 6)] + whole[1:], whole[::-1]]
    gaps = [agreed(14, 2), agreed(0, 9), [(20, 1)]]
    contradicted = [other_value(whole, 0), other_value(whole, 2), [(12, 9), (13, 4)], [(9, 6), (10, 9)]]
    kinds = [[], whole] + too_large + apart + gaps + contradicted
    lines = [join_line(first, second) for first in kinds for second in kinds]
    for places in [0, 1, 3, 4095, 4096, 8190, 8191, 8193, 8194, 65536, 2**32, 2**32 + 8191, 2**63, LARGEST]:
        lines += [join_line(first, second, places) for first in kinds[:2] for second in kinds]
    return lines


def long_list_lines():
    """Lists of 4,096 and of 4,097 entries, and results of 8,191, 8,192 and 4,096."""
    low, high = agreed(0, LONGEST_LIST), agreed(LONGEST_LIST, LONGEST_LIST)
    within = agreed(LONGEST_LIST - 1, LONGEST_LIST)
    lines = in_both_orders(low, high) + [join_line(low, high, places) for places in (LONGEST_JOIN - 1, LONGEST_JOIN + 1)]
    lines += [join_line(low, within), join_line(within, other_value(low, LONGEST_LIST - 1)), join_line(low, low)]
    lines += [join_line(low, other_value(low, place)) for place in (0, LONGEST_LIST - 1)]
    lines += [join_line(low, []), join_line([], high), join_line(low, agreed(LONGEST_LIST + 1, 1)), join_line(agreed(1, 1), low)]
    # one entry more than a list may have: alone, beside a gap, beside a contradiction, with a number too large behind it
    longer = agreed(0, LONGEST_LIST + 1)
    lines += in_both_orders(longer, []) + [join_line(longer, [(9000, 1)]), join_line(longer, [(0, 9)])]
    lines += [join_line(longer[:-1] + [(LONGEST_LIST, 2**63)], []), join_line([], longer[:-1] + [(2**63 - 1, 0)])]
    return lines + [join_line(other_value(longer, LONGEST_LIST), longer[-1:]), join_line([(0, 0)] * 9999, []), join_line([], [(0, 0)] * 9999 + [(0, 2**63)])]


def random_lists():
    """Lists of one group that mostly meet, some with an entry changed."""
    chosen = random.Random(10)
    lines = []
    for _ in range(400):
        begin = chosen.choice([0, chosen.randint(0, 40), chosen.randint(0, LARGEST_SLOT - 200)])
        lists = [agreed(begin + chosen.randint(0, 12), chosen.randint(0, 12)) for _ in range(2)]
        for side in (0, 1):
            if lists[side] and chosen.random() < 0.15:
                lists[side] = other_value(lists[side], chosen.randrange(len(lists[side])))
            if len(lists[side]) > 2 and chosen.random() < 0.05:
                del lists[side][chosen.randrange(len(lists[side]))]
        lines.append(join_line(*lists))
    return lines


NOT_JOINS = [
    b"join",
    b"join ",
    b"join |",
    b"join  |",
    b"join 8192",
    b"join 8192 ",
    b"join 8192|",
    b"join 8192 | ",
    b" join 8192 |",
    b"join  8192 |",
    b"join 8192  |",
    b"join 8192 |\r",
    b"join 8192 |\t",
    b"join 8192 |\x00",
    b"join 8192 | |",
    b"join 8192 | | 0 7",
    b"join 8192 || 0 7",
    b"join 8192 0 7",
    b"join 8192 0 |",
    b"join 8192 | 0",
    b"join 8192 0 7 1 |",
    b"join 8192 0 | 7",
    b"join 8192 0 7 | 0",
    b"join 8192 0 7 | 0 7 1",
    b"join 8192 0 7 | 0 7 |",
    b"join 8192 0 7 | 0 7 | 0 7",
    b"join 8192 0 7|",
    b"join 8192 0 7| 1 8",
    b"join 8192 0 7 |1 8",
    b"join 8192 |0 7",
    b"join 8192 0 7 |  1 8",
    b"join 8192 0 7  | 1 8",
    b"join 8192 0  7 | 1 8",
    b"join 8192 0 7 | 1  8",
    b"join 8192 0 7 | 1 8 ",
    b"join 0 7 | 1 8",
    b"join | 0 7",
    b"join -8192 |",
    b"join 8192 -1 7 |",
    b"join 8192 0 -7 |",
    b"join 8192 0 +7 |",
    b"join 8192 0,7 |",
    b"join 8192 0 x |",
    b"join 8192 | 0 x",
    b"join 8192 a 7 |",
    b"join 8192 0 7 / 1 8",
    b"join 8192 0 7 l 1 8",
    b"join 8192 0 7 I 1 8",
    b"join 8192 0 7 \xa6 1 8",
    b"join x |",
    b"join 18446744073709551616 |",
    b"join 8192 18446744073709551616 7 |",
    b"join 8192 0 18446744073709551616 |",
    b"join 8192 | 18446744073709551616 7",
    b"join 8192 | 0 18446744073709551623",
    b"join 0 18446744073709551616 0 |",
    b"Join 8192 |",
    b"JOIN 8192 |",
    b"joins 8192 |",
    b"joi 8192 |",
    b"join8192 |",
    b"8192 |",
    b"|",
    b"| join 8192",
]

ZEROS_IN_JOINS = [
    b"join 008192 |",
    b"join 00008191 |",
    b"join 8192 00 007 | 0000001 8",
    b"join 8192 0000000000000000000000009223372036854775806 0009223372036854775807 | 09223372036854775805 00",
    b"join 8192 00018446744073709551615 0 |",
    b"join 8192 | 0 " + b"0" * 3000 + b"7",
]


def join_lines():
    """What the program is run on beside the gate; the recorded lines have the shorter ones and some of the long ones."""
    return short_joins() + long_list_lines() + widest_join() + longest_joins()


def short_joins():
    return meeting_lines() + slot_end_lines() + cause_lines() + random_lists() + ZEROS_IN_JOINS + NOT_JOINS


def joins_between_entries():
    """Joining takes no register: it is looked at before and behind lines that join, good, refused and bad, in registers with entries, stored, with a slot of
    whole MHz and not made, and goes on from the same slot."""
    joins = [join_line(agreed(0, 3), agreed(2, 3)), b"join 8192 |", join_line(agreed(0, 3), agreed(4, 2)), b"join 8191 |", b"join 8192"]
    with_entries = [assignment(0, 7), assignment(2, 70000, 5, 1001), removal(3, 7)]
    stored = [stored_line(4, 1, 0, 0, [(7, 5, 1001)])]
    begun = [[b"register"] + with_entries, [begins_at(9)] + with_entries, [b"register"] + stored, [begins_at(9)] + stored, [begins_at(LARGEST_SLOT + 1)]]
    lines = []
    for before in begun:
        behind = [LOOK + [line] + LOOK for line in joins]
        lines += before + list(itertools.chain(*behind)) + joins + [assignment(9, 8, 5, 1001), removal(2, 70000), assignment(10, 8)] + LOOK
    return lines


def some_long_joins():
    """Results of 8,192 entries in both orders, and one place too few; 8,191 with one slot in both; contradictions at both ends; a list of 4,097, and 2 past
    the 4,096th."""
    low, high, longer = agreed(0, LONGEST_LIST), agreed(LONGEST_LIST, LONGEST_LIST), agreed(0, LONGEST_LIST + 1)
    lines = in_both_orders(low, high) + [join_line(high, low, LONGEST_JOIN - 1), join_line(agreed(LONGEST_LIST - 1, LONGEST_LIST), low)]
    lines += [join_line(low, other_value(low, place)) for place in (0, LONGEST_LIST - 1)]
    return lines + [join_line(longer, []), join_line([], longer[:-1] + [(LONGEST_LIST, 2**63)])]


def widest_join():
    """The longest answer: 8,192 entries of the largest numbers."""
    first = LARGEST_SLOT - LONGEST_JOIN + 1
    entries = [(slot, LARGEST_VALUE) for slot in range(first, first + LONGEST_JOIN)]
    return in_both_orders(entries[:LONGEST_LIST], entries[LONGEST_LIST:])


def longest_joins():
    """Lines about as long as a line may be, with as many entries as they can have; one of them has a last number that is too large."""
    fill = b" 0 0" * ((LONGEST - 40) // 4)
    lines = [b"join 8192" + fill + b" |", b"join 8192 |" + fill, b"join 8192 |" + fill + b" 0 9223372036854775808", b"join 8192 |" + fill + b" 0"]
    assert all(LONGEST - 40 < len(line) <= LONGEST for line in lines)
    return lines + [lines[1] + b" 0 0" * 20]


def feed_line(entries):
    """The line that feeds entries, each a slot, a value and what stands in an entry line from the letter on."""
    return " ".join(["feed"] + [f"{slot} {value} {change}" for slot, value, change in entries]).encode("ascii")


def changes_from(slot, changes):
    """Entries of consecutive slots."""
    return [(slot + place, 3 * place, change) for place, change in enumerate(changes)]


SOME_CHANGES = ["a 7 632628 20000", "a 8 5 1", "r 7", "r 7", "a 8 3279166 1", "a 9 0 400000", "a 9 0 400001", "r 8"]


def fed_lines():
    """Lists that begin before, at and past the next slot, of a new register and of one with entries, also where every slot is seen; empty lists."""
    lines = []
    for before in ([], [assignment(0, 7)], [assignment(4, 7), removal(5, 8)], [assignment(LARGEST_SLOT, 1)]):
        for begin, count in itertools.product([0, 1, 4, 5, 6, 7, LARGEST_SLOT - 7], [1, 2, 8]):
            lines += [b"register"] + before + [feed_line(changes_from(begin, SOME_CHANGES[:count]))] + LOOK + [b"feed", removal(begin + count, 9)]
    # the same list twice, and lists one behind the other
    whole = changes_from(0, SOME_CHANGES * 3)
    lines += [b"register", feed_line(whole)] + LOOK + [feed_line(whole)] + LOOK
    for cut in range(1, len(whole), 5):
        lines += [b"register", feed_line(whole[:cut]), feed_line(whole[cut - 1 :])] + LOOK
    return lines


def refused_lines():
    """A refused entry first, in the middle and last, alone and with another; 15 with 512 live; what follows it is fed."""
    refused = ["a 1 3279166 1", "a 1 5 0", "r 2"]
    lines = []
    for one, other in itertools.product(refused, refused):
        for places in itertools.combinations(range(5), 2):
            changes = ["a 1 5 6", "a 3 7 8", "r 1", "a 1 9 10", "r 3"]
            changes[places[0]], changes[places[1]] = one, other
            lines += [b"register", feed_line(changes_from(0, changes)), b"cells"]
    full = [f"a {cell} 5 6" for cell in range(PLACES)]
    lines += [b"register", feed_line(changes_from(0, full + ["a 600 1 2", "a 5 1 2", "r 5", "a 600 1 2", "a 5 7 8"])), b"report"]
    lines += [feed_line(changes_from(515, ["a 5 1 2"]))]
    return lines + LOOK


def feed_cause_lines():
    """Each number, and each pair of causes: what is refused feeds nothing."""
    too_large = [(LARGEST_SLOT + 1, 1, "r 1"), (LARGEST, 1, "r 1"), (3, LARGEST_VALUE + 1, "r 1")]
    apart = [[(3, 1, "r 1"), (3, 1, "r 1")], [(3, 1, "r 1"), (5, 1, "r 1")], [(4, 1, "r 1"), (3, 1, "r 1")], [(9, 1, "r 1"), (8, 1, "r 1")]]
    lists = [[entry] for entry in too_large] + apart + [[(9, 1, "r 1")], [(4, LARGEST_VALUE, "a 2 5 6")], [(LARGEST_SLOT, 1, "r 1")]]
    lists += [rows + [entry] for rows in apart for entry in too_large]
    lines = []
    for entries in lists:
        lines += [b"register", assignment(3, 1), feed_line(entries)] + LOOK
    return lines


def long_feeds():
    """8,192 entries, and 8,193: alone, with a number too large, past the next slot."""
    whole = [(place, 5, f"a {place % 5} 7 1" if place % 3 == 1 else f"r {place % 5}") for place in range(LONGEST_JOIN + 1)]
    return [b"register", feed_line(whole[:-1])] + LOOK + [feed_line(whole)] + LOOK


def longest_feeds():
    """Lines about as long as a line may be, the last of them with a number that is too large behind all others."""
    short = changes_from(0, ["r 0"] * (LONGEST_JOIN + 1))
    fill = b" 0 0 r 0" * ((LONGEST - 50) // 8)
    lines = [b"feed" + fill, b"feed" + fill + b" 0 9223372036854775808 r 0", b"feed" + fill + b" 0 0 r", b"feed" + fill + b" 0 0 r 0" * 8]
    assert len(lines[1]) <= LONGEST < len(lines[3])
    last = short[:-1] + [(LONGEST_JOIN, LARGEST_VALUE + 1, "r 0")]
    return [line for fed in [feed_line(short), feed_line(last), feed_line(changes_from(1, ["r 0"] * 8193))] + lines for line in (b"register", fed, b"report")]


def random_feeds():
    """An office that was away: entries of many kinds, fed in pieces that overlap, against the same entries one by one."""
    chosen = random.Random(1010)
    lines = []
    for _ in range(40):
        changes = []
        for _ in range(chosen.randint(1, 40)):
            cell = chosen.choice([1, 2, 3, 65535, 65536, LARGEST_CELL])
            width = chosen.choice([0, 1, 20000, 400000, 400001])
            changes.append(f"r {cell}" if chosen.random() < 0.4 else f"a {cell} {chosen.randint(0, 3279166)} {width}")
        whole = changes_from(0, changes)
        lines += [b"register"] + [f"entry {slot} {change}".encode("ascii") for slot, _, change in whole] + LOOK + [b"register"]
        begin = 0
        while begin < len(whole):
            end = chosen.randint(begin + 1, len(whole))
            lines.append(feed_line(whole[max(0, begin - chosen.randint(0, 3)) : end]))
            begin = end
        lines += LOOK
    return lines


NOT_FEEDS = [
    b"feed ",
    b"feed  ",
    b" feed",
    b"feed 3",
    b"feed 3 5",
    b"feed 3 5 ",
    b"feed 3 5 r",
    b"feed 3 5 r ",
    b"feed 3 5 r 1 ",
    b"feed 3 5 r 1 2",
    b"feed 3 5 r 1 4",
    b"feed 3 5 r 1 4 6 r",
    b"feed 3 5 r 1  4 6 r 1",
    b"feed  3 5 r 1",
    b"feed 3  5 r 1",
    b"feed 3 5  r 1",
    b"feed 3 5 r  1",
    b"feed 3 r 1",
    b"feed r 1",
    b"feed 3 5 a 1",
    b"feed 3 5 a 1 2",
    b"feed 3 5 a 1 2 3 ",
    b"feed 3 5 a 1 2 3 4",
    b"feed 3 5 a 1 2 r 1",
    b"feed 3 5 x 1",
    b"feed 3 5 R 1",
    b"feed 3 5 rr 1",
    b"feed 3 5 r1",
    b"feed 3 5 1",
    b"feed 3 5 r -1",
    b"feed 3 -5 r 1",
    b"feed -3 5 r 1",
    b"feed 3 5 r 1\r",
    b"feed 3 5 r 1\x00",
    b"feed 3 5 r 1 | 4 6 r 1",
    b"feed 3 5 r 4294967296",
    b"feed 3 5 a 4294967296 1 1",
    b"feed 3 5 r 18446744073709551616",
    b"feed 18446744073709551616 5 r 1",
    b"feed 3 18446744073709551616 r 1",
    b"feed 3 5 a 1 18446744073709551616 1",
    b"feed 3 5 a 1 1 18446744073709551616",
    b"feed 3 5 a 1 1 1 4 6 r 4294967296",
    b"feed 3 5 p",
    b"feed 3 5 p 1",
    b"feed 3 5 p 1 2",
    b"feed 3 5 p 1 2 ",
    b"feed 3 5 p 1 2 3 ",
    b"feed 3 5 p 1 2 3 4",
    b"feed 3 5 p 1 2 -",
    b"feed 3 5 p 1 -2- 3",
    b"feed 3 5 p 1 --2 3",
    b"feed 3 5 p -1 2 3",
    b"feed 3 -5 p 1 2 3",
    b"feed 3 5 p 4294967296 2 3",
    b"feed 3 5 p 1 9223372036854775808 3",
    b"feed 3 5 p 1 2 -9223372036854775808",
    b"feed 3 5 r -1 4 6 p 1 2 3",
    b"feed 3 5 a 1 -2 3 4 6 p 1 2 3",
    b"feed 3 5 p 1 2 3 4 6 p 1 2",
    b"feed 3 5 P 1 2 3",
    b"feed 9223372036854775807 5 r 1 4",
    b"feed 3 entry 3 r 1",
    b"feed entry 3 r 1",
    b"Feed 3 5 r 1",
    b"feeds 3 5 r 1",
    b"fee 3 5 r 1",
    b"feed\t3 5 r 1",
    b"feed3 5 r 1",
]

ZEROS_IN_FEEDS = [b"register", b"feed 00 000 r 01 01 07 a 0000000007 05 0006", b"feed 0002 " + b"0" * 3000 + b"7 r 7"]


def not_feeds():
    """Bad lines feed nothing: slot 3 is not seen."""
    return [b"register", assignment(2, 1)] + [line for bad in NOT_FEEDS + NOT_JOINS for line in (bad, b"report")] + [assignment(3, 1)] + LOOK


PLACES_FED = ["a 7 632628 20000", "p 7 -300 400", "a 5 632628 20000", "p 7 2000001 0", "p 9 0 0", "r 5", "p 5 1 1", "a 7 5 6", "a 5 5 6", "p 5 2000000 -2000000"]


def fed_positions():
    """Positions among the entries of a list: 21 and 16 in their turn, an assignment that keeps one and a release that drops one, cells that come in before one
    that has a position; the same entries in a list and one by one, in pieces that overlap, and refused lists, which leave every position."""
    asks = [b"cells", b"conflicts 632628 20000 0 0 500", b"conflicts 632628 20000 0 0 499", b"free 0 632628 6 2000000 -2000000 0", b"report"]
    lines = []
    for order in itertools.permutations(range(4)):
        changes = [["a 3 5 6", "p 3 1 -1", "a 1 5 6", "r 3"][place] for place in order] + ["a 3 5 6", "a 2 5 6", "p 2 -2 2", "r 1"]
        lines += [b"register", feed_line(changes_from(0, changes)), b"cells"]
    for begin in range(len(PLACES_FED)):
        whole = changes_from(0, PLACES_FED[begin:] + PLACES_FED[:begin])
        lines += [b"register"] + [f"entry {slot} {change}".encode("ascii") for slot, _, change in whole] + asks
        lines += [b"register", feed_line(whole)] + asks + [b"register", feed_line(whole[:5]), feed_line(whole[3:])] + asks
        lines += [feed_line(whole), feed_line(changes_from(len(whole) + 1, ["p 5 3 3"])), feed_line(whole[:2] + whole[1:])] + asks
        lines += [feed_line([(len(whole), LARGEST_VALUE + 1, "p 5 3 3")]), begins_at(LARGEST_SLOT + 1), feed_line(whole)] + asks
    stored = stored_line(0, 0, 0, 0, [(5, 632628, 20000), (9, 5, 6)])
    return lines + [b"register", stored, feed_line(changes_from(0, PLACES_FED))] + asks + [stored] + asks


def random_placed_feeds():
    chosen = random.Random(1011)
    lines = []
    for _ in range(40):
        changes = []
        for _ in range(chosen.randint(1, 60)):
            cell = chosen.choice([1, 2, 3, 65536, LARGEST_CELL])
            said = chosen.choice(["a", "a", "r", "p", "p", "p"])
            place = f"{chosen.choice([-LIMIT, LIMIT, chosen.randint(-LIMIT - 1, LIMIT + 1)])} {chosen.randint(-9, 9)}"
            behind = {"a": f"{chosen.randint(0, 9)} {chosen.randint(1, 300)}", "r": "", "p": place}[said]
            changes.append(f"{said} {cell} {behind}".rstrip())
        whole = changes_from(0, changes)
        cut = chosen.randint(1, len(whole))
        lines += [b"register"] + [f"entry {slot} {change}".encode("ascii") for slot, _, change in whole] + LOOK
        lines += [b"register", feed_line(whole[:cut]), feed_line(whole[max(0, cut - 2) :])] + LOOK
    return lines


def placed_feeds():
    return fed_positions() + random_placed_feeds()


def short_feeds():
    return fed_lines() + refused_lines() + feed_cause_lines() + random_feeds() + ZEROS_IN_FEEDS + LOOK + not_feeds()


WIDTHS_FED = ["a 1 5 1000", "a 2 5 1001", "a 1 5 0", "a 3 5 999", "r 1", "r 1", "a 2 3279166 1", "a 4 5 400001", "a 5 5 400000", "a 6 5 20001"]


def fed_about_the_slot():
    """Lists that begin before, at and past the slot of whole MHz, with widths of both kinds: 23 is the first refused, or stands behind another; an odd width
    from before the slot stays."""
    lines = []
    for slot, begin in itertools.product([0, 1, 4, 5, 6, 20, LARGEST_SLOT], [0, 3]):
        for changes in (WIDTHS_FED, WIDTHS_FED[::-1], WIDTHS_FED[1:], ["a 2 5 1001"] * 8):
            entries = [removal(place, 9) for place in range(begin)]
            lines += [begins_at(slot)] + entries + [feed_line(changes_from(begin, changes))] + LOOK + [assignment(begin + len(changes), 7, width=1500)] + LOOK
    # at the last slot of all
    lines += [begins_at(LARGEST_SLOT), assignment(LARGEST_SLOT - 2, 1, width=1), feed_line(changes_from(LARGEST_SLOT - 1, ["a 1 5 7", "a 1 5 7"]))] + LOOK
    return lines


def full_with_a_slot():
    """23 before 15, and 15 of a width in whole MHz, with 512 live."""
    changes = ["a 1000 5 1001", "a 1000 5 1000", "a 1 5 1001", "a 1 5 2000"]
    lines = []
    for order in (changes, changes[1:], changes[::-1]):
        lines += [begins_at(PLACES)] + filling(range(PLACES), 0) + [feed_line(changes_from(PLACES, order)), b"report"]
    return lines


def fed_unmade():
    """A register that is not made gives 1 before 2, 18 and 19, also to an empty list; a line that is none is a bad line, and joining takes no register."""
    lists = [[(0, 1, "a 1 5 6")], [(9, 1, "r 1")], [(3, 1, "r 1"), (5, 1, "r 1")], [(LARGEST_SLOT + 1, 1, "r 1")], [(0, LARGEST_VALUE + 1, "r 1")]]
    lines = []
    for slot in (LARGEST_SLOT + 1, LARGEST):
        for entries in lists:
            lines += [begins_at(slot), feed_line(entries)] + LOOK + [b"feed", b"feed ", b"feed 0 0", b"feed 0 0 r", join_line(agreed(0, 3), agreed(2, 3))]
        lines += [stored_line(4, 1, 0, 0, [(7, 5, 6)]), feed_line(lists[0]), b"feed"] + LOOK + [b"register 5", b"feed", feed_line(lists[0])] + LOOK
    # a stored register is fed from its next slot on, with the slot that the latest `register` line named
    for slot in (4, 5, 6):
        lines += [begins_at(slot), stored_line(4, 1, 0, 0, [(7, 5, 1001)]), feed_line(changes_from(3, ["a 7 5 7"] * 4))] + LOOK
    return lines


def whole_mhz_feeds():
    return fed_about_the_slot() + full_with_a_slot() + fed_unmade()


def feed_lines():
    return joins_between_entries() + short_feeds() + long_feeds() + longest_feeds() + whole_mhz_feeds() + placed_feeds()


# ---- E8: change windows. The calendar is Python's: the proleptic Gregorian one, years 1 to 9999.

EPOCH = datetime.datetime(1970, 1, 1)
MINUTE = datetime.timedelta(minutes=1)
PAST_ALL = (datetime.datetime(9999, 12, 31, 23, 59) - EPOCH) // MINUTE + 1  # the first minute past the year 9999
MOST_WINDOWS = 128


def minute_of(year, month, day, hour, minute):
    """Minutes since 1970-01-01, or None: "a date that the calendar or those years lack, a time outside the day"."""
    if year < 1970 or max(year, month, day, hour, minute) > 9999:
        return None
    try:
        return (datetime.datetime(year, month, day, hour, minute) - EPOCH) // MINUTE
    except ValueError:
        return None


def date_of(minute):
    return EPOCH + minute * MINUTE


def answer_minute(_, *date):
    minute = minute_of(*date)
    return "refused 17" if minute is None else f"minute {minute}"


def answer_date(_, minute):
    """"a minute past the year 9999, however large, has no date and gives 17"."""
    if minute >= PAST_ALL:
        return "refused 17"
    on = date_of(minute)
    return f"date {on.year} {on.month} {on.day} {on.hour} {on.minute}"


def begin_windows(planner, count, *numbers):
    """A line has ten numbers a window, however many those are. "More than 128 windows give 1", whatever they are; "a window whose end is not after its start"
    gives 17."""
    if len(numbers) != 10 * count:
        return "bad line"
    if count > MOST_WINDOWS:
        planner.refusal = "refused 1"
        return planner.refusal
    dates = [minute_of(*numbers[place : place + 5]) for place in range(0, len(numbers), 5)]
    planner.windows = list(zip(dates[0::2], dates[1::2]))
    bad = any(start is None or end is None or end <= start for start, end in planner.windows)
    planner.refusal = "refused 17" if bad else None
    return planner.refusal or "made"


def ask(planner, minute):
    """"The first minute belongs to the window and the last does not."; "the first minute of the nearest later one, or that none follows"."""
    if planner.refusal:
        return planner.refusal
    if minute >= PAST_ALL:
        return "refused 17"
    if any(start <= minute < end for start, end in planner.windows):
        return "inside"
    later = sorted(start for start, _ in planner.windows if start > minute)
    return f"next {later[0]}" if later else "none"


def words(*numbers):
    return " ".join(map(str, numbers)).encode("ascii")


def fields_of(minute):
    on = date_of(minute)
    return [on.year, on.month, on.day, on.hour, on.minute]


def date_lines():
    """The ends of the years, of months and of days, leap days that there are and that there are not, each number one beyond its limits, any numbers."""
    chosen = random.Random(1970)
    dates = []
    for year in [1970, 1971, 1972, 1999, 2000, 2001, 2004, 2026, 2096, 2100, 2104, 2200, 2400, 3000, 4000, 8000, 9996, 9998, 9999]:
        for month in range(1, 13):
            dates += [[year, month, day, 0, 0] for day in [1, 27, 28, 29, 30, 31, 32]]
        dates += [[year, 12, 31, 23, 59], [year, 1, 1, 0, 1]]
    for year in [0, 1, 69, 70, 1600, 1900, 1968, 1969, 10000, 10001, 2**16, 2**32 + 2026, 2**63, LARGEST]:
        dates += [[year, 1, 1, 0, 0], [year, 2, 29, 12, 30], [year, 12, 31, 23, 59]]
    good = [2026, 11, 18, 2, 30]
    for place, beyond in itertools.product(range(5), [0, 12, 13, 23, 24, 25, 30, 31, 32, 59, 60, 61, 99, 2**8, 2**32, 2**32 + 1, 2**63, LARGEST]):
        dates.append(good[:place] + [beyond] + good[place + 1 :])
    dates += [fields_of(chosen.randrange(PAST_ALL)) for _ in range(300)]
    dates += [[chosen.randint(1965, 2035), chosen.randint(0, 13), chosen.randint(0, 32), chosen.randint(0, 25), chosen.randint(0, 61)] for _ in range(200)]
    minutes = [at + more for at in [0, 59, 60, 1439, 1440, 2**31, 2**32, PAST_ALL, 2**63, LARGEST] for more in (-1, 0, 1) if 0 <= at + more <= LARGEST]
    minutes += [chosen.randrange(PAST_ALL) for _ in range(300)] + [chosen.randint(PAST_ALL, LARGEST) for _ in range(40)]
    # the first and the last minute of years, and of February and March
    for year in [1970, 1972, 1999, 2000, 2100, 2399, 2400, 9999]:
        for month in [1, 2, 3, 12]:
            first = minute_of(year, month, 1, 0, 0)
            minutes += [first, first + 1, max(first - 1, 0)]
    return [b"minute " + words(*date) for date in dates] + [b"date " + words(minute) for minute in minutes]


def windows_line(windows):
    return b"windows " + words(len(windows), *[number for start, end in windows for number in fields_of(start) + fields_of(end)])


def asked_around(windows):
    """The minutes around each start and end, the first and the last that there are, and late ones."""
    minutes = {minute + more for window in windows for minute in window for more in (-1, 0, 1)} | {0, 1, PAST_ALL - 2, PAST_ALL - 1}
    late = [PAST_ALL, PAST_ALL + 1, 2**63, LARGEST]
    return [b"ask " + words(minute) for minute in sorted(m for m in minutes if 0 <= m < PAST_ALL) + late]


def some_windows(chosen, count, least, reach, longest):
    starts = [chosen.randint(least, least + reach) for _ in range(count)]
    return [(start, start + chosen.randint(1, longest)) for start in starts]


def after_one_window(line):
    """A line behind one that begins a window: what it leaves is asked."""
    return [windows_line([(10, 20)]), b"ask 15", line, b"ask 15", b"ask 20", b"ask 18446744073709551615"]


def refused_windows():
    """Each cause, and two at once: a window that is none behind 127 good ones, 129 windows with and without such a one."""
    good = windows_line([(100, 200)])[len(b"windows 1 ") :].split(b" ")
    lines = []
    for place, beyond in itertools.product(range(10), [b"0", b"13", b"60", b"1969", b"10000", b"18446744073709551615"]):
        lines += [b"windows 1 " + b" ".join(good[:place] + [beyond] + good[place + 1 :]), b"ask 150", b"ask 18446744073709551615"]
    last = PAST_ALL - 1
    for start, end in [(100, 100), (101, 100), (5000000, 0), (0, 1), (0, last), (last - 1, last), (last, last), (0, 0)]:
        lines += [windows_line([(start, end)])] + asked_around([(start, end)])
    many = [(10 * place, 10 * place + 5) for place in range(1, 130)]
    for windows in [many[:127] + [(7, 7)], [(7, 7)] + many[:127], many[:128], many, many[:128] + [(7, 7)], [(7, 6)] * 129, [(7, 6)] * 128, many + many]:
        lines += [windows_line(windows), b"ask 12", b"ask 7", b"ask 1287", b"ask 1297", b"ask 18446744073709551615"]
    # more windows than the program has places for numbers, and one number more or fewer; counts whose tenfold, taken modulo 2^64, is the count of the numbers
    for count, others in [(129, 1289), (129, 1290), (129, 1291), (204, 2040), (204, 2041), (205, 2049), (205, 2050), (205, 2051), (300, 3000), (3000, 30000)]:
        lines += after_one_window(b"windows " + words(count, *[7] * others))
    for count, others in [(129, 0), (LARGEST, 5), (2**64 // 10 + 1, 4), (2**63 + 1, 10), (2**63, 0), (1, 0), (0, 10)]:
        lines += after_one_window(b"windows " + words(count, *[1] * others))
    for fault in [b"x", b"18446744073709551616", b""]:
        lines += after_one_window(b"windows " + words(300, *[7] * 2999) + b" " + fault)
    return lines


NOT_WINDOW_LINES = [
    b"minute",
    b"minute ",
    b"minute 2026 11 18 2",
    b"minute 2026 11 18 2 30 0",
    b"minute 2026-11-18 2:30",
    b"minute 2026 11 18 2 30 ",
    b"minute  2026 11 18 2 30",
    b"minute 2026 11 18 2 -30",
    b"minute 18446744073709551616 1 1 0 0",
    b"minute 2026 11 18 2 18446744073709551616",
    b"minutes 2026 11 18 2 30",
    b"Minute 2026 11 18 2 30",
    b"date",
    b"date ",
    b"date 5 6",
    b"date -1",
    b"date 18446744073709551616",
    b"date 2026 11 18 2 30",
    b"dates 5",
    b"ask",
    b"ask ",
    b"ask 5 6",
    b"ask -1",
    b"ask 18446744073709551616",
    b"asks 5",
    b"windows",
    b"windows ",
    b"windows 0 ",
    b"windows -1",
    b"windows 0 1",
    b"windows 1",
    b"windows 1 2026 1 1 0 0 2026 1 2 0",
    b"windows 1 2026 1 1 0 0 2026 1 2 0 0 0",
    b"windows 2 2026 1 1 0 0 2026 1 2 0 0",
    b"windows 1 2026 1 1 0 0 2026 1 2 0 18446744073709551616",
    b"windows 1 2026 1 1 0 0 2026 1 2 0 x",
    b"windows 1 2026 1 1 0 0  2026 1 2 0 0",
    b"windows 129 1 x",
    b"windows 129 18446744073709551616",
    b"windows 129 ",
    b"windows 129  1",
    b"windows 18446744073709551616",
    b"window 0",
]

# leading zeros say nothing
ZEROS_IN_WINDOWS = [b"windows 001 02026 01 01 00 00 2026 01 01 00 0001", b"ask 029453760", b"ask 0000029453761", b"minute 2026 01 001 0 000", b"date 00"]


def window_lines():
    """Before any `windows` line; windows that overlap, in any order; none; 128 of them; what a bad line leaves."""
    chosen = random.Random(128)
    lines = [b"ask 0", b"ask 4223371680", b"ask 18446744073709551615"] + date_lines() + NOT_WINDOW_LINES + [b"ask 5"] + refused_windows()
    sets = [[], [(100, 200)], [(100, 200), (200, 300)], [(300, 400), (100, 350), (320, 330)], [(0, 1)], [(0, PAST_ALL - 1)], [(500, 600)] * 3]
    sets += [some_windows(chosen, count, least, 3000, 200) for count in [2, 3, 5, 10, 64, 127, 128] for least in [0, 29000000, PAST_ALL - 4000]]
    for windows in sets:
        lines += [windows_line(windows)] + asked_around(windows)
    # bad lines leave the windows, also where those are refused; the register's lines do too, and windows leave the register
    lines += [windows_line([(100, 200)])] + NOT_WINDOW_LINES + [b"ask 99", b"ask 150", b"register", b"ask 150", b"ask 200"]
    lines += [assignment(0, 7), windows_line([]), b"ask 150"] + LOOK + [b"windows 1 2026 1 1 0 0 2026 1 1 0 0"] + LOOK + [b"ask 150", removal(1, 7), b"ask 150"] + LOOK
    lines += NOT_WINDOW_LINES + [b"ask 150"] + ZEROS_IN_WINDOWS
    return lines


def each_day():
    """A time of each day from 1970-01-01 to 9999-12-31, with its minute."""
    for day in range(PAST_ALL // 1440):
        minute = 1440 * day + 7919 * day % 1440
        yield minute, fields_of(minute)


# ---- lines and answers

# a line that has a list: what answers it, given what the earlier lines left and the fields behind its word
LISTS = {b"join": join_answer, b"feed": feed_answer}

# the fields of a line: a word, or a number up to the one that stands here, and numbers of 64 bits to the end of the line where dots stand; and what
# answers it, given what the earlier lines left
FORMS = [
    ((b"number", LARGEST), khz_of),
    ((b"khz", LARGEST), number_of),
    ((b"register",), begin_register),
    ((b"register", LARGEST), begin_register),
    ((b"entry", LARGEST, b"a", LARGEST_CELL, LARGEST, LARGEST), assign),
    ((b"entry", LARGEST, b"r", LARGEST_CELL), release),
    ((b"entry", LARGEST, b"p", LARGEST_CELL, SIGNED, SIGNED), position),
    ((b"conflicts", LARGEST, LARGEST, SIGNED, SIGNED, LARGEST), conflicts),
    ((b"free", LARGEST, LARGEST, LARGEST, SIGNED, SIGNED, LARGEST), free),
    ((b"stored", LARGEST, LARGEST, LARGEST, LARGEST, LARGEST, ...), begin_stored),
    ((b"report",), report_of),
    ((b"cells",), cells_of),
    ((b"minute", LARGEST, LARGEST, LARGEST, LARGEST, LARGEST), answer_minute),
    ((b"date", LARGEST), answer_date),
    ((b"windows", LARGEST, ...), begin_windows),
    ((b"ask", LARGEST), ask),
]


class Planner:
    """What is kept from line to line: at first a new register, and no windows."""

    def __init__(self):
        self.register = Register()
        self.positions = {}
        self.windows = []
        self.refusal = None  # what refuses the windows


def line_of(length):
    """A line with one number and so many bytes: zeros, and a 7 at the end."""
    return b"number " + b"0" * (length - 8) + b"7"


def buffer_lines():
    """The longest line, which is bad and then good, and one that is a byte too long, with lines behind each: they fill the program's buffer."""
    bad = line_of(LONGEST - 1) + b"x"
    return [bad, b"khz 5", line_of(LONGEST), b"khz 10", line_of(LONGEST + 1), b"khz 15", b"number 16"]


def many_answers():
    """More bytes of answers, also to each half of these lines, than the program gathers before it writes them: 32,768."""
    return [f"khz {khz}".encode("ascii") for khz in FREQUENCIES[2016667:][:6000]]


LINES = [
    carrier_lines,
    lambda: ZEROS,
    lambda: NOT_LINES,
    register_lines,
    stored_lines,
    short_joins,
    some_long_joins,
    joins_between_entries,
    short_feeds,
    long_feeds,
    whole_mhz_lines,
    whole_mhz_feeds,
    lambda: [line.encode("ascii") for line in position_lines()],
    positions_in_a_group,
    placed_feeds,
    bad_lines_between,
    window_lines,
    buffer_lines,
    lambda: [b"report", b"cells"],
    many_answers,
    lambda: [b"report", b"cells"],
]

# the last line, which no LF ends
LAST = b"number 3279165"


def number_in(field):
    """The number that a field writes, or None: decimal digits, at least one, and 64 bits."""
    if field == b"" or any(byte not in b"0123456789" for byte in field):
        return None
    value = 0
    for byte in field.lstrip(b"0"):
        value = 10 * value + byte - 48
        if value > LARGEST:
            return None
    return value


def signed_in(field):
    """A number up to 2^63-1, with or without a minus sign."""
    number = number_in(field.removeprefix(b"-"))
    if number is None or number >= 2**63:
        return None
    return -number if field.startswith(b"-") else number


def numbers_in(form, fields):
    """The numbers of a line that has this form, or None."""
    if form[-1] is ...:
        form = form[:-1] + (LARGEST,) * (len(fields) - len(form) + 1)
    if len(form) != len(fields):
        return None
    numbers = []
    for wanted, field in zip(form, fields):
        if isinstance(wanted, bytes):
            if field != wanted:
                return None
        else:
            number = signed_in(field) if wanted is SIGNED else number_in(field)
            if number is None or wanted is not SIGNED and number > wanted:
                return None
            numbers.append(number)
    return numbers


def answer(planner, line):
    fields = line.split(b" ")
    if len(line) <= LONGEST:
        if fields[0] in LISTS:
            return LISTS[fields[0]](planner, fields[1:])
        for form, answered in FORMS:
            numbers = numbers_in(form, fields)
            if numbers is not None:
                return answered(planner, *numbers)
    return "bad line"


def lines_of(data):
    """The lines of an input: each ends with LF, but the last may end with the input."""
    lines = data.split(b"\n")
    return lines if lines[-1] != b"" else lines[:-1]


def answers_of(data):
    planner = Planner()
    return "".join(answer(planner, line) + "\n" for line in lines_of(data)).encode("ascii")


def printed_report(data):
    """What the program `cell_report` prints for an input: every line is an entry line, but the first may be `register SLOT`; or the input is refused."""
    planner = Planner()
    for place, line in enumerate(lines_of(data)):
        begins = place == 0 and line.startswith(b"register ")
        if not (begins or line.startswith(b"entry ")) or answer(planner, line) == "bad line":
            return b"refused,1\r\n"
    if not planner.register.is_made:
        return b"refused,1\r\n"
    return f"made,superseded,released,live\r\n{report_of(planner)}\r\n".encode("ascii")


def recorded():
    return b"".join(line + b"\n" for lines in LINES for line in lines()) + LAST


def long_lines():
    """Lines of one byte less than the longest, of the longest, and of more, each with a line behind it."""
    lengths = [LONGEST - 1, LONGEST, LONGEST + 1, 2 * LONGEST - 1, 2 * LONGEST, 2 * LONGEST + 1, 5 * LONGEST]
    lines = [line_of(length) + b"\nkhz 5\n" for length in lengths]
    # the end of the input in a line that is too long
    return b"".join(lines) + b"khz " + b"0" * LONGEST


def main():
    out = sys.stdout.buffer
    if sys.argv[1:] == ["numbers"]:
        out.write("".join(f"{number} {khz}\n" for number, khz in enumerate(FREQUENCIES)).encode("ascii"))
    elif sys.argv[1:] == ["dates"]:
        out.writelines(f"{minute} {date_of(minute):%Y-%m-%d %H:%M}\n".encode("ascii") for minute, _ in each_day())
    elif sys.argv[1:] == ["days"]:
        out.writelines(b"minute " + words(*date) + b"\ndate " + words(minute) + b"\n" for minute, date in each_day())
    elif sys.argv[1:] == ["long"]:
        out.write(long_lines())
    elif sys.argv[1:] == ["joins"]:
        out.write(b"".join(line + b"\n" for line in join_lines()))
    elif sys.argv[1:] == ["feeds"]:
        out.write(b"".join(line + b"\n" for line in feed_lines()))
    elif sys.argv[1:] == ["answers"]:
        out.write(answers_of(sys.stdin.buffer.read()))
    elif sys.argv[1:2] == ["reports"] and len(sys.argv) == 3:
        folder = pathlib.Path(sys.argv[2])
        for place, data in enumerate(report_inputs()):
            folder.joinpath(f"{place}.in").write_bytes(data)
            folder.joinpath(f"{place}.out").write_bytes(printed_report(data))
    elif sys.argv[1:] == []:
        crates = pathlib.Path(__file__).resolve().parent.parent / "crates"
        crates.joinpath("planning", "stdin").write_bytes(recorded())
        crates.joinpath("planning", "stdout").write_bytes(answers_of(recorded()))
        crates.joinpath("cell_report", "stdin").write_bytes(report_input())
        crates.joinpath("cell_report", "stdout").write_bytes(printed_report(report_input()))
    else:
        sys.exit(__doc__)


if __name__ == "__main__":
    main()
