#!/usr/bin/env python3
"""A second checker of peaked sheets: says what `ofit verify-unimodal` says, and shares no line with ofit.

    examples/check_peaked.py DATA SHEET [places=N]
    examples/check_peaked.py --compare PROGRAM [SEED]

The first form takes the words of `ofit verify-unimodal` and prints its line; the status is 0 where the sheet passes,
1 where it fails, 2 and 3 where words or files are refused. The second compares lines and statuses of
`PROGRAM verify-unimodal` and of this script: on each peaked sheet of examples/runs.txt, with other values and costs,
on 500 damaged sheets and on 100 damaged tables.

This script isn't proved. It follows docs/FORMATS.md, reads files by check_sheet.py, which lies beside it, and needs
Python 3.8 with its standard library.
"""

import os
import random
import sys

import check_sheet
from check_sheet import PLACES, SIGNED, WHOLE, Refused

DASHES = [b"-", b"-"]


def expected(names):
    """What each record of a peaked sheet behind its header has to be: its kind, its group or number, whether it is
    the last step of a side."""
    yield b"peak", None, False
    for name in names:
        yield b"value", name, False
    for i in range(1, len(names) + 1):
        yield b"rise", b"%d" % i, False
        for name in names[:i]:
            yield b"step", name, name == names[i - 1]
    for i in range(len(names)):
        yield b"fall", b"%d" % i, False
        for name in names[i:]:
            yield b"step", name, name == names[-1]
    yield b"end", b"-", False


class Peaked:
    """What a peaked sheet says: places, peak, cost, values, and the sides, each a list of (value, amount)."""

    def __init__(self, data, groups):
        self.names, self.values, self.rises, self.falls = list(groups), [], [], []
        found = list(check_sheet.records(data))
        header = found[0] if found else []
        if len(header) != 4 or header[:3] != [b"ofit-peaked", b"1", b"median"] or header[3] not in PLACES:
            raise Refused(3, "sheet: bad header")
        self.places = int(header[3])
        slots = list(expected(self.names))
        for number, record in enumerate(found[1:], 2):
            if number - 2 >= len(slots):
                raise Refused(3, f"sheet record {number}: record after the end")
            kind, second, is_last = slots[number - 2]
            if len(record) != 4 or record[0] != kind or second not in (None, record[1]):
                raise Refused(3, f"sheet record {number}: bad record")
            fits = getattr(self, "read_" + kind.decode())(*record[1:], is_last)
            if not fits:
                words = "bad record" if fits is None else "number too large"
                raise Refused(3, f"sheet record {number}: {words}")
        if len(found) <= len(slots):
            raise Refused(3, "sheet: no end")

    # Each of these keeps a record's fields and answers True; None where it is bad, False where a number is too large.

    def read_peak(self, peak, cost, rest, _):
        if rest != b"-" or not WHOLE.fullmatch(cost) or not (peak in self.names or peak == b"-" and not self.names):
            return None
        if not self.names and cost != b"0":
            return None
        self.peak, self.cost = peak, int(cost)
        return self.cost <= 10**30

    def read_value(self, _, value, rest, __):
        if rest != b"-" or not SIGNED.fullmatch(value):
            return None
        self.values.append(int(value))
        return abs(self.values[-1]) <= 10**9

    def read_rise(self, _, *rest):
        self.rises.append([])
        self.side = self.rises[-1]
        return True if list(rest[:2]) == DASHES else None

    def read_fall(self, _, *rest):
        self.falls.append([])
        self.side = self.falls[-1]
        return True if list(rest[:2]) == DASHES else None

    def read_step(self, _, value, amount, is_last):
        if not SIGNED.fullmatch(value) or not WHOLE.fullmatch(amount) or is_last and amount != b"0":
            return None
        self.side.append((int(value), int(amount)))
        return abs(int(value)) <= 10**9 and int(amount) <= 2 * 10**33

    def read_end(self, *rest):
        return True if list(rest[1:3]) == DASHES else None


class Rows:
    """What the rows of each group ask for at a value, and what they cost there; each is counted once."""

    def __init__(self, groups):
        self.rows = list(groups.values())
        self.spans, self.costs = {}, {}

    def span(self, place, value):
        if (place, value) not in self.spans:
            self.spans[place, value] = check_sheet.wanted(b"median", self.rows[place], value, 1)
        return self.spans[place, value]

    def cost(self, start, values):
        """The cost of whole values of the groups from a place on."""
        for place, value in enumerate(values, start):
            if (place, value) not in self.costs:
                self.costs[place, value] = sum(weight * abs(row - value) for row, weight in self.rows[place])
        return sum(self.costs[place, value] for place, value in enumerate(values, start))


def broken(side, rows, start, way):
    """The first place where a side of the groups from start on breaks a rule, or None; way is 1 in a rise, -1 in a fall."""
    before = 0
    for place, (value, amount) in enumerate(side, start):
        least, greatest = rows.span(place, value)
        following = side[place - start + 1][0] if place - start + 1 < len(side) else value
        if way * value > way * following or amount > 0 and value != following:
            return place
        if not least <= way * (amount - before) <= greatest:
            return place
        before = amount
    return None


def verdict(groups, places, sheet):
    """The line of the first thing that is wrong, or `passes`."""
    names, rows, values = sheet.names, Rows(groups), sheet.values
    if sheet.places != places:
        return b"fails settings"
    for place in range(len(names) - 1):
        way = 1 if place < names.index(sheet.peak) else -1
        if way * values[place] > way * values[place + 1]:
            return b"fails shape " + names[place]
    if rows.cost(0, values) != sheet.cost:
        return b"fails cost"
    for length, side in enumerate(sheet.rises, 1):
        place = broken(side, rows, 0, 1)
        if place is not None:
            return b"fails rise %d " % length + names[place]
    for start, side in enumerate(sheet.falls):
        place = broken(side, rows, start, -1)
        if place is not None:
            return b"fails fall %d " % start + names[place]
    rises = [0] + [rows.cost(0, [value for value, _ in side]) for side in sheet.rises]
    falls = [rows.cost(start, [value for value, _ in side]) for start, side in enumerate(sheet.falls)] + [0]
    for cut, (rise, fall) in enumerate(zip(rises, falls)):
        if rise + fall < sheet.cost:
            return b"fails not least %d" % cut
    return b"passes"


def check(words):
    """The status and the line for the words behind `verify-unimodal`."""
    try:
        if len(words) < 2:
            raise Refused(2, "names missing")
        _, places = check_sheet.read_settings(words[2:], (b"places",))
        groups = check_sheet.read_data(check_sheet.fetch("data", words[0]), places)
        if len(groups) > 200:
            raise Refused(3, "too many groups for an unknown peak")
        line = verdict(groups, places, Peaked(check_sheet.fetch("sheet", words[1]), groups))
        return int(line != b"passes"), line
    except Refused as refused:
        return refused.args[0], refused.args[1].encode()


def with_values(text, groups, chance):
    """The sheet with other values and, as a rule, their true cost: sides that pass then tell that it isn't the least."""
    lines, count = text.split(b"\n"), len(groups)
    values = [int(line.split(b",")[2]) for line in lines[2 : 2 + count]]
    spot = chance.randrange(count)
    values[spot] = chance.choice(values) if chance.randrange(2) else values[spot] + chance.choice((-1, 1))
    peak = chance.choice((lines[1].split(b",")[1], list(groups)[values.index(max(values))]))
    price = Rows(groups).cost(0, values) + chance.choice((0, 0, 0, 0, 1))
    told = [b"value,%s,%d,-" % (name, value) for name, value in zip(groups, values)]
    return b"\n".join([lines[0], b"peak,%s,%d,-" % (peak, price), *told, *lines[2 + count :]])


def cases(folder, chance):
    """Words of `verify-unimodal` for whole and for damaged files."""

    def put(name, text):
        path = os.path.join(folder, name)
        with open(path, "wb") as file:
            file.write(text)
        return path.encode()

    whole = list(check_sheet.examples(b"unimodal"))
    for data, sheet, *settings in whole:
        yield [data, sheet, *settings]
        for words in (b"", b"places=1", b"places=7", b"loss=median", b"places=0 places=0", b"places"):
            yield [data, sheet, *words.split()]
        yield [data, b"none.peaked", *settings]
        yield [data, put("sheet", b""), *settings]
        yield [put("many", b"group,value\n" + b"".join(b"g%d,1\n" % row for row in range(201))), b"none.peaked"]
        yield [put("none", b"group,value\n"), put("sheet", b"ofit-peaked,1,median,3\npeak,-,0,-\nend,-,-,-\n")]
        groups = check_sheet.read_data(check_sheet.fetch("data", data), check_sheet.read_settings(settings)[1])
        text = check_sheet.fetch("sheet", sheet)
        for line, field, limit in ((1, 2, 10**30), (2, 2, 10**9), (len(groups) + 5, 3, 2 * 10**33)):
            for number in (limit, limit + 1):
                lines = [record.split(b",") for record in text.split(b"\n")]
                lines[line][field] = b"%d" % number
                yield [data, put("sheet", b"\n".join(b",".join(record) for record in lines)), *settings]
        for _ in range(100):
            yield [data, put("sheet", with_values(text, groups, chance)), *settings]
    for _ in range(500):
        data, sheet, *settings = chance.choice(whole)
        text = check_sheet.fetch("sheet", sheet)
        for _ in range(chance.choice((1, 1, 1, 2))):
            text = check_sheet.damaged(text, chance)
        yield [data, put("sheet", text), *settings]
    for _ in range(100):
        data, sheet, *settings = chance.choice(whole)
        yield [put("data", check_sheet.damaged(check_sheet.fetch("data", data), chance)), sheet, *settings]


if __name__ == "__main__":
    check_sheet.main("check_peaked", b"verify-unimodal", check, cases)
