#!/usr/bin/env python3
"""A second checker of sheets: says what `ofit verify` says, and shares no line with ofit.

    examples/check_sheet.py DATA SHEET settings
    examples/check_sheet.py --compare PROGRAM [SEED]

The first form takes the words of `ofit verify` and prints its line; the status is 0 where the sheet passes, 1
where it fails, 2 and 3 where words or files are refused. The second compares lines and statuses of `PROGRAM
verify` and of this script: on each sheet of examples/runs.txt, in both versions, on 500 damaged sheets, on 250
damaged tables and orders, and under other settings.

This script isn't proved. It follows docs/FORMATS.md and needs Python 3.8 with its standard library.
"""

import collections
import os
import random
import re
import subprocess
import sys
import tempfile
from math import gcd

LOSSES, PLACES = (b"squares", b"median"), (b"0", b"1", b"2", b"3", b"4", b"5", b"6")
FIELD = re.compile(rb'(?:"([^"]*(?:""[^"]*)*)(?:"|\Z))?([^,\r\n]*)')
DECIMAL = re.compile(rb" *([+-]?)(?:([0-9]+)\.?([0-9]*)|\.([0-9]+))(?:[eE]([+-]?[0-9]{1,3}))? *")
WHOLE, SIGNED = re.compile(rb"0|[1-9][0-9]*"), re.compile(rb"0|-?[1-9][0-9]*")


class Refused(Exception):
    """Words or a file that are refused: the status and the text."""


def records(data):
    """The records of a file, each a list of its fields' bytes."""
    while data.startswith(b"\xef\xbb\xbf"):
        data = data[3:]
    at, record = 0, []
    while at < len(data):
        if not record and data[at] in b"\r\n":
            at += 1
            continue
        field = FIELD.match(data, at)
        record.append((field[1] or b"").replace(b'""', b'"') + field[2])
        at = field.end()
        if data[at : at + 1] == b",":
            at += 1
        else:
            yield record
            record = []
    if record:
        yield record + [b""]


def is_name(text):
    try:
        text.decode("utf-8")
    except UnicodeDecodeError:
        return False
    return 1 <= len(text) <= 64 and all(byte >= 0x20 and byte != 0x7F for byte in text)


def units(text, places, limit):
    """The units that a decimal spells, or the words of its fault."""
    found = DECIMAL.fullmatch(text)
    if not found:
        return "not a number"
    behind = found[3] or found[4] or b""
    digits = ((found[2] or b"") + behind).lstrip(b"0")
    bare = digits.rstrip(b"0")
    tens = int(found[5] or 0) - len(behind) + places + len(digits) - len(bare)
    if bare and tens < 0:
        return "too many decimals"
    if bare and (len(bare) + tens > 20 or int(bare) * 10**tens > limit):
        return "number too large"
    return (-1 if found[1] == b"-" else 1) * int(bare or b"0") * 10 ** max(tens if bare else 0, 0)


def fetch(which, name):
    try:
        with open(name, "rb") as file:
            data = file.read(33_554_433)
    except FileNotFoundError:
        raise Refused(3, f"{which}: no such file") from None
    if len(data) > 33_554_432:
        raise Refused(3, f"{which}: file too long")
    return data


def table(which, data, needed, optional=()):
    """The places of the columns, and the later records with their numbers."""
    found = records(data)
    header = next(found, None)
    if header is None:
        raise Refused(3, f"{which}: no header")
    for column in needed + optional:
        if header.count(column) > 1:
            raise Refused(3, f"{which}: column twice {column.decode()}")
        if column in needed and column not in header:
            raise Refused(3, f"{which}: no column {column.decode()}")
    places = [header.index(column) for column in needed + optional if column in header]

    def rows():
        for number, record in enumerate(found, 2):
            if len(record) <= max(places):
                raise Refused(3, f"{which} record {number}: field missing")
            yield number, [record[place] for place in places]

    return rows()


def read_data(data, places):
    """The groups by name in the order of their first rows, each with its rows: (value in units, weight)."""
    groups, count, total = {}, 0, 0
    for number, (name, value, *weight) in table("data", data, (b"group", b"value"), (b"weight",)):
        value = units(value, places, 10**9)
        weight = units(weight[0], 0, 10**10) if weight else 1
        count += 1
        faults = (
            (not is_name(name), "not a name"),
            (isinstance(value, str), value),
            (isinstance(weight, str) or weight < 1, "bad weight"),
            (count > 100_000, "too many rows"),
            (isinstance(weight, int) and total + weight > 10**10, "total weight too large"),
            (name not in groups and len(groups) == 2_000, "too many groups"),
        )
        for wrong, words in faults:
            if wrong:
                raise Refused(3, f"data record {number}: {words}")
        total += weight
        groups.setdefault(name, []).append((value, weight))
    return groups


def read_pairs(order, groups):
    """The distinct pairs (low, high), by the bytes of their names."""
    names = list(groups)
    kind, _, rest = order.partition(b":")
    if kind in (b"umbrella", b"tree") and rest not in groups:
        raise Refused(3, "order: no such group")
    steps = list(zip(names, names[1:]))
    if kind == b"none":
        return []
    if kind == b"chain":
        return sorted(steps)
    if kind == b"tree":
        return sorted((rest, name) for name in names if name != rest)
    if kind == b"umbrella":
        peak = names.index(rest)
        return sorted(steps[:peak] + [(high, low) for low, high in steps[peak:]])
    pairs = set()
    for number, pair in table("order", fetch("order", rest), (b"low", b"high")):
        if any(name not in groups for name in pair):
            raise Refused(3, f"order record {number}: unknown group")
        pairs.add(tuple(pair))
        if len(pairs) > 20_000:
            raise Refused(3, f"order record {number}: too many pairs")
    return sorted(pairs)


def read_settings(words, keys=(b"order", b"loss", b"places", b"lo", b"hi")):
    """The settings by key, bounds in units."""
    given, places = {}, 3
    first = next((word[7:] for word in words if word.startswith(b"places=")), b"3")
    if first in PLACES:
        places = int(first)
    for number, word in enumerate(words, 3):
        key, equals, value = word.partition(b"=")
        if not equals or key not in keys:
            raise Refused(2, f"unknown setting at word {number}")
        if key in given:
            raise Refused(2, f"repeated setting at word {number}")
        kind, colon, rest = value.partition(b":")
        if key == b"order":
            pattern = kind in (b"umbrella", b"tree") and is_name(rest)
            good = value in (b"none", b"chain") or colon and (pattern or kind == b"file" and rest)
        elif key in (b"lo", b"hi"):
            value = units(value, places, 10**9)
            good = isinstance(value, int)
        else:
            good = value in (LOSSES if key == b"loss" else PLACES)
        if not good:
            raise Refused(2, f"bad setting at word {number}")
        given[key] = value
    if b"lo" in given and b"hi" in given and given[b"lo"] > given[b"hi"]:
        raise Refused(2, "bounds cross")
    return given, places


class Sheet:
    """What a sheet says: its settings (loss, places, lo, hi), size or None, values and flows."""

    def __init__(self, data, groups):
        self.places = {name: place for place, name in enumerate(groups)}
        self.values, self.flows, self.size, last = {}, [], None, None
        found = list(records(data))
        header = found[0] if found else []
        if len(header) != 4 or header[:2] not in ([b"ofit-sheet", b"1"], [b"ofit-sheet", b"2"]):
            raise Refused(3, "sheet: bad header")
        if header[2] not in LOSSES or header[3] not in PLACES:
            raise Refused(3, "sheet: bad header")
        self.settings = [header[2], int(header[3]), None, None]
        opening = [b"bounds", b"size"] if header[1] == b"2" else [b"bounds"]
        for number, record in enumerate(found[1:], 2):
            if last == b"end":
                raise Refused(3, f"sheet record {number}: record after the end")
            kinds = [opening[number - 2]] if number - 2 < len(opening) else [b"value", b"flow", b"end"]
            if len(record) != 4 or record[0] not in kinds or (last == b"flow" and record[0] == b"value"):
                raise Refused(3, f"sheet record {number}: bad record")
            fits = getattr(self, "read_" + record[0].decode())(*record[1:])
            if not fits:
                words = "bad record" if fits is None else "number too large"
                raise Refused(3, f"sheet record {number}: {words}")
            last = record[0]
        if last != b"end":
            raise Refused(3, "sheet: no end")

    # Each of these keeps a record's fields and answers True; None where it is bad, False where a number is too large.

    def read_bounds(self, lo, hi, rest):
        if rest != b"-" or not all(text == b"none" or SIGNED.fullmatch(text) for text in (lo, hi)):
            return None
        lo, hi = (None if text == b"none" else int(text) for text in (lo, hi))
        if lo is not None and hi is not None and lo > hi:
            return None
        self.settings[2:] = lo, hi
        return all(abs(bound) <= 10**9 for bound in (lo, hi) if bound is not None)

    def read_size(self, rows, weight, rest):
        if rest != b"-" or not (WHOLE.fullmatch(rows) and WHOLE.fullmatch(weight)):
            return None
        self.size = int(rows), int(weight)
        return self.size[0] <= 100_000 and self.size[1] <= 10**10

    def read_value(self, name, num, den):
        if name not in self.places or not SIGNED.fullmatch(num) or not WHOLE.fullmatch(den) or den == b"0":
            return None
        if self.values and self.places[name] <= self.places[next(reversed(self.values))]:
            return None
        num, den = int(num), int(den)
        if abs(num) > 10**21 or den > 10**12:
            return False
        self.values[name] = num, den
        return True if gcd(num, den) == 1 else None

    def read_flow(self, low, high, amount):
        if low not in self.places or high not in self.places or not WHOLE.fullmatch(amount) or amount == b"0":
            return None
        self.flows.append((low, high, int(amount)))
        return int(amount) <= 2 * 10**33

    def read_end(self, *rest):
        return True if set(rest) == {b"-"} else None


def wanted(loss, rows, num, den):
    """The least and the greatest balance that rows ask for at the value num/den."""
    if loss == b"squares":
        balance = sum(weight * (den * value - num) for value, weight in rows)
        return balance, balance
    above = sum(weight for value, weight in rows if den * value > num)
    below = sum(weight for value, weight in rows if den * value < num)
    at = sum(weight for value, weight in rows if den * value == num)
    return above - below - at, above - below + at


def verdict(groups, pairs, settings, sheet):
    """The line of the first thing that is wrong, or `passes`."""
    loss, _, lo, hi = settings
    values, flows, known = sheet.values, sheet.flows, set(pairs)
    if sheet.settings != settings:
        return b"fails settings"
    weights = [weight for rows in groups.values() for _, weight in rows]
    if sheet.size not in (None, (len(weights), sum(weights))):
        return b"fails size"
    for name in groups:
        if name not in values:
            return b"fails missing " + name
    for low, high in pairs:
        if values[low][0] * values[high][1] > values[high][0] * values[low][1]:
            return b"fails order " + low + b" " + high
    for name, (num, den) in values.items():
        if (lo is not None and num < lo * den) or (hi is not None and num > hi * den):
            return b"fails bounds " + name
    ends = [(low, high) for low, high, _ in flows]
    faults = (
        ([pair not in known for pair in ends], b"not a pair"),
        ([place > 0 and pair <= ends[place - 1] for place, pair in enumerate(ends)], b"out of order"),
        ([values[low] != values[high] for low, high in ends], b"not tight"),
    )
    for wrong, words in faults:
        if True in wrong:
            return b"fails flow %d " % (wrong.index(True) + 1) + words
    balances = dict.fromkeys(groups, 0)
    for low, high, amount in flows:
        balances[low] += amount
        balances[high] -= amount
    for name, (num, den) in values.items():
        least, greatest = wanted(loss, groups[name], num, den)
        at_lo, at_hi = lo is not None and num == lo * den, hi is not None and num == hi * den
        if (balances[name] < least and not at_hi) or (balances[name] > greatest and not at_lo):
            return b"fails balance " + name
    return b"passes"


def check(words):
    """The status and the line for the words behind `verify`."""
    try:
        if len(words) < 2:
            raise Refused(2, "names missing")
        given, places = read_settings(words[2:])
        groups = read_data(fetch("data", words[0]), places)
        pairs = read_pairs(given.get(b"order", b"chain"), groups)
        sheet = Sheet(fetch("sheet", words[1]), groups)
        settings = [given.get(b"loss", b"squares"), places, given.get(b"lo"), given.get(b"hi")]
        line = verdict(groups, pairs, settings, sheet)
        return int(line != b"passes"), line
    except Refused as refused:
        return refused.args[0], refused.args[1].encode()


def examples(wanted=b"fit"):
    """The outputs of runs.txt by a command: for each the words of its data, output and settings."""
    here = os.path.dirname(os.path.abspath(__file__))
    os.chdir(here)
    with open("runs.txt", "rb") as file:
        for line in file:
            output, _, words = line.strip().partition(b": ")
            command, *names = words.split(b" ")
            if command == wanted:
                yield [names[0], output, *names[1:]]


DAMAGES = (
    "number number number number near near near value value turn turn odd double drop drop twice swap swap "
    "longer shorter quote cut byte ends mark behind"
)
OTHERS = (
    (b"lo", b"lo=0"), (b"lo", b"lo=5 hi=4"), (b"hi", b"hi=100"), (b"hi", b"hi"),
    (b"loss", b"loss=median"), (b"loss", b"loss=squares"), (b"places", b"places=6"), (b"places", b"places=7"),
    (b"order", b"order=none"), (b"order", b"order=tree:?"),
)
ODD = b"", b"0", b"-0", b"-1", b"007", b"+3", b"1.5", b"1e3", b"none", b"-", b"NA", b"flow", b"A", b"9" * 13, b"9" * 35


def hurt_field(kind, line, spot, alike, chance):
    """Changes fields of a line; alike is another line of its kind."""
    if kind == "number":
        spots = [place for place, field in enumerate(line) if re.fullmatch(rb"-?[0-9]+", field)]
        for place in chance.sample(spots, min(1, len(spots))):
            line[place] = b"%d" % (int(line[place]) + chance.choice((-100, -1, 1, 1, 2, 60)))
    elif kind == "near":
        line[spot] = alike[spot]
    elif kind == "value":
        line[2:] = alike[2:]
    elif kind == "turn" and line[0] == b"flow":
        line[1:3] = line[2:0:-1]
    elif kind == "odd":
        line[spot] = chance.choice(ODD)
    elif kind == "double" and len(line) == 4 and line[3].isdigit():
        line[2:] = [b"%d" % (2 * int(field)) if field.lstrip(b"-").isdigit() else field for field in line[2:]]
    elif kind == "quote":
        line[spot] = b'"' + line[spot].replace(b"0", b'""') + chance.choice((b'"', b'"', b'"x', b""))
    elif kind == "longer":
        line.insert(spot, b"")
    elif kind == "shorter":
        del line[spot]


def hurt_lines(kind, lines, at, other):
    """Changes which lines there are, and their order."""
    if kind == "drop":
        del lines[at]
    elif kind == "twice":
        lines.insert(at, lines[at])
    elif kind == "swap":
        lines[at], lines[other] = lines[other], lines[at]
    elif kind == "behind":
        lines.append(lines[other])


def hurt_bytes(kind, text, chance):
    """Changes bytes: the text is cut off, has one more, other line ends, or byte order marks."""
    place = chance.randrange(len(text) + 1)
    if kind == "cut":
        return text[:place]
    if kind == "byte":
        return text[:place] + chance.choice((b'"', b",", b"\r", b"\n", b" ", b"\x00", b"\xff", b"5")) + text[place:]
    if kind == "ends":
        return text.replace(b"\n", chance.choice((b"\r", b"\r\n", b"\n\n")))
    return b"\xef\xbb\xbf" * 2 + text if kind == "mark" else text


def damaged(text, chance):
    """The text with one damage."""
    lines = [line.split(b",") for line in text.rstrip(b"\n").split(b"\n")]
    at, other, kind = chance.randrange(len(lines)), chance.randrange(len(lines)), chance.choice(DAMAGES.split())
    line = lines[at]
    alike = chance.choice([like for like in lines if like[0] == line[0] and len(like) == len(line)])
    hurt_field(kind, line, chance.randrange(len(line)), alike, chance)
    hurt_lines(kind, lines, at, other)
    return hurt_bytes(kind, b"".join(b",".join(fields) + b"\n" for fields in lines), chance)


def cases(folder, chance):
    """Words of `verify` for whole and for damaged files."""

    def put(name, text):
        path = os.path.join(folder, name)
        with open(path, "wb") as file:
            file.write(text)
        return path.encode()

    whole = list(examples())
    for data, sheet, *settings in whole:
        lines = fetch("sheet", sheet).split(b"\n")
        yield [data, sheet, *settings]
        yield [data, put("sheet", b"\n".join([lines[0].replace(b",2,", b",1,"), lines[1], *lines[3:]])), *settings]
        for key, word in OTHERS:
            yield [data, sheet, *(setting for setting in settings if not setting.startswith(key)), *word.split(b" ")]
        tens = lines[0].split(b",")[3]
        for value in {int(line.split(b",")[2]) for line in lines if line.startswith(b"value")}:
            for key, bounds in ((b"lo=", b"bounds,%d,none,-"), (b"hi=", b"bounds,none,%d,-")):
                bounded = put("sheet", b"\n".join([lines[0], bounds % value, *lines[2:]]))
                others = [setting for setting in settings if setting[:3] not in (b"lo=", b"hi=")]
                yield [data, bounded, *others, b"%s%de-%s" % (key, value, tens)]
    for _ in range(500):
        data, sheet, *settings = chance.choice(whole)
        text = fetch("sheet", sheet)
        for _ in range(chance.choice((1, 1, 1, 2, 3))):
            text = damaged(text, chance)
        yield [data, put("sheet", text), *settings]
    for _ in range(250):
        data, sheet, *settings = chance.choice(whole)
        order = [word[11:] for word in settings if word.startswith(b"order=file:")]
        if order and chance.randrange(2):
            settings[0] = b"order=file:" + put("order", damaged(fetch("order", order[0]), chance))
        else:
            data = put("data", damaged(fetch("data", data), chance))
        yield [data, sheet, *settings]


def compare(program, command, check, cases, seed):
    """Whether a program's command and a check say the same of each case: 0 or 1. Tells how often each answer came."""
    program, seen, differ = os.path.abspath(program), collections.Counter(), 0
    with tempfile.TemporaryDirectory() as folder:
        for number, words in enumerate(cases(folder, random.Random(seed)), 1):
            ours = check(words)
            ran = subprocess.run([program, command, *words], capture_output=True)
            text = ran.stdout if ran.returncode < 2 else ran.stderr.replace(b"ofit: ", b"", 1)
            if (ran.returncode, text) != (ours[0], ours[1] + b"\n"):
                differ += 1
                print(f"case {number}: the program says {ran.returncode} {text}, this script {ours}")
            answer = re.sub(rb"(record|word|flow) [0-9]+", rb"\1", ours[1]).decode("utf-8", "replace")
            seen[re.sub("^(fails (missing|order|bounds|balance|shape|rise|fall|not least)) .*", r"\1", answer)] += 1
    for answer, times in sorted(seen.items()):
        print(f"{times:5} {answer}")
    print(f"{sum(seen.values())} cases, {differ} differ")
    return int(differ > 0)


def main(name, command, check, cases):
    """What a checker of this name does: compares with a command of a program, or checks what its words say."""
    if hasattr(sys, "set_int_max_str_digits"):
        sys.set_int_max_str_digits(0)
    if sys.argv[1:2] == ["--compare"]:
        program, seed = sys.argv[2], int(sys.argv[3]) if len(sys.argv) > 3 else 1
        sys.exit(compare(program, command, check, cases, seed))
    status, line = check([word.encode("utf-8", "surrogateescape") for word in sys.argv[1:]])
    if status > 1:
        sys.exit(print(f"{name}: " + line.decode(), file=sys.stderr) or status)
    sys.stdout.buffer.write(line + b"\n")
    sys.exit(status)


if __name__ == "__main__":
    main("check_sheet", b"verify", check, cases)
