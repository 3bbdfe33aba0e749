"""What ofit has to print, found by definitions alone: by going through all sets, vectors and orderings of small
studies, in Python's fractions. bench/examples compares the program's texts with it. Nothing here is fast, and
nothing is a method of ofit's: values under squares come from the max-min formula of Robertson, Wright and Dykstra
(chapter 1), medians and peaks from a search through all vectors of row values, levels from a count of orderings.
"""

import csv
import itertools
import os
import sys
from fractions import Fraction
from math import factorial, floor
from pathlib import Path

sys.path.insert(0, str(Path(__file__).resolve().parent.parent / "examples"))
import check_sheet  # noqa: E402

DEFAULTS = {"loss": "squares", "places": 3, "lo": None, "hi": None}


class Study:
    """Settings, rows by number as (group, value in units, weight), and the set of pairs (low, high)."""

    def __init__(self, rows, pairs=(), **settings):
        self.rows, self.pairs = dict(sorted(rows.items())), set(pairs)
        self.settings = {**DEFAULTS, **settings}

    def groups(self):
        """The groups in the order of their first rows, each with its rows (value, weight)."""
        found = {}
        for name, value, weight in self.rows.values():
            found.setdefault(name, []).append((value, weight))
        return found

    def with_rows(self, rows):
        return Study(rows, self.pairs, **self.settings)

    def with_pairs(self, pairs):
        return Study(self.rows, pairs, **self.settings)

    def clipped(self, value):
        lo, hi = self.settings["lo"], self.settings["hi"]
        value = value if hi is None else min(value, hi)
        return value if lo is None else max(value, lo)

    def cost(self, name, fit):
        power = 2 if self.settings["loss"] == "squares" else 1
        return sum(weight * abs(value - fit) ** power for value, weight in self.groups()[name])

    def weight(self, names):
        return sum(weight for name, _, weight in self.rows.values() if name in names)


def read_study(folder, table, words):
    """The study that a table of the folder and settings spell."""
    given, places = check_sheet.read_settings([word.encode() for word in words])
    groups = check_sheet.read_data(check_sheet.fetch("data", folder / table), places)
    kind, _, file = given.get(b"order", b"chain").partition(b"file:")
    order = kind or b"file:" + os.path.join(bytes(folder), file)
    pairs = [(low.decode(), high.decode()) for low, high in check_sheet.read_pairs(order, groups)]
    with open(folder / table, newline="", encoding="utf-8") as file:
        rows = [
            (
                row["group"],
                check_sheet.units(row["value"].encode(), places, 10**9),
                int(row.get("weight", 1)),
            )
            for row in csv.DictReader(file)
        ]
    loss = given.get(b"loss", b"squares").decode()
    bounds = {"lo": given.get(b"lo"), "hi": given.get(b"hi")}
    return Study(dict(enumerate(rows, 1)), pairs, loss=loss, places=places, **bounds)


def means(study):
    """At each group the greatest, over its upper sets, of the least mean of the set's meet with a lower set."""
    groups = study.groups()
    names = list(groups)
    sums = {name: sum(value * weight for value, weight in rows) for name, rows in groups.items()}
    weights = {name: sum(weight for _, weight in rows) for name, rows in groups.items()}
    every = [frozenset(some) for count in range(len(names) + 1) for some in itertools.combinations(names, count)]
    uppers = [some for some in every if all(high in some or low not in some for low, high in study.pairs)]

    def mean(some):
        return Fraction(sum(sums[name] for name in some), sum(weights[name] for name in some))

    def least(upper, name):
        return min(mean(upper - other) for other in uppers if name not in other)

    best = {name: max(least(upper, name) for upper in uppers if name in upper) for name in names}
    return {name: Fraction(study.clipped(value)) for name, value in best.items()}


def row_values(study):
    return sorted({study.clipped(value) for _, value, _ in study.rows.values()})


def medians(study):
    """The pointwise least of all vectors of row values that obey the order and cost least."""
    names = list(study.groups())
    costs = {name: {value: study.cost(name, value) for value in row_values(study)} for name in names}
    fits = (dict(zip(names, fit)) for fit in itertools.product(row_values(study), repeat=len(names)))
    obedient = [fit for fit in fits if all(fit[low] <= fit[high] for low, high in study.pairs)]
    prices = [sum(costs[name][value] for name, value in fit.items()) for fit in obedient]
    best = [fit for fit, price in zip(obedient, prices) if price == min(prices)]
    return {name: Fraction(min(fit[name] for fit in best)) for name in names}


def least_best(study):
    return means(study) if study.settings["loss"] == "squares" else medians(study)


def joined(names, pairs):
    """The parts into which pairs join names, by their first names."""
    part = {name: name for name in names}
    for low, high in pairs:
        old, new = part[high], part[low]
        part = {name: new if at == old else at for name, at in part.items()}
    firsts = list(dict.fromkeys(part[name] for name in names))
    return [[name for name in names if part[name] == first] for first in firsts]


def components(study):
    return joined(list(study.groups()), study.pairs)


def blocks_of(study, fit):
    return joined(list(study.groups()), [pair for pair in study.pairs if fit[pair[0]] == fit[pair[1]]])


def quoted(field):
    text = str(field)
    return '"' + text.replace('"', '""') + '"' if "," in text or '"' in text else text


def text_of(records):
    return "".join(",".join(map(quoted, record)) + "\n" for record in records)


def report_text(study):
    """The report's text, counted from the fit."""
    groups, fit, settings = study.groups(), least_best(study), study.settings
    blocks, places = blocks_of(study, fit), settings["places"]
    bounds = ["none" if settings[bound] is None else settings[bound] for bound in ("lo", "hi")]
    records = [["ofit-report", 1, settings["loss"], places, *bounds, "-", "-"]]
    counts = len(groups), len(study.rows), len(study.pairs), len(components(study)), len(blocks)
    records.append(["size", *counts, "-", "-"])
    for name, rows in groups.items():
        block = next(number for number, block in enumerate(blocks, 1) if name in block)
        digits = floor(fit[name] * 1000)
        whole = f"{'-' if digits < 0 else ''}{abs(digits):0{places + 4}d}"
        decimal = whole[: -places - 3] + "." + whole[-places - 3 :]
        ratio = fit[name].as_integer_ratio()
        records.append(["group", name, len(rows), study.weight([name]), block, *ratio, decimal])
    for number, block in enumerate(blocks, 1):
        cost = Fraction(sum(study.cost(name, fit[name]) for name in block))
        ratio = fit[block[0]].as_integer_ratio()
        records.append(["block", number, len(block), study.weight(block), *ratio, *cost.as_integer_ratio()])
    return text_of([*records, ["end", *["-"] * 7]])


def sheet_faults(study, text):
    """What is wrong with a sheet of a study: it doesn't pass, has no size, or its values aren't the least best ones."""
    groups = {name.encode(): rows for name, rows in study.groups().items()}
    pairs = sorted((low.encode(), high.encode()) for low, high in study.pairs)
    settings = [study.settings["loss"].encode(), *(study.settings[key] for key in ("places", "lo", "hi"))]
    try:
        sheet = check_sheet.Sheet(text.encode(), groups)
    except check_sheet.Refused as refused:
        return refused.args[1]
    verdict = check_sheet.verdict(groups, pairs, settings, sheet)
    values = {name.decode(): Fraction(*value) for name, value in sheet.values.items()}
    if verdict != b"passes":
        return verdict.decode()
    if sheet.size is None:
        return "no size"
    return "" if values == least_best(study) else "other values than those found here"


def edited(study, line):
    """The study after an edit with the groups that it touches, or the text of its refusal."""
    kind, *fields = line
    rows, pairs, total = study.rows, study.pairs, study.weight(study.groups())
    if kind == "add":
        name, value, weight = fields[0], *units_of(study, fields[1:])
        if len(rows) == 100_000:
            return "too many rows"
        if total + weight > 10**10:
            return "total weight too large"
        if name not in study.groups() and len(study.groups()) == 2_000:
            return "too many groups"
        number = next(number for number in itertools.count(1) if number not in rows)
        return study.with_rows({**rows, number: (name, value, weight)}), {name}
    if kind in ("relate", "unrelate"):
        pair = tuple(fields)
        if kind == "unrelate":
            return (study.with_pairs(pairs - {pair}), set(pair)) if pair in pairs else "pair absent"
        for end, name in zip(("low", "high"), pair):
            if name not in study.groups():
                return f"no group {end}"
        if pair in pairs:
            return "pair present"
        return (study.with_pairs(pairs | {pair}), set(pair)) if len(pairs) < 20_000 else "too many pairs"
    number = int(fields[0])
    if number not in rows:
        return "no row"
    name, value, weight = rows[number]
    if kind == "remove":
        if len(study.groups()[name]) == 1 and any(name in pair for pair in pairs):
            return "group in use"
        return study.with_rows({other: row for other, row in rows.items() if other != number}), {name}
    if kind == "value":
        value = units_of(study, [fields[1], "1"])[0]
    else:
        new = units_of(study, ["0", fields[1]])[1]
        if total - weight + new > 10**10:
            return "total weight too large"
        weight = new
    return study.with_rows({**rows, number: (name, value, weight)}), {name}


def units_of(study, fields):
    value, weight = (field.encode() for field in fields)
    return check_sheet.units(value, study.settings["places"], 10**9), check_sheet.units(weight, 0, 10**10)


def session_faults(study, script, text):
    """What is wrong with the text of a session: at each line it has to say what the edited study asks for."""
    for number, line in enumerate(csv.reader(script.splitlines()), 1):
        head, wanted = f"line {number}: ", ""
        if line[0] == "report":
            wanted = "report\n" + report_text(study)
        elif line[0] == "sheet":
            _, end, rest = text.partition("\nend,-,-,-\n")
            sheet = text[len(head + "sheet\n") : -len(rest) or None]
            found = sheet_faults(study, sheet)
            if found or not end:
                return f"line {number}: the sheet: {found}"
            wanted = "sheet\n" + sheet
        else:
            after = edited(study, line)
            if isinstance(after, str):
                wanted = f"refused {after}\n"
            else:
                study, touched = after
                hit = sum(any(name in touched for name in part) for part in components(study))
                wanted = f"refitted {hit} of {len(components(study))}\n"
        if not text.startswith(head + wanted):
            return f"line {number}: not what is found here: {wanted}"
        text = text[len(head + wanted) :]
    return "more text than lines" if text else ""


def rising(values, count):
    return itertools.combinations_with_replacement(values, count)


def best_of_peak(study, peak):
    """The least cost of the vectors of row values that rise up to a peak and fall from it, and the pointwise least such."""
    names, values = list(study.groups()), row_values(study)
    costs = [{value: study.cost(name, value) for value in values} for name in names]
    priced = []
    for rise in rising(values, peak + 1):
        for fall in rising([value for value in values if value <= rise[-1]], len(names) - peak - 1):
            fit = (*rise, *reversed(fall))
            priced.append((sum(cost[value] for cost, value in zip(costs, fit)), fit))
    least = min(cost for cost, _ in priced)
    return least, tuple(min(column) for column in zip(*(fit for cost, fit in priced if cost == least)))


def best_peak(study):
    """The first peak of least cost among all, its cost, and its pointwise least values: (group, cost, values)."""
    names = list(study.groups())
    if not names:
        return "-", 0, ()
    fits = [best_of_peak(study, peak) for peak in range(len(names))]
    least = min(cost for cost, _ in fits)
    peak = next(peak for peak, (cost, _) in enumerate(fits) if cost == least)
    return names[peak], least, fits[peak][1]


def peaked_head(study):
    """The part of a peaked sheet that the study determines: all before its sides."""
    peak, cost, values = best_peak(study)
    records = [["ofit-peaked", 1, "median", study.settings["places"]], ["peak", peak, cost, "-"]]
    return text_of(records + [["value", name, value, "-"] for name, value in zip(study.groups(), values)])


def level_text(k):
    """The level table, by a count of all orderings."""
    counts = [0] * (k + 1)
    for ordering in itertools.permutations(range(k)):
        counts[sum(all(item > other for other in ordering[:at]) for at, item in enumerate(ordering))] += 1
    records = [["level", l, counts[l], factorial(k)] for l in range(1, k + 1)]
    return text_of([["ofit-levels", 1, k, factorial(k)], *records, ["end", "-", "-", "-"]])


def made(seed, groups, rows, shape, loss):
    """The study of a sample."""
    state = seed % 65536

    def draw(modulus):
        nonlocal state
        state = (75 * state + 74) % 65537
        return state % modulus

    table = {}
    for row in range(1, rows + 1):
        group = row if row <= groups else 1 + draw(groups)
        value = draw(2001)
        table[row] = f"g{group}", value, 1 + draw(9)
    peak = (groups + 1) // 2
    pairs = {
        "chain": [(low, low + 1) for low in range(1, groups)],
        "umbrella": [(low, low + 1) if low < peak else (low + 1, low) for low in range(1, groups)],
        "tree": [(1, high) for high in range(2, groups + 1)],
        "general": [(1 + draw(h - 1), h) for h in range(2, groups + 1) for _ in range(2)] if shape == "general" else [],
    }[shape]
    return Study(table, ((f"g{low}", f"g{high}") for low, high in pairs), loss=loss)


def sample_text(words):
    """The summary of the study that the words of `sample` make."""
    given = dict(word.split("=") for word in words)
    groups = int(given.get("groups", 100))
    seed, shape = int(given.get("seed", 1)), given.get("shape", "general")
    study = made(seed, groups, int(given.get("rows", groups)), shape, given.get("loss", "squares"))
    fit = least_best(study)
    records = [["ofit-sample", 1, seed, shape], ["size", groups, len(study.rows), len(study.pairs)]]
    records.append(["parts", len(components(study)), len(blocks_of(study, fit)), "-"])
    records += [[word, *value.as_integer_ratio(), "-"] for word, value in (("least", min(fit.values())), ("greatest", max(fit.values())))]
    return text_of([*records, ["verdict", "passes", "-", "-"], ["end", "-", "-", "-"]])
