#!/usr/bin/env python3
"""Draws a fit: the rows of a data table, the value of each group, its blocks and the bounds.

    examples/plot.py DATA FIT PICTURE

FIT is the output of `ofit fit` or of `ofit report` for the table DATA, PICTURE the file to write, such as fit.png.
A thin line joins the groups of a block; in a sheet, which names no blocks, neighbours of equal value. Needs
matplotlib (Debian: python3-matplotlib).
"""

import csv
import sys
from fractions import Fraction

import matplotlib

matplotlib.use("Agg")
from matplotlib import pyplot  # noqa: E402


def read_fit(name):
    """The groups' values and block numbers, and the bounds, in the data's units."""
    with open(name, newline="", encoding="utf-8") as file:
        header, second, *records = csv.reader(file)
    unit = Fraction(1, 10 ** int(header[3]))
    of_report = header[0] == "ofit-report"
    bounds = [float(int(bound) * unit) for bound in (header[4:6] if of_report else second[1:3]) if bound != "none"]
    values, blocks = {}, []
    for record in records:
        if record[0] == ("group" if of_report else "value"):
            num, den = (record[5], record[6]) if of_report else (record[2], record[3])
            value = Fraction(int(num), int(den)) * unit
            stays = blocks and list(values.values())[-1] == value
            blocks.append(int(record[4]) if of_report else len(values) if not stays else blocks[-1])
            values[record[1]] = value
    return {name: float(value) for name, value in values.items()}, blocks, bounds


def read_rows(name, names):
    """The rows of a data table: the group's place, the value and the weight."""
    with open(name, newline="", encoding="utf-8-sig") as file:
        for row in csv.DictReader(file):
            yield names.index(row["group"]), float(row["value"]), float(row.get("weight") or 1)


def main():
    data, fit, picture = sys.argv[1:]
    values, blocks, bounds = read_fit(fit)
    names, levels = list(values), list(values.values())
    places, seen, weights = zip(*read_rows(data, names))

    figure, axes = pyplot.subplots(figsize=(7, 4.2), layout="constrained")
    sizes = [20 + 40 * weight / max(weights) for weight in weights]
    axes.scatter(places, seen, s=sizes, facecolors="white", edgecolors="0.35", zorder=3, label="data, by weight")
    starts, ends = [place - 0.4 for place in range(len(names))], [place + 0.4 for place in range(len(names))]
    axes.hlines(levels, starts, ends, colors="C0", linewidth=3, label="fit")
    for block in set(blocks):
        members = [place for place, at in enumerate(blocks) if at == block]
        axes.hlines(levels[members[0]], members[0], members[-1], colors="C0", linewidth=1)
    for bound, label in zip(bounds, ["bounds", None]):
        axes.axhline(bound, color="0.6", linewidth=1, linestyle="--", label=label)
    turn = 90 if sum(map(len, names)) > 60 else 0
    axes.set_xticks(range(len(names)), names, rotation=turn)
    axes.set_ylabel("value")
    axes.spines[["top", "right"]].set_visible(False)
    axes.legend(frameon=False, loc="lower center", bbox_to_anchor=(0.5, 1), ncol=3)
    figure.savefig(picture, dpi=120)


main()
