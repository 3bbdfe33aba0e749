"""Calls ofit from Python: fit, verify, unimodal, verify_unimodal and session. Standard library alone.

    import ofit
    rows = [("A", 1), ("B", 3), ("C", 2)]
    fit = ofit.fit(rows, places=0)
    fit.values["B"], fit.floats["B"]    # Fraction(5, 2), 2.5
    ofit.verify(rows, fit.sheet, places=0)    # "passes"
    ofit.unimodal(rows, places=0).peak    # "B"
    ofit.session(rows, [("value", 3, 4), ("report",)], places=0)[0].answer    # "refitted 1 of 1"

Rows are (group, value) or (group, value, weight), in the order in which groups are to be numbered; nothing is
sorted, and groups come back as text. A value is written as str() spells it, so "12.50", Decimal and float all go
through exactly, and nothing is rounded unless digits= asks for it. The program is the one that the environment
variable OFIT names, or `ofit` on the path. What it refuses raises OfitError with its message.
"""

import csv
import io
import os
import re
import subprocess
import tempfile
from collections import namedtuple
from decimal import ROUND_HALF_EVEN, Decimal
from fractions import Fraction

Fit = namedtuple("Fit", "values floats blocks flows sheet")
Block = namedtuple("Block", "groups weight value cost")
Flow = namedtuple("Flow", "low high amount")
Peak = namedtuple("Peak", "peak cost values floats sheet")
Step = namedtuple("Step", "answer text")


class OfitError(Exception):
    """What the program said on its error output; status is its status."""

    def __init__(self, message, status):
        super().__init__(message)
        self.status = status


def fit(rows, order="chain", loss="squares", places=3, lo=None, hi=None, digits=None):
    """The fit of rows: values by group, in the data's units, as fractions and as floats; blocks; flows; the sheet.

    order is a word of ofit's (chain, none, umbrella:GROUP, tree:GROUP) or a list of pairs (low, high). A block's
    cost is in the data's units, squared for squares; a flow's amount is the sheet's.
    """
    with tempfile.TemporaryDirectory() as folder:
        words = _written(folder, rows, digits) + _settings(folder, order, loss, places, lo, hi)
        sheet, report = _called("fit", words), _called("report", words)
    unit = Fraction(1, 10**places)
    values, flows, blocks = {}, [], []
    for kind, *fields in csv.reader(io.StringIO(sheet, newline="")):
        if kind == "value":
            values[fields[0]] = Fraction(int(fields[1]), int(fields[2])) * unit
        elif kind == "flow":
            flows.append(Flow(fields[0], fields[1], int(fields[2])))
    members = {}
    for kind, *fields in csv.reader(io.StringIO(report, newline="")):
        if kind == "group":
            members.setdefault(fields[3], []).append(fields[0])
        elif kind == "block":
            value, cost = (Fraction(int(fields[at]), int(fields[at + 1])) for at in (3, 5))
            cost *= unit**2 if loss == "squares" else unit
            blocks.append(Block(members[fields[0]], int(fields[2]), value * unit, cost))
    return Fit(values, {group: float(value) for group, value in values.items()}, blocks, flows, sheet)


def verify(rows, sheet, order="chain", loss="squares", places=3, lo=None, hi=None, digits=None):
    """The line that `ofit verify` writes of a sheet's text: "passes", or one that begins with "fails"."""
    with tempfile.TemporaryDirectory() as folder:
        words = _written(folder, rows, digits) + _file(folder, "sheet", sheet)
        return _called("verify", words + _settings(folder, order, loss, places, lo, hi)).rstrip("\n")


def unimodal(rows, places=3, digits=None):
    """The medians of rows that rise up to a peak and fall from it, the peak among all groups: the first of least cost."""
    with tempfile.TemporaryDirectory() as folder:
        sheet = _called("unimodal", _written(folder, rows, digits) + [f"places={places}"])
    unit, records = Fraction(1, 10**places), list(csv.reader(io.StringIO(sheet, newline="")))
    values = {group: int(value) * unit for kind, group, value, _ in records if kind == "value"}
    floats = {group: float(value) for group, value in values.items()}
    return Peak(records[1][1], int(records[1][2]) * unit, values, floats, sheet)


def verify_unimodal(rows, sheet, places=3, digits=None):
    """The line that `ofit verify-unimodal` writes of a peaked sheet's text."""
    with tempfile.TemporaryDirectory() as folder:
        words = _written(folder, rows, digits) + _file(folder, "sheet", sheet)
        return _called("verify-unimodal", words + [f"places={places}"]).rstrip("\n")


def session(rows, edits, order="chain", loss="squares", places=3, lo=None, hi=None, digits=None):
    """What a session answers to edits such as ("value", 3, "12.5") or ("report",): for each its answer, and the text of
    a report or a sheet."""
    script = io.StringIO(newline="")
    csv.writer(script, lineterminator="\n").writerows(edits)
    with tempfile.TemporaryDirectory() as folder:
        words = _written(folder, rows, digits) + _file(folder, "script", script.getvalue())
        text = _called("session", words + _settings(folder, order, loss, places, lo, hi))
    return [Step(*step.split("\n", 1)) for step in re.split(r"^line [0-9]+: ", text, flags=re.MULTILINE)[1:]]


def _file(folder, name, text):
    path = os.path.join(folder, name)
    with open(path, "w", encoding="utf-8", newline="") as file:
        file.write(text)
    return [path]


def _spelled(value, digits):
    if digits is None:
        return str(value)
    return str(Decimal(str(value)).quantize(Decimal(1).scaleb(-digits), ROUND_HALF_EVEN))


def _written(folder, rows, digits):
    name = os.path.join(folder, "data.csv")
    with open(name, "w", encoding="utf-8", newline="") as file:
        writer = csv.writer(file, quoting=csv.QUOTE_ALL, lineterminator="\n")
        writer.writerow(("group", "value", "weight"))
        for group, value, *weight in rows:
            if group is None or group != group:
                raise ValueError("a row without a group")
            writer.writerow((group, _spelled(value, digits), weight[0] if weight else 1))
    return [name]


def _settings(folder, order, loss, places, lo, hi):
    if not isinstance(order, str):
        name = os.path.join(folder, "order.csv")
        with open(name, "w", encoding="utf-8", newline="") as file:
            csv.writer(file, quoting=csv.QUOTE_ALL, lineterminator="\n").writerows([("low", "high"), *order])
        order = "file:" + name
    bounds = [f"{key}={bound}" for key, bound in (("lo", lo), ("hi", hi)) if bound is not None]
    return [f"order={order}", f"loss={loss}", f"places={places}", *bounds]


def _called(command, words):
    ran = subprocess.run([os.environ.get("OFIT", "ofit"), command, *words], capture_output=True)
    if ran.returncode > 1:
        raise OfitError(ran.stderr.decode().strip(), ran.returncode)
    return ran.stdout.decode()
