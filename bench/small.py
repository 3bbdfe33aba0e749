"""Small studies, drawn anew from a seed: what ofit prints of them has to be what definitions.py finds. bench/examples
runs them. Peaks, sessions with refused edits, cycles and bounds, samples of each shape."""

import random
from pathlib import Path

import definitions

GROUPS = ["A", "B", 'C "1", x', "D", "E"]
LINES = "add remove value value weight relate relate unrelate report sheet".split()


def write_table(folder, chance, groups):
    """A table in which each of the groups has a row at least."""
    names = groups + [chance.choice(groups) for _ in range(chance.randrange(4))]
    chance.shuffle(names)
    rows = [[name, chance.randrange(-4, 8), chance.randrange(1, 4)] for name in names]
    Path(folder, "data").write_text(definitions.text_of([["group", "value", "weight"], *rows]))


def drawn_line(chance, pairs):
    """A line of a script, which may be refused."""
    kind = chance.choice(LINES)
    low, high = chance.choice(pairs) if pairs and chance.randrange(2) else (chance.choice(GROUPS), chance.choice(GROUPS))
    return {
        "add": ["add", low, chance.randrange(-4, 8), chance.choice([1, 2, 3, 10**10])],
        "remove": ["remove", chance.randrange(1, 8)],
        "value": ["value", chance.randrange(1, 8), chance.randrange(-4, 8)],
        "weight": ["weight", chance.randrange(1, 8), chance.choice([1, 2, 5, 10**10])],
        "relate": ["relate", low, high],
        "unrelate": ["unrelate", low, high],
    }.get(kind, [kind])


def session_faults(called, folder, chance):
    groups = GROUPS[: chance.randrange(1, 5)]
    write_table(folder, chance, groups)
    pairs = [(chance.choice(groups), chance.choice(groups)) for _ in range(chance.randrange(5))]
    Path(folder, "order").write_text(definitions.text_of([["low", "high"], *pairs]))
    lines = [drawn_line(chance, pairs) for _ in range(10)] + [["report"], ["sheet"]]
    script = definitions.text_of(lines)
    Path(folder, "script").write_text(script)
    settings = ["places=0", "order=file:order"]
    settings += chance.choice([[], [], ["lo=0"], ["lo=-1", "hi=3"]]) + chance.choice([[], ["loss=median"]])
    status, text = called("session", "data", "script", *settings)
    study = definitions.read_study(Path(folder), "data", settings)
    return f"status {status}" if status else definitions.session_faults(study, script, text)


def peak_faults(called, folder, chance):
    write_table(folder, chance, GROUPS[: chance.randrange(1, 6)])
    _, text = called("unimodal", "data", "places=0")
    Path(folder, "sheet").write_text(text)
    study = definitions.read_study(Path(folder), "data", ["places=0", "loss=median"])
    if not text.startswith(definitions.peaked_head(study) + "rise,1,-,-\n"):
        return "another peak, cost or values"
    verdict = called("verify-unimodal", "data", "sheet", "places=0")
    return "" if verdict == (0, "passes\n") else f"verify-unimodal: {verdict}"


def sample_faults(called, folder, chance):
    groups = chance.randrange(1, 6)
    words = [f"seed={chance.randrange(2**32)}", f"groups={groups}", f"rows={groups + chance.randrange(5)}"]
    words += [f"shape={chance.choice(['chain', 'umbrella', 'tree', 'general'])}"] + chance.choice([[], ["loss=median"]])
    return "" if called("sample", *words) == (0, definitions.sample_text(words)) else f"another summary of {words}"


def faults(called, folder):
    """What is wrong with small studies, each told with its number."""
    for what, of, count in (("session", session_faults, 60), ("peak", peak_faults, 60), ("sample", sample_faults, 40)):
        for number in range(count):
            found = of(called, folder, random.Random(f"{what} {number}"))
            if found:
                yield f"small {what} {number}: {found}"
