#!/usr/bin/env python3
"""respell.py: brings the repository's own names to today's spelling. Run once, at the top, behind the kit's port.py.

Words are in snake case: each name that a file of specs/ or proofs/ declares in lower camel case (`roundShift`, `madeBy`) is written with underscores
(`round_shift`, `made_by`), wherever it stands: in specs/, proofs/, clauses, docs/ and must-fail edits. Three lemmas have numbers in their names and stand in NAMED. Names of
src/, exported names and strings have no camel case, so none of them is touched. Where two names would become one, the script stops and writes nothing."""
import glob
import re
import sys

NAMED = {"is-0·98": "is-0_98", "is-1·02": "is-1_02", "is-0·01": "is-0_01"}
# Lemmas that have their function's name once it is in snake case.
LEMMAS = {"place_at": "place_at_lem", "is_digit": "is_digit_lem"}
# Steps of a design that are named after the fields that they give.
FIELDS = {"agc_target", "integrator_max", "period_nominal", "period_min", "period_max", "nco_step"}
# The two parts of a number are functions, in the files that import them or declare them.
PARTS = {"P": "pos_part", "N": "neg_part", "neg-P": "neg-pos_part", "neg-N": "neg-neg_part", "rest-P": "rest-pos_part", "rest-N": "rest-neg_part"}
TOKEN = re.compile(r"[^\s(){}\[\],;:.«»`\"|&@!?#$%/\\]+")

antt = sorted(glob.glob("crates/*/specs/**/*.antt", recursive=True) + glob.glob("crates/*/proofs/**/*.antt", recursive=True))
code = sorted(glob.glob("crates/*/src/**/*.rt", recursive=True))
edits = sorted(glob.glob("crates/*/must-fail/*.edit"))
docs = ["README.md"] + sorted(glob.glob("docs/*.md"))


def declared():
    """Every name that a signature, a field or a constructor declares."""
    names = set()
    for path in antt:
        for line in open(path, encoding="utf-8"):
            m = re.match(r"^\s*(?:(?:abbrev|unfoldable|pub)\s+)*([^\s(){}:]+)(?:\s+\{.*?\})*\s*:(?!=)", line)
            if m:
                names.add(m[1])
            m = re.match(r"^\s*(?:pub\s+)?(?:abbrev\s+|unfoldable\s+)?(?:record|data)\s+([^\s(){}:]+)", line)
            if m:
                names.add(m[1])
    return names


def snake(name):
    return re.sub(r"(?<=[a-z0-9])([A-Z])", r"_\1", name).lower()


def table(names):
    """What each name becomes. A dash joins two names, and each of them is spelled by itself; one in capitals from the first letter is a type's."""
    to = dict(NAMED)
    for name in names:
        if re.match(r"^[a-z]", name) and re.search(r"[A-Z]", name) and name not in PARTS:
            to[name] = "-".join("→".join(p if re.match(r"^[A-Z]", p) else snake(p) for p in part.split("→")) for part in name.split("-"))
    return {a: b for a, b in to.items() if a != b}


def respelled(text, to):
    return TOKEN.sub(lambda m: to.get(m[0], m[0]), text)


names = declared()
to = table(names)
# port.py respells a part of the names itself; pages and edits still have them as they were.
for line in """orZero putOf symbolOf""".split():
    to.setdefault(line, snake(line))
    names.discard(snake(line))
to.update({a: b for a, b in LEMMAS.items() if a in names})
back = {}
for a, b in to.items():
    if (b in names and b not in FIELDS and b not in LEMMAS) or back.get(b, a) != a:
        sys.exit(f"respell: {a} would become {b}, which is another name's: nothing was written")
    back[b] = a

changed = 0
for path in antt + code + edits + docs:
    text = open(path, encoding="utf-8").read()
    here = dict(to)
    if path in antt and (re.search(r"Order\.\{[^}]*\b[PN]\b[^}]*\}", text) or path.endswith("arith/proofs/Order.antt")):
        here.update(PARTS)
    elif path in antt:
        here.update({a: b for a, b in PARTS.items() if len(a) > 1})
    new = respelled(text, here)
    if new != text:
        open(path, "w", encoding="utf-8").write(new)
        changed += 1
print(f"respell: {len(to)} names, {changed} files")
