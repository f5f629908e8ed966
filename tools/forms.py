#!/usr/bin/env python3
"""Counts the forms of older Rattle in crates/*/src, for docs/DESIGN-PASS.md.

    python3 tools/forms.py [-l] [FOLDER]

prints a line for each count, with -l also each place (file:line, name). FOLDER is a checkout; the default is the current folder.
"""
import difflib
import glob
import os
import re
import sys

FORMS = [
    ("1a", "enums of the shape of Option or Result: a variant named Accepted, Refused, Failed, Nothing, No"),
    ("1b", "fields that are flags beside values"),
    ("1c", "numbers that stand for kinds or refusals: fields and parameters of an integer type, variants Refused(u32)"),
    ("1d", "functions that answer a refusal's number"),
    ("2", "functions whose body is another one's of their crate (or of a replay program), but for names, types, numbers and one word in ten"),
    ("3", "loops that count an index by hand: while"),
    ("4a", "conversions, comparisons and defaults written by hand, by their names"),
    ("4b", "types that derive Clone and Copy alone"),
    ("5a", "functions with the parameters h, g and k"),
    ("5b", "functions with the three slices of a state"),
    ("5c", "functions with the parallel parameters i and q, or e and err"),
    ("6", "functions with a buffer and a place in it, or a count beside it"),
    ("7", "tests of a number that says which step to run"),
    ("8a", "proof files of functions (Proof, Answers, Invariants)"),
    ("8b", "lines of proofs"),
]

FUNCTION = re.compile(r"^( *)((?:pub(?:\(crate\))? )?(?:const )?(?:extern \"C\" )?fn (\w+))")
TOKEN = re.compile(r"[A-Za-z_]\w*|\d\w*|b?'[^']*'|\"[^\"]*\"|[^\sA-Za-z_0-9]")
KEYWORDS = set("if else while for in let mut return match loop break as fn self Self true false".split())
NUMBERED = re.compile(r"\b(bank|field|fault|function|kind)s?: (?:u8|u32|i64|&\[u8\])")
BY_HAND = re.compile(
    r"^(number|number_of|none|are_same|least|larger|wide|magnitude|both|clamped|below_sign|rest|at|begins|next_head|in_ring"
    r"|u8_of|u64_of|i64_of|narrow_i16|narrow_i32|or_zero|f32_from_bits|f64_from_bits|f64_to_bits|cut_i64|cut_i32|cut_u32|is_within|at_least_min)$"
)


def functions(path):
    """Name, line, head (signature) and body of each function of a file; the clauses of its contract are left out."""
    lines = open(path).read().split("\n")
    n = 0
    while n < len(lines):
        m = FUNCTION.match(lines[n])
        if not m or lines[n].lstrip().startswith("//"):
            n += 1
            continue
        indent, start = m.group(1), n
        head = []
        while n < len(lines) and not re.match(indent + r"(    (requires|ensures)|\{)", lines[n]) and not lines[n].rstrip().endswith("{"):
            head.append(lines[n])
            n += 1
        while n < len(lines) and lines[n] != indent + "{" and not (n < len(lines) and lines[n].rstrip().endswith(" {") and not re.match(r" *(requires|ensures)", lines[n])):
            n += 1
        if n < len(lines) and lines[n] != indent + "{":
            head.append(lines[n].rstrip()[:-1])
        body = []
        n += 1
        while n < len(lines) and lines[n] != indent + "}":
            body.append(lines[n].split("//")[0])
            n += 1
        yield m.group(3), start + 1, " ".join(head), "\n".join(body)


def skeleton(body):
    words = TOKEN.findall(body)
    return " ".join(w if w in KEYWORDS or not re.match(r"\w|b?'|\"", w) else ("0" if re.match(r"\d|b?'|\"", w) else "x") for w in words)


def is_alike(one, two):
    """Nine in ten words of the longer one stand in the other, in order."""
    if min(len(one), len(two)) * 10 < max(len(one), len(two)) * 9:
        return False
    same = sum(block.size for block in difflib.SequenceMatcher(None, one, two, autojunk=False).get_matching_blocks())
    return same * 10 >= max(len(one), len(two)) * 9


def count(top):
    found = {form: [] for form, _ in FORMS}
    shapes = {}
    for path in sorted(glob.glob(os.path.join(top, "crates/*/src/*.rt"))):
        name = os.path.relpath(path, top)
        crate = name.split("/")[1]
        text = open(path).read().split("\n")
        enum = None
        for n, line in enumerate(text, 1):
            here = "%s:%d" % (name, n)
            code = line.split("//")[0]
            m = re.match(r"(?:pub(?:\(crate\))? )?(enum|struct) (\w+)", code)
            if m:
                enum = [m.group(1), m.group(2), False]
            if code == "}":
                enum = None
            if enum and enum[0] == "enum" and not enum[2] and re.match(r" +(Accepted|Refused|Failed|Nothing|No)\b", code):
                enum[2] = True
                found["1a"].append((here, enum[1]))
            if enum and enum[0] == "struct" and re.match(r" +(pub(\(crate\))? )?\w+: bool,", code):
                found["1b"].append((here, enum[1] + "." + code.split(":")[0].split()[-1]))
            if enum:
                for m in NUMBERED.finditer(code):
                    found["1c"].append((here, enum[1] + " " + m.group(0)))
                if re.match(r" +Refused(\(u32\)| \{ number: u32)", code):
                    found["1c"].append((here, enum[1] + ".Refused"))
            if re.match(r" *while ", code):
                found["3"].append((here, code.strip()))
            if re.match(r" *(\} else )?if (0 < )?(kind|function) (==|<|&&)", code):
                found["7"].append((here, code.strip()))
            if code.strip() == "#[derive(Clone, Copy)]":
                found["4b"].append((here, text[n].strip(" {")))
        for f, n, head, body in functions(path):
            here = "%s:%d" % (name, n)
            for m in NUMBERED.finditer(head):
                found["1c"].append((here, f + "(" + m.group(0) + ")"))
            if head.rstrip().endswith("-> u32") and re.search(r"refus|fault|number|return 1[018]|=> \d", body) and not f.endswith("_of_period"):
                found["1d"].append((here, f))
            if BY_HAND.match(f):
                found["4a"].append((here, f))
            if all(re.search(r"\b%s: &\[i32\]" % x, head) for x in "hgk"):
                found["5a"].append((here, f))
            if re.search(r"\b(state|places): &(mut )?\[i64\]", head) and "line: &" in head and "errors: &" in head:
                found["5b"].append((here, f))
            if re.search(r"\bi: &(mut )?\[u64\]", head) or re.search(r"\be: &(mut )?\[i32\]", head):
                found["5c"].append((here, f))
            if re.search(r"(out|bytes|room|bank|places): &mut \[\w+\].*\b(at|from|count|w|n): usize|count: usize, out|\bat: usize, end|out: &\[u8\]", head):
                found["6"].append((here, f))
            group = "replay" if crate.startswith("replay") else crate
            shape = skeleton(body)
            if len(shape.split()) >= 12:
                shapes.setdefault((group, shape), []).append((here, f))
    for (group, shape), one in shapes.items():
        for (other, form), two in shapes.items():
            if group == other and (len(one) > 1 if form == shape else is_alike(shape.split(), form.split())):
                found["2"] += one
                break
    for path in sorted(glob.glob(os.path.join(top, "crates/*/proofs/**/*.antt"), recursive=True)):
        if os.path.basename(path) in ("Proof.antt", "Answers.antt", "Invariants.antt"):
            found["8a"].append((os.path.relpath(path, top), ""))
        found["8b"] += [("", "")] * len(open(path).read().splitlines())
    return found


def main():
    words = [w for w in sys.argv[1:] if w != "-l"]
    found = count(words[0] if words else ".")
    for form, meaning in FORMS:
        print("%-3s %6d  %s" % (form, len(found[form]), meaning))
        if "-l" in sys.argv and not form.startswith("8"):
            for here, what in found[form]:
                print("        %s %s" % (here, what))


main()
