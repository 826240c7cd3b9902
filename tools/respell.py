#!/usr/bin/env python3
"""Spells the definitions and lemmas of specs/ and proofs/ as today's library spells its own, once, after the kit's port.py.

usage: python3 tools/respell.py          at the top of the repository: rewrites crates/*/{src,specs,proofs} in place
       python3 tools/respell.py --table  prints the table of names instead, old and new

Words go into snake case (ownerAt to owner_at, core-after to core_after); a type with a dash goes into camel case
(Ranges-checked to RangesChecked). What the check makes of the sources keeps its spelling: names behind an answer's `c.`, an
invariant's `l.`, `goal.` and `given.`, the goals themselves, and every name of src/. It stops where two names that
port.py left apart would fall together in one file.
"""

import glob
import re
import sys

WORD = r"[^\s(){}\[\].;,⟦⟧«»\"λ]+"
DECLARED = re.compile(r"^\s*(?:(?:abbrev|unfoldable|pattern|pub|syntax)\s+)*(" + WORD + r")(?:\s+\{[^}]*\})?\s+:(?:\s|$)")
RECORD = re.compile(r"^\s*(?:(?:abbrev|unfoldable|pub)\s+)*(?:record|data)\s+(" + WORD + r")")
# A lemma that would have its definition's name ends in _lem; a field that would hide a definition gets a name of its own.
ALONE = {
    "away-most": "away_most_lem",
    "in-range": "in_range_lem",
    "line-fits": "line_fits_lem",
    "longest-below": "longest_below_lem",
    "slot-fits": "slot_fits_lem",
    "with-core": "with_core_lem",
    "carriage-return": "after_carriage_return",
}
# A field of a record in this crate, and no lemma.
FIELDS = {"cases": {"in-range": "in_range"}}
# A definition of one crate and a field of another that no file has both of.
APART = {"no_line"}
MODULE = re.compile(r"(?:specs|proofs)/Lib\.antt$")


def texts(*kinds):
    return sorted(p for k in kinds for p in glob.glob(f"crates/*/{k}", recursive=True))


def new_name(name):
    if name in ALONE:
        return ALONE[name]
    if name[0].isupper():
        return re.sub(r"-(\w)", lambda m: m.group(1).upper(), name) if "-" in name else name
    snake = re.sub(r"([a-z0-9])([A-Z])", lambda m: m.group(1) + "_" + m.group(2).lower(), name)
    return snake.replace("-", "_")


def own_names():
    """The names that specs/ and proofs/ declare, but for goals and what else the check asks for."""
    names = set()
    for p in texts("specs/**/*.antt", "proofs/**/*.antt"):
        if MODULE.search(p):
            continue
        with open(p, encoding="utf-8") as f:
            for line in f:
                if re.search(r":\s+(?:goal|given|need)\.", line) or line.lstrip().startswith("--"):
                    continue
                for m in (DECLARED.match(line), RECORD.match(line)):
                    if m and re.match(r"[A-Za-z]", m.group(1)):
                        names.add(m.group(1))
    return names


def table(names):
    rows = {n: new_name(n) for n in names if new_name(n) != n}
    taken = {}
    for n in sorted(names):
        taken.setdefault(rows.get(n, n), []).append(n)
    together = [v for n, v in taken.items() if len(v) > 1 and n not in APART]
    return rows, together


def turned(text, rows, rust, made):
    """The text with every own name in its new spelling; comments keep words with dashes, Rust keeps comments and strings."""
    mark = "//" if rust else "--"
    out = []
    for line in text.split("\n"):
        i = line.find(mark)
        while i > 0 and not line[i - 1].isspace():
            i = line.find(mark, i + 1)
        code, comment = (line, "") if i < 0 else (line[:i], line[i:])

        def one(m):
            before = code[: m.start()]
            if re.search(r"(?:^|[^\w'-])(?:" + made + r")\.$", before):
                return m.group(0)
            return rows.get(m.group(0), m.group(0))

        if rust:
            parts = re.split(r'("(?:[^"\\]|\\.)*")', code)
            code = "".join(p if k % 2 else re.sub(WORD, lambda m: rows.get(m.group(0), m.group(0)), p) for k, p in enumerate(parts))
        else:
            if not re.search(r":\s+(?:goal|given)\.", code):
                code = re.sub(WORD, one, code)
            comment = re.sub(WORD, lambda m: m.group(0) if "-" in m.group(0) else rows.get(m.group(0), m.group(0)), comment)
        out.append(code + comment)
    return "\n".join(out)


def main(argv):
    rows, together = table(own_names())
    if together:
        print("names that would fall together: " + "; ".join(" ".join(v) for v in together), file=sys.stderr)
        return 1
    if argv == ["--table"]:
        for n in sorted(rows):
            print(n + "\t" + rows[n])
        return 0
    for p in texts("specs/**/*.antt", "proofs/**/*.antt", "src/**/*.rt"):
        with open(p, encoding="utf-8") as f:
            text = f.read()
        made = "c|goal" if p.endswith("Answers.antt") else "l|goal|given" if p.endswith("Invariants.antt") else "goal"
        new = turned(text, {**rows, **FIELDS.get(p.split("/")[1], {})}, p.endswith(".rt"), made)
        if new != text:
            with open(p, "w", encoding="utf-8") as f:
                f.write(new)
    print(f"{len(rows)} names respelled")
    return 0


if __name__ == "__main__":
    raise SystemExit(main(sys.argv[1:]))
