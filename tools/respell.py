#!/usr/bin/env python3
"""Brings the repository's own definitions and lemmas to the spelling of today's Rattle: words in snake case.

Run once, after port.py, at the top of the repository: python3 tools/respell.py
It reads which names .antt files declare, and respells those with a dash or a capital inside, wherever they are cited:
in .antt and .rt files, in must-fail edits, and between backticks in comments, README.md and docs/.
Types, facts, records and modules keep their capitals, and constants theirs (GREATEST).
"""
import os
import re
import sys

# Where a lemma would fall together with the word that it is about, it gets _lem, as std's do.
LEMMAS = {"row-in": "row_in_lem", "each_to": "each_to_lem", "some_to": "some_to_lem", "same_key": "same_key_lem"}
# What port.py respelled itself, since a library had names of the same spelling: in pages and edits these are still to do.
TURNED = """
above-on above-root above-zero all-alike all-back all-coded all-digits all-fit all-placed all-read all-sound and-both as-said as-wide at-new at-old
bare-step base-back base-kept base-plus base-read baseOf below-none both-is bytes-left bytes-most carried-same cell-free codeAt codeOf codes-same
depth-is digits-append digits-more each-opens each-to end-is end-row enum-told field-at first-any first-byte first-passes first-small first-some
first-step fits-on found-before found-within free-step from-past from-then goes-on going-more going-on held-inner held-moved held-onward holds-then
inTurn is-base is-code is-number is-one is-plain is-removed joined-length joined-same kept-back kept-same label-is labels-length last-step last-taken
leaf-room least-first led-on left-here left-is line-kept lineAt lineOf lines-cut lines-left lines-more linesOf link-at list-done lists-length minus-is
move-same moved-at moved-back mul-at negative-fits next-last next-one nextAt no-end no-key no-length no-loop no-number no-room no-row node-kept none-
here none-left none-read not-root number-fits number-is numberIn old-below one-code one-down one-earlier one-less one-line one-more one-side one-table
out-of-range own-read parent-is part-left part-same passed-on passes-on path-empty place-same put-in put-one put-other put-step read-behind read-
length read-number readOn room-as root-alike root-none round-trip row-is row-low row-moved row-other row-same row-small rowAt rowIn run-on run-small
run-sound same-bits same-code same-key same-length same-next same-self says-same says-some sets-then shut-out size-is sizeAt some-stored some-to step-
from step-less step-same step-stays steps-on stored-refused sub-number sub-read sum-first sum-one sum-same sumTo take-behind take-out taken-free
taken-none to-back to-inner to-one to-pos to-same to-some too-short trim-same under-next under-none update-twice upper-fits used-pos used-step walk-
begins walk-same word-low
""".split()
# Names that are Rattle's own, not this repository's.
KEEP = {"get_or-eq_default", "drop_of_length-le"}
TOKEN = re.compile(r"[^\s(){}\[\];,.:\"`]+")
DECLARED = re.compile(r"\s*(?:abbrev |unfoldable |pub |mutual )*([^\s(){}\[\];,.:\"`]+)(?:\s+[^:=]*)?\s*:\s")
CLAUSE = re.compile(r"^\s*(?:let )?([^\s(){}\[\];,.:\"`]+)((?: [^=:]*)?) = ")


def files(root, ends):
    for folder, dirs, names in os.walk(root):
        dirs[:] = sorted(d for d in dirs if d not in ("out", ".git", "target"))
        for n in sorted(names):
            if n.endswith(ends):
                yield os.path.join(folder, n)


def snake(name):
    s = re.sub(r"(?<=[a-z0-9])(?=[A-Z])", "_", name)
    if s != name:
        s = s.lower()
    return s.replace("-", "_")


def is_odd(name):
    if name in KEEP or name.startswith(("◌", "+", "-", "'")) or "→" in name or name == "-":
        return False
    core = name.strip("-")
    if re.match(r"[A-Z]", core):
        return False
    return "-" in core or bool(re.match(r"[a-z][a-z0-9_-]*[A-Z]", core))


def code_of(line):
    at = line.find("--")
    return line if at < 0 else line[:at]


def collect(root):
    odd, plain = {}, {}
    for p in files(os.path.join(root, "crates"), (".antt",)):
        for line in open(p, encoding="utf-8"):
            line = code_of(line)
            for pattern in (DECLARED, CLAUSE):
                m = pattern.match(line)
                if m:
                    (odd if is_odd(m.group(1)) else plain).setdefault(m.group(1), set()).add(p)
            for m in re.finditer(r"let ([^\s(){}\[\];,.:\"`]+) (?:=|:) ", line):
                (odd if is_odd(m.group(1)) else plain).setdefault(m.group(1), set()).add(p)
    return odd, plain


def turn(text, table):
    return TOKEN.sub(lambda m: table.get(m.group(0), m.group(0)), text)


def ticked(text, table):
    return re.sub(r"`[^`\n]*`", lambda m: turn(m.group(0), table), text)


def turn_code(text, mark, table):
    """Code is turned, comments only between backticks. In code a string is left as it is."""
    out = []
    for line in text.split("\n"):
        at = line.find(mark)
        code, said = (line, "") if at < 0 else (line[:at], line[at:])
        parts = re.split(r"(\"(?:[^\"\\]|\\.)*\")", code)
        code = "".join(q if i % 2 else turn(q, table) for i, q in enumerate(parts))
        out.append(code + ticked(said, table))
    return "\n".join(out)


def main():
    root = sys.argv[1] if len(sys.argv) > 1 else "."
    odd, plain = collect(root)
    table = dict(LEMMAS)
    for name in odd:
        table[name] = LEMMAS.get(name, snake(name))
    # A dash name whose snake spelling is taken gets _lem.
    camel = {snake(n) for n in odd if re.search("[a-z0-9][A-Z]", n)}
    for name in sorted(odd):
        if name in LEMMAS or re.search("[a-z0-9][A-Z]", name):
            continue
        if table[name] in camel:
            table[name] += "_lem"
        elif table[name] in plain and not all(os.path.basename(f) == "Proof.antt" for f in odd[name] | plain[table[name]]):
            print(f"look: {name} and {table[name]}: {sorted(os.path.relpath(f, root) for f in odd.get(name, ()))[:3]} {sorted(os.path.relpath(f, root) for f in plain[table[name]])[:3]}")
    for name in sorted(odd):
        if re.search("[a-z0-9][A-Z]", name) and table[name] in plain:
            print(f"look: {name} and {table[name]}: {sorted(os.path.relpath(f, root) for f in plain[table[name]])[:3]}")
    older = dict(table)
    for name in TURNED:
        older[name] = LEMMAS.get(snake(name), snake(name))
    older["⊎-elim"] = "⊎_elim"
    back = {}
    for name, to in table.items():
        back.setdefault(to, []).append(name)
    for to, names in back.items():
        if len(names) > 1:
            print(f"look: {names} are one: {to}")
    for p in files(os.path.join(root, "crates"), (".antt", ".rt", ".edit")):
        text = open(p, encoding="utf-8").read()
        new = turn(text, older) if p.endswith(".edit") else turn_code(text, "--" if p.endswith(".antt") else "//", table)
        if new != text:
            open(p, "w", encoding="utf-8").write(new)
    pages = [os.path.join(root, "README.md")] + list(files(os.path.join(root, "docs"), (".md",)))
    for p in pages:
        text = open(p, encoding="utf-8").read()
        new = re.sub(r"```.*?```|`[^`\n]*`", lambda m: m.group(0) if m.group(0).startswith("```") else turn(m.group(0), older), text, flags=re.S)
        if new != text:
            open(p, "w", encoding="utf-8").write(new)
    print(f"respelled: {len(table)} names")


if __name__ == "__main__":
    main()
