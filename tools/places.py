#!/usr/bin/env python3
"""Counts, crate by crate, the places that docs/DESIGN-PASS.md speaks of: own enums of the shape of Option or Result, flags beside values, numbers for kinds,
loops that count by hand, what derives and Display would write, facts that contracts repeat, parameters that travel together, buffers of fixed length, switches,
and the answers and invariants of the proofs.

usage: places.py [FOLDER]     the top of a checkout, by default the current folder
"""

import collections
import glob
import re
import sys

root = sys.argv[1] if len(sys.argv) > 1 else "."


def read(pattern):
    return {f.split("/crates/")[-1]: open(f, encoding="utf-8").read() for f in sorted(glob.glob(root + "/crates/" + pattern, recursive=True))}


src = {f.replace("/src/", "/"): s for f, s in read("*/src/**/*.rt").items()}


def crate(f):
    return f.split("/")[0]


def code(s):
    return re.sub(r"//.*", "", s)


def say(title, c):
    print("%-66s %5d  %s" % (title, sum(c.values()), " ".join("%s %d" % x for x in sorted(c.items(), key=lambda x: (-x[1], x[0])))))


def grep(pattern):
    c = collections.Counter()
    for f, s in src.items():
        n = len(re.findall(pattern, code(s), re.M))
        if n:
            c[crate(f)] += n
    return c


# 1
names = collections.defaultdict(list)
c = collections.Counter()
for f, s in src.items():
    for m in re.finditer(r"enum (\w+)(?:<[^>]*>)? \{(.*?)\n\}", s, re.S):
        v = [x.strip() for x in m.group(2).split("\n") if x.strip() and not x.strip().startswith("//")]
        pair = len(v) == 2 and (re.match(r"(Refused|Wrong|Nothing|Absent|Bad|End|None|No)\b", v[1]) or re.match(r"(Wrong|Nothing|None|No)\b", v[0]))
        if pair or any(x.startswith("Refused(") for x in v):
            c[crate(f)] += 1
            names[crate(f)].append(m.group(1))
say("1a enums of the shape of Option or Result", c)
if names:
    print("      " + "; ".join(k + ": " + " ".join(v) for k, v in names.items()))
say("1b arms of matches on them", grep(r"^\s+\w+::(?:Refused|ListRefused|Wrong|Nothing|Bad|Absent)(?:\([^)]*\))? =>"))
c = collections.Counter()
n = []
for f, s in src.items():
    for m in re.finditer(r"struct (\w+)[^{;]*\{\n(.*?)\n\}", s, re.S):
        if re.search(r"\b(done|found|failed|loaded|begun|esop|finished|read|ended): bool", m.group(2)):
            c[crate(f)] += 1
            n.append(m.group(1))
say("1c structs with a flag and values beside (" + " ".join(n) + ")", c)
say("1d refusals made by a number", grep(r"(?:Refusal::new|refused|refuse|unfit|Line::Bad)\(\s*\d+"))
say("1e numbers for kinds", grep(r"\b(?:op|name|number|x\.op|kind\.of|x|b) (?:==|<=|<) \d+|\b\d+ <= (?:op|x\.op)|^\s+\d+ =>"))

# 3
c = collections.Counter()
one = collections.Counter()
for f, s in src.items():
    lines = code(s).split("\n")
    for i, l in enumerate(lines):
        if re.match(r"\s*(while |(let \w+ = )?loop \{)", l):
            ind = len(l) - len(l.lstrip())
            j = i + 1
            while j < len(lines) and not (lines[j].strip().startswith("}") and len(lines[j]) - len(lines[j].lstrip()) == ind):
                j += 1
            c[crate(f)] += 1
            if re.search(r"^\s+\w+ \+= 1;", "\n".join(lines[i : j + 1]), re.M):
                one[crate(f)] += 1
say("3a while and loop", c)
say("3b of them with a count by one", one)
say("3c for (for comparison)", grep(r"^\s*(?:'\w+: )?for .* in "))

# 4
say("4a functions that print or spell", grep(r"\bfn (?:put_(?:byte|text|number|word|field|step|cube|outputs|line|merge)\w*|print\w*|say\w*|show\w*|spell\w*|words|differing|text|line|refusal|refused|number|no_file|list|counts)\b\("))
say("4b equality, least and greatest by hand", grep(r"\bfn (?:same|smaller|larger|either|lesser|better|min|max)\b"))
c = collections.Counter()
for f, s in src.items():
    for m in re.finditer(r"((?:^#\[[^\n]*\]\n)*)^pub(?:\(crate\))? (?:struct|enum) \w+", code(s), re.M):
        if "Debug" not in m.group(1):
            c[crate(f)] += 1
say("4c public types with no Debug", c)

# 5
where = collections.defaultdict(set)
k = collections.Counter()
for f, s in src.items():
    for m in re.finditer(r"^    (?:requires)(?: \w+)? \{ (.*) \}$", s, re.M):
        t = re.sub(r"\b\w+\.(now|old)\b", "X", m.group(1))
        k[t] += 1
        where[t].add(crate(f))
rep = {t: n for t, n in k.items() if n >= 3}
print("%-66s %5d  of %d facts" % ("5a requires that stand in three or more contracts", sum(rep.values()), len(rep)))
for t, n in sorted(rep.items(), key=lambda x: (-x[1], x[0]))[:14]:
    print("      %2d %-64s %s" % (n, t[:64], " ".join(sorted(where[t]))))


def together(pair):
    c = collections.Counter()
    for f, s in src.items():
        for m in re.finditer(r"\bfn \w+(?:<[^>]*>)?\(([^)]*)\)", s, re.S):
            ns = [p.split(":")[0].strip() for p in m.group(1).split(",")]
            if all(p in ns for p in pair):
                c[crate(f)] += 1
    return c


for p in (("work", "count"), ("n", "list"), ("lists", "lengths"), ("scripts", "script_lengths"), ("out", "at"), ("text", "at"), ("row", "p"), ("n", "vector"), ("a", "b", "err")):
    say("5b parameters together: " + ", ".join(p), together(p))

# 6
say("6  buffers of a fixed length as locals", grep(r"= \[0u?\d*; [A-Z]\w+|= buffers::\w+\("))

# 7
say("7  switches on an operation or a verb, and functions had twice", grep(r"match (?:op|verb|name|kind)\b|\bfn (?:decide|decide_turn)\b"))

# 8
c = collections.Counter()
lines = collections.Counter()
for f, s in read("*/proofs/**/Answers.antt").items():
    c[crate(f)] += len(re.findall(r"^(?:pub )?[^\s:]+ : goal\.", s, re.M))
    lines[crate(f)] += sum(1 for l in s.split("\n") if l.strip() and not l.strip().startswith("--"))
say("8a answers", c)
say("8b their lines", lines)
c = collections.Counter()
for f, s in read("*/proofs/**/Invariants.antt").items():
    c[crate(f)] += 1
say("8c files of invariants", c)
