#!/usr/bin/env python3
"""Lists functions of src/ whose bodies are alike once the names of types and constants and all numbers are taken out, in clusters.

usage: twins.py [FOLDER [RATIO]]     the top of a checkout, by default the current folder; how alike two bodies have to be, by default 0.86
"""

import collections
import difflib
import glob
import itertools
import re
import sys

root = sys.argv[1] if len(sys.argv) > 1 else "."
least = float(sys.argv[2]) if len(sys.argv) > 2 else 0.86

functions = []
for f in sorted(glob.glob(root + "/crates/*/src/**/*.rt", recursive=True)):
    s = open(f, encoding="utf-8").read()
    for m in re.finditer(r'^( *)(?:pub(?:\(crate\))? )?(?:extern "C" )?fn (\w+).*?\n\1\{\n(.*?)\n\1\}\n', s, re.S | re.M):
        tokens = re.findall(r"[A-Za-z_]\w*|\d+|[^\s\w]", re.sub(r"//.*", "", m.group(3)))
        if len(tokens) < 30:
            continue
        alike = ["T" if t[0].isupper() else "0" if t[0].isdigit() else t for t in tokens]
        functions.append((f.split("/crates/")[1].replace("/src/", "/"), m.group(2), alike, m.group(3).count("\n") + 1))

parent = {}


def find(x):
    parent.setdefault(x, x)
    while parent[x] != x:
        x = parent[x]
    return x


for a, b in itertools.combinations(functions, 2):
    if abs(len(a[2]) - len(b[2])) > 0.3 * max(len(a[2]), len(b[2])):
        continue
    r = difflib.SequenceMatcher(None, a[2], b[2], autojunk=False)
    if r.real_quick_ratio() >= least and r.quick_ratio() >= least and r.ratio() >= least:
        parent[find(a[:2])] = find(b[:2])

clusters = collections.defaultdict(list)
lines = {x[:2]: x[3] for x in functions}
for x in list(parent):
    clusters[find(x)].append(x)
total = 0
for c in sorted(clusters.values(), key=lambda c: (-sum(lines[x] for x in c), sorted(c))):
    total += len(c)
    print("%d functions, %3d lines: %s" % (len(c), sum(lines[x] for x in c), "  ".join("%s:%s" % x for x in sorted(c))))
print("functions in clusters: %d, clusters: %d, of functions with bodies of 30 words and more: %d" % (total, len(clusters), len(functions)))
