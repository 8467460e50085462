"""Pairs of parameters that stand together in three functions or more of src/, with how often."""
import collections, glob, itertools, re

found = collections.Counter()
for path in glob.glob("crates/*/src/*.rt"):
    text = open(path, encoding="utf-8").read()
    for head in re.finditer(r"\bfn (\w+)(<[^(]*>)?\(([^)]*)\)", text):
        params = {re.sub(r"\s+", " ", p.strip()) for p in re.split(r",(?![^<]*>)", head.group(3))}
        params = sorted(p for p in params if p and "self" not in p)
        found.update(itertools.combinations(params, 2))
for (one, two), times in found.most_common():
    if times >= 3:
        print(times, one, "and", two)
