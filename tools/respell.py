"""Respells the repository's own names for today's Rattle: run once at the top, after the kit's own scripts.

Definitions, constructors, fields and lemmas of specs/ and proofs/ have no hyphens: a type or a fact is in camel case, everything else in snake case.
A fact of each element, by recursion on a list, goes by the library's own name. Names of functions, strings, inputs and outputs stay.
With --list it only prints what it would rename.
"""

import collections
import glob
import os
import re
import sys

WORD = r"[A-Za-z_◌][\w'ᴰ◌]*(?:-[\w'ᴰ◌]+)*"
SIGNATURE = re.compile(r"(?m)^[ \t]*(?:(?:abbrev|unfoldable|pub|data|record)\s+)*(" + WORD + r")((?:[ \t]+\([^\n]*?\)|[ \t]+\{[^\n]*?\})*)[ \t]*:[ \t]([^\n]*)")
MEMBER = re.compile(r"(?m)^[ \t]+(?:pub\s+)?(" + WORD + r")[ \t]*:[ \t]")


def is_type(signature):
    """Whether what has this signature is a type or a fact."""
    return re.search(r"Type \d\s*(?:where\s*)?$", signature.strip()) is not None


# Two names that would fall together: the other is a lemma's own word.
APART = {"Merged-at": "MergesAt"}


def respelled(name, camel):
    if name in APART:
        return APART[name]
    parts = name.split("-")
    if camel:
        return "".join(it[:1].upper() + it[1:] for it in parts)
    return "_".join(it if n else it[:1] + it[1:] for n, it in enumerate(parts))


def definitions(text):
    """The names that a file defines, each with whether it is a type. Answers to goals are Rattle's names and stay."""
    found = {}
    for m in SIGNATURE.finditer(text):
        if re.match(r"(?:goal|need|given|goals)\.", m[3].strip()):
            continue
        found[m[1]] = is_type(m[2] + " " + m[3]) or m[0].split()[0] in ("data", "record") or m[0].startswith(("pub data", "pub record"))
    lines = text.split("\n")
    for n, line in enumerate(lines):
        if re.match(r"(?:pub\s+)?(?:data|record)\b", line):
            for below in lines[n + 1 :]:
                if below and not below[0].isspace():
                    break
                m = MEMBER.match(below)
                if m and len(below) - len(below.lstrip()) == 2:
                    found.setdefault(m[1], False)
    return found


def main():
    files = [it for it in glob.glob("crates/*/**/*.antt", recursive=True) if "/out/" not in it]
    own, where = {}, collections.defaultdict(set)
    for file in files:
        for name, camel in definitions(open(file, encoding="utf-8").read()).items():
            where[name].add(file)
            own[name] = own.get(name, False) or camel
    renamed = {name: respelled(name, camel) for name, camel in own.items() if "-" in name}
    meet = collections.defaultdict(set)
    for name in own:
        meet[renamed.get(name, name)].add(name)
    for new, olds in sorted(meet.items()):
        if len(olds) > 1:
            print("falls together:", new, *[f"{it} ({', '.join(sorted(where[it]))})" for it in sorted(olds)])
    if "--list" in sys.argv:
        for name in sorted(renamed):
            print(name, "->", renamed[name], " ", ", ".join(sorted(where[name])))
        return
    token = re.compile(r"(?<![\w'ᴰ◌-])(?:" + "|".join(re.escape(it) for it in sorted(renamed, key=len, reverse=True)) + r")(?![\w'ᴰ◌]|-[\w'])")
    strings = re.compile(r'"(?:[^"\\\n]|\\.)*"')
    rust = [it for it in glob.glob("crates/*/src/**/*.rt", recursive=True)] + glob.glob("crates/*/must-fail/*.edit")
    for file in files + rust:
        old = open(file, encoding="utf-8").read()
        new, last = "", 0
        for m in [*strings.finditer(old), None]:
            new += token.sub(lambda it: renamed[it[0]], old[last : m.start() if m else len(old)])
            if m:
                new, last = new + m[0], m.end()
        if "AllByRecursion as All" in new:
            new = new.replace("AllByRecursion as All", "AllByRecursion")
            new = re.sub(r"(?<![\w'ᴰ◌.-])All(?![\w'◌-])", "AllByRecursion", new)
        if new != old:
            open(file, "w", encoding="utf-8").write(new)


main()
