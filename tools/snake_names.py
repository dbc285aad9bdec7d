#!/usr/bin/env python3
"""Spells the names of the repository's own definitions as Rattle's style asks: words in snake case.

usage: python3 tools/snake_names.py          in the repository, once: rewrites crates/ in place
       python3 tools/snake_names.py --list   only prints each name with what it becomes

A name is the repository's own if a file of specs/ or proofs/ declares it. Names in camel case become snake case, and so do
fields and cases that have a dash; a type that has a dash becomes camel case. A lemma keeps its dashes, which join two names, as
in `length-drop`. Names that Rattle makes for goals and calls, functions of src/, strings and comments keep their spelling.
"""
import os
import re
import sys

WORD = r"[a-z][\w']*(?:-[\w']+)*"
TYPE = r"[A-Z][\w']*(?:-[\w']+)+"
TOKEN = re.compile(r"(?<![\w'\-])(" + WORD + "|" + TYPE + r")(?![\w'\-])")
TYPES = re.compile(r"^[ \t]*(?:(?:pub|abbrev|unfoldable|record|data)\s+)+(" + TYPE + r")\s.*:", re.M)
DECLARED = re.compile(r"^([ \t]*)((?:(?:pub|abbrev|unfoldable)\s+)*)(" + WORD + r")\s+:\s", re.M)
HEAD = re.compile(r"^[ \t]*(?:pub\s+)?(?:record|data)\b")
SKIPPED = re.compile(r'--[^\n]*|"[^"\n]*"')
SKIPPED_RT = re.compile(r'//[^\n]*|"(?:[^"\\\n]|\\.)*"')

# Names that would fall together with another.
APART = {
    "crates/replay/": {"passed_on": "passed_on-does"},
    "crates/worked_cases/": {
        "first_below": "first_below-found",
        "eightDeep": "eight_deep_script",
        "sevenAlone": "seven_alone_script",
        "sevenAndAFall": "seven_and_a_fall_script",
    },
    "crates/trace/proofs/Inverses.antt": {"on_line": "length-on_line", "if-set": "length-if_set"},
}


def snake(name):
    name = name.replace("-", "_")
    name = re.sub(r"([a-z0-9])([A-Z])", r"\1_\2", name)
    name = re.sub(r"([A-Z])([A-Z][a-z])", r"\1_\2", name)
    return name.lower()


def files(ending):
    for folder, dirs, names in os.walk("crates"):
        dirs[:] = sorted(d for d in dirs if d != "out")
        for name in sorted(names):
            if name.endswith(ending):
                yield os.path.join(folder, name)


def read(path):
    with open(path, encoding="utf-8") as f:
        return f.read()


def write(path, text):
    with open(path, "w", encoding="utf-8") as f:
        f.write(text)


def blank(text, skipped):
    return skipped.sub(lambda m: " " * len(m.group()), text)


def fields(text):
    """The fields and cases that a file declares: what stands further in than the head of its record or data."""
    found, head = set(), None
    for line in text.splitlines():
        at = len(line) - len(line.lstrip())
        if head is not None and line.strip() and at <= head:
            head = None
        if HEAD.match(line):
            head = at
        elif head is not None:
            m = DECLARED.match(line + " ")
            if m:
                found.add(m.group(3))
    return found


def own_names():
    names = {}
    for path in files(".antt"):
        text = blank(read(path), SKIPPED)
        of_records = fields(text)
        for m in DECLARED.finditer(text):
            name = m.group(3)
            goal = re.match(r"(?:goal|need|choice|given)\.", text[m.end():])
            if goal:
                continue
            if name in of_records:
                to = snake(name)
            else:
                to = "-".join(snake(part) for part in name.split("-"))
            if to != name:
                names.setdefault(name, to)
        for name in TYPES.findall(text):
            names.setdefault(name, "".join(w[0].upper() + w[1:] for w in name.split("-")))
    return names


def respell(text, skipped, names):
    out, last = [], 0
    for m in skipped.finditer(text):
        out += [TOKEN.sub(lambda t: names.get(t.group(1), t.group(1)), text[last:m.start()]), m.group()]
        last = m.end()
    return "".join(out) + TOKEN.sub(lambda t: names.get(t.group(1), t.group(1)), text[last:])


def main():
    names = own_names()
    if not names:
        print("nothing to rename")
        return
    if "--list" in sys.argv:
        for name in sorted(names):
            print(name, names[name])
        return
    for ending, skipped in ((".antt", SKIPPED), (".rt", SKIPPED_RT)):
        for path in files(ending):
            here = dict(names)
            if ending == ".rt":
                here = {n: t for n, t in names.items() if "-" not in n or n[0].isupper()}
            for crate, apart in APART.items():
                if path.startswith(crate) and ending == ".antt":
                    here.update(apart)
            text = read(path)
            new = respell(text, skipped, here)
            if new != text:
                write(path, new)


if __name__ == "__main__":
    main()
