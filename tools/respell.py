#!/usr/bin/env python3
"""Brings the repository's own definitions and lemmas to the spelling of this Rattle: words in snake case, types in
camel case, and a dash only where a lemma's name joins two names. In the proof files of functions it gives goals and
steps the names that they have now, in which a name from the source keeps its underscores.

usage: python3 tools/respell.py [--list]      at the top of the repository, once, after the kit's own scripts

Functions of src/, strings, inputs and outputs keep their names. Names that would fall together stop the script.
"""

import os
import re
import sys

TOKEN = re.compile(r"[^\s(){}\[\],;.\"`]+")
HEAD = re.compile(r"^( *)((?:(?:abbrev|unfoldable|pub|data|record) )*)([^\s(){}:,]+)(?: [({][^)}]*[)}])* : (.*)$")
MARKS = {"abbrev", "unfoldable", "data", "record"}
# words of the library that a lemma's name may join by a dash
LIBRARY = {"length", "take", "drop", "set", "map", "replicate", "append", "cond", "get_or", "add", "sub", "mul", "div", "mod", "pow", "reverse", "count_trailing_zeros"}
# names that would fall together with a word of the library, or that name a word of it that is gone
OWN = {
    "bit-or": "bit-bit_or",
    "bit-and": "bit-bit_and",
    "bit-xor": "bit-bit_xor",
    "getD-copied": "get_or-copied",
}


def files(ending):
    for folder, dirs, names in os.walk("crates"):
        dirs[:] = sorted(d for d in dirs if d != "out")
        for name in sorted(names):
            if name.endswith(ending):
                yield os.path.join(folder, name)


def defined():
    """Each name that a file of specs/ or proofs/ defines, with its kind."""
    kinds = {}
    for path in files(".antt"):
        inside = None
        for line in open(path, encoding="utf-8"):
            found = HEAD.match(line)
            if not found or line.lstrip().startswith("--"):
                if line.strip() and not line.startswith(" "):
                    inside = None
                continue
            indent, marks, name, rest = len(found[1]), set(found[2].split()), found[3], found[4]
            if inside is not None and indent > inside:
                kinds.setdefault(name, "part")
                continue
            inside = indent if marks & {"data", "record"} else None
            if rest.startswith("goal."):
                continue
            if name[0].isupper() or re.search(r"(^|→ )Type [01]( where)?$", rest.strip()):
                kinds[name] = "type"
            elif marks & MARKS:
                kinds[name] = "word"
            else:
                kinds.setdefault(name, "lemma")
    return kinds


def snake(name):
    return name.replace("-", "_")


def camel(name):
    return "".join(part[:1].upper() + part[1:] for part in name.split("-"))


def lemma(name, known):
    """The parts that are names, joined by a dash, and plain words after them."""
    parts = name.split("-")

    def split(at):
        if at == len(parts):
            return []
        for end in range(len(parts), at, -1):
            word = "_".join(parts[at:end])
            if word in known:
                rest = split(end)
                if rest is not None:
                    return [word] + rest
        return None

    for front in range(len(parts), 1, -1):
        tail = parts[front:]
        whole, parts = parts, parts[:front]
        names = split(0)
        parts = whole
        if names is not None and len(names) > 1:
            return "_".join(["-".join(names)] + tail)
    return snake(name)


def renamings(kinds):
    known = LIBRARY | {snake(n) for n, k in kinds.items() if k in ("word", "part")}
    turned = {}
    for name, kind in kinds.items():
        if name in OWN:
            turned[name] = OWN[name]
        elif "-" in name:
            turned[name] = camel(name) if kind == "type" else snake(name) if kind != "lemma" else lemma(name, known)
    return {a: b for a, b in turned.items() if a != b}


def tokens(text):
    return set(TOKEN.findall(text))


def turn(text, turned, comment):
    """The text with each name turned; in comments only between backquotes."""
    lines = []
    for line in text.split("\n"):
        at = line.find(comment)
        code, rest = (line, "") if at < 0 else (line[:at], line[at:])
        code = TOKEN.sub(lambda m: turned.get(m[0], m[0]), code)
        rest = re.sub(r"`[^`]*`", lambda m: TOKEN.sub(lambda n: turned.get(n[0], n[0]), m[0]), rest)
        lines.append(code + rest)
    return "\n".join(lines)


def source_names(crate):
    """The names of a crate's source that have an underscore, with the dashes that older proof files give them."""
    words = set()
    for path in files(".rt"):
        if path.split(os.sep)[1] == crate:
            words |= set(re.findall(r"[a-z][a-z0-9]*(?:_[a-z0-9]+)+", open(path, encoding="utf-8").read()))
    return {w.replace("_", "-"): w for w in words}


def turn_generated(text, names):
    """The text of a function's proof, where a name from the source keeps its spelling in goals and steps."""
    pattern = re.compile("|".join(rf"(?<!\w){re.escape(a)}(?!\w)" for a in sorted(names, key=len, reverse=True)))

    def whole(found):
        return pattern.sub(lambda m: names[m[0]], found[0])

    goals = set(re.findall(r"^(?:abbrev )?(?:pub )?([\w-]+) : goal\.", text, flags=re.M))
    text = re.sub(r"^((?:abbrev )?(?:pub )?)([\w-]+)", lambda m: m[1] + (pattern.sub(lambda n: names[n[0]], m[2]) if m[2] in goals else m[2]), text, flags=re.M)
    return re.sub(r"(?<![\w.-])(?:c|l|w|goal)\.[\w.-]+", whole, text)


def main():
    kinds = defined()
    turned = renamings(kinds)
    if "--list" in sys.argv:
        for a, b in turned.items():
            print(f"{kinds[a]}\t{a}\t{b}")
        return
    fallen = []
    # a function of src/ may have the name of the definition that it computes: only proofs and definitions can fall together
    for path in files(".antt"):
        there = tokens(open(path, encoding="utf-8").read())
        for a in there & turned.keys():
            b = turned[a]
            if b in there or any(turned.get(o) == b and o != a for o in there):
                fallen.append(f"{path}: {a} and {b}")
    if fallen:
        print("\n".join(fallen))
        raise SystemExit("names fall together; nothing was changed")
    for ending, comment in ((".antt", "--"), (".rt", "//")):
        for path in files(ending):
            old = open(path, encoding="utf-8").read()
            new = turn(old, turned, comment)
            if new != old:
                open(path, "w", encoding="utf-8").write(new)
    for path in files(".antt"):
        parts = path.split(os.sep)
        if parts[2] == "proofs" and len(parts) > 4:
            names = source_names(parts[1])
            old = open(path, encoding="utf-8").read()
            new = turn_generated(old, names) if names else old
            if new != old:
                open(path, "w", encoding="utf-8").write(new)
    print(f"{len(turned)} names turned")


main()
