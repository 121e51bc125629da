#!/usr/bin/env python3
"""Brings the names of this repository's own definitions and lemmas to today's spelling: snake case, and camel case for
types and facts. Run once, at the top, after port.py. Functions of src/, goals, and the library's names keep theirs.

usage: python3 tools/respell.py            writes
       python3 tools/respell.py --list     prints what falls together and what is left
"""

import os
import re
import sys

# a name of antt: no white space, no bracket, no mark that ends a term
NAME = re.compile(r"[^\s(){}\[\];,.λ\"⟨⟩|]+")
DEFINES = re.compile(r"^\s*(?:pub |abbrev pub |unfoldable pub |abbrev |unfoldable |pub record |pub data |record |data )?([^\s(){};,.]+)\s*(?:[({][^:]*:[^)}]*[)}]\s*)*:\s(.*)$")


def files(ending):
    for folder, dirs, names in os.walk("crates"):
        dirs[:] = sorted(d for d in dirs if d != "out")
        for name in sorted(names):
            if name.endswith(ending):
                yield os.path.join(folder, name)


def read(path):
    with open(path, encoding="utf-8") as f:
        return f.read()


def defined():
    """The names with a dash that this repository defines, each with a place; an answer to a goal is none."""
    found = {}
    for path in files(".antt"):
        for line in read(path).splitlines():
            if line.lstrip().startswith(("--", "use ")):
                continue
            m = DEFINES.match(line)
            if m and "-" in m.group(1) and m.group(1)[0] != "-" and not re.match(r"(goal|given)\.", m.group(2)):
                found.setdefault(m.group(1), path)
            # names bound in a signature, by a let or a λ, or on the left of a clause
            bound = [m.group(1) for m in re.finditer(r"(?:[({]|let |λ )((?:[^\s(){}:;,.]+ )+):", line)]
            bound += [m.group(1) for m in re.finditer(r"λ ([^:.]*)\.", line)]
            bound += [m.group(1) for m in re.finditer(r"^\s*(?!let |in |\|)[^\s=]+ ([^=]*)=(?:\s|$)", line)]
            for name in re.findall(r"(?<![^\s(),])[a-z][\w']*(?:-[\w']+)+(?![^\s(),])", " ".join(bound)):
                found.setdefault(name, path)
    found.setdefault("Goes_on", "crates/console/specs/Held.antt")
    return found


# what the general rule would give the name of one of the library's functions
OTHERWISE = {"bit-and": "bit_of_and", "bit-or": "bit_of_or", "bit-xor": "bit_of_xor"}


def spelled(name):
    if name in OTHERWISE:
        return OTHERWISE[name]
    parts = re.split("[-_]" if name[0].isupper() else "-", name)
    if name[0].isupper():
        return "".join(p[:1].upper() + p[1:] for p in parts)
    return "_".join(p.lower() if len(p) == 1 and p.isascii() else p for p in parts)


def foreign(text):
    """The names that a file brings in from a library that is not this repository's."""
    own = set(os.listdir("crates"))
    names = set()
    for m in re.finditer(r"(?:ghost )?use ([\w.+'′·◌-]+)\.\{([^}]*)\}", text):
        crate = re.match(r"Rattle\.(\w+)", m.group(1))
        if not (crate and crate.group(1) in own):
            names |= {n.strip() for n in m.group(2).split(",")}
    return names


def written(m, names):
    """A word's new name. After a dot, what ends in -is says what a variable is, and is a name that Rattle makes."""
    word = m.group(0)
    if word.endswith("-is") and m.string[: m.start()].endswith("."):
        return word
    return names.get(word, word)


def respelled(text, names, comment):
    """The text with the names that are not in a comment or a string written anew."""
    out = []
    for line in text.splitlines(keepends=True):
        code, mark, rest = line.partition(comment)
        if code.count('"') % 2:
            code, mark, rest = line, "", ""
        parts = re.split(r'("(?:[^"\\]|\\.)*")', code)
        parts = [p if p.startswith('"') else NAME.sub(lambda m: written(m, names), p) for p in parts]
        out.append("".join(parts) + mark + rest)
    return "".join(out)


def main(argv):
    found = defined()
    names = {n: spelled(n) for n in found}
    if argv:
        back = {}
        for n, to in names.items():
            back.setdefault(to, []).append(n)
        for to, ns in back.items():
            if len(ns) > 1:
                print("fall together:", to, ns)
        for path in [*files(".antt"), *files(".rt")]:
            text = read(path)
            theirs = foreign(text)
            words = set(NAME.findall(text))
            for n, to in names.items():
                if n in theirs:
                    print("the library's too:", n, path)
                if n in words and (to in words or to in theirs):
                    print("stands already:", to, path)
        return 0
    for path in [*files(".antt"), *files(".rt")]:
        text = read(path)
        theirs = foreign(text)
        mine = {n: to for n, to in names.items() if n not in theirs}
        new = respelled(text, mine, "--" if path.endswith(".antt") else "//")
        if new != text:
            with open(path, "w", encoding="utf-8") as f:
                f.write(new)
    return 0


if __name__ == "__main__":
    raise SystemExit(main(sys.argv[1:]))
