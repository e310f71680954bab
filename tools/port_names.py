#!/usr/bin/env python3
"""Spells this repository's own definitions and lemmas as Rattle does: words in snake case, a dash only between two names.

usage: python3 tools/port_names.py            at the top of the repository, once, after port.py
       python3 tools/port_names.py --list     writes nothing, prints a row for each name: old, new

What turns: definitions, fields and lemmas that specs/ and proofs/*.antt declare, wherever an antt file, a clause or a comment of a .rt file has them
as a whole word. Names of src/ stay, and so do the names of goals that a function's proof answers. Of two names that would fall together neither turns.
A name that a file imports from a library stays in that file.
"""

import glob
import re
import sys

NAME = r"[^\s(){}.;,@\"«»]+"
DECLARED = re.compile(rf"(?m)^ *(?:(?:abbrev|unfoldable|pub|data|record|field) )*({NAME})(?: \{{[^{{}}\n]*\}})* :")
# Words of the library that a dash may join.
JOINED = set(
    "length take drop append map set get_or replicate reverse sum add sub mul div mod pow zero suc one two lt le eq min max nil cons filter zip fold "
    "table shl shr".split()
)


def read(path):
    with open(path, encoding="utf-8") as f:
        return f.read()


def camel(name):
    return re.sub(r"(?<=[a-z0-9])([A-Z])", lambda m: "_" + m[1].lower(), name)


def respelled(name, words):
    if name[:1].isupper() or not name[:1].isalpha():
        return name
    parts = [p if p[:1].isupper() else camel(p) for p in name.split("-")]
    if not all(parts):
        return name
    made = parts[0]
    for i in range(1, len(parts)):
        left = any("_".join(parts[j:i]) in words for j in range(i))
        right = any("_".join(parts[i:j]) in words for j in range(i + 1, len(parts) + 1))
        fact = parts[i][:1].isupper() or parts[i - 1][:1].isupper()
        made += ("-" if fact or (left and right) else "_") + parts[i]
    return made


def main(argv):
    texts = sorted(glob.glob("crates/*/specs/**/*.antt", recursive=True) + glob.glob("crates/*/proofs/**/*.antt", recursive=True))
    laws = [p for p in texts if not re.search(r"/proofs/.+/(Proof|Answers|Invariants)\.antt$", p)]
    code = sorted(glob.glob("crates/*/src/**/*.rt", recursive=True))
    contents = {p: read(p) for p in texts + code}
    definitions = set()
    declared = set()
    for p in laws:
        names = set(DECLARED.findall(contents[p]))
        declared |= names
        if "/specs/" in p:
            definitions |= {camel(n) for n in names if "-" not in n}
    words = definitions | JOINED
    # Words that stand in some file behind no dot, of antt's text, and names of parameters and fields of the code.
    present = {}
    for p, t in contents.items():
        found = re.findall(rf"(?<![^\s(){{}};,@\"«»]){NAME}", re.sub(r"(?m)(^|\s)--.*", "", t)) if p.endswith(".antt") else re.findall(r"(\w+): ", t)
        for word in found:
            present.setdefault(word, set()).add(p)
    table = {n: respelled(n, words) for n in sorted(declared)}
    table = {a: b for a, b in table.items() if a != b}
    wanted = {b for a, b in table.items() if "-" not in a}
    table["takenBack"] = "taken_back_of"
    for a, b in list(table.items()):
        # A lemma that would have its function's name.
        if "-" in a and (b in wanted or b in present):
            b = table[a] = b + "_lem"
        if present.get(a, set()) & present.get(b, set()):
            print(f"left: {a} would be {b}, which stands already", file=sys.stderr)
            del table[a]
    twice = [b for b in set(table.values()) if list(table.values()).count(b) > 1]
    for b in twice:
        print(f"left: {[a for a in table if table[a] == b]} would all be {b}", file=sys.stderr)
    table = {a: b for a, b in table.items() if b not in twice}
    if "--list" in argv:
        print("\n".join(f"{a}\t{b}" for a, b in table.items()))
        return 0
    own_crates = {p.split("/")[1] for p in contents}
    for p, t in contents.items():
        own = set(DECLARED.findall(t)) if p.endswith("/Proof.antt") else set()
        for path, names in re.findall(r"\buse ([^\s;{]+)\.\{([^}]*)\}", t):
            steps = path.split(".")
            if steps[0] != "Rattle" or steps[1] not in own_crates:
                own |= {w for n in names.split(",") for w in n.split()}

        def turn(m):
            word = m[0]
            return table[word] if word in table and word not in own else word

        made = re.sub(NAME, turn, t)
        # A comment of the code may cite a definition in backquotes.
        made = re.sub(r"(?<=`)([A-Za-z][\w-]*)(?=`)", turn, made)
        if made != t:
            with open(p, "w", encoding="utf-8") as f:
                f.write(made)
    print(f"{len(table)} names")
    return 0


if __name__ == "__main__":
    raise SystemExit(main(sys.argv[1:]))
