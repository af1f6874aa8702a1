#!/usr/bin/env python3
"""Respells this repository's own definitions and lemmas as today's Rattle does: words in snake case, types in camel case.

usage: tools/respell.py [FOLDER]

port.py respells only some names; this was run once, right after it, and is kept so that the port can be made again from the commit that had landed.
It rewrites whole names in the .antt and .rt files below crates/ and, in backquotes, in the pages; strings keep theirs.
A second run changes nothing. It stops, and writes nothing, where two names of one file would fall together.
"""
import os
import re
import sys

# lemmas that would have the name of the definition that they are about (CONTRACT_STYLE.md, "Names", 3); these go first
LEMMAS = {n: n + "_lem" for n in "on_value one_holds in_order left_over passed_on read_as is_made is_within".split()}
LEMMAS["no_number"] = "not_a_number"
# a definition that is a fact, and lemmas about what the library calls get_or now
OTHER = {"onMade": "OnMade", "getD-end": "get_or-end", "getD-scaled": "get_or-scaled", "inPlaceOf8": "in_place_of_8"}
# fields and definitions of specs/ whose words a dash joined
DASHED = """all-backends all-lens all-values few-ids few-rules from-known giver-in held-ids held-sizes held-volumes held-weights ids-row in-unit
load-exact p1-entries p1-ledger receiver-in same-bits share-exact sheet-read table-read to-known""".split()
CAMEL = re.compile(r"(?:[A-Za-z]\w*-)*[a-z][a-z0-9]*[A-Z][A-Za-z0-9]*(?:-\w+)*")
NAME = re.compile(r"\"(?:[^\"\\]|\\.)*\"|[^\s(){}\[\],;.\"«»@`?!:&*<>=]+")


def snake(name):
    return re.sub(r"(?<=[a-z0-9])([A-Z])", lambda m: "_" + m[1].lower(), name)


def new_name(name, no_lemma):
    if not no_lemma and name in LEMMAS:
        return LEMMAS[name]
    if name in OTHER:
        return OTHER[name]
    if name in DASHED:
        return name.replace("-", "_")
    return snake(name) if CAMEL.fullmatch(name) else name


pairs, changed = {}, {}


def turned(text, second, path):
    came = {}

    def one(m):
        old = m[0]
        # behind a dot or a colon stands a part of a path
        of_path = m.start() and text[m.start() - 1] in ".:"
        new = old if old[0] == '"' else new_name(old, second or of_path or path.endswith(".rt"))
        if new != old and old not in LEMMAS:
            changed[old] = new
        if came.setdefault(new, old) != old:
            pairs.setdefault((came[new], old), path)
        return new

    return NAME.sub(one, text)


def main(root):
    made = []
    for folder, dirs, files in os.walk(os.path.join(root, "crates")):
        dirs[:] = sorted(d for d in dirs if d not in ("out", "data"))
        for f in sorted(files):
            if f.endswith((".antt", ".rt")):
                path = os.path.join(folder, f)
                with open(path, encoding="utf-8") as it:
                    text = it.read()
                # a run over files that have the new spelling already leaves the lemmas alone
                made.append((path, text))
    second = not any(CAMEL.search(t) for p, t in made if p.endswith("specs/Limits.antt"))
    made = [(p, t, turned(t, second, p)) for p, t in made]
    pages = [os.path.join(root, "README.md")] + [os.path.join(root, "docs", f) for f in sorted(os.listdir(os.path.join(root, "docs"))) if f.endswith(".md") and f != "PORT.md"]
    for path in pages:
        with open(path, encoding="utf-8") as it:
            text = it.read()
        words = re.compile(r"(?<![\w'-])(?:" + "|".join(map(re.escape, sorted(changed, key=len, reverse=True))) + r")(?![\w'-])") if changed else None
        made.append((path, text, re.sub(r"`[^`\n]*`", lambda m: words.sub(lambda n: changed[n[0]], m[0]), text) if words else text))
    # a function of src/ and a definition may share a name: clauses and proofs name a function by its path alone
    code = set()
    for path, text, _ in made:
        code.update(re.findall(r"\bfn (\w+)", text) if path.endswith(".rt") else [])
    clashes = [f"{path}: {a} and {b}" for (a, b), path in pairs.items() if not {a, b} & code]
    if clashes:
        raise SystemExit("respell: these would be one name: " + "; ".join(clashes))
    n = 0
    for path, old, new in made:
        if new != old:
            n += 1
            with open(path, "w", encoding="utf-8") as it:
                it.write(new)
    print(f"respell: {n} files changed")


if __name__ == "__main__":
    main(sys.argv[1] if len(sys.argv) > 1 else ".")
