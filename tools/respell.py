#!/usr/bin/env python3
"""Brings the names of this repository's definitions and lemmas to one spelling: words in snake case, with `_` between them; types, facts and
modules keep their capital. It was run once, right after the toolchain's own script, and is kept so that the run can be made again.

usage: python3 tools/respell.py [--list]      at the top of the repository

Renamed is a name that a file of specs/, or a file of lemmas right below proofs/, declares (a definition, a lemma, a field, a `let`), and that begins in
lower case and has a `-` or a capital. Names that the toolchain makes for a function's goals, in proofs/FUNCTION/, are left. A definition may have the name of
the function whose answer it is: no clause can name a function. Any other two names that would fall together stop the script.
"""

import glob
import re
import sys

WORD = r"[^\s(){}\[\].;,@\"«»`:]+"
DECLARED = re.compile(rf"(?m)^ *(?:abbrev |unfoldable |opaque )?(?:pub )?({WORD})(?: +[{{(][^}})\n]*[}})])* :(?!:)")
LET = re.compile(rf"\blet ({WORD}) [:=]")
KEPT = {"SHIPPED", "TEST"}
# Names that would fall together with others.
APART = {"no-pair": "pair_of_no_item", "key-at": "key_stands", "value-at": "value_stands"}


def snake(name):
    words = re.sub(r"(?<=[a-z0-9])([A-Z]+)(?![a-z])", lambda m: "_" + m[1].lower(), name)
    words = re.sub(r"(?<=[a-z0-9])([A-Z])", lambda m: "_" + m[1].lower(), words)
    return words.replace("-", "_")


def is_shared(path):
    parts = path.split("/")
    return parts[2] == "specs" or (parts[2] == "proofs" and len(parts) == 4)


def table(texts):
    """Old names with their new ones."""
    names = set()
    for path, text in texts.items():
        if path.endswith(".antt") and is_shared(path):
            names |= {n for n in DECLARED.findall(text) + LET.findall(text) if n[0].islower()}
    rows = {n: APART.get(n, snake(n)) for n in names if snake(n) != n and n not in KEPT}
    code = " ".join(re.sub(r"--[^\n]*|//[^\n]*", " ", t) for t in texts.values())
    taken = set(re.findall(WORD, code)) - set(re.findall(r"\bfn (\w+)", code))
    for old, new in rows.items():
        if new in taken or sum(n == new for n in rows.values()) > 1:
            sys.exit(f"{old} would meet {new}: name it apart in APART")
    return rows


def pattern(rows):
    words = "|".join(map(re.escape, sorted(rows, key=len, reverse=True)))
    return re.compile(rf"(?<![^\s(){{}}\[\].;,@\"«»`:←]){'(?:' + words + ')'}(?![^\s(){{}}\[\].;,@\"«»`:'])")


def turn(path, text, rows):
    parts = path.split("/")
    if parts[0] == "docs" or parts[-1] == "README.md":
        return re.sub(r"`[^`\n]+`", lambda m: pattern(rows).sub(lambda n: rows[n[0]], m[0]), text)
    if not (parts[2] == "proofs" and len(parts) > 4):
        return pattern(rows).sub(lambda m: rows[m[0]], text)
    # In a function's own proof what it imports is renamed, and fields; the rest is the toolchain's.
    brought = set(re.findall(rf"\.({WORD})", text)) - set(re.findall(rf"\b(?:tie|[\w-]*reads|[\w-]*lts)\.({WORD})", text))
    for items in re.findall(r"(?m)^use Rattle\.\w+\.(?:specs|proofs)\.[\w.]+\{([^}\n]*)\}", text):
        brought |= {w.split(" as ")[0].strip() for w in items.split(",")}
    here = {o: n for o, n in rows.items() if o in brought}
    return pattern(here).sub(lambda m: here[m[0]], text) if here else text


def main():
    found = glob.glob("crates/**/*", recursive=True) + glob.glob("docs/*.md") + ["README.md"]
    paths = sorted(p for p in found if p.endswith((".antt", ".rt", ".edit", ".md")) and "/out/" not in p)
    texts = {p: open(p, encoding="utf-8").read() for p in paths}
    rows = table({p: t for p, t in texts.items() if p.endswith((".antt", ".rt"))})
    for old in sorted(rows):
        print(old, rows[old])
    if "--list" in sys.argv:
        return
    for path, text in texts.items():
        new = turn(path, text, rows)
        if new != text:
            with open(path, "w", encoding="utf-8") as f:
                f.write(new)


if __name__ == "__main__":
    main()
