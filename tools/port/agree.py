#!/usr/bin/env python3
"""After spell.py: a lemma inside a module with parameters keeps its old dashes where spell.py didn't see its definition, while the files that
import it have the new name. This gives such a definition the name by which it is imported. usage: tools/port/agree.py [CRATE..]"""
import os
import re
import sys

ROOT = os.path.join(os.path.dirname(os.path.abspath(__file__)), "..", "..")
WORD = re.compile(r"[^\W\d][\w'·₀-₉-]*")
USE = re.compile(r"use Rattle\.(\w+)\.(specs|proofs)\.([\w.]+?)\.\{([^}]*)\}")


def plain(w):
    return w.replace("-", "_")


def main(crates):
    changed = 0
    for crate in crates or sorted(os.listdir(os.path.join(ROOT, "crates"))):
        for sub in ("specs", "proofs"):
            for folder, dirs, files in os.walk(os.path.join(ROOT, "crates", crate, sub)):
                for f in sorted(files):
                    if f.endswith(".antt"):
                        changed += turn(os.path.join(folder, f), crate, sub)
    print(changed, "names")


IMPORTS = {}


def imports():
    """By file of definitions, the names that other files import from it."""
    if not IMPORTS:
        for folder, dirs, files in os.walk(os.path.join(ROOT, "crates")):
            for f in files:
                if f.endswith((".antt", ".rt")):
                    with open(os.path.join(folder, f), encoding="utf-8") as it:
                        for m in USE.finditer(it.read()):
                            IMPORTS.setdefault((m.group(1), m.group(2), m.group(3)), set()).update(WORD.findall(m.group(4)))
    return IMPORTS


def turn(path, crate, sub):
    module = os.path.relpath(path, os.path.join(ROOT, "crates", crate, sub))[:-5].replace("/", ".")
    wanted = imports().get((crate, sub, module), set())
    with open(path, encoding="utf-8") as f:
        text = f.read()
    here = set(WORD.findall(text))
    names = {}
    for w in wanted:
        if w not in here:
            for old in here:
                if plain(old) == plain(w) and re.search(r"(?m)^ *(?:pub |abbrev |unfoldable )*" + re.escape(old) + r"[ :]", text):
                    names[old] = w
    if not names:
        return 0
    text = WORD.sub(lambda m: names.get(m.group(0), m.group(0)), text)
    with open(path, "w", encoding="utf-8") as f:
        f.write(text)
    print(os.path.relpath(path, ROOT), names)
    return len(names)


if __name__ == "__main__":
    main(sys.argv[1:])
