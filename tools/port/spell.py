#!/usr/bin/env python3
"""Brings the definitions and lemmas of this repository to the spelling of today's Rattle, after /opt/rattle/port/port.py. Run once, at the top.

Words are in snake case: `readVarint` is `read_varint`. A dash joins two names, as in `length-drop`; it stays where both sides are names of
definitions, and is `_` where one is a plain word. A type and what belongs to it are joined by a dash in place of a middle dot:
`Class·fq-name` is `Class-fq_name`. Names of functions of src/, exported names, strings, inputs and outputs stay.
With --list the renamings are printed, old and new. It stops, and writes nothing, where two names would fall together.
"""
import collections
import os
import re
import sys

WORD = re.compile(r"[^\W\d][\w'·₀-₉-]*")
COMMENT = re.compile(r"(?:--|//).*")
USES = re.compile(r"use\s*([\w.+'·-]*?)\.?\{([^}]*)\}")
DEFINED = re.compile(r"^(?:abbrev |unfoldable |opaque |private )*(?:pub )?(?:data |record )?([^\W\d][\w'·₀-₉-]*)(?= .*:|\s*:)")
# lemmas that would have the name of their own definition, and names that port.py could not know
BY_HAND = {
    "at_in": "at_in_lem", "both_of": "both_of_lem", "bytes_read": "bytes_read_lem", "cut_all": "cut_all_lem", "function_of": "function_of_lem",
    "goes_on": "goes_on_lem", "if_none": "if_none_lem", "left_in": "left_in_lem", "not_plain": "not_plain_lem", "nothing_read": "nothing_read_lem",
    "of_function": "of_function_lem", "one_more": "one_more_lem", "place_after": "place_after_lem", "get_d_front": "get_or-front",
    "getD-far": "get_or-far", "getD-last": "get_or-last", "notAByte": "not_a_byte", "entry_IsPlace": "entry_IsPlace", "is_IsBody": "is_IsBody",
    "DESC-TO-CLASS-ID": "DESC_TO_CLASS_ID", "INTERNAL-TO-CLASS-ID": "INTERNAL_TO_CLASS_ID",
}
# words of std that lemmas are named after
STD = set("map length take drop set replicate append reverse get_or slice_index zero suc max min true false not cond fold sum".split())


def snake(word):
    return re.sub(r"(?<=[a-z0-9])([A-Z])", lambda m: "_" + m.group(1).lower(), word)


def is_camel(word):
    return word[0].islower() and re.search(r"[a-z0-9][A-Z]", word)


def files(root):
    for folder, dirs, names in os.walk(os.path.join(root, "crates")):
        dirs[:] = sorted(d for d in dirs if d != "out")
        for name in sorted(names):
            if name.endswith((".antt", ".rt", ".edit")):
                yield os.path.join(folder, name)


def is_answer(path):
    return path.endswith(("Proof.antt", "Answers.antt", "Invariants.antt"))


def main(root, listing):
    text = {p: open(p, encoding="utf-8").read() for p in files(root)}
    antt = {p: t for p, t in text.items() if p.endswith(".antt")}
    words = collections.Counter(w for t in antt.values() for w in WORD.findall(COMMENT.sub("", t)))
    defined = collections.defaultdict(set)  # of a file
    specs, laws = set(), set()
    for p, t in antt.items():
        if is_answer(p) or p.endswith("Lib.antt"):
            continue
        for line in t.split("\n"):
            m = DEFINED.match(line)
            if m:
                defined[p].add(m.group(1))
                (specs if "/specs/" in p else laws).add(m.group(1))
        for line in t.split("\n"):  # constructors and fields
            if "/specs/" in p and re.match(r" +(?:pub )?[^\W\d][\w -]* : ", line):
                specs.update(WORD.findall(line.split(" : ")[0].replace("pub ", "")))
    change = {w: snake(w) for w in words if is_camel(w)}
    for w in specs | laws:
        if "·" in w:
            head = w.split("·")
            change[w] = "-".join(x if x[0].isupper() else x.replace("-", "_") for x in head)
    for w in list(change):
        if w in BY_HAND:
            change[w] = BY_HAND[w]
    change.update({k: v for k, v in BY_HAND.items() if k in words})
    names = {change.get(w, w) for w in specs} | STD
    now_there = {v for k, v in change.items() if "-" not in k} | {w for w in specs | laws if w not in change and "-" not in w}
    dashed = {}
    for w in laws:
        if "-" in w and "·" not in w and w not in BY_HAND:
            now = change.get(w, snake(w))
            cuts = [i for i, ch in enumerate(now) if ch == "-"]
            keep = [i for i in cuts if now[:i].replace("-", "_") in names and now[i + 1:].replace("-", "_") in names]
            new = "".join("_" if ch == "-" and i not in keep[:1] else ch for i, ch in enumerate(now))
            if new in now_there:
                new += "_lem"
            change.pop(w, None)
            if new != w:
                dashed[w] = new
    everywhere = dict(change)
    # where names fall together
    bad = []
    by_new = collections.defaultdict(set)
    for old, new in {**everywhere, **dashed}.items():
        if old != new:
            by_new[new].add(old)
    for new, olds in by_new.items():
        if len(olds) > 1:
            bad.append(f"{sorted(olds)} would both be {new}")
    scope = {}
    for p, t in antt.items():
        own = set(defined[p])
        for m in USES.finditer(COMMENT.sub("", t)):
            own.update(w for w in WORD.findall(m.group(2)))
        scope[p] = own
    taken = specs | laws
    for old, new in dashed.items():
        if new in taken and new not in everywhere and new not in dashed:
            bad.append(f"{old} would be {new}, which is there")
    for old, new in everywhere.items():
        if new in taken and new not in everywhere and new not in dashed and old != new:
            bad.append(f"{old} would be {new}, which is there")
    for p, t in antt.items():
        here = set(WORD.findall(COMMENT.sub("", re.sub(r"use [\w.+'·-]+", "use ", t))))
        for old in dashed:
            if old in scope[p] and dashed[old] in here:
                bad.append(f"{p}: {old} would be {dashed[old]}, which stands there")
    if listing:
        for old, new in sorted({**everywhere, **dashed}.items()):
            if old != new:
                print(old, new)
    if bad:
        print("\n".join(sorted(set(bad))), file=sys.stderr)
        return 1
    if listing:
        return 0

    def turned(p, t):
        def word(m):
            w = m.group(0)
            if w in everywhere:
                # a module of a path and a step of a proof keep their names
                if w in BY_HAND and (t[m.start() - 1:m.start()] == "." or not p.endswith(".antt")):
                    return w
                return everywhere[w]
            if p.endswith(".antt") and w in dashed and (w in scope[p]) and t[m.start() - 1:m.start()] != ".":
                return dashed[w]
            return w

        return WORD.sub(word, t)

    for p, t in text.items():
        new = turned(p, t)
        if new != t:
            with open(p, "w", encoding="utf-8") as f:
                f.write(new)
    return 0


if __name__ == "__main__":
    raise SystemExit(main(os.path.join(os.path.dirname(os.path.abspath(__file__)), "..", ".."), "--list" in sys.argv[1:]))
