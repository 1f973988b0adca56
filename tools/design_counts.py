#!/usr/bin/env python3
"""Counts, in crates/*/src, the places of forms that today's Rattle says better, for docs/DESIGN-PASS.md.

    tools/design_counts.py            the counts, a line for each form
    tools/design_counts.py --places   and each place
    tools/design_counts.py --root DIR of another checkout

It goes by text: a place that it counts may be right as it is (docs/DESIGN-PASS.md says which are), and what it can't see
(a fact in clauses that are worded differently) is counted by reading.
"""
import argparse
import collections
import pathlib
import re

FUNCTION = re.compile(r"^( *)(pub(?:\(crate\))? )?fn (\w+)(?:<[^(]*>)?\(", re.M)
UNIT_WORDS = {"Nothing", "No", "None", "End", "Stray", "Absent", "Whole", "Sound", "Convertible", "NoRoom", "Dropped"}
REFUSAL_FIELDS = {"error", "stop", "fault"}
REFUSAL_WORDS = {"Refused", "Faulty", "NoRoom", "TooLong", "Empty", "NotAByte"}


def sources(root):
    for path in sorted((root / "crates").glob("*/src/*.rt")):
        text = path.read_text()
        code = re.sub(r"//[^\n]*", "", text)
        yield path.relative_to(root / "crates"), text, code


def line_of(text, at):
    return text.count("\n", 0, at) + 1


def enums(code):
    """(place, name, {variant: fields}) of each enum."""
    for found in re.finditer(r"\benum (\w+)(?:<[^>]*>)? \{(.*?)\n\s*\}\n", code, re.S):
        variants = {}
        for variant in re.finditer(r"(\w+)\s*(\{[^}]*\}|\([^)]*\))?\s*,", found[2]):
            fields = re.findall(r"(\w+)\s*:", variant[2] or "") or ([variant[2]] if variant[2] else [])
            variants[variant[1]] = fields
        yield found.start(), found[1], variants


def functions(code):
    """(place, name, parameters, header, body) of each function."""
    for found in FUNCTION.finditer(code):
        depth, at = 1, found.end()
        while depth:
            depth += {"(": 1, ")": -1}.get(code[at], 0)
            at += 1
        parameters = code[found.end() : at - 1]
        end = re.compile(r"[\n ]\{\n").search(code, at)
        if not end:
            continue
        end = end.start()
        close = code.find("\n" + found[1] + "}", end)
        yield found.start(), found[3], parameters, code[at:end], code[end:close]


def option_shape(variants):
    empty = [v for v, fields in variants.items() if not fields]
    return len(variants) == 2 and len(empty) == 1 and empty[0] in UNIT_WORDS and not result_shape(variants)


def result_shape(variants):
    refusals = [v for v, fields in variants.items() if v in REFUSAL_WORDS or (set(fields) & REFUSAL_FIELDS)]
    return bool(refusals) and len(refusals) < len(variants)


def tokens(body):
    return re.findall(r"\w+|[^\w\s]", body)


def shape(name, body):
    """The tokens of a body, with no difference of type, size or constant, and none of its own name."""
    out = []
    for token in tokens(body):
        if re.fullmatch(r"u8|u16|u32|u64|usize|i32", token):
            out.append("TYPE")
        elif re.fullmatch(r"\d\w*|[A-Z][A-Z0-9_]+", token):
            out.append("CONSTANT")
        elif token == name:
            out.append("SELF")
        elif re.fullmatch(r"[a-z]\w*", token):
            out.append("name")
        else:
            out.append(token)
    return tuple(out)


def loops(code):
    """(place, 'index' or 'cursor', test) of each loop by `while` or `loop`."""
    for found in re.finditer(r"\n(\s*)(while [^{]*|loop )\{\n(.*?)\n\1\}", code, re.S):
        test, body = found[2], found[3]
        names = set(re.findall(r"[a-z_]\w*", test)) | (set(re.findall(r"[a-z_]\w*", body)) if test == "loop " else set())
        by_hand = any(re.search(rf"\b{name} [+-]= 1;", body) for name in names)
        yield found.start() + 1, "index" if by_hand else "cursor", test.strip()


def count(root):
    places = collections.defaultdict(list)
    shapes = collections.defaultdict(list)
    requires = collections.defaultdict(list)
    groups = collections.defaultdict(list)
    for path, _, code in sources(root):
        def add(form, at, what):
            places[form].append(f"{path}:{line_of(code, at)} {what}")

        for at, name, variants in enums(code):
            if re.search(r"(Error|Fault|Stop|Refusal)$", name):  # an error, which an answer holds
                continue
            if result_shape(variants):
                add("1 enum of the shape of Result", at, name)
            elif option_shape(variants):
                add("1 enum of the shape of Option", at, name)
        for found in re.finditer(r"\bfn (error|stop)\(self\)", code):
            add("1 method that takes the refusal out of a refused answer", found.start(), found[1])
        for found in re.finditer(r"\b(kind|role|projection|source|operation): u8\b", code):
            add("1 number for a kind", found.start(), found[0])
        for found in re.finditer(r"\brefused\(\d+, ", code):
            add("1 number for a refusal", found.start(), found[0] + "..)")
        for at, kind, test in loops(code):
            form = "3 loop that counts an index by hand" if kind == "index" else "3 loop by a cursor (none to change by itself)"
            add(form, at, test)
        for found in re.finditer(r"\bfn (wide\w*|least|greatest|eq|ne|cmp|lt|le|clone|copied|fmt|same\w*|one_if)\(", code):
            add("4 equality, order, conversion by hand", found.start(), found[1])
        for at, name, parameters, header, body in functions(code):
            names = re.findall(r"(\w+): ([^,]+)", parameters)
            for clause in re.findall(r"requires(?: \w+)? \{ (.*) \}", header):
                for fact in re.split(r" × (?![^(]*\))", clause):
                    requires[fact.strip("()")].append(f"{path} {name}")
            for i, one in enumerate(names):
                for other in names[i + 1 :]:
                    groups[(one[0], other[0])].append(f"{path} {name}")
            if len(tokens(body)) > 25:
                shapes[shape(name, body)].append(f"{path}:{line_of(code, at)} {name}")
    for same in shapes.values():
        if len(same) > 1:
            places["2 functions of one shape"].append(" = ".join(same))
    for fact, where in requires.items():
        if len(where) > 2:
            places["5 fact in the `requires` of three or more functions"].append(f"{len(where)} times: {fact}")
    for pair, where in groups.items():
        if len(where) >= 10:
            places["5 pair of parameters in ten or more functions"].append(f"{len(where)} times: {pair[0]}, {pair[1]}")
    return places


def main():
    parser = argparse.ArgumentParser(description=__doc__.splitlines()[0])
    parser.add_argument("--places", action="store_true")
    parser.add_argument("--root", type=pathlib.Path, default=pathlib.Path(__file__).resolve().parent.parent)
    arguments = parser.parse_args()
    for form, where in sorted(count(arguments.root).items()):
        print(f"{form}: {len(where)}")
        if arguments.places:
            for place in where:
                print(f"    {place}")


if __name__ == "__main__":
    main()
