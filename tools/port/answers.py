#!/usr/bin/env python3
"""Turns the Proof.antt files of a crate that were made of templates into today's Invariants.antt and Answers.antt.

usage: tools/port/answers.py CRATE [FUNCTION..]     at the top, after port.py and spell.py; the crates below are proved

`rt check --generated DIR --old-names` tells today's names of goals, steps and what patterns bind. An old answer cites a step by how far back it
is, `c.before.before.if1.true`; today's by its name, `c.if-count-lt10.true`. Answers that only say 'search rules' are left out, since the check
tries that itself. What could not be turned is told, and marked by TODO in the file. Files without a template stay as they are.
"""
import json
import os
import re
import shutil
import subprocess
import sys
import tempfile

ROOT = os.path.join(os.path.dirname(os.path.abspath(__file__)), "..", "..")
NAME = r"[^\W\d][\w'·₀-₉-]*"
PATH = re.compile(r"(?<![\w.'])c((?:\.before)*)\.([^\W\d][\w'-]*)((?:\.[\w'-]+)*)")


def plain(name):
    return name.removesuffix("_lem").lower().replace("-", "_")


def generated(crate, folder):
    """names.json of the crate, made with its Proof files out of the way."""
    where = os.path.join(ROOT, "crates", crate)
    aside = tempfile.mkdtemp(prefix="aside-")
    moved = []
    for at, dirs, files in os.walk(os.path.join(where, "proofs")):
        for f in files:
            if f == "Proof.antt":
                to = os.path.join(aside, str(len(moved)))
                shutil.move(os.path.join(at, f), to)
                moved.append((to, os.path.join(at, f)))
    try:
        r = subprocess.run(["rt", "check", "--generated", folder, "--old-names"], cwd=where, capture_output=True, text=True)
    finally:
        for to, was in moved:
            shutil.move(to, was)
        shutil.rmtree(aside)
    path = os.path.join(folder, "names.json")
    if not os.path.exists(path):
        sys.exit("no names: " + (r.stdout + r.stderr)[-1500:])
    with open(path) as f:
        return json.load(f)


class Function:
    def __init__(self, crate, told, said):
        self.told, self.said = told, said
        self.steps, self.callee, self.fields = {}, {}, {}
        for place in told["places"]:
            old, new = place[2]
            if old:
                self.steps.setdefault(plain(old), new)
                if place[3]:
                    self.callee[plain(old)] = place[3]
                self.fields.setdefault(plain(old), {}).update({a: b for a, b in place[4]})
        self.arms = {}
        for arm in told["arms"]:
            if arm:
                for field, step, path in arm[2]:
                    self.arms.setdefault(plain(step), []).append((tuple(path), arm[0], field))
        self.typed = {plain(step): field for place in told["typed"] for field, step in place}
        self.needs = {old.replace("_", "-"): new for old, new in told["needs"]}
        self.settled = set(told["settled"])
        self.loops = {old: (new, params) for (old, new), params in told["loops"]}
        self.changed = {old: flags for ((old, new), params), flags in zip(told["loops"], told["changed"])}

    def todo(self, what):
        self.said.append(what)

    def path(self, m):
        step, rest = m.group(2), [x for x in m.group(3).split(".") if x]
        if step in ("args", "requires", "lifetimes", "well_formed", "ranges", "type_inv"):
            return ".".join(["c", step, *rest])
        key = plain(step)
        known = self.arms.get(key, [])
        if key.startswith("match") and rest and re.match(r"keys\d|rest", rest[0]):
            others = sorted({arm for path, arm, field in known if field.endswith("-own") and arm.startswith("in-")})
            if any(arm.startswith("in_default") for path, arm, field in known) and len(others) == 1 and rest[0] != "rest":
                default = next(arm for path, arm, field in known if arm.startswith("in_default"))
                return f"c.{default}.not-{others[0][3:]}"
        for length in range(len(rest), 0, -1):
            for path, arm, field in known:
                if tuple(rest[:length]) == path:
                    return ".".join(["c", arm, field, *rest[length:]])
        if key in self.typed and rest[:1] == ["given"]:
            return ".".join(["c", "type_inv", self.typed[key], *rest[1:]])
        if key not in self.steps:
            near = [k for k in self.steps if k.startswith(key) or key.startswith(k)]
            self.todo(f"step {step} {'.'.join(rest)}: not there; near: {near[:4]}")
            return "TODO." + m.group(0)
        new = self.steps[key]
        if rest and rest[0] in ("new", "auto") and key in self.callee:
            params = self.told["params"].get(self.callee[key], [])
            n = 1
            while n < len(rest) and rest[n] == "1":
                n += 1
            if n < len(rest) and rest[n] == "0" and n - 1 < len(params):
                return ".".join(["c", new, rest[0], params[n - 1], *rest[n + 1:]])
            self.todo(f"step {step} {'.'.join(rest)}: parameters {params}")
        if rest and rest[0] in self.fields.get(key, {}):
            rest[0] = self.fields[key][rest[0]]
        if rest and rest[0] == "given":
            self.todo(f"step {step} {'.'.join(rest)}: arms {known[:3]}")
        return ".".join(["c", new, *rest])

    def need(self, name):
        name = re.sub(r"^(overflow|nonzero|bounds|slice-bounds)-", "", name) if name.replace("_", "-") not in self.needs else name
        return self.needs.get(name.replace("_", "-"))


def blocks(text):
    """The declarations of a file: lists of lines, comments left out."""
    out, now = [], []
    for line in text.split("\n"):
        if line.startswith("-- src/"):
            continue
        if not line.strip():
            if now:
                out.append(now)
            now = []
        else:
            now.append(line)
    if now:
        out.append(now)
    return out


def loop_body(function, old, params, body):
    """The body of an invariant or a measure, over l."""
    new, names = function.loops[old]
    flags = function.changed.get(old) or [False] * len(names)
    # the old parameters: each variable as it began (with ₀ where it changes), then those that change
    used = {}
    for p in params:
        base = p.rstrip("₀")
        used[p] = f"l.initial.{base}" if p.endswith("₀") else f"l.{base}"
    if any(p not in ("_",) and p.rstrip("₀") not in names for p in params):
        function.todo(f"loop {old}: parameters {params}, variables {names}")
    for p in sorted(used, key=len, reverse=True):
        body = re.sub(r"(?<![\w.'·₀-₉-])" + re.escape(p) + r"(?![\w'·₀-₉-])", used[p], body)
    return body


STEP = r"c(?:\.before)*(?![\w.'-])"


def written_out(text, bodies):
    """Helpers over a step of the code, and answers that other answers cite, written out where they stand: a step has no type to name now."""
    if not bodies:
        return text
    cited = re.compile(r"(?<![\w.'-])(" + "|".join(map(re.escape, sorted(bodies, key=len, reverse=True))) + r") (" + STEP + ")")

    def out(m):
        var, body = bodies[m.group(1)]
        body = re.sub(r"(?<![\w.'-])" + re.escape(var) + r"(?![\w'-])", m.group(2), " ".join(body.split()))
        alone = " " not in body or re.fullmatch(r"\([^()]*(?:\([^()]*\)[^()]*)*\)(?:\.[\w'-]+)+", body) or m.string[m.start() - 1:m.start()] == "(" and m.string[m.end():m.end() + 1] == ")"
        return body if alone else f"({body})"

    for _ in range(20):
        text, n = cited.subn(out, text)
        if not n:
            break
    return text


def bodies_of(text):
    """Of each helper over a step, and of each answer that is no tactic alone: its variable, its body."""
    bodies = {}
    for block in blocks(text):
        head = re.match(r"(?:abbrev )?([^\s:]+)\s*:\s*(?:\(c : tie\.[A-Z]|tie\.[A-Z])", re.sub(r"^(--.*\n)*", "", "\n".join(block)))
        if not head:
            continue
        line = next((i for i, x in enumerate(block) if re.match(re.escape(head.group(1)) + r" [^:]*=", x)), None)
        if line is None:
            continue
        left, body = "\n".join(block[line:]).split("=", 1)
        if len(left.split()) == 2 or left.split()[2:] == ["κs"]:
            bodies[head.group(1)] = (left.split()[1], body.strip())
    return bodies


def turn(crate, at, told):
    said = []
    function = Function(crate, told, said)
    with open(os.path.join(at, "Proof.antt"), encoding="utf-8") as f:
        text = f.read()
    uses, answers, invariants, helpers = [], [], [], []
    bodies = bodies_of(text)
    for block in blocks(text):
        while len(block) > 1 and block[0].startswith("--") and any(x.startswith("use ") for x in block):
            block = block[1:]
        if block[0].startswith("use "):
            # use lines, with what they wrap
            for line in block:
                if line.startswith("use "):
                    uses.append(line)
                else:
                    uses[-1] += "\n" + line
            continue
        first = next((i for i, x in enumerate(block) if not x.startswith("--")), 0)
        head = re.match(r"(?:abbrev )?(?:pub )?([^\s:]+)\s*:\s*(.*)", block[first])
        if head and head.group(1) in bodies and not head.group(2).startswith("tie.Need"):
            continue
        head = head if first == 0 else None
        if not head:
            helpers.append("\n".join(block))
            continue
        name, typed = head.groups()
        if name.endswith("-spec") or name.endswith("_spec") or "statement M" in typed:
            continue
        loop = re.match(r"(invariant|decreases)-(loop\d*)$", name)
        if loop and "tie." in typed:
            old = loop.group(2)
            line = next(i for i, x in enumerate(block) if i and re.match(re.escape(name) + r"[ =]", x))
            params, body = "\n".join(block[line:]).split("=", 1)
            if old not in function.loops:
                said.append(f"{name}: no loop {old}")
                continue
            new = function.loops[old][0]
            body = loop_body(function, old, params.split()[1:], body.strip())
            before = block[1:line]
            invariants.append("\n".join([f"abbrev pub {loop.group(1)}-{new} : goal.{loop.group(1)}-{new}", *before, f"{loop.group(1)}-{new} l = {body}"]))
            continue
        need = re.match(r"tie\.Need-(\S+)", typed)
        if need:
            line = next((i for i, x in enumerate(block) if i and re.match(re.escape(name) + r" ", x)), None)
            if line is None:
                said.append(f"{name}: not understood")
                continue
            left, body = "\n".join(block[line:]).split("=", 1)
            if body.strip() in ("search rules", "search needs"):
                continue
            new = function.need(need.group(1)) or function.need(name)
            if new is None and name == "same_length":
                continue
            if new is None:
                said.append(f"{name} (Need-{need.group(1)}): no such goal now, left out" + (" (settled)" if plain(name) in {plain(s) for s in function.settled} else ""))
                continue
            if "κs" in left and re.search(r"κs", body):
                said.append(f"{name}: κs is used")
            body = PATH.sub(function.path, written_out(body, bodies))
            body = re.sub(r"not-(?:true|false) (?:[^\s()]+|\([^()]*\)) (c\.[\w.'-]+\.(?:true|false))-raw", r"\1", body)
            body = body.lstrip(" ")
            answers.append("\n".join([f"pub {new} : goal.{new}", *block[1:line], f"{new} c ={body if body.startswith(chr(10)) else ' ' + body}"]))
            continue
        helpers.append("\n".join(block))
    module = f"Rattle.{crate}.proofs." + os.path.relpath(at, os.path.join(ROOT, "crates", crate, "proofs")).replace("/", ".")
    uses = [re.sub(r"use borrow\.Author\.Tests\.", "use Rattle.std.proofs.lemmas.Bool.", u) for u in uses]
    keep = [u for u in uses if not re.search(r"\.(Statement|Tie|Reads|Lts)\b|borrow\.Author", u)]
    if any("rules" in a for a in answers + helpers):
        keep.insert(0, "use Rattle.std.proofs.Common.{rules}")
    words = "\n".join(answers + helpers + invariants)
    keep = [u for u in keep if not (m := re.match(r"use \S+?\.\{([^}]*)\}$", u)) or any(w.split(" as ")[-1].strip() in words or "◌" in w for w in m.group(1).split(","))]
    for u in uses:
        m = re.match(r"use \S+ as (" + NAME + r")$", u)
        if m and u in keep and not re.search(r"\b" + re.escape(m.group(1)) + r"\.", words):
            keep.remove(u)
    for file, what, goals in (("Invariants", invariants, "Given"), ("Answers", helpers + answers, "Goals")):
        if any("goal." in x for x in what):
            with open(os.path.join(at, file + ".antt"), "w", encoding="utf-8") as f:
                f.write("\n".join([*keep, f"use {module}.{goals} as goal"]) + "\n\n" + "\n\n".join(what) + "\n")
    os.remove(os.path.join(at, "Proof.antt"))
    template = os.path.join(at, "answers.txt")
    if os.path.exists(template):
        os.remove(template)
    if not os.listdir(at):
        os.removedirs(at)
    return said


def main(crate, wanted):
    top = os.path.join(ROOT, "crates", crate, "proofs")
    folder = tempfile.mkdtemp(prefix="names-")
    names = generated(crate, folder)
    shutil.rmtree(folder)
    for at, dirs, files in sorted(os.walk(top)):
        if "Proof.antt" not in files:
            continue
        path = os.path.relpath(at, top)
        if wanted and os.path.basename(path) not in wanted and path not in wanted:
            continue
        told = names.get(f"Rattle-{crate}-proofs.{path.replace('/', '.')}.Lts")
        with open(os.path.join(at, "Proof.antt"), encoding="utf-8") as f:
            made = "tie.close" in f.read()
        if told is None or not made:
            print(f"{path}: stays ({'no names' if told is None else 'a walk by hand'})")
            continue
        for line in turn(crate, at, told):
            print(f"{path}: {line}")


if __name__ == "__main__":
    if len(sys.argv) < 2:
        sys.exit(__doc__)
    main(sys.argv[1], sys.argv[2:])
