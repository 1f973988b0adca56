#!/usr/bin/env python3
"""The repository's own `if◌then◌else◌` goes: rt ci refuses a second one beside std's, which means the same. Imports are turned. Run once, at the top."""
import os
import re

WORD = "if◌then◌else◌"
OWN = re.compile(r"^(?P<head>(?:ghost )?use )Rattle\.foundation\.specs\.Choices\.\{(?P<names>[^}]*)\}(?P<tail>;?)\n", re.M)


def turned(text):
    m = OWN.search(text)
    if not m or WORD not in m["names"]:
        return text
    names = [n for n in re.split(r",\s*", m["names"].strip()) if n and n != WORD]
    line = f"{m['head']}Rattle.foundation.specs.Choices.{{{', '.join(names)}}}{m['tail']}\n" if names else ""
    text = text[:m.start()] + line + text[m.end():]
    std = re.search(r"^(?:ghost )?use Rattle\.std\.specs\.Prelude\.\{([^}]*)\};?\n", text, re.M)
    if std:
        return text[:std.end(1)] + ", " + WORD + text[std.end(1):]
    return text[:m.start()] + f"{m['head']}Rattle.std.specs.Prelude.{{{WORD}}}{m['tail']}\n" + text[m.start():]


for folder, dirs, files in os.walk("crates"):
    dirs[:] = [d for d in dirs if d != "out"]
    for f in files:
        if f.endswith((".antt", ".rt")):
            path = os.path.join(folder, f)
            with open(path, encoding="utf-8") as it:
                old = it.read()
            new = turned(old)
            while new != turned(new):
                new = turned(new)
            if new != old:
                with open(path, "w", encoding="utf-8") as it:
                    it.write(new)
