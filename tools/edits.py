#!/usr/bin/env python3
"""The wrong edits of definitions, crates/*/must-fail, and of bodies, crates/*/wrong-bodies: whether they fit, and whether the former were refused.

usage: tools/edits.py --check                  whether they fit the files
       tools/edits.py --refused LOG            LOG: what `rt ci` printed: whether each edit of a definition was refused
       tools/edits.py --names [CRATE..]        names the function of each edit of a body; has edits that change names bring the proof along, after a change
                                               of the edits, the code or its proofs

`rt ci` tries each file of must-fail by itself. An edit of a definition may fall on any function, so that it is refused anywhere is enough.

A file of wrong-bodies names the function that its edit falls on, in a line "# LABEL in FUNCTION: what is wrong"; LABEL is the file's name. It changes code, in
that function (or a constant or static that only it names). What a proof of a function needs is said by its own code and by contracts, definitions and laws, which the
edit doesn't change. So it must be refused at a goal of that function, or of one of those that are named, and not since its proof doesn't fit the code any
more: wrong_bodies.py tries them, those of a crate at once.

Goals and steps are named after the code, as `if-tag-lt8` after `tag < 8`. An edit that changes such a text changes the names, and the proof would be
refused for that alone. So after its pairs in src/ stand the lines of the proof with the names that are then right; --names writes them."""
import pathlib
import re
import sys
import tempfile

from wrong_answers import ROOT, copy_to, follow, functions_of, restore

PART = re.compile(r'^# (\w+) in (\w[\w:]*(?:, \w[\w:]*)*): (.*)$')
CONSTANT = re.compile(r'^(?:pub(?:\(crate\))? )?(?:const|static) (\w+)', re.M)
TRIED = re.compile(r'^rt: must-fail (\w+)/(\S+)\.edit: (.*)$', re.M)
AS_IT_MUST_BE = 'refused, as it must be'


class Part:
    """One wrong edit: its pairs of old and new text, the functions at whose goals it is refused, and what is wrong."""

    def __init__(self, crate, label, named, words):
        self.crate, self.label, self.named, self.words, self.pairs = crate, label, named, words, []

    def changed(self, known):
        """The functions that it changes: a constant is a part of each that names it. Nothing if some of it stands elsewhere."""
        found = set()
        for file, at, end in self.places():
            if found and file.startswith('proofs/') and at is not None:
                continue
            around = [f.path for f in known.values() if at is not None and f'src/{f.file}' == file and f.start <= at and end <= f.end][:1]
            around = around or [path for name in constants_at(self.crate, file, at, end) for path in naming(self.crate, name, known)]
            if not around:
                return set()
            found.update(around)
        return found

    def places(self):
        """Where its old texts stand: file, start and end. As rt has it, one after the other, each once in what the one before has left."""
        texts = {}
        for file, old, new in self.pairs:
            source = ROOT / 'crates' / self.crate / file
            # as it is edited, and as it was, with blanks for what is edited
            edited, text = texts.get(file) or [source.read_text() if source.is_file() else ''] * 2
            at = text.find(old) if edited.count(old) == 1 else None
            yield file, at, at and at + len(old)
            texts[file] = edited.replace(old, new), text.replace(old, '\0' * len(old))

    def lines(self):
        file = None
        yield f'# {self.label} in {", ".join(self.named)}: {self.words}'
        for at, old, new in self.pairs:
            if at != file:
                yield f'file: {at}'
            file = at
            yield f'old: {old}'
            yield f'new: {new}'.rstrip()


def constants_at(crate, file, at, end):
    """The constant or static of a source file that stands around a place, if one does."""
    if at is None or not file.endswith('.rt'):
        return []
    text = (ROOT / 'crates' / crate / file).read_text()
    return [found[1] for found in CONSTANT.finditer(text) if found.start() <= at and end <= text.index(';\n', found.end()) + 1]


def naming(crate, name, known):
    """The functions of a crate that name a constant; none if it is named elsewhere too, as by another constant."""
    found = set()
    for file in (ROOT / 'crates' / crate / 'src').glob('*.rt'):
        for place in re.finditer(rf'^(?!use ).*\b(?<!const )(?<!static ){name}\b', re.sub('//.*', lambda words: ' ' * len(words[0]), file.read_text()), re.M):
            around = [f.path for f in known.values() if f.file == file.name and f.start <= place.start() and place.end() <= f.end]
            if not around:
                return set()
            found.update(around)
    return found


def parts_of(path):
    """The edits of a file, and whether they name functions."""
    crate, parts, file, old, words = path.parent.parent.name, [], None, None, []
    for line in path.read_text().splitlines():
        if found := PART.match(line):
            parts.append(Part(crate, found[1], found[2].split(', '), found[3]))
        elif line.startswith('#'):
            words.append(line[1:].strip())
        elif line.startswith('file: '):
            file = line[len('file: '):]
        elif line.startswith('old: '):
            old = line[len('old: '):]
        elif line.startswith('new:'):
            if not parts:
                parts.append(Part(crate, path.stem, [], ' '.join(words)))
            parts[-1].pairs.append((file, old, line[len('new:'):].removeprefix(' ')))
    return parts, any(part.named for part in parts)


def files(folder, crates=()):
    return sorted(path for path in ROOT.glob(f'crates/*/{folder}/*.edit') if not crates or path.parent.parent.name in crates)


def definitions(crates=()):
    return files('must-fail', crates)


def bodies(crates=()):
    return files('wrong-bodies', crates)


def misfits(path):
    """Why the edits of a file don't fit the crate, or the file doesn't fit them."""
    parts, named = parts_of(path)
    if len(parts) > 1:
        yield f'{", ".join(part.label for part in parts)}: each edit needs a file'
    for part in parts:
        for (file, at, _), (_, old, _) in zip(part.places(), part.pairs):
            if at is None:
                yield f'{part.label}: its old text does not stand once in {file}: {old.strip()}'
    if named != (path.parent.name == 'wrong-bodies'):
        yield f'{path.stem}: an edit of a body names its function and stands in wrong-bodies, one of a definition names none and stands in must-fail'
    if not named:
        return
    known = functions_of(parts[0].crate)
    for part in parts:
        changed = part.changed(known)
        if not changed or not set(part.named) <= changed:
            yield f'{part.label}: it does not change {", ".join(part.named)}, or not only functions'
    if parts[0].label != path.stem:
        yield f'{parts[0].label}: its label is not the name of its file'


def tried(log):
    """What rt printed of each edit: crate and name -> words."""
    return {(crate, name): words for crate, name, words in TRIED.findall(log)}


def unrefused(path, said):
    """Why an edit of a definition was not refused as it must be."""
    words = said.get((path.parent.parent.name, path.stem), 'it was not tried')
    if not words.startswith(AS_IT_MUST_BE):
        yield words


def apart(edits, known):
    """Edits in groups of which no two change one function's proof."""
    groups = []
    for path, part in edits:
        places = {known[function].place for function in part.changed(known)}
        group = next((group for group in groups if not places & group[0]), None)
        if group is None:
            groups.append(group := (set(), []))
        group[0].update(places)
        group[1].append((path, part, places))
    return [group for _, group in groups]


def proof_pairs(crate, places, moved):
    """The lines of some proofs whose names are others, each as it is and as it must then be."""
    for place in sorted(places):
        for path in follow.files(ROOT / 'crates' / crate, place) if moved.get(place) else ():
            path = pathlib.Path(path)
            lines = [(line, follow.followed(line, moved[place])) for line in path.read_text().splitlines()]
            lines = [(old, new) for old, new in lines if old != new]
            while lines:
                # first one whose new text is not that of a line still to be edited
                at = next((at for at, (_, new) in enumerate(lines) if not any(old in new for old, _ in lines[:at] + lines[at + 1:])), 0)
                yield str(path.relative_to(ROOT / 'crates' / crate)), *lines.pop(at)


def bring_along(crates):
    """Writes the pairs of proofs into the edits of some crates that name functions."""
    with tempfile.TemporaryDirectory() as folder:
        copy = pathlib.Path(folder)
        copy_to(copy)
        for crate in sorted({path.parent.parent.name for path in bodies(crates)}):
            edits, known = [], functions_of(crate)
            for path in bodies([crate]):
                part = parts_of(path)[0][0]
                part.pairs = [pair for pair in part.pairs if not pair[0].startswith('proofs/')] if part.named else part.pairs
                changed = sorted(part.changed(known))
                part.named = part.named or (changed if len(changed) == 1 else [])
                if part.named:
                    edits.append((path, part))
            before = follow.names(ROOT / 'crates' / crate) if edits else None
            for group in apart(edits, known):
                for _, part, _ in group:
                    for file, old, new in part.pairs:
                        if file.startswith('src/'):
                            source = copy / 'crates' / crate / file
                            source.write_text(source.read_text().replace(old, new))
                moved = follow.renamings(before, follow.names(copy / 'crates' / crate))
                for path, part, places in group:
                    if any(moved.get(place, {}) is None for place in places):
                        print(f'{crate}/{path.stem}: other goals or steps than the code has')
                    lines = list(proof_pairs(crate, places, moved))
                    part.pairs += lines
                    was = parts_of(path)[0][0]
                    if (part.named, part.pairs) != (was.named, was.pairs):
                        path.write_text('\n'.join(part.lines()) + '\n')
                        print(f'{crate}/{path.stem} in {", ".join(part.named)}: {len(lines)} lines of its proof')
                restore(crate, copy / 'crates' / crate / 'src')


def main(words):
    command, rest = words[:1], words[1:]
    if command not in (['--check'], ['--refused'], ['--names']) or command != ['--names'] and len(rest) != (command == ['--refused']):
        sys.exit(__doc__)
    if command == ['--names']:
        bring_along(rest)
        return False
    if command == ['--check']:
        paths, whys = [*definitions(), *bodies()], misfits
    else:
        with open(rest[0], encoding='utf-8', errors='replace') as f:
            said = tried(f.read())
        paths, whys = definitions(), lambda path: unrefused(path, said)
    wrong = 0
    for path in paths:
        for why in whys(path):
            print(f'! {path.parent.parent.name}/{path.stem}: {why}')
            wrong += 1
    print(f'edits: {len(paths)}, {wrong} not as they must be')
    return wrong > 0


if __name__ == '__main__':
    sys.exit(main(sys.argv[1:]))
