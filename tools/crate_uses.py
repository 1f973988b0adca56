#!/usr/bin/env python3
"""Which crates each crate's text names, and whether crates.txt says the same.

usage: tools/crate_uses.py             a line for each crate, as in crates.txt: NAME: the crates that its text names
       tools/crate_uses.py --check     only what differs from crates.txt; the status is 1 if anything does
       tools/crate_uses.py --write     crates.txt anew, with its crates in their order and its comments

A text names a crate by `NAME::` in code and by `Rattle.NAME` in contracts, definitions and proofs. Comments don't count. A crate needs no line for what
only those that it names use: the check finds that by itself."""
import pathlib
import re
import shutil
import sys

ROOT = pathlib.Path(__file__).resolve().parent.parent
STD = re.compile(r'core|std(_\w+)?')  # linked without being listed


def libraries():
    """The kit's libraries, but for std; where there is no kit, some of them."""
    command = shutil.which('rt')
    found = sorted((pathlib.Path(command).resolve().parent.parent / 'rlibs').glob('*.rlib')) if command else ()
    return [path.stem for path in found if not STD.fullmatch(path.stem)] or ['bytes', 'check', 'io', 'itoa', 'libc', 'os']


def listed():
    """crates.txt: name -> the crates that it lists, in their order. What stands after the name, as staticlib, is left out."""
    lines = (line.partition('#')[0].partition(':') for line in (ROOT / 'crates.txt').read_text().splitlines())
    return {name.split()[0]: words.split() for name, colon, words in lines if colon}


def texts_of(crate):
    """The texts of a crate without comments: of each file of code, and of definitions and proofs."""
    folder = ROOT / 'crates' / crate
    code = [re.sub(r'//.*', '', file.read_text()) for file in sorted((folder / 'src').glob('**/*.rt'))]
    logic = [re.sub(r'(?<!\S)--.*', '', file.read_text()) for part in ('specs', 'proofs') for file in sorted((folder / part).glob('**/*.antt'))]
    return code, '\n'.join(logic)


def begun(code):
    """The names with which paths of a file begin, but for those that a `use` brings in from another one, as `io` by `use std::io;`."""
    items = [re.match(r'(\w+)(.*)', item, re.S) for item in re.findall(r'\buse\s+(\w[^;]*);', re.sub(r'\bghost use [^;]*;', '', code))]
    brought = {name for item in items for name in re.findall(r'\w+', item[2])}
    return set(re.findall(r'(?<![\w:])(\w+)::', code)) - brought | {item[1] for item in items}


def named_by(crate, known):
    """The known crates that a crate's text names, in the order of `known`."""
    files, logic = texts_of(crate)
    code = '\n'.join(files)
    modules = set(re.findall(r'^\s*(?:pub(?:\(crate\))? )?mod (\w+);', code, re.M))
    found = set().union(*map(begun, files)) - modules
    found |= set(re.findall(r'(?<![\w.])Rattle\.(\w+)', code + logic))
    return [name for name in known if name in found and name != crate]


def rewritten(text, uses):
    """crates.txt with the lists as they are to be."""
    def line(match):
        return ' '.join([match.group(1) + match.group(2).rstrip() + ':', *uses[match.group(1)]]) + (' ' if match.group(3) else '')
    return re.sub(r'^(\w+)([^:#\n]*):[^#\n]*(?=(#)?)', line, text, flags=re.M)


def differences(have, uses):
    for crate, words in uses.items():
        for name in have[crate]:
            if name not in words:
                yield f'{crate}: crates.txt lists {name}, which its text does not name'
        for name in words:
            if name not in have[crate]:
                yield f'{crate}: its text names {name}, which crates.txt does not list'
        if len(set(have[crate])) < len(have[crate]):
            yield f'{crate}: crates.txt lists a name twice'


def main(words):
    if words not in ([], ['--check'], ['--write']):
        sys.exit(__doc__)
    have = listed()
    known = [*have, *libraries()]
    uses = {crate: named_by(crate, known) for crate in have}
    if words == ['--write']:
        file = ROOT / 'crates.txt'
        file.write_text(rewritten(file.read_text(), uses))
        return 0
    if words == ['--check']:
        wrong = list(differences(have, uses))
        for line in wrong:
            print(f'crate_uses.py: {line}')
        return len(wrong) > 0
    for crate, names in uses.items():
        print(f'{crate}: {" ".join(names)}'.rstrip())
    return 0


if __name__ == '__main__':
    sys.exit(main(sys.argv[1:]))
