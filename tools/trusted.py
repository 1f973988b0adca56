#!/usr/bin/env python3
"""usage: trusted.py             the files of definitions to believe, in the order to read them, as README's table
       trusted.py --check     whether README has that table, and whether each file stands in its folder
       trusted.py --write     writes the table there

Who believes these files, and the kit that proves and compiles, needs to believe neither the code nor the proofs. They are the files that the
contracts in crates/sheet_calls/src name, and all that these name in turn. The program's own definitions and the examples are told after
them, with what they name besides.

A file to believe stands in crates/CRATE/specs, every other file of definitions in crates/CRATE/specs/told: the vocabulary in which the contracts
inside the library say what their functions do. In the order each file names only files above it. In both folders no name is defined twice."""
import pathlib, re, sys

ROOT = pathlib.Path(__file__).resolve().parent.parent
HEAD = '| read | `crates/CRATE/specs/FILE.antt` | lines |'
# what the library's contracts rest on, in the order to read it
ORDER = [
    ('words that all use', 'foundation: Choices Results Digits Texts'),
    ('bytes', 'encoding: Encoding'),
    ('fields', 'wire: Wire Messages; fields: Fields'),
    ('names', 'characters: Characters Splits; names: Records Names'),
    ('declarations', 'declaration_rows: Declarations; schema: Reading Types Members'),
    ('the sheet', 'sheet: Rows; declaration_rows: Rows'),
    ('descriptors', 'erasure: Erasure; descriptors: Defaults'),
    ('the answer', 'members: Lists; declarations: Payload; inputs: Inputs Refusals Outcomes; passes: Answered; metadata: Read'),
    ('promises', 'characters: WellFormed; sheet: Reading Refs; schema: Counting; promises: Walk Promises'),
    ('demand 3', 'grammar: Grammar; schema: OneForOne; defaults: Needs Messages Descriptor Demand'),
    ('the room', 'room: Room Exact'),
    ('strings nobody refers to', 'strings: FallsTo Unused; string_marks: UsedStrings'),
    ('conversions of d1', 'converter: Conversions Statements'),
    ('the exported functions', 'sheet_calls: Calls'),
]
# what only the program's line and the examples rest on
BESIDE = [('beside the library: the program', 'line: Input Line Wrote; answer_lines: Program'), ('the marked examples', 'examples: Cases Marked'),
          ('examples of strings nobody refers to', 'strings: Examples')]
BESIDE_FROM = {('answer_lines', 'Program'), ('examples', 'Marked'), ('strings', 'Examples')}

# names that several files define: "and then" of results, readings and walks; the JVM's base types, as parts and in the grammar
SEVERAL = {'◌>>=◌', 'byte', 'char', 'double', 'float', 'int', 'long', 'short', 'boolean'}
DEFINED = r'^(?:(?:abbrev|unfoldable) )*pub (?!mod |use )(?:data |record )?([^\s:(){}]+)'
CONSTRUCTORS = r'^pub data .*\n((?:  .*\n)+)'


def files_of(places):
    """'wire: Wire Messages; fields: Fields' as pairs of crate and file."""
    return [(crate.strip(), file) for part in places.split(';') for crate, _, files in [part.partition(':')] for file in files.split()]


def path_of(crate, file):
    return ROOT / 'crates' / crate / 'specs' / (file.replace('.', '/') + '.antt')


def named(text):
    """Crate and file of the definitions that a text names, `told.FILE` of the vocabulary; what is declared in code is left out."""
    text = re.sub(r'(--|//).*', '', text)
    found = re.findall(r'(?<![\w.])Rattle\.(\w+)\.specs\.((?:told\.)?\w+)', text)
    return {(crate, file) for crate, file in found if file != 'declared' and path_of(crate, file).exists()}


def contracts():
    """The files that the exported functions' contracts name: those of the `ghost use` lines that bring a word of theirs."""
    found = set()
    for path in (ROOT / 'crates/sheet_calls/src').glob('*.rt'):
        text = path.read_text(encoding='utf-8')
        exported = ' '.join(re.findall(r'^pub extern "C" fn .*?^\{', text, re.M | re.S))
        words = set(re.findall(r'[^\s(){},;.]+', exported))
        for place, names in re.findall(r'^ghost use (\S+)\.\{(.*?)\};', text, re.M):
            if words & set(names.split(', ')):
                found |= named(place)
    return found


def closed(found):
    """The files and those that they name: (crate, file) -> the number of lines, and what it names."""
    todo, lines = list(found), {}
    while todo:
        key = todo.pop()
        if key not in lines:
            text = path_of(*key).read_text(encoding='utf-8')
            lines[key] = len(text.splitlines()), named(text) - {key}
            todo += lines[key][1]
    return lines


def row(title, files, lines):
    """A row of the table: the files with their crate before them."""
    crates = {}
    for crate, file in files:
        crates.setdefault(crate, []).append(f'`{file}`')
    words = '; '.join(f'`{crate}`: {", ".join(names)}' for crate, names in crates.items())
    return f'| {title} | {words} | {sum(lines[key][0] for key in files)} |'


def table(library, all_files):
    rows = [HEAD, '|---|---|---|']
    rows += [row(title, [key for key in files_of(places) if key in library], library) for title, places in ORDER]
    rows.append(f'| together | {len(library)} files | {sum(n for n, _ in library.values()):,} |')
    return rows + [row(title, [key for key in files_of(places) if key in all_files], all_files) for title, places in BESIDE]


def shown(crate, file):
    return str(path_of(crate, file).relative_to(ROOT))


def misplaced(library, all_files):
    """What is wrong with the files' places: folders, and the order to read them in."""
    for path in sorted((ROOT / 'crates').glob('*/specs/**/*.antt')):
        at = path.relative_to(ROOT / 'crates').with_suffix('').parts
        key = at[0], '.'.join(at[2:])
        if key[1] not in ('Lib', 'told') and not key[1].startswith('told.') and key not in all_files:
            yield f'{shown(*key)}: nothing to be believed rests on it, so it belongs in specs/told'
    for key in sorted(all_files):
        if key[1].startswith('told.'):
            who = sorted(other for other, (_, names) in all_files.items() if key in names and not other[1].startswith('told.'))
            if who:
                yield f'{shown(*key)}: {shown(*who[0])} rests on it, so it must be believed and belongs in specs/'
    for order, files in ((ORDER, library), (ORDER + BESIDE, all_files)):
        read = [key for _, places in order for key in files_of(places)]
        for key in sorted(set(files) - set(read)):
            if not key[1].startswith('told.'):
                yield f'{shown(*key)}: it has no place in ORDER, tools/trusted.py'
        for i, key in enumerate(read):
            if key not in files:
                yield f'{shown(*key)}: ORDER in tools/trusted.py has it, and it need not be believed'
                continue
            for other in sorted(files[key][1] & set(read[i:])):
                yield f'{shown(*key)}: it is read before {shown(*other)}, which it names (ORDER in tools/trusted.py)'


def twice():
    """Names of definitions and constructors that two files define."""
    found = {}
    for path in sorted((ROOT / 'crates').glob('*/specs/**/*.antt')):
        text = re.sub(r'(?<!\S)--.*', '', path.read_text(encoding='utf-8'))
        names = set(re.findall(DEFINED, text, re.M))
        for part in re.findall(CONSTRUCTORS, text + '\n', re.M):
            names |= {name for line in re.findall(r'^  (?! )((?:[^\s:(){}]+ )+):', part, re.M) for name in line.split()}
        for name in names - SEVERAL:
            found.setdefault(name, []).append(str(path.relative_to(ROOT)))
    return [f'{name} is defined in {" and in ".join(paths)}' for name, paths in sorted(found.items()) if len(paths) > 1]


def main(args):
    if args not in ([], ['--check'], ['--write']):
        sys.exit(__doc__)
    library = closed(contracts())
    all_files = closed(set(library) | BESIDE_FROM)
    rows, path = table(library, all_files), ROOT / 'README.md'
    if not args:
        print('\n'.join(rows))
        return 0
    lines = path.read_text(encoding='utf-8').splitlines()
    if HEAD not in lines:
        sys.exit(f'trusted: README has no table with the head {HEAD}')
    start = lines.index(HEAD)
    end = next((i for i in range(start, len(lines)) if not lines[i].startswith('|')), len(lines))
    if args == ['--write']:
        path.write_text('\n'.join(lines[:start] + rows + lines[end:]) + '\n', encoding='utf-8')
        return 0
    wrong = list(dict.fromkeys(misplaced(library, all_files))) + twice()
    for line in wrong:
        print('trusted: ' + line)
    if lines[start:end] != rows:
        print('trusted: the files to believe are others than README says (tools/trusted.py --write mends it):')
        print('\n'.join(sorted(set(rows) ^ set(lines[start:end]))))
    return 1 if wrong or lines[start:end] != rows else 0


if __name__ == '__main__':
    sys.exit(main(sys.argv[1:]))
