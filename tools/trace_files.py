#!/usr/bin/env python3
"""usage: trace_files.py --write     writes the column "files" of docs/TRACE.md
       trace_files.py --check     whether it is right: each name of a row stands in one of the row's files, and no other file is named

The files are those where the names in a row's first columns are defined: definitions and theorems in specs/ and proofs/, functions in src/,
edits in must-fail/ and wrong-bodies/. Where a definition and a function have one name, the column says which is meant. Where several crates have a name, the crate that
the cell names before it is meant, then that of the section, then one in which another name of the row stands."""
import collections, pathlib, re, sys

ROOT = pathlib.Path(__file__).resolve().parent.parent
PAGE = 'docs/TRACE.md'
DEFINED = r'^(?:(?:abbrev|unfoldable) )*pub (?!mod )(?:data |record )?([^\s:(){}]+)'
CONSTRUCTORS = r'^  ((?:[^\s:(){}.=]+ )+): '
CODE = r'^ *(?:pub(?:\(crate\))? )?(?:extern "C" )?(?:fn|struct|enum) (\w+)'
CLAUSE = r'^ *ensures (\w+) \{'
# words in backquotes that name nothing of the crates: of the Rust, of the kit, parameters
OUTSIDE = {'default_jvm_signature', 'of', 'is_local', 'class_name', 'first', 'second', 'src', 'msg', 'base', 'set', 'sets', 'take', 'drop', 'last', 'Consumes'}
TESTS = ('tests', 'ruled out', 'wrong edits', 'requires')


class Names:
    """Where each name is defined: definitions, theorems, functions and edits; and where a constructor, a field or a file has it."""

    def __init__(self):
        self.files, self.parts = collections.defaultdict(set), collections.defaultdict(set)
        self.crates = {path.name for path in (ROOT / 'crates').iterdir() if path.is_dir()}
        for path in sorted((ROOT / 'crates').glob('*/*/**/*')) + sorted((ROOT / 'crates').glob('*/*/*')):
            self.add(path, path.relative_to(ROOT / 'crates'))

    def add(self, path, at):
        if path.suffix == '.antt' and at.parts[1] in ('specs', 'proofs') and path.name != 'Proof.antt':
            text = path.read_text(encoding='utf-8')
            for name in re.findall(DEFINED, text, re.M):
                self.files[name].add(str(at))
            for names in re.findall(CONSTRUCTORS, text, re.M):
                for name in names.split():
                    self.parts[name].add(str(at))
            self.parts[path.stem].add(str(at))
        elif path.suffix == '.rt' and at.parts[1] == 'src':
            text = path.read_text(encoding='utf-8')
            for name in re.findall(CODE, text, re.M):
                self.files[name].add(str(at))
            for name in re.findall(CLAUSE, text, re.M):
                self.parts[name].add(str(at))
        elif path.suffix == '.edit':
            for name in [path.stem, *re.findall(r'^# (\w+) in \w', path.read_text(encoding='utf-8'), re.M)]:
                self.files[name].add(str(at))

    def of(self, name, crate):
        """The files of a name as it stands in backquotes, its module if it says one, and whether it is defined there, or a part of what is. A crate that the
        cell names before it may have it as a part only, as a file, where another crate defines such a name."""
        found = re.match(r'[^\s(<,]+', name)
        words = found[0].split('::') if found else ['']
        types = [word for word in words[:-1] if word[:1].isupper()]
        if name in self.crates:
            found = {path for path in (f'{name}/src/main.rt', f'{name}/src/lib.rt') if (ROOT / 'crates' / path).exists()}
            return found | self.files.get(name, set()), [], True
        for word in (types or words)[::-1]:
            if word not in OUTSIDE and (word in self.files or word in self.parts):
                defined, parts = self.files.get(word, set()), self.parts.get(word, set())
                if within(parts, crate) and not within(defined, crate):
                    defined = set()
                return defined or parts, words[:-1], bool(defined)
        return set(), words[:-1], False


def within(files, crate):
    return any(file.split('/')[0] == crate for file in files)


def narrowed(files, tests):
    for test in tests:
        if len(files) > 1:
            files = {f for f in files if test(f)} or files
    return files


def of_kind(files, kinds, crate, defined):
    """The files among them that are meant: of a crate, of one that is no program, of a kind. A definition and a function can have one name."""
    tests = [lambda f: f.split('/')[0] == crate, lambda f: not (ROOT / 'crates' / f.split('/')[0] / 'src' / 'main.rt').exists()]
    if defined:
        tests.append(lambda f: (f.split('/')[1] == 'specs') == (kinds[0] == 'specs'))
    return narrowed(files, tests)


def preferred(files, kinds, crates, modules):
    """The files among them that are meant: of a crate, of a kind of folder, of a module."""
    tests = [lambda f, c=c: f.split('/')[0] == c for c in crates if c]
    tests += [lambda f, k=k: f.split('/')[1] == k for k in kinds]
    tests += [lambda f: any(f'/src/{m}.rt' in f for m in modules or ['lib'])]
    return narrowed(files, tests)


KINDS = {'definition': ['specs'], 'theorem or contract': ['src', 'proofs', 'specs'], 'function': ['src'], 'contract': ['specs', 'proofs'],
         'edit that the check refuses': ['must-fail', 'wrong-bodies'], 'held by': ['src', 'specs'], 'in the code': ['src', 'specs']}


def row_files(names, columns, cells, section):
    """The files of a row, and its names that are found nowhere."""
    found, unknown, seen = {}, [], []
    for column, cell in zip(columns, cells):
        if column in TESTS or column not in KINDS:
            continue
        crate = None
        for word, name in re.findall(r'([A-Za-z_]+)|`([^`]+)`', re.sub(r"'s\b", '', cell)):
            crate = word if word in names.crates else crate if word else crate
            if name:
                files, modules, defined = names.of(name, crate)
                if files:
                    seen.append((of_kind(files, KINDS[column], crate, defined), KINDS[column], crate, modules))
                elif re.fullmatch(r'[\w·′-]+(::\w+)*', name) and name not in OUTSIDE:
                    unknown.append(name)
    alone = {next(iter(files)).split('/')[0] for files, *_ in seen if len({f.split('/')[0] for f in files}) == 1}
    for files, kinds, crate, modules in seen:
        for file in sorted(preferred(files, kinds, [crate, section, *sorted(alone)], modules)):
            found[file] = None
    return list(found), unknown


def written(lines, names):
    """The page's lines with their column of files, and what is wrong with them."""
    out, wrong, columns, section = [], [], None, None
    for line in lines:
        if line.startswith('#'):
            section = line.lstrip('# ').strip() if line.startswith('### ') else None
        if not line.startswith('|'):
            columns = None
            out.append(line)
            continue
        cells = [cell.strip() for cell in re.split(r'(?<!\\)\|', line)[1:-1]]
        if columns is None:
            columns = [cell for cell in cells if cell != 'files']
            places = [i for i, cell in enumerate(cells) if cell != 'files']
            known = any(column in KINDS for column in columns)
        cells = [cells[i] for i in places]
        if not known:
            out.append(line)
        elif cells == columns:
            out.append('| ' + ' | '.join(columns + ['files']) + ' |')
        elif set(''.join(cells)) <= {'-'} and all(cells):
            out.append('|' + '---|' * (len(columns) + 1))
        else:
            files, unknown = row_files(names, columns, cells, section)
            wrong += [f'{cells[0]}: {name} is defined nowhere' for name in unknown]
            out.append('| ' + ' | '.join(cells + [', '.join(files) or '-']) + ' |')
    return out, wrong


def main(args):
    if args not in (['--check'], ['--write']):
        sys.exit(__doc__)
    page = ROOT / PAGE
    lines = page.read_text(encoding='utf-8').splitlines()
    out, wrong = written(lines, Names())
    if args == ['--write']:
        page.write_text('\n'.join(out) + '\n', encoding='utf-8')
    else:
        wrong += [f'{PAGE}: for "{a}" there should be "{b}" (tools/trace_files.py --write)' for a, b in zip(lines, out) if a != b]
    for why in wrong:
        print(f'trace_files: {why}')
    return 1 if wrong else 0


if __name__ == '__main__':
    sys.exit(main(sys.argv[1:]))
