#!/usr/bin/env python3
"""Which public items no other crate names: they are to be `pub(crate)`, or private where their own file alone names them.

usage: tools/public.py             a line for each such item, and what it could be; then counts
       tools/public.py --check     only what is wrong; the status is 1 if anything is
       tools/public.py --write     makes those items `pub(crate)` or private

Items are functions, methods, types, constants and modules. Another crate names one by its path in code, CRATE::MODULE::NAME, or in contracts,
definitions and proofs, Rattle.CRATE.proofs.MODULE.NAME and Rattle.CRATE.specs.declared.MODULE.NAME; a method of a public type by a call VALUE.NAME(..),
if the text doesn't show that the value is of another type. Comments don't count. A type or constant stays public where a public item's signature or
fields name it, a module where it holds a public item. A function that is exported to C stays as it is. One that is there for callers to come stays
public by a comment line above it that has the words "Kept public" and says why.

Told with them: a public function that requires something where no comment line above it says who shows that, in the words "Callers show"; and what the
table "Public functions" of docs/TRACE.md lacks or has too much."""
import pathlib
import re
import sys

ROOT = pathlib.Path(__file__).resolve().parent.parent
ITEM = re.compile(r'^( *)pub (fn|struct|enum|const|type|mod) (\w+)', re.M)
SHOWN = 'Callers show'
KEPT = 'Kept public'
TRACE = ROOT / 'docs' / 'TRACE.md'


def without_comments(text):
    """The text with a blank for each character of a comment, so that places stay."""
    return re.sub(r'//[^\n]*', lambda match: ' ' * len(match.group()), text)


class Item:
    """A public item: crate, file, where `pub` stands, its kind, its path below the crate and the text that other crates see of it."""

    def __init__(self, crate, file, start, kind, path, seen):
        self.crate, self.file, self.start, self.kind, self.path, self.seen = crate, file, start, kind, path, seen

    @property
    def name(self):
        return self.path[-1]

    @property
    def whole(self):
        return '::'.join([self.crate, *self.path])


class Crate:
    def __init__(self, name):
        self.name = name
        folder = ROOT / 'crates' / name
        self.files = {file: file.read_text() for file in sorted((folder / 'src').glob('*.rt'))}
        self.code = {file: without_comments(text) for file, text in self.files.items()}
        logic = (file for part in ('specs', 'proofs') for file in sorted((folder / part).glob('**/*.antt')))
        self.text = '\n'.join([*self.code.values(), *(re.sub(r'(?<!\S)--.*', '', file.read_text()) for file in logic)])
        self.paths = set(re.findall(r'(?<![\w:])\w+(?:::\w+)+', self.text)).union(*map(used, self.code.values()))
        self.paths |= {path.replace('.', '::') for path in re.findall(r'(?<![\w.])Rattle\.(\w+(?:\.[\w]+)+)', self.text)}
        self.answers = [pair for code in self.code.values() for pair in re.findall(r"\bfn (\w+)[^{]*?\)\s*->\s*(\w+)", code)]
        self.calls = {file: list(method_calls(code)) for file, code in self.code.items()}
        self.items = list(self.public_items())

    def public_items(self):
        homes = {}
        for file, code in self.code.items():
            for name in re.findall(r'^(?:pub(?:\(crate\))? )?(?:struct|enum) (\w+)', code, re.M):
                homes[name] = module_of(file)
        for file, code in self.code.items():
            for match in ITEM.finditer(code):
                indent, kind, name = match.groups()
                owner = re.findall(r'^impl(?:<[^>]*>)? (\w+)', code[:match.start()], re.M)[-1:] if indent else []
                home = homes[owner[0]] if owner else module_of(file)
                yield Item(self.name, file, match.start(2) - len('pub '), kind, [*home, *owner, name], seen_text(code, match, kind))


def used(code):
    """The paths that the `use` items of a file bring in, those of a group each by itself, and those that begin with the last name of one."""
    found = set()
    for item in re.findall(r'(?<!ghost )\buse ([^;]*);', code):
        above, path = [], ''
        for word in re.findall(r'[\w:]+|[{},]', re.sub(r'\s+as\s+\w+', '', item)):
            if word == '{':
                above.append(path)
            elif word in '},':
                found.add(path)
                path = above[-1] if above else ''
                above = above[:-1] if word == '}' else above
            else:
                path += word
        found.add(path)
    last = {path.split('::')[-1]: path for path in found}
    return found | {last[first] + rest for first, rest in re.findall(r'(?<![\w:])(\w+)((?:::\w+)+)', code) if first in last}


def module_of(file):
    return [] if file.stem in ('lib', 'main') else [file.stem]


def seen_text(code, match, kind):
    """Of a function its parameters and answer, of a type its fields, of a constant its type."""
    rest = code[match.end():]
    if kind == 'fn':
        return re.split(r'\brequires\b|\bensures\b|\bdecreases\b|\{', rest, maxsplit=1)[0]
    if kind in ('struct', 'enum'):
        return re.split(r'^\}|;$', rest, maxsplit=1, flags=re.M)[0]
    return rest.partition('=')[0] if kind != 'mod' else ''


def method_calls(code):
    """Calls of methods: the method's name, and what the file's text says of the value: functions whose answer it is, and types ('': not shown)."""
    for value, name in re.findall(r'(\w*)\.(\w+)\(', code):
        origins = re.findall(rf'\blet (?:mut )?{value} = (?:(?:\w+::)*(\w+)\()?|\b{value}: ([A-Z]\w*)', code) if value else []
        yield name, {function for function, declared in origins if not declared}, {declared for _, declared in origins if declared}


def contract_of(item, crate):
    """A function's contract: what stands between its answer's type and its body."""
    code = crate.code[item.file][item.start:]
    return re.split(r'^ *\{|\{$', code[code.index(')'):], maxsplit=1, flags=re.M)[0]


def comment_above(item, crate):
    """The comment above an item and its attributes."""
    lines = crate.files[item.file][:item.start].splitlines()
    if lines and not lines[-1].strip():
        lines.pop()
    while lines and lines[-1].lstrip().startswith('#['):
        lines.pop()
    said = []
    while lines and lines[-1].lstrip().startswith('//'):
        said.append(lines.pop())
    return '\n'.join(reversed(said))


def owner_of(item):
    """The type whose method an item is, or nothing."""
    return item.path[-2] if item.kind == 'fn' and len(item.path) > 1 and item.path[-2][:1].isupper() else ''


def is_called(item, calls, answers):
    """Whether a method is among some calls, as far as the text shows the types of values."""
    for name, functions, declared in calls:
        if name == item.name:
            types = declared.union(*(answers.get(function, {''}) for function in functions))
            if not types or types & {owner_of(item), 'Self', ''}:
                return True
    return False


def is_named(item, others, answers):
    whole = {item.whole, '::'.join([item.crate, 'proofs', *item.path]), '::'.join([item.crate, 'specs', 'declared', *item.path])}
    for other in others:
        if any(path == known or path.startswith(known + '::') for known in whole for path in other.paths):
            return True
        if owner_of(item) and (is_called(item, sum(other.calls.values(), []), answers) or any(path.endswith('::'.join(item.path[-2:])) for path in other.paths)):
            return True
    return False


def kept(crate, others, answers):
    """The items of a crate that stay public: those that other crates name, then what these show. A method stays only if its type does."""
    named = {item for item in crate.items if KEPT in comment_above(item, crate) or is_named(item, others, answers)}
    stay = {item for item in named if not owner_of(item)}
    while True:
        shown = set(re.findall(r'\w+', ' '.join(item.seen for item in stay)))
        types = {item.name for item in stay if item.kind in ('struct', 'enum')}
        more = {item for item in crate.items if item.kind not in ('fn', 'mod') and item.name in shown}
        more |= {item for item in named if owner_of(item) in types}
        more |= {item for item in crate.items if item.kind == 'mod' and any(item.path == other.path[:-1][:1] for other in stay)}
        if more <= stay:
            return stay
        stay |= more


def is_named_beside(item, crate, answers):
    """Whether another file of its crate names an item."""
    elsewhere = [file for file in crate.files if file != item.file]
    if owner_of(item):
        return any(is_called(item, crate.calls[file], answers) for file in elsewhere)
    return item.kind != 'mod' and any(re.search(rf'\b{item.name}\b', crate.code[file]) for file in elsewhere)


def narrowed(found, crate, answers):
    """What items that no other crate names are to be: nothing before them, or `pub(crate) `, also for a type that such an item shows."""
    shared = {item for item in found if is_named_beside(item, crate, answers)}
    while True:
        shown = set(re.findall(r'\w+', ' '.join(item.seen for item in shared)))
        more = {item for item in found if item.kind not in ('fn', 'mod') and item.name in shown}
        if more <= shared:
            return {item: 'pub(crate) ' if item in shared else '' for item in found}
        shared |= more


def listed():
    lines = (line.partition('#')[0].partition(':') for line in (ROOT / 'crates.txt').read_text().splitlines())
    return [name.split()[0] for name, colon, _ in lines if colon]


def traced():
    """The functions in TRACE's table of public ones, by their whole paths."""
    part = re.search(r'^## Public functions\n(.*?)(?=^## |\Z)', TRACE.read_text(), re.M | re.S)
    crate, paths = '', set()
    for head, path in re.findall(r'^### (\w+)|^\| `([\w:]+)` \|', part.group(1) if part else '', re.M):
        crate = head or crate
        if path:
            paths.add(f'{crate}::{path}')
    return paths


def untraced(crates):
    """What TRACE's table lacks or has too much."""
    public = {item.whole for crate in crates for item in crate.items if item.kind == 'fn'}
    public |= {f'{crate.name}::{name}' for crate in crates for code in crate.code.values() for name in re.findall(r'^pub extern "C" fn (\w+)', code, re.M)}
    table = traced()
    yield from (f'{path} is public, and the table in docs/TRACE.md lacks it' for path in sorted(public - table))
    yield from (f'{path} is in the table of docs/TRACE.md, and no public function' for path in sorted(table - public))


def rewrite(found, crates):
    for crate in crates:
        for file, text in crate.files.items():
            for item in sorted((item for item in found if item.file == file), key=lambda item: -item.start):
                text = text[:item.start] + found[item] + text[item.start + len('pub '):]
            if text != crate.files[file]:
                file.write_text(text)


def main(words):
    if words not in ([], ['--check'], ['--write']):
        sys.exit(__doc__)
    crates = [Crate(name) for name in listed()]
    answers = {}
    for crate in crates:
        for function, answer in crate.answers:
            answers.setdefault(function, set()).add(answer)
    found, requiring, silent, needless = {}, [], [], []
    for crate in crates:
        others = [other for other in crates if other is not crate]
        stay = kept(crate, others, answers)
        needless += [item for item in crate.items if KEPT in comment_above(item, crate) and is_named(item, others, answers)]
        found |= narrowed([item for item in crate.items if item not in stay], crate, answers)
        requiring += (asks := [item for item in crate.items if item.kind == 'fn' and 'requires' in contract_of(item, crate)])
        silent += [item for item in asks if SHOWN not in comment_above(item, crate)]
    if words == ['--write']:
        rewrite(found, crates)
        return 0
    for item, word in found.items():
        print(f'public.py: {item.whole} ({item.kind}): no other crate names it; it can be {word.strip() or "private"}')
    for item in silent:
        print(f'public.py: {item.whole} requires something; no comment line above it says "{SHOWN} .."')
    for item in needless:
        print(f'public.py: {item.whole} ({item.kind}): another crate names it; its comment need not say "{KEPT}"')
    wrong = list(untraced(crates))
    for line in wrong:
        print(f'public.py: {line}')
    if words == ['--check']:
        return len(found) + len(silent) + len(needless) + len(wrong) > 0
    public = [item for crate in crates for item in crate.items if item.kind == 'fn']
    narrow = [item for item in found if item.kind == 'fn']
    print(f'{len(public)} public functions, {len(requiring)} with a requires; no other crate names {len(narrow)}, '
          f'{len([item for item in narrow if item in requiring])} with a requires')
    return 0


if __name__ == '__main__':
    sys.exit(main(sys.argv[1:]))
