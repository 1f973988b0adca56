#!/usr/bin/env python3
"""usage: sheet_text.py [--records] [FILE]      FILE, or standard input, holds lines of the program sheet_reader

Prints each sheet in words, a declaration to a line, or with --records a record to a line, indented under its owner. A refusal is printed
with what to do. The exit status is 0 if every line holds a sheet, 1 if one is a refusal, 2 if one is neither."""
import collections, signal, sys

sys.dont_write_bytecode = True
import flag_words
from sheets import KINDS, PROJECTIONS, RECORDS, REFUSALS, ROLES, NotALine, Walk, line_answer, records, refusal_text


# JVM names that the class file tells: of the class; the parts of a multi-file class's facade; the facade of a part, or None
ClassNames = collections.namedtuple('ClassNames', 'name parts facade')


def shown(text):
    """A text as it may stand in a line: what doesn't print is written by its number, so that no name can break a line or steer a terminal."""
    if text.isprintable() and '\\' not in text:
        return text
    return ''.join(c if c.isprintable() and c != '\\' else '\\\\' if c == '\\' else f'\\u{{{ord(c):x}}}' for c in text)


def named(name):
    return '(unnamed)' if name is None else shown(name)


# what Kotlin writes before an argument
VARIANCES = {'in': 'in ', 'out': 'out '}


def type_text(t, unnamed='(type parameter)'):
    """A type with its arguments as Kotlin writes it: `out` or `in` before an argument, `*` for a star. `unnamed` stands for one without a class
    name. No recursion: types may be 2,048 deep."""
    if t is None:
        return '(no type)'
    done, left = [], [t]
    while left:
        t = left.pop()
        if isinstance(t, str):
            done.append(t)
            continue
        projection = PROJECTIONS.get(t['projection'])
        if projection == 'star':
            done.append('*')
            continue
        parts = [VARIANCES.get(projection, ''), unnamed if t['name'] is None else shown(t['name'])]
        if t['of']:
            parts += ['<', t['of'][0], *(part for a in t['of'][1:] for part in (', ', a)), '>']
        left += reversed(parts + ['?'] * t['nullable'])
    return ''.join(done)


def parameter_text(p):
    """A vararg parameter is declared by the type of its elements. One without a name is shown as `_`, which no parameter can be named."""
    name = '_' if p['name'] is None else shown(p['name'])
    declared = 'vararg ' * bool(p['vararg']) + name + ': ' + type_text(p['vararg'] or p['type'])
    return declared + (' = ..' if p['default'] else '')


def receiver_text(m):
    return type_text(m['receiver type']) + '.' if m['receiver'] else ''


def declaration_text(m):
    """A declaration as Kotlin writes it, with the words of its flags."""
    words = ' '.join(flag_words.words(m['record'], m['flags']))
    if m['record'] == 'alias':
        return f"{words} typealias {shown(m['name'])} = {underlying_text(m)}"
    if m['record'] == 'property':
        return f"{words} {receiver_text(m)}{shown(m['name'])}: {type_text(m['type'])}"
    parameters = '(' + ', '.join(map(parameter_text, m['of'])) + ')'
    if m['record'] == 'constructor':
        return f'{words} constructor{parameters}'
    return f"{words} fun {receiver_text(m)}{shown(m['name'])}{parameters}: {type_text(m['type'])}"


def is_expanded(m):
    """Whether the underlying type of an alias is its expanded one too: then it names no other alias."""
    return type_text(m['underlying']) == type_text(m['expanded'])


def underlying_text(m):
    """What an alias is declared to be. Another alias in it has no class name on the sheet, and can't be told from a type parameter."""
    return type_text(m['underlying'], '(type parameter)' if is_expanded(m) else '(type parameter or alias)')


def marked(words):
    """What is said of a target, in brackets."""
    return f" [{'; '.join(words)}]" if words else ''


def method_text(name, descriptor):
    return 'none' if name is None else shown(name) + shown(descriptor)


def targets_text(m, marks):
    """The methods and fields of a declaration; a mark stands beside what it is said of. An alias has none: its expanded type is told, where it
    isn't the underlying one."""
    if m['record'] == 'alias':
        return '' if is_expanded(m) else f"  expanded {type_text(m['expanded'])}"
    if m['record'] == 'property':
        found = ''
        for part in ('field', 'getter', 'setter'):
            if m[part] is not None:
                between = ' ' if part == 'field' else ''
                found += f"  {part} {shown(m[part])}{between}{shown(m[part + ' descriptor'])}{marked(marks.get(part))}"
        return found + ''.join(f'  {part} not default' for part in ('getter', 'setter') if not m[part + ' default'])
    recorded, said = m['signature'] is not None, marked(marks.get('method'))
    signature = method_text(m['signature'], m['descriptor']) + said * recorded
    default = 'none' if m['default'] is None else shown(m['default'])
    return f'  signature {signature}  default {default}{said * (not recorded)}'


def head_text(h, own):
    """The head. Only a class has its name on the sheet; `own` is what the class file tells of names: a ClassNames, or None."""
    name = h['name'] and shown(h['name'])
    if h['kind'] == 1:
        words = [*flag_words.words('head', h['flags']), named(name)]
        said = f'  JVM name {shown(own.name)}' if own and own.name.replace('/', '.') != h['name'] else ''
    else:
        words = [KINDS.get(h['kind'], str(h['kind'])), *([shown(own.name)] if own else [])]
        said = around_text(own) if own else ''
    return ' '.join(words) + f"  flags {h['flags']}" + said


def around_text(own):
    """The parts of a multi-file class's facade, or the facade of a part."""
    parts = '  parts ' + ', '.join(map(shown, own.parts)) if own.parts else ''
    return parts + (f'  facade {shown(own.facade)}' if own.facade is not None else '')


def sheet_lines(head, own=None, marks=None):
    """A sheet in words, a declaration to a line. `marks` has, by a declaration's place, what is said of each of its targets by part."""
    yield head_text(head, own)
    for place, m in enumerate(head['of']):
        yield f"  {declaration_text(m)}  flags {m['flags']}{targets_text(m, (marks or {}).get(place, {}))}"


def cell_text(record, name, value):
    if value is None:
        return f'{name} none'
    if name == 'role':
        return f'{name} {ROLES.get(value, value)}'
    if name == 'projection':
        return f'{name} {PROJECTIONS.get(value, value)}'
    if name == 'flags' and (record['record'] != 'head' or record['kind'] == 1):
        return f"{name} {value} ({', '.join(flag_words.words(record['record'], value))})"
    return f'{name} {shown(value) if isinstance(value, str) else value}'


def record_lines(sheet, text):
    """A record to a line, indented under its owner; `announced` holds the arguments that are still to come of the types around."""
    Walk(sheet, text).sheet()
    depths = {'head': 0, 'constructor': 1, 'function': 1, 'property': 1, 'parameter': 2, 'default descriptor': 2, 'aliases': 1, 'alias': 2}
    announced, base = [], 0
    for record in records(sheet, text):
        if record['record'] == 'type':
            if record['role'] != 5:
                announced, base = [], 3 if record['role'] in (3, 4, 6, 7) else 2
            depth = base + len(announced)
            announced.append(record['arguments'])
            while announced and announced[-1] == 0:
                announced.pop()
                if announced:
                    announced[-1] -= 1
        else:
            depth = depths[record['record']]
        cells = ', '.join(cell_text(record, name, value) for name, value in record.items() if name != 'record')
        yield '  ' * depth + record['record'] + ': ' + cells


def line_text(line, in_records):
    """Whether the line holds a sheet, and its text."""
    if line.split() == ['input']:
        return False, ['input: the input ends before what it announces. What to do: make it again with class_input.py.']
    number, detail, sheet, text = line_answer(line)
    if number:
        return False, [refusal_text(number, detail)]
    return True, list(record_lines(sheet, text) if in_records else sheet_lines(Walk(sheet, text).sheet()))


def main(args):
    in_records = '--records' in args
    args = [a for a in args if a != '--records']
    if len(args) > 1 or any(a.startswith('-') for a in args):
        sys.exit(__doc__)
    lines, status = (open(args[0], encoding='ascii') if args else sys.stdin), 0
    for line in lines:
        try:
            sheet, text = line_text(line, in_records)
        except NotALine as why:
            print(f'sheet_text: this is no line of sheet_reader: {why}', file=sys.stderr)
            return 2
        print('\n'.join(text))
        status = status if sheet else 1
    return status


if __name__ == '__main__':
    signal.signal(signal.SIGPIPE, signal.SIG_DFL)
    sys.exit(main(sys.argv[1:]))
