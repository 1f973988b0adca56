#!/usr/bin/env python3
"""usage: tables.py [ROOT]

Whether the tables that are repeated for people and programs are those of the definitions: the records (kinds, lengths, cells in their order),
the numbers of refusals, the roles of types, the projections of arguments, the limits, and where the records of each kind and the text of each list stand among the room's numbers. The
definitions' text is read in crates/*/specs; held to it are docs/MANUAL.md, include/sheet_reader.h, the tools (the file that has RECORDS) and the Java
classes. Says each difference; the exit status is then 1."""
import importlib.util, pathlib, re, sys

SPECS = {
    'record_table': 'sheet/specs/Rows.antt',
    'rows': ['declarations/specs/Payload.antt', 'declaration_rows/specs/Rows.antt', 'descriptors/specs/Defaults.antt'],
    'refusals': [('inputs/specs/Refusals.antt', 'number_of', 'detail_of'), ('converter/specs/Conversions.antt', 'fault_number', 'fault_detail')],
    'roles': 'declaration_rows/specs/Rows.antt',
    'projections': 'declaration_rows/specs/Declarations.antt',
    'lists': 'room/specs/Room.antt',
    'limits': {'unit_limit': 'encoding/specs/Encoding.antt', 'string_limit': 'inputs/specs/Inputs.antt', 'allowance': 'schema/specs/Reading.antt',
               'text_limit': 'passes/specs/Answered.antt', 'max_depth': 'schema/specs/Types.antt'},
}

# what the definitions' names are called elsewhere
CELLS = {
    'kind': ['metadata kind', 'kind'],
    'name': ['name', 'class name'],
    'signature name': ["signature's name", 'signature name', 'signature'],
    'signature descriptor': ["signature's descriptor", 'descriptor'],
    'has_receiver': ['receiver'],
    'getter_is_default': ['getter is default', 'getter default'],
    'setter_is_default': ['setter is default', 'setter default'],
    'declares_default': ['has a default value', 'default'],
    **{f'{part} name': [f"{part}'s name", part] for part in ('field', 'getter', 'setter')},
    **{f'{part} descriptor': [f"{part}'s descriptor", f'{part} descriptor', 'its descriptor'] for part in ('field', 'getter', 'setter')},
    **{name: [name, f'count of {name}'] for name in ('constructors', 'functions', 'properties', 'parameters', 'arguments')},
    'xs': ['aliases', 'count of aliases'],
}
RECORD_NAMES = {'types': 'type', 'default': 'default descriptor'}
# of a cause: its name in the header, and words that tell it
CAUSES = {
    'd1_too_long': ('D1_TOO_LONG', 'd1 has more than'),
    'd2_too_long': ('D2_TOO_LONG', 'd2 has more than'),
    'string_ends': ('STRING_ENDS', 'string ends'),
    'newer_version': ('NEWER_VERSION', 'major'),
    'empty_payload': ('EMPTY', 'd1 is empty'),
    'not_a_byte': ('NOT_A_BYTE', 'above 255'),
    'varint_cut_short': ('TRUNCATED', 'truncated'),
    'past_its_message': ('PAST_MESSAGE', 'past its message'),
    'field_too_large': ('FIELD_TOO_LARGE', 'too large for 32 bits'),
    'forbidden_field': ('FORBIDDEN_FIELD', 'field number is forbidden'),
    'wire_type': ('WIRE_TYPE', 'wire type'),
    'oversized_varint': ('OVERSIZED_VARINT', 'varint'),
    'too_many_types': ('TOO_MANY_TYPES', 'types'),
    'text_too_long': ('TEXT_TOO_LONG', 'text'),
    'sheet_too_long': ('SHEET_TOO_LONG', 'sheet'),
    # of the conversions
    'too_many_units': ('D1_TOO_LONG', 'd1 has more than'),
    'nothing_there': ('EMPTY', 'd1 is empty'),
    'wrong_form': ('WRONG_FORM', 'wrong form'),
    'unit_above255': ('NOT_A_BYTE', 'above 255'),
    'first_unit_zero': ('FIRST_UNIT_ZERO', 'would be 0'),
    'units_area_too_short': ('SHEET_TOO_LONG', 'area'),
}
ROLES = {
    'return_role': ('RETURNED', 'returned'),
    'receiver_role': ('RECEIVER', 'receiver'),
    'parameter_role': ('PARAMETER_TYPE', 'parameter'),
    'vararg_role': ('VARARG_ELEMENT', 'vararg'),
    'argument_role': ('ARGUMENT', 'argument'),
    'underlying_role': ('UNDERLYING', 'underlying'),
    'expanded_role': ('EXPANDED', 'expanded'),
}
# the projections that the definitions don't name, and those that they do
UNNAMED_PROJECTIONS = {'in': 0, 'out': 1}
PROJECTIONS = ('invariant', 'star')
# of a limit: its name in the header, its rows in MANUAL's table of limits
LIMITS = {
    'unit_limit': ('UNIT_LIMIT', ['units of d1', 'units of d2']),
    'string_limit': ('STRING_LIMIT', ['strings of d2']),
    'allowance': ('TYPE_LIMIT', ['types of a class']),
    'text_limit': ('TEXT_LIMIT', ['text']),
    'max_depth': (None, ['depth of types by index']),
}


class NotFound(Exception):
    """A table isn't where it is looked for."""


# the definitions

def spec(root, path):
    """A file of definitions without its comments."""
    return re.sub(r'^ *--.*\n| *--.*', '', (root / 'crates' / path).read_text(encoding='utf-8'), flags=re.M)


def definition(text, name):
    """The parameters and the right side of a definition of one clause."""
    found = re.search(rf'^{name}((?: \w+)*) =(.*?)(?:\n\s*\n|\Z)', text, re.M | re.S)
    if not found:
        raise NotFound(f'the definition of {name}')
    return found[1].split(), found[2]


def balanced(text, at):
    """The text in the parentheses that open at a place."""
    depth = 0
    for i in range(at, len(text)):
        depth += {'(': 1, ')': -1}.get(text[i], 0)
        if depth == 0:
            return text[at + 1:i]
    raise NotFound('the end of a row')


def arguments(text):
    """Words and parenthesized expressions of an application."""
    return re.findall(r'\((?:[^()]|\([^()]*\))*\)|[^\s()]+', text)


def meant(argument):
    """The field that an argument is about, else its own word."""
    fields = re.findall(r'\.(\w+)', argument)
    words = [w for w in re.findall(r'\w+', argument) if w not in ('some', 'length', 'map_option', 'count_of')]
    return fields[-1] if fields else words[0]


ARGUMENT = r'(\((?:[^()]|\((?:[^()]|\([^()]*\))*\))*\)|[\w.]+)'


def cells(expression, text):
    """Name and width of each cell of a row's expression; a ref's width is 4."""
    called = re.match(r'\s*(\w+_cells) (.*)', expression, re.S)
    if called and called[1] != 'signature_cells':
        parameters, body = definition(text, called[1])
        given = dict(zip(parameters, map(meant, arguments(called[2]))))
        return [(given.get(name, name), width) for name, width in cells(body, text)]
    found = []
    for form, argument in re.findall(r'\b(num \d+|bit|name_cell|ref|signature_cells) ' + ARGUMENT, expression):
        if form == 'signature_cells':
            found += [(f'{meant(argument)} {part}', 4) for part, _ in cells(definition(text, 'signature_cells')[1], text)]
        else:
            found.append((meant(argument), int(form[4:]) if form.startswith('num') else 1 if form == 'bit' else 4))
    return found


def table_widths(root):
    """The widths of the table of records, by kind."""
    rows = re.findall(r'\(([^()]*)\)', definition(spec(root, SPECS['record_table']), 'record_table')[1])
    widths = [[4 if form == 'text' else int(form.split()[1]) for form in map(str.strip, row.split('∷')) if form != '[]'] for row in rows]
    return dict(enumerate(widths, 1))


def defined_records(root):
    """Of each kind its name and cells, from the definitions of rows; their widths must be the table's."""
    records, widths = {}, table_widths(root)
    for path in SPECS['rows']:
        text = spec(root, path)
        for row in re.finditer(r'\brow (\d+) \(', text):
            owner = re.findall(r'^(\w+?)_rows?\b.* =', text[:row.start()], re.M)[-1]
            records[int(row[1])] = (RECORD_NAMES.get(owner, owner), cells(balanced(text, row.end() - 1), text))
    if {kind: [width for _, width in found] for kind, (_, found) in records.items()} != widths:
        raise NotFound('the same widths in record_table and in the definitions of rows')
    return records


def numbers(text, pattern):
    return {name: int(number) for name, number in re.findall(pattern, text, re.M)}


def defined_refusals(root):
    """Number of each cause, and the numbers that have a detail."""
    causes, details = {}, set()
    for path, number, detail in SPECS['refusals']:
        text = spec(root, path)
        causes.update(numbers(text, rf'^{number} \(?(\w+)[^=]*= (\d+)$'))
        details |= {causes[c] for c, value in re.findall(rf'^{detail} \(?(\w+)[^=]*= (\w+)$', text, re.M) if value != '0'}
    if set(causes) != set(CAUSES):
        raise NotFound(f'the causes {", ".join(sorted(set(causes) ^ set(CAUSES)))} both here and in the definitions')
    for name in names(CAUSES, causes):
        found = {number for cause, number in causes.items() if CAUSES[cause][0] == name}
        if len(found) > 1:
            raise NotFound(f'one number for {name}, but {sorted(found)}')
    return causes, details


def defined_projections(root):
    text = spec(root, SPECS['projections'])
    return {**UNNAMED_PROJECTIONS, **{name: int(definition(text, name)[1]) for name in PROJECTIONS}}


def defined_limits(root):
    return {name: int(definition(spec(root, path), name)[1]) for name, path in SPECS['limits'].items()}


# what repeats them

def manual_section(text, title):
    found = re.search(rf'^## {title}$(.*?)(?=^## |\Z)', text, re.M | re.S)
    if not found:
        raise NotFound(f'the section {title} of MANUAL')
    return found[1]


def table_rows(text):
    return [[cell.strip() for cell in line.strip('|').split('|')] for line in text.splitlines() if line.startswith('| ')]


def manual_records(text):
    """Of each kind its name, length and cells: offset, name, width."""
    records = {}
    for row in table_rows(manual_section(text, 'The sheet')):
        if len(row) == 4 and row[0].isdigit():
            found = re.findall(r'(\d+) ([^·]+?), (ref|0/1|\d+)(?= ·|$)', row[3])
            records[int(row[0])] = (row[1], int(row[2]), [(int(at), name, width_of(width)) for at, name, width in found])
    return records


def width_of(word):
    return {'ref': 4, '0/1': 1}.get(word) or int(word)


def header_records(text):
    comment = re.search(r'kind +bytes +cells\n(.*?)\n \*\n', text, re.S)
    if not comment:
        raise NotFound('the table of records in the header')
    records = {}
    for line in re.sub(r'\n \* {9,}', ' ', comment[1]).splitlines():
        kind, name, length, told = re.fullmatch(r' \* +(\d) ([a-z ]+?) +(\d+) +(.*)', line).groups()
        found, refs = [], False
        for cell in told.split(', '):
            refs = refs or cell.startswith('then')
            at, name_of, width = re.fullmatch(r'(?:then \w+ refs: )?(\d+) (.*?)(?: (ref|\d+))?', cell).groups()
            found.append((int(at), name_of, 4 if refs else width_of(width or '0')))
        records[int(kind)] = (name, int(length), found)
    return records


def placed(name, found):
    """The same of cells without offsets, which follow each other from 1 on."""
    at, cells_at = 1, []
    for cell, width in found:
        width = 4 if width == 'ref' else width
        cells_at.append((at, cell, width))
        at += width
    return name, at, cells_at


def tool(root):
    """The file of the tools that has the table of records, and the module."""
    paths = [path for path in (root / 'tools').glob('*.py') if re.search('^RECORDS = {', path.read_text(encoding='utf-8'), re.M)]
    if len(paths) != 1:
        raise NotFound(f'one file of tools/*.py with RECORDS, but {len(paths)}')
    given = importlib.util.spec_from_file_location(paths[0].stem, paths[0])
    module = importlib.util.module_from_spec(given)
    given.loader.exec_module(module)
    return f'tools/{paths[0].name}', module


# the comparison

class Differences:
    def __init__(self):
        self.count = 0

    def say(self, where, what):
        self.count += 1
        print(f'{where}: {what}')

    def same(self, where, what, expected, given):
        if expected != given:
            self.say(where, f'{what}: {given}; the definitions have {expected}')

    def records(self, where, defined, given):
        self.same(where, 'kinds of records', sorted(defined), sorted(given))
        for kind in sorted(set(defined) & set(given)):
            name, length, expected = placed(*defined[kind])
            self.same(where, f'name of record {kind}', name, given[kind][0])
            self.same(where, f'bytes of record {kind}', length, given[kind][1])
            self.same(where, f'number of cells of record {kind}', len(expected), len(given[kind][2]))
            for (at, cell, width), (at_given, cell_given, width_given) in zip(expected, given[kind][2]):
                called = CELLS.get(cell, [cell])
                if (at, width) != (at_given, width_given) or cell_given not in called:
                    self.say(where, f'record {kind}: at {at_given} {cell_given}, {width_given} bytes; '
                                    f'the definitions have at {at} {called[0]}, {width}')

    def named(self, where, what, expected, text):
        """Numbers that have a name in C or Java: each is there, with that number."""
        given = numbers(text, r'\b(?:SHEET_)?([A-Z][A-Z0-9_]*) = (\d+)\b')
        for name, number in expected.items():
            self.same(where, f'{what} {name}', number, given.get(name))

    def worded(self, where, what, expected, given):
        """Numbers that are told in words: no more and no fewer, each with its word."""
        self.same(where, f'numbers of {what}', sorted(set(expected.values())), sorted(given))
        for word, number in expected.items():
            if word not in given.get(number, word).lower():
                self.say(where, f'{what} {number} is told as "{given[number]}"; the definitions mean {word}')


def words(table, defined):
    return {table[name][1]: number for name, number in defined.items()}


def names(table, defined):
    return {table[name][0]: number for name, number in defined.items() if table[name][0]}


ANSWER = 5  # the numbers of an answer, which the room's numbers begin with


# the rows of a list in the definition, and what the list is called
LISTS = {'member.Property': 'properties', 'member.Function': 'functions', 'member.Constructor': 'constructors', 'member.Alias': 'aliases', 'head_row': 'head'}


def defined_lists(root):
    """The lists whose text is told, in their order."""
    return [LISTS[rows] for rows in re.findall(r'member\.\w+|head_row', definition(spec(root, SPECS['lists']), 'lists_of')[1])]


def check_room(d, where, text, records, lists):
    """In the header: after the numbers of an answer the records of each kind, from kind 1 on, then the text of each list."""
    first = ANSWER + len(records)
    places = {f'ROOM_{name.upper().split()[0]}': ANSWER + kind - 1 for kind, (name, _) in records.items()}
    places |= {f'ROOM_TEXT_{name.upper()}': first + i for i, name in enumerate(lists)}
    d.named(where, 'place', {'ANSWER': ANSWER, 'ROOM_RECORDS': ANSWER - 1, **places, 'ROOM_ANSWER': first + len(lists)}, text)


def check_manual_room(d, where, text, records, lists):
    """The same in MANUAL, in words."""
    told = {int(r[0]): r[1] for r in table_rows(manual_section(text, 'Areas that fit')) if r[0].isdigit()}
    kinds = {ANSWER + kind - 1: f'records of kind {kind}, {name}' for kind, (name, _) in records.items()}
    first = ANSWER + len(records)
    texts = {first + i: f'bytes of text, {name}' for i, name in enumerate(lists)}
    d.same(where, 'places of the room', list(range(first + len(lists))), sorted(told))
    d.same(where, "the room's records", kinds, {place: told.get(place) for place in kinds})
    d.same(where, "the room's texts", texts, {place: told.get(place) for place in texts})


def check_projections(d, root, module_path, module, projections):
    """In the header, in MANUAL's table of three columns, and in the tools."""
    header, manual = ((root / path).read_text(encoding='utf-8') for path in ('include/sheet_reader.h', 'docs/MANUAL.md'))
    d.named('include/sheet_reader.h', 'projection', {name.upper(): number for name, number in projections.items()}, header)
    rows = table_rows(manual_section(manual, 'The sheet'))
    d.worded('docs/MANUAL.md', 'projection', projections, {int(r[0]): r[2] for r in rows if len(r) == 3 and r[0].isdigit()})
    d.same(module_path, 'projections', {number: name for name, number in projections.items()}, module.PROJECTIONS)


def check_manual(d, where, text, records, causes, details, roles, limits):
    d.records(where, records, manual_records(text))
    rows = table_rows(manual_section(text, 'Refusals'))
    d.worded(where, 'refusal', words(CAUSES, causes), {int(r[0]): r[1] for r in rows if r[0].isdigit()})
    d.same(where, 'refusals with a detail', sorted(details), sorted(int(r[0]) for r in rows if 'detail:' in r[1]))
    found = {int(r[0]): r[1] for r in table_rows(manual_section(text, 'The sheet')) if len(r) == 2 and r[0].isdigit()}
    d.worded(where, 'role', words(ROLES, roles), found)
    told = {r[0]: r[1] for r in table_rows(manual_section(text, 'Limits'))}
    for name, limit in limits.items():
        for row in LIMITS[name][1]:
            d.same(where, f'limit of {row}', f'{limit:,}', re.split('[ ;]', told.get(row, 'none'))[0])


def check_header(d, where, text, records, causes, roles, limits):
    d.records(where, records, header_records(text))
    kinds = {name.upper().split()[0]: kind for kind, (name, _) in records.items()}
    for what, expected in (('kind', kinds), ('refusal', names(CAUSES, causes)), ('role', names(ROLES, roles)), ('limit', names(LIMITS, limits))):
        d.named(where, what, expected, text)


def check_tool(d, where, module, records, causes, details, roles, limits):
    d.records(where, records, {kind: placed(name, found) for kind, (name, found) in module.RECORDS.items()})
    told = {number: what for number, (what, _) in module.REFUSALS.items()}
    d.worded(where, 'refusal', words(CAUSES, causes), told)
    d.same(where, 'refusals with a detail', sorted(details), sorted(module.DETAILS))
    short = {number: name.replace('_', ' ').lower() for name, number in names(CAUSES, causes).items()}
    d.same(where, 'names of refusals', short, module.REFUSAL_NAMES)
    d.worded(where, 'role', words(ROLES, roles), module.ROLES)
    d.same(where, 'limit TEXT_LIMIT', limits['text_limit'], module.TEXT_LIMIT)
    for cause, limit in (('d1_too_long', 'unit_limit'), ('d2_too_long', 'string_limit'), ('too_many_types', 'allowance'), ('text_too_long', 'text_limit')):
        if f'{limits[limit]:,}' not in told.get(causes[cause], ''):
            d.say(where, f'refusal {causes[cause]} does not tell the limit {limits[limit]:,}')


def check_java(d, where, root, records, limits):
    text = (root / where / 'Records.java').read_text(encoding='utf-8')
    d.named(f'{where}/Records.java', 'kind', {name.upper().split()[0]: kind for kind, (name, _) in records.items()}, text)
    lengths = re.search(r'LENGTHS = \{(.*?)\}', text)
    d.same(f'{where}/Records.java', 'bytes of the records', ', '.join(str(placed(*records[kind])[1]) for kind in sorted(records)),
           lengths and lengths[1])
    text = (root / where / 'SheetReader.java').read_text(encoding='utf-8')
    d.named(f'{where}/SheetReader.java', 'limit', {'UNIT_LIMIT': limits['unit_limit'], 'STRING_LIMIT': limits['string_limit']}, text)


def main(args):
    if len(args) > 1 or args and args[0].startswith('-'):
        sys.exit(__doc__)
    root = pathlib.Path(args[0]) if args else pathlib.Path(__file__).resolve().parent.parent
    d = Differences()
    try:
        records, limits = defined_records(root), defined_limits(root)
        causes, details = defined_refusals(root)
        projections = defined_projections(root)
        roles = {name: int(definition(spec(root, SPECS['roles']), name)[1]) for name in ROLES}
        text = lambda path: (root / path).read_text(encoding='utf-8')
        check_manual(d, 'docs/MANUAL.md', text('docs/MANUAL.md'), records, causes, details, roles, limits)
        check_header(d, 'include/sheet_reader.h', text('include/sheet_reader.h'), records, causes, roles, limits)
        lists = defined_lists(root)
        check_room(d, 'include/sheet_reader.h', text('include/sheet_reader.h'), records, lists)
        check_manual_room(d, 'docs/MANUAL.md', text('docs/MANUAL.md'), records, lists)
        check_tool(d, *tool(root), records, causes, details, roles, limits)
        check_projections(d, root, *tool(root), projections)
        check_java(d, 'host/java/sheetreader', root, records, limits)
    except (NotFound, OSError, AttributeError) as why:
        sys.exit(f'tables: not found: {why}')
    if d.count == 0:
        print(f'tables: {len(records)} records, {len(set(causes.values()))} refusals, {len(roles)} roles, {len(projections)} projections and {len(limits)} limits '
              'are those of the definitions')
    return 1 if d.count else 0


if __name__ == '__main__':
    sys.exit(main(sys.argv[1:]))
