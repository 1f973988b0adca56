"""Sheets taken apart: the table of records, the walk by their counts, the refusals, and the lines of the program sheet_reader
(docs/MANUAL.md, "The sheet", "Refusals", "The program")."""
import struct

# the number of the sheets' format: SHEET_FORMAT of include/sheet_reader.h
FORMAT = 7

KINDS = {1: 'class', 2: 'file', 3: 'synthetic class', 4: 'facade of a multi-file class', 5: 'part of a multi-file class'}

# cells after the kind byte: a width in bytes, or 'ref'
RECORDS = {
    1: ('head', [('kind', 1), ('name', 'ref'), ('flags', 8), ('constructors', 2), ('functions', 2), ('properties', 2)]),
    2: ('constructor', [('flags', 8), ('signature', 'ref'), ('descriptor', 'ref'), ('parameters', 2)]),
    3: ('function', [('name', 'ref'), ('flags', 8), ('signature', 'ref'), ('descriptor', 'ref'), ('receiver', 1), ('parameters', 2)]),
    4: ('property', [('name', 'ref'), ('flags', 8), ('receiver', 1), ('getter default', 1), ('setter default', 1),
                     ('field', 'ref'), ('field descriptor', 'ref'), ('getter', 'ref'), ('getter descriptor', 'ref'),
                     ('setter', 'ref'), ('setter descriptor', 'ref')]),
    5: ('parameter', [('name', 'ref'), ('default', 1)]),
    6: ('type', [('role', 1), ('nullable', 1), ('name', 'ref'), ('arguments', 2), ('projection', 1)]),
    7: ('default descriptor', [('descriptor', 'ref')]),
    8: ('alias', [('name', 'ref'), ('flags', 8)]),
    9: ('aliases', [('aliases', 2)]),
}

RECORDS_BY_NAME = dict(RECORDS.values())

# where a record's name has no s for the plural
PLURALS = {'property': 'properties', 'alias': 'aliases'}

# the lists whose text is told by itself, in this order, and the kind of their members
LISTS = {'properties': 4, 'functions': 3, 'constructors': 2, 'aliases': 8, 'head': 1}

# no text is longer: a class with a longer one is refused with 11
TEXT_LIMIT = 65534

ROLES = {1: 'returned or property type', 2: 'receiver', 3: 'parameter', 4: 'vararg element', 5: 'argument',
         6: 'underlying type of an alias', 7: 'expanded type of an alias'}

# of an argument; what is no argument is invariant
PROJECTIONS = {0: 'in', 1: 'out', 2: 'invariant', 3: 'star'}

# what happened, and what to do
REFUSALS = {
    1: ('d1 has more than 32,768 units', 'the class is too large for this reader: leave it out, or split its source file'),
    2: ('d2 has more than 32,768 units or 4,096 strings', 'the class is too large for this reader: leave it out, or split its source file'),
    3: ('the string ends fall, or the last is not the number of units of d2', 'mend the code that lays out d2'),
    4: ('the major metadata version is above 2', 'the class comes from a newer compiler: compile it with an older metadata version'),
    5: ('d1 is empty', 'compile the class again, or leave it out'),
    6: ('a unit of d1 is above 255', 'd1 was damaged on the way: take the class file anew, or compile again'),
    7: ('the payload is truncated: a varint is cut short by the end of its message', 'd1 is damaged: take the class file anew, or compile again'),
    8: ('a field has a wire type that is not read', 'd1 is damaged: take the class file anew, or compile again'),
    9: ('a varint is too long', 'd1 is damaged: take the class file anew, or compile again'),
    10: ('the class has more than 2,048 types', 'the class is too large for this reader: split its source file'),
    11: ('the texts are longer than the text area or 65,534 bytes', 'lend a text area of 65,534 bytes; if it was that long, split the source file'),
    12: ('the sheet is longer than its area', 'lend a longer sheet area'),
    13: ('a length or a fixed number runs past its message', 'd1 is damaged: take the class file anew, or compile again'),
    14: ('a field number is too large for 32 bits', 'd1 is damaged: take the class file anew, or compile again'),
    15: ('d1 has the wrong form: the one that it would be converted to', 'there is nothing to convert; the reader takes both forms'),
    16: ('the first unit of the old form would be 0, which is the marker', 'keep the d1 with the marker: these bytes have no old form'),
    17: ('a field number is forbidden: 0, or above 536,870,911', 'd1 is damaged: take the class file anew, or compile again'),
}
DETAILS = {6: 'the unit', **dict.fromkeys((7, 8, 9, 13, 14, 17), 'the offset among the decoded bytes')}

# given by conversions of d1 alone, never by the reader
OF_CONVERSIONS = {15, 16}

# what the two forms of d1 are called
MARKER_FORM, OLD_FORM = 'with the marker', 'the old form'

# the names that include/sheet_reader.h gives them, as SHEET_TRUNCATED
REFUSAL_NAMES = {
    1: 'd1 too long', 2: 'd2 too long', 3: 'string ends', 4: 'newer version', 5: 'empty', 6: 'not a byte', 7: 'truncated', 8: 'wire type',
    9: 'oversized varint', 10: 'too many types', 11: 'text too long', 12: 'sheet too long', 13: 'past message', 14: 'field too large',
    15: 'wrong form', 16: 'first unit zero', 17: 'forbidden field',
}


class NotALine(Exception):
    """The line isn't one of sheet_reader's, or its sheet doesn't keep to the table."""


def records(sheet, text):
    """The records in order, each a dictionary of its cells."""
    at = 0
    while at < len(sheet):
        kind = sheet[at]
        if kind not in RECORDS:
            raise NotALine(f'byte {at} of the sheet is {kind}, no kind of record')
        record, at = {'record': RECORDS[kind][0]}, at + 1
        for name, width in RECORDS[kind][1]:
            cell = sheet[at:at + (4 if width == 'ref' else width)]
            at += 4 if width == 'ref' else width
            if at > len(sheet):
                raise NotALine('the last record is cut short')
            record[name] = ref(cell, text) if width == 'ref' else int.from_bytes(cell, 'little')
        yield record


def ref(cell, text):
    """The text that a ref names, or None."""
    if cell == b'\xff\xff\xff\xff':
        return None
    offset, size = struct.unpack('<HH', cell)
    if offset + size > len(text):
        raise NotALine('a ref points past the text')
    return text[offset:offset + size].decode('utf-8', 'replace')


def list_texts(sheet, text):
    """Bytes of text of each list: of its members, and of the parameters, types and default descriptors that stand after them."""
    texts, lists = dict.fromkeys(LISTS, 0), {RECORDS[kind][0]: name for name, kind in LISTS.items()}
    for record in records(sheet, text):
        if record['record'] not in ('parameter', 'type', 'default descriptor'):
            of = lists.get(record['record'])
        refs = [record[name] for name, width in RECORDS_BY_NAME[record['record']] if width == 'ref' and record[name] is not None]
        if refs:
            texts[of] += sum(len(told.encode()) for told in refs)
    return texts


class Walk:
    """The records, taken one after the other by their counts. `sheet` gives the head, with its declarations in order in `of`, aliases last."""

    def __init__(self, sheet, text):
        self.all, self.at = list(records(sheet, text)), 0

    def next(self, record):
        if self.at == len(self.all) or self.all[self.at]['record'] != record:
            raise NotALine(f'the record "{record}" was announced and does not follow')
        self.at += 1
        return self.all[self.at - 1]

    def has(self, role):
        """Whether a type of that role stands here."""
        return self.at < len(self.all) and self.all[self.at].get('role') == role

    def type_of(self, role):
        """The type of that role with its arguments, if one stands here. No recursion: types may be 2,048 deep."""
        if not self.has(role):
            return None
        whole = dict(self.next('type'), of=[])
        around = [whole]
        while around:
            t = around[-1]
            if len(t['of']) == t['arguments']:
                around.pop()
            elif self.has(5):
                t['of'].append(dict(self.next('type'), of=[]))
                around.append(t['of'][-1])
            else:
                raise NotALine('an argument was announced and does not follow')
        return whole

    def parameter(self):
        p = self.next('parameter')
        p['type'], p['vararg'] = self.type_of(3), self.type_of(4)
        return p

    def owned(self, m, types):
        m['of'] = [self.parameter() for _ in range(m['parameters'])]
        if types:
            m['receiver type'], m['type'] = self.type_of(2), self.type_of(1)
        m['default'] = self.next('default descriptor')['descriptor']
        return m

    def property(self):
        p = self.next('property')
        p['receiver type'], p['type'] = self.type_of(2), self.type_of(1)
        return p

    def alias(self):
        a = self.next('alias')
        a['underlying'], a['expanded'] = self.type_of(6), self.type_of(7)
        return a

    def sheet(self):
        h = self.next('head')
        h['of'] = [self.owned(self.next('constructor'), False) for _ in range(h['constructors'])]
        h['of'] += [self.owned(self.next('function'), True) for _ in range(h['functions'])]
        h['of'] += [self.property() for _ in range(h['properties'])]
        h['of'] += [self.alias() for _ in range(self.next('aliases')['aliases'])]
        if self.at < len(self.all):
            raise NotALine('records follow that no count announced')
        return h


def answer_line(number, detail, sheet, text):
    """The line as the program prints it."""
    return f"{number} {detail} {sheet.hex() or '-'} {text.hex() or '-'}"


def line_answer(line):
    """Number, detail, sheet and text of a line."""
    words = line.split()
    try:
        number, detail = int(words[0]), int(words[1])
        sheet, text = (b'' if w == '-' else bytes.fromhex(w) for w in words[2:])
    except (ValueError, IndexError):
        raise NotALine('it is not number, detail, sheet and text') from None
    if number and number not in REFUSALS or number in OF_CONVERSIONS:
        raise NotALine(f'there is no refusal {number}')
    return number, detail, sheet, text


def refusal_text(number, detail, place=None):
    """A refusal in words, with what to do; `place` has the words for where it broke, if the payload is there to tell it by."""
    what, advice = REFUSALS[number]
    told = f' ({place})' if place else f' ({DETAILS[number]}: {detail})' if number in DETAILS else ''
    return f'refused, {number}: {what}{told}. What to do: {advice}.'
