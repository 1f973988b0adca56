"""Where a payload breaks, in words. Refusals 7, 8, 9, 13, 14 and 17 tell an offset among the decoded bytes (docs/MANUAL.md, "Refusals"); here the
payload is walked down to it: which message it lies in, and what stands there.

    p = payloads.place(metadata, number, detail)
    print(p.offset, p.what, p.where)          17, 'the tag there has wire type 3', 'the return type of function 2'"""
import collections

PLACED = (7, 8, 9, 13, 14, 17)

# the encoding guide's field numbers are 1 to this
LARGEST_FIELD = 536_870_911

# offset and how many bytes there are; the byte at the offset, or None at the end; what is wrong with what stands there; the message that it is in
Place = collections.namedtuple('Place', 'offset of byte what where')

# Of a message, the fields that the reader looks into: the words for it, and what it is. Of a list the place in it is told: a word with '#'.
TYPE = 'type'
MESSAGES = {
    'class': {8: ('constructor #', 'constructor'), 9: ('function #', 'function'), 10: ('property #', 'property'), 11: ('type alias #', 'alias'),
              30: ('the type table', 'type table')},
    'package': {3: ('function #', 'function'), 4: ('property #', 'property'), 5: ('type alias #', 'alias'), 30: ('the type table', 'type table')},
    'constructor': {2: ('parameter #', 'parameter'), 100: ('the signature', 'leaf')},
    'function': {3: ('the return type', TYPE), 5: ('the receiver type', TYPE), 6: ('parameter #', 'parameter'), 100: ('the signature', 'leaf')},
    'property': {3: ('the type', TYPE), 5: ('the receiver type', TYPE), 100: ('the signature', 'signatures')},
    'signatures': {3: ('the getter', 'leaf'), 4: ('the setter', 'leaf')},
    'alias': {4: ('the underlying type', TYPE), 6: ('the expanded type', TYPE)},
    'parameter': {3: ('the type', TYPE), 4: ('the vararg element type', TYPE)},
    TYPE: {2: ('argument #', 'argument')},
    'argument': {2: (None, TYPE)},
    'type table': {1: ('entry #', TYPE)},
    'name table': {1: ('record #', 'leaf'), 5: ('the list of local names', 'numbers')},
    'leaf': {},
}
# told where the walk doesn't come to the offset, which doesn't happen with the reader's own refusals (mutation_test.py)
UNKNOWN = 'the payload'
# arguments inside arguments that are told one by one
SHOWN_DEPTH = 3


class Broken(Exception):
    """What can't be read: its offset, and what is wrong with it."""

    def __init__(self, at, what):
        super().__init__(at, what)
        self.at, self.what = at, what


def decoded(d1):
    """The payload's bytes from d1's units, or None where they come to none."""
    if not d1 or any(unit > 255 for unit in d1[d1[0] == 0:]):
        return None
    if d1[0] == 0:
        return bytes(d1[1:])
    found, bits, count = bytearray(), 0, 0
    for unit in d1:
        bits, count = bits | (unit + 127 & 127) << count, count + 7
        if count >= 8:
            found.append(bits & 255)
            bits, count = bits >> 8, count - 8
    return bytes(found)


def varint(data, at, end, name):
    """A number and where it ends; `name` is what it is for."""
    number = 0
    for place in range(11):
        if at + place >= end:
            raise Broken(at, f'the {name} there is cut short' if place else f'a {name} is missing there, at the end of its message')
        if place == 10:
            raise Broken(at, f'the {name} there has more than ten bytes')
        number |= (data[at + place] & 127) << 7 * place
        if data[at + place] < 128:
            return number & (1 << 64) - 1, at + place + 1
    raise AssertionError('a varint ends or breaks')


def past(at, end, start, length, name):
    """Where so many bytes end that are told by what stands at `at`."""
    if length > end - start:
        told = f'the length there is {length}' if name == 'length' else f'a fixed number of {length} bytes begins there'
        raise Broken(at, f'{told}, and its message has {end - start} left')
    return start + length


def fields(data, at, end):
    """Field number, and where its bytes begin and end, of each length-delimited field of a message. Every field of it is read."""
    found = []
    while at < end:
        tag_at = at
        tag, at = varint(data, at, end, 'tag')
        if not 1 <= tag >> 3 <= LARGEST_FIELD:
            raise Broken(tag_at, f'the tag there has the field number {tag >> 3}')
        if tag & 7 == 0:
            _, at = varint(data, at, end, 'number')
        elif tag & 7 in (1, 5):
            at = past(at, end, at, 8 if tag & 7 == 1 else 4, 'number')
        elif tag & 7 == 2:
            length_at = at
            length, start = varint(data, at, end, 'length')
            at = past(length_at, end, start, length, 'length')
            found.append((tag >> 3, start, at))
        else:
            raise Broken(tag_at, f'the tag there has wire type {tag & 7}')
    return found


def numbers(data, at, end):
    while at < end:
        _, at = varint(data, at, end, 'number')


def descent(data, kind, start, end, offset):
    """From a message down to the one that breaks at the offset: the words of each step, and what is wrong; None if nothing does."""
    steps = []
    while True:
        try:
            if kind == 'numbers':
                return numbers(data, start, end)
            found = fields(data, start, end)
        except Broken as broken:
            return (steps, broken.what) if broken.at == offset else None
        counts = collections.Counter()
        for field, inner_start, inner_end in found:
            counts[field] += 1
            if field in MESSAGES[kind] and inner_start <= offset <= inner_end:
                words, kind = MESSAGES[kind][field]
                if words:
                    steps.append(words.replace('#', str(counts[field])))
                start, end = inner_start, inner_end
                break
        else:
            return None


def inside(steps):
    """The steps in words, the innermost first. Of arguments inside one another only their number is told where they are many."""
    told, at = [], len(steps)
    while at:
        first = at
        while first and steps[first - 1].startswith('argument '):
            first -= 1
        if at - first > SHOWN_DEPTH:
            told.append(f'{steps[at - 1]}, {at - first} arguments deep,')
            at = first
        else:
            at -= 1
            told.append(steps[at])
    return ' of '.join(told)


def place(metadata, number, detail):
    """The place that a refusal of a class_input.Metadata tells; None for refusals that tell none."""
    data = decoded(metadata.d1) if number in PLACED else None
    if data is None or detail > len(data):
        return None
    byte = data[detail] if detail < len(data) else None
    try:
        length, start = varint(data, 0, len(data), 'length')
        end = past(0, len(data), start, length, 'length')
    except Broken as broken:
        return Place(detail, len(data), byte, broken.what, 'the length of the name table')
    body = 'package' if metadata.k in (2, 5) else 'class'
    for kind, at, to in (('name table', start, end), (body, end, len(data))):
        found = at <= detail <= to and descent(data, kind, at, to, detail)
        if found:
            steps = (['the name table'] if kind == 'name table' else []) + found[0]
            return Place(detail, len(data), byte, found[1], inside(steps) or f'the {body} itself')
    return Place(detail, len(data), byte, 'what stands there cannot be read', UNKNOWN)


def text(p):
    """A place as it stands in a message."""
    byte = 'at their end' if p.byte is None else f'byte {p.byte:02x} hex'
    return f'offset {p.offset} of {p.of} decoded bytes, {byte}: {p.what}, in {p.where}'
