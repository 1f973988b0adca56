#!/usr/bin/env python3
"""usage: made_inputs.py FOLDER

Writes made inputs, each as the program takes it (docs/MANUAL.md, "The program"), and what is right for it by the specification, the line and the
numbers that are told of its room: FOLDER/NAME.input, FOLDER/NAME.line, FOLDER/NAME.room; and, unless it is refused short of 11, the input with
all strings of d2 blanked that its reading doesn't fall to: FOLDER/NAME.blanked. They are empty, at the limits, or hold types as deep as they can be
read, or texts that fit no area.

usage: made_inputs.py --room LINE       the numbers of the room by a line, of a sheet or of a refusal but for 11 and 12
       made_inputs.py --blanked INPUT INDEX ..      an input without the units of all strings but these, on standard output"""
import os, struct, sys

sys.dont_write_bytecode = True
sys.path.insert(0, os.path.join(os.path.dirname(os.path.dirname(os.path.realpath(__file__))), 'tools'))
import sheets


def varint(n):
    return bytes([n]) if n < 128 else bytes([n & 127 | 128]) + varint(n >> 7)


def field(number, body):
    return varint(number << 3 | 2) + varint(len(body)) + body


def nested(types):
    """A function whose return type has an argument, and that one another, as many as asked."""
    message = b''
    for _ in range(types - 1):
        message = field(2, field(2, message))
    return b'\0' + field(3, b'\x10\0' + field(3, message))


def named(types):
    """The same with a class name for each type: the strings 1, 3, 5 and so on."""
    message = b'\x30' + varint(2 * types - 1)
    for i in range(types - 1, 0, -1):
        message = field(2, field(2, message)) + b'\x30' + varint(2 * i - 1)
    return b'\0' + field(3, b'\x10\0' + field(3, message))


def looked_up(filling):
    """An entry of the type table whose argument is itself. With 20,000 bytes more, d1 needs the largest frame."""
    argument = field(2, b'\x18\0')
    function = field(3, b'\x10\0' + field(3, argument))
    return b'\0' + function + field(30, field(1, argument)) + (field(200, b'\0' * filling) if filling else b'')


def old_form(payload):
    """The old form of d1: groups of 7 bits, each carried by a unit one larger, mod 128."""
    bits = int.from_bytes(payload, 'little')
    return bytes((bits >> 7 * i) % 128 + 1 & 127 for i in range((8 * len(payload) + 6) // 7))


def given(k, major, units, strings):
    d2 = ''.join(strings).encode('utf-16-le')
    ends = [sum(len(s) for s in strings[:i + 1]) for i in range(len(strings))]
    return (struct.pack('<4i', k, major, 9, 0) + struct.pack(f'<I{len(units)}H', len(units), *units)
            + struct.pack('<I', len(d2) // 2) + d2 + struct.pack(f'<I{len(ends)}I', len(ends), *ends))


def ends_apart(ends):
    """d2 of two units, and ends that need not fit it."""
    return struct.pack('<4i', 3, 1, 9, 0) + struct.pack('<I', 0) + struct.pack('<I2H', 2, 97, 98) + struct.pack(f'<I{len(ends)}I', len(ends), *ends)


# The head of a package with one function, and the function f.
FUNCTION = '0102ffffffff0600000000000000' + '000001000000' + '03' + '00000100' + '0600000000000000' + 'ffffffff' * 2 + '00' + '0000'


def types_line(types):
    """Of a function whose types stand in one another."""
    sheet = FUNCTION
    for i in range(types):
        sheet += '06' + ('01' if i == 0 else '05') + '00' + 'ffffffff' + ('0000' if i == types - 1 else '0100') + '02'
    return f'0 0 {sheet}07ffffffff090000 66'


def names_line(types):
    """Of a function whose types stand in one another, with a name of one character each."""
    sheet = FUNCTION
    for i in range(types):
        sheet += '06' + ('01' if i == 0 else '05') + '00' + struct.pack('<HH', 1 + i, 1).hex() + ('0000' if i == types - 1 else '0100') + '02'
    text = 'f' + 'N' * types + '()LN;'
    return f"0 0 {sheet}07{struct.pack('<HH', 1 + types, 5).hex()}090000 {text.encode().hex()}"


def argument(projection, *types):
    """An argument with a projection, and a type or none."""
    return field(2, bytes([8, projection]) + b''.join(field(2, message) for message in types))


def of_arguments(arguments):
    """A function whose return type has these arguments."""
    return b'\0\0' + field(3, b'\x10\0' + field(3, arguments))


STAR = argument(3)


def arguments_line(projections):
    """Of a function whose return type has arguments without a name, of these projections."""
    arguments = ''.join(f'060500ffffffff0000{p:02x}' for p in projections)
    return f"0 0 {FUNCTION}060100ffffffff{struct.pack('<H', len(projections)).hex()}02{arguments}07ffffffff090000 66"


def head(kind):
    return f'0 0 010{kind}ffffffff0600000000000000000000000000090000 -'


def functions(count, rest):
    """So many functions with the name 0."""
    return b'\0\0' + field(3, b'\x10\0' + rest) * count


def room_line(line):
    """What must be told of the room where this line is right: number, detail, both lengths, types, records of each kind, text of each list."""
    number, detail, sheet, text = sheets.line_answer(line)
    records = [record['record'] for record in sheets.records(sheet, text)]
    counts = [records.count(name) for _, (name, _) in sorted(sheets.RECORDS.items())]
    return ' '.join(map(str, [number, detail, len(sheet), len(text), records.count('type'), *counts, *sheets.list_texts(sheet, text).values()]))


# A name that no area holds three times; and one of 98,304 bytes as name and signature of each of 3,640 functions, whose texts are more than a
# thousand million bytes: of these what is told of the room stands here, since they have no line. Each function has a record of 24 bytes and
# one of 5.
LONG_TEXTS = {
    'text of 90,000 bytes': (given(2, 1, functions(3, b''), ['f' * 30000]), [23 + 3 * 29, 90000, 0, 1, 0, 3, 0, 0, 0, 3, 0, 1, 0, 90000, 0, 0, 0]),
    'text of 1,073,479,680 bytes': (given(2, 1, functions(3640, b'\xa2\6\2\x10\0'), ['\uffff' * 32768]),
                                    [23 + 3640 * 29, 3640 * 3 * 98304, 0, 1, 0, 3640, 0, 0, 0, 3640, 0, 1,
                                     0, 3640 * 3 * 98304, 0, 0, 0]),
}


# A class that Kotlin 1.3.31 wrote in the old form, and the same class as it writes it otherwise; the line is the Rust's for the latter, with its type
# invariant and a count of no type aliases. One class, one sheet.
OLD = bytes.fromhex('111509412241030219052901214201090f1501416139010d0165090114411305110569110167012517511b2101')
MARKED = bytes.fromhex('00100a0218020a0218020a000a02100e0a0008c6011800320230014a0810021a0230034816a80604')
VAT = ['Lde/till/app/Vat$FULL;', 'Lde/till/app/Vat;', 'label', '', 'till-app_main']
VAT_LINE = ('0 0 010100001400c60000000000000000000100000003140005001600000000000000ffffffffffffffff00000006010019000d000000020726001400090000 '
            '64652e74696c6c2e6170702e5661742e46554c4c6c6162656c6b6f746c696e2e537472696e6728294c6a6176612f6c616e672f537472696e673b')

MADE = {
    'empty, k 3': (given(3, 1, b'', []), head(3)),
    'empty, k 2': (given(2, 1, b'', []), '5 0 - -'),
    'major 3': (given(2, 3, b'', []), '4 0 - -'),
    'negative k and major': (given(-1, -1, b'\0\0', []), head(1)),
    'a unit above 255': (given(2, 1, [0, 0, 1000], []), '6 1000 - -'),
    'wire type 3': (given(2, 1, b'\0\0\x1b', []), '8 1 - -'),
    'past its message': (given(2, 1, b'\0\0\x1a\5', []), '13 2 - -'),
    'field too large': (given(2, 1, b'\0\0\x80\x80\x80\x80\x80\1', []), '14 1 - -'),
    'forbidden field 0': (given(2, 1, b'\0\0\0\0', []), '17 1 - -'),
    'the least forbidden field above': (given(2, 1, b'\0\0\x80\x80\x80\x80\x10\0', []), '17 1 - -'),
    'the largest field': (given(2, 1, b'\0\0\xf8\xff\xff\xff\x0f\0', []), head(2)),
    '32,768 units of d1': (given(3, 1, [0] * 32768, []), head(3)),
    '32,769 units of d1': (given(3, 1, [0] * 32769, []), '1 0 - -'),
    '32,768 units of d2': (given(3, 1, b'', ['x' * 32768]), head(3)),
    '32,769 units of d2': (given(3, 1, b'', ['x' * 32769]), '2 0 - -'),
    '4,096 strings': (given(3, 1, b'', [''] * 4096), head(3)),
    '4,097 strings': (given(3, 1, b'', [''] * 4097), '2 0 - -'),
    'ends that fit': (ends_apart([0, 1, 2]), head(3)),
    'ends that fall': (ends_apart([1, 0, 2]), '3 0 - -'),
    'ends too low': (ends_apart([1]), '3 0 - -'),
    'ends too high': (ends_apart([2**32 - 1]), '3 0 - -'),
    'no ends': (ends_apart([]), '3 0 - -'),
    'types looked up, 32 deep': (given(2, 1, b'\0' + looked_up(0), ['f']), types_line(33)),
    'types looked up in a long d1': (given(2, 1, b'\0' + looked_up(20000), ['f']), types_line(33)),
    '180 types deep in 1,020 units': (given(2, 1, b'\0' + nested(180), ['f']), types_line(180)),
    '2,048 types deep': (given(2, 1, b'\0' + nested(2048), ['f']), types_line(2048)),
    'a class in the old form': (given(1, 1, OLD, VAT), VAT_LINE),
    'the same class with the marker': (given(1, 1, MARKED, VAT), VAT_LINE),
    'eight units of the old form': (given(1, 1, old_form(b'\0' + b'\x78\0' * 3), []), head(1)),
    'zero bytes in the old form': (given(1, 1, b'\1' * 8, []), '17 1 - -'),
    'one unit of the old form': (given(1, 1, b'\1', []), '7 0 - -'),
    'a marker of the old form': (given(1, 1, [65535, 1, 1], []), '6 65535 - -'),
    'arguments in, out, invariant and a star': (given(2, 1, of_arguments(b''.join(argument(p, b'') for p in (0, 1, 2, 3))), ['f']), arguments_line([0, 1, 2, 3])),
    'a projection that is none': (given(2, 1, of_arguments(argument(4, b'') + argument(4)), ['f']), arguments_line([2])),
    'a star with a broken type': (given(2, 1, of_arguments(argument(3, b'\x0b')), ['f']), arguments_line([3])),
    '2,047 stars': (given(2, 1, of_arguments(STAR * 2047), ['f']), arguments_line([3] * 2047)),
    '2,048 stars': (given(2, 1, of_arguments(STAR * 2048), ['f']), '10 0 - -'),
    '2,049 types deep': (given(2, 1, b'\0' + nested(2049), ['f']), '10 0 - -'),
    '2,048 names deep': (given(2, 1, b'\0' + named(2048), ['f', *['N', 'unused'] * 2047, 'N']), names_line(2048)),
}

# Which strings of d2 are fallen to, where it isn't the only one, f, of a package, or none of a k whose payload isn't read.
USED = {
    'a class in the old form': [0, 2],
    'the same class with the marker': [0, 2],
    '2,048 names deep': [0, *range(1, 4096, 2)],
}


def used(name, data):
    return USED.get(name, [0] if struct.unpack('<i', data[:4]) == (2,) else [])


def numbers(data, at, form):
    """A count and as many numbers, and where they end."""
    count, = struct.unpack_from('<I', data, at)
    return struct.unpack_from(f'<{count}{form}', data, at + 4), at + 4 + count * struct.calcsize(form)


def blanked(data, kept):
    """An input of which all strings of d2 but those of these indices are empty."""
    _, after_d1 = numbers(data, 16, 'H')
    d2, after_d2 = numbers(data, after_d1, 'H')
    ends, _ = numbers(data, after_d2, 'I')
    units, new_ends = [], []
    for i, (start, end) in enumerate(zip((0, *ends), ends)):
        units += d2[start:end] if i in kept else ()
        new_ends.append(len(units))
    return data[:after_d1] + struct.pack(f'<I{len(units)}H', len(units), *units) + struct.pack(f'<I{len(ends)}I', len(ends), *new_ends)


def main(args):
    if len(args) == 2 and args[0] == '--room':
        return print(room_line(args[1]))
    if len(args) >= 2 and args[0] == '--blanked':
        with open(args[1], 'rb') as f:
            data = blanked(f.read(), set(map(int, args[2:])))
        sys.stdout.buffer.write(data)
        return
    if len(args) != 1:
        sys.exit(__doc__)
    whole = {name: (data, line, room_line(line)) for name, (data, line) in MADE.items()}
    whole |= {name: (data, '11 0 - -', ' '.join(map(str, [0, 0, *told]))) for name, (data, told) in LONG_TEXTS.items()}
    for name, (data, line, room) in whole.items():
        with open(f'{args[0]}/{name}.input', 'wb') as f:
            f.write(data)
        if line.split()[0] in ('0', '11'):
            with open(f'{args[0]}/{name}.blanked', 'wb') as f:
                f.write(blanked(data, set(used(name, data))))
        for suffix, text in (('line', line), ('room', room)):
            with open(f'{args[0]}/{name}.{suffix}', 'w', encoding='ascii') as f:
                f.write(text + '\n')


if __name__ == '__main__':
    main(sys.argv[1:])
