"""Class files for tests: an annotation kotlin.Metadata with chosen elements, and annotations around it, in an otherwise empty class."""
import struct


def modified(text):
    """A constant's bytes (JVMS 4.4.7)."""
    data = text.encode('utf-16-le', 'surrogatepass')
    units = struct.unpack(f'<{len(data) // 2}H', data)
    return b''.join(bytes([u]) if 0 < u < 0x80 else bytes([0xc0 | u >> 6, 0x80 | u & 0x3f]) if u < 0x800
                    else bytes([0xe0 | u >> 12, 0x80 | u >> 6 & 0x3f, 0x80 | u & 0x3f]) for u in units)


class Pool:
    """A constant pool that grows."""

    def __init__(self):
        self.bytes, self.count = [], 1

    def add(self, constant):
        self.bytes.append(constant)
        self.count += 1
        return struct.pack('>H', self.count - 1)

    def utf8(self, text):
        data = text if isinstance(text, bytes) else modified(text)
        return self.add(b'\1' + struct.pack('>H', len(data)) + data)

    def integer(self, n):
        return self.add(b'\3' + struct.pack('>i', n))

    def class_named(self, name):
        return self.add(b'\7' + self.utf8(name))


def element(pool, value):
    """An element's value: a number, a text, a list, or bytes that are one already."""
    if isinstance(value, bytes):
        return value
    if isinstance(value, int):
        return b'I' + pool.integer(value)
    if isinstance(value, str):
        return b's' + pool.utf8(value)
    return b'[' + struct.pack('>H', len(value)) + b''.join(element(pool, item) for item in value)


def annotation(pool, name, values):
    pairs = b''.join(pool.utf8(key) + element(pool, value) for key, value in values.items())
    return pool.utf8(name) + struct.pack('>H', len(values)) + pairs


def class_file(values, name='made/Made', before=lambda pool: [], methods=()):
    """A class file. `values` are the elements of kotlin.Metadata, or None for a class without it; `before` gives annotations in front of it."""
    pool = Pool()
    this, above = pool.class_named(name), pool.class_named('java/lang/Object')
    annotations = before(pool) + ([] if values is None else [annotation(pool, 'Lkotlin/Metadata;', values)])
    body = struct.pack('>H', len(annotations)) + b''.join(annotations)
    attribute = pool.utf8('RuntimeVisibleAnnotations') + struct.pack('>I', len(body)) + body
    members = b''.join(b'\0\x01' + pool.utf8(method) + pool.utf8(descriptor) + b'\0\0' for method, descriptor in methods)
    return (b'\xca\xfe\xba\xbe\0\0\0\x34' + struct.pack('>H', pool.count) + b''.join(pool.bytes) + b'\0\x21' + this + above
            + b'\0\0\0\0' + struct.pack('>H', len(methods)) + members + b'\0\1' + attribute)


def payload(data):
    """d1 for a payload of bytes, in strings that are short enough for constants."""
    units = '\0' + data.decode('latin-1')
    return [units[at:at + 20000] for at in range(0, len(units), 20000)]


def old_payload(data):
    """d1 for a payload of bytes in the old form, as docs/MANUAL.md tells it under "Old libraries"."""
    bits = int.from_bytes(data, 'little')
    units = ''.join(chr(((bits >> at & 127) + 1) % 128) for at in range(0, 8 * len(data), 7))
    return [units[at:at + 20000] for at in range(0, len(units), 20000)]


def varint(n):
    return bytes([n]) if n < 128 else bytes([n & 127 | 128]) + varint(n >> 7)


def field(number, body):
    """A field of bytes."""
    return varint(number << 3 | 2) + varint(len(body)) + body


def package(body, strings, **more):
    """kotlin.Metadata of a file whose package message is `body`; the name table is empty, so that names are strings of d2."""
    return {'mv': [1, 1, 15], 'k': 2, 'd1': payload(b'\0' + body), 'd2': strings, **more}


def nested_types(depth):
    """A function `f` that returns a type with an argument, that one another, and so on."""
    message = b''
    for _ in range(depth - 1):
        message = field(2, field(2, message))
    return package(field(3, b'\x10\0' + field(3, message)), ['f'])


def alias(name, underlying, expanded):
    """A type alias of a package; both types are inline, or None."""
    inline = [field(number, message) for number, message in ((4, underlying), (6, expanded)) if message is not None]
    return field(5, b'\x10' + varint(name) + b''.join(inline))


def nested_annotation(pool, depth):
    """An annotation whose value is an annotation in an array, and so on."""
    name, key = pool.utf8('Lmade/Nest;'), pool.utf8('of')
    return (name + b'\0\1' + key + b'[\0\1@') * depth + name + b'\0\0'


def stripped():
    """examples/Ledger.class: a class of a library whose parameter names were stripped, so that their indices lead past d2. Two functions `entry` are overloads."""
    strings = ['stripped/Ledger', 'entry', 'kotlin/Unit', 'kotlin/Int', 'kotlin/String']

    def type_of(name):
        return b'\x30' + varint(strings.index(name))

    def parameters(number, *types):
        return b''.join(field(number, b'\x10\x63' + field(3, type_of(name))) for name in types)

    def function(*types):
        return field(9, b'\x10\1' + field(3, type_of('kotlin/Unit')) + parameters(6, *types))

    body = b'\x18\0' + field(8, parameters(2, 'kotlin/String')) + function('kotlin/Int') + function('kotlin/Int', 'kotlin/String')
    methods = [('<init>', '(Ljava/lang/String;)V'), ('entry', '(I)V'), ('entry', '(ILjava/lang/String;)V')]
    return class_file({'mv': [1, 1, 15], 'k': 1, 'd1': payload(b'\0' + body), 'd2': strings}, 'stripped/Ledger', methods=methods)
