#!/usr/bin/env python3
"""usage: class_input.py FILE.class             the input of the class, to standard output
       class_input.py FILE.jar ENTRY           the same of one entry of a jar (or zip), as till/Sale.class
       class_input.py --all FILE.jar           all classes that carry metadata, each input with its length (4 bytes) in front
       class_input.py --list FILE.jar          their names, in the same order

From a class file to the input of the program sheet_reader (docs/MANUAL.md, "The program"): k, mv, d1 and d2 of the annotation
kotlin.Metadata. It follows chapter 4 of the Java Virtual Machine Specification."""
import array, collections, signal, struct, sys, zipfile

METADATA = b'Lkotlin/Metadata;'


class Damaged(Exception):
    """The class file can't be read."""


class NoMetadata(Exception):
    """The class carries no kotlin.Metadata."""


class Bytes:
    """The bytes of a class file, read from front to back. Numbers are big-endian."""

    def __init__(self, data):
        self.data, self.at = data, 0

    def take(self, size):
        if size > len(self.data) - self.at:
            raise Damaged('the file ends in the middle of a structure')
        self.at += size
        return self.data[self.at - size:self.at]

    def u1(self):
        return self.take(1)[0]

    def u2(self):
        return int.from_bytes(self.take(2), 'big')

    def u4(self):
        return int.from_bytes(self.take(4), 'big')


def modified_utf8(data):
    """The UTF-16 units of a constant (JVMS 4.4.7): each unit is 1 to 3 bytes, a surrogate too."""
    if data.isascii():
        return list(data)
    try:
        # but for the two bytes of unit 0 and for four-byte forms this is UTF-8 in which surrogates stand by themselves
        if not any(lead in data for lead in FOUR_BYTES):
            units = array.array('H', data.replace(b'\xc0\x80', b'\0').decode('utf-8', 'surrogatepass').encode('utf-16-le', 'surrogatepass'))
            if sys.byteorder == 'big':
                units.byteswap()
            return units.tolist()
    except UnicodeDecodeError:
        pass
    return units_one_by_one(data)


FOUR_BYTES = [bytes([lead]) for lead in range(0xf0, 0xf5)]


def units_one_by_one(data):
    """The same, where the bytes are no UTF-8: forms that are longer than they need be are taken as they are."""
    units, at = [], 0
    while at < len(data):
        lead = data[at]
        size = 1 if lead < 0x80 else 2 if lead & 0xe0 == 0xc0 else 3 if lead & 0xf0 == 0xe0 else 0
        part = data[at:at + size]
        if size == 0 or len(part) < size or any(b & 0xc0 != 0x80 for b in part[1:]):
            raise Damaged('a string constant is not in modified UTF-8')
        units.append(unit_of(part))
        at += size
    return units


def unit_of(part):
    if len(part) == 1:
        return part[0]
    if len(part) == 2:
        return (part[0] & 0x1f) << 6 | part[1] & 0x3f
    return (part[0] & 0x0f) << 12 | (part[1] & 0x3f) << 6 | part[2] & 0x3f


def text_of(constant):
    """A constant's text as a sheet has it: a lone surrogate is U+FFFD."""
    units = modified_utf8(constant)
    return struct.pack(f'<{len(units)}H', *units).decode('utf-16-le', 'replace')


# bytes of a constant after its tag, but for Utf8 (1); Long (5) and Double (6) take two places
CONSTANT = {3: 4, 4: 4, 5: 8, 6: 8, 7: 2, 8: 2, 9: 4, 10: 4, 11: 4, 12: 4, 15: 3, 16: 2, 17: 4, 18: 4, 19: 2, 20: 2}

# the constant of a class: the place of its name
ClassConstant = collections.namedtuple('ClassConstant', 'name')


def constant_pool(b):
    """Texts as bytes, ints, and classes, by their places."""
    pool, count, at = {}, b.u2(), 1
    while at < count:
        tag = b.u1()
        if tag == 1:
            pool[at] = b.take(b.u2())
        elif tag in CONSTANT:
            data = b.take(CONSTANT[tag])
            if tag == 3:
                pool[at] = int.from_bytes(data, 'big', signed=True)
            elif tag == 7:
                pool[at] = ClassConstant(int.from_bytes(data, 'big'))
        else:
            raise Damaged(f'constant {at} has the unknown tag {tag}')
        at += 2 if tag in (5, 6) else 1
    return pool


def constant(pool, at, kind):
    if not isinstance(pool.get(at), kind):
        raise Damaged(f'constant {at} is missing or of another kind')
    return pool[at]


def member_list(b):
    """Fields, or methods: access and the places of name and descriptor in the constant pool. What else they have is passed over."""
    members = []
    for _ in range(b.u2()):
        members.append((b.u2(), b.u2(), b.u2()))
        for _ in range(b.u2()):
            b.take(2)
            b.take(b.u4())
    return members


def skip_element(b):
    """Passes over the value of an annotation's element (JVMS 4.7.16.1), however deep arrays and annotations are nested in it."""
    around = [(1, False)]  # values still to come, and whether each has its name in front
    while around:
        left, with_names = around.pop()
        if left == 0:
            continue
        around.append((left - 1, with_names))
        b.take(2 * with_names)
        tag = b.u1()
        if tag in b'BCDFIJSZsc':
            b.take(2)
        elif tag == ord('e'):
            b.take(4)
        elif tag == ord('['):
            around.append((b.u2(), False))
        elif tag == ord('@'):
            b.take(2)
            around.append((b.u2(), True))
        else:
            raise Damaged(f'an annotation has an element of the unknown kind {tag}')


def number_in(b, pool):
    if b.u1() not in b'BCISZ':
        raise Damaged('an element of kotlin.Metadata that is a number is of another kind')
    return constant(pool, b.u2(), int)


def string_in(b, pool):
    if b.u1() != ord('s'):
        raise Damaged('an element of kotlin.Metadata that is a string is of another kind')
    return constant(pool, b.u2(), bytes)


def list_in(b, pool, item):
    if b.u1() != ord('['):
        raise Damaged('an element of kotlin.Metadata that is an array is of another kind')
    return [item(b, pool) for _ in range(b.u2())]


# the elements that are asked for; any other is passed over
ELEMENTS = {
    b'k': number_in,
    b'mv': lambda b, pool: list_in(b, pool, number_in),
    b'd1': lambda b, pool: list_in(b, pool, string_in),
    b'd2': lambda b, pool: list_in(b, pool, string_in),
    b'xs': string_in,
}


def metadata_elements(b, pool):
    """The elements of kotlin.Metadata, by their names; b stands behind the annotation's type. Strings are bytes of the constant pool."""
    values = {}
    for _ in range(b.u2()):
        name = constant(pool, b.u2(), bytes)
        if name in ELEMENTS:
            values[name.decode('ascii')] = ELEMENTS[name](b, pool)
        else:
            skip_element(b)
    return values


def annotation_elements(b, pool):
    """The elements of the first kotlin.Metadata in a list of annotations, or None."""
    for _ in range(b.u2()):
        if constant(pool, b.u2(), bytes) == METADATA:
            return metadata_elements(b, pool)
        for _ in range(b.u2()):
            b.take(2)
            skip_element(b)
    return None


class Metadata:
    """kotlin.Metadata as the reader takes it: k, the three numbers of mv, the units of d1 and of d2, where d2's strings end."""

    def __init__(self, values):
        self.k = values.get('k', 1)
        self.version = [*values.get('mv', []), 0, 0, 0][:3]
        self.d1 = [unit for part in values.get('d1', []) for unit in modified_utf8(part)]
        self.d2, self.ends = [], []
        for part in values.get('d2', []):
            self.d2 += modified_utf8(part)
            self.ends.append(len(self.d2))
        # of a multi-file class the facade's d1 names the parts, and a part's xs the facade
        self.parts = [text_of(part) for part in values.get('d1', [])] if self.k == 4 else []
        self.facade = text_of(values['xs']) if self.k == 5 and 'xs' in values else None


class ClassFile:
    """A class file: its constant pool, the places of its fields and methods, and what the annotation kotlin.Metadata holds."""

    def __init__(self, data):
        b = Bytes(data)
        if data[:4] != b'\xca\xfe\xba\xbe':
            raise Damaged('it does not begin as a class file does')
        b.take(8)
        self.pool = constant_pool(b)
        b.take(2)
        self.this_class = b.u2()
        b.take(2)
        b.take(2 * b.u2())
        self.fields, self.methods = member_list(b), member_list(b)
        self.rest = b.take(len(data) - b.at)

    def name(self):
        """The JVM name, as till/Sale."""
        return text_of(constant(self.pool, constant(self.pool, self.this_class, ClassConstant).name, bytes))

    def metadata(self):
        b = Bytes(self.rest)
        for _ in range(b.u2()):
            name, body = constant(self.pool, b.u2(), bytes), Bytes(b.take(b.u4()))
            if name == b'RuntimeVisibleAnnotations':
                values = annotation_elements(body, self.pool)
                if values is not None:
                    return Metadata(values)
        raise NoMetadata()


def program_input(m):
    """k and mv as four signed numbers, d1 and d2 as units with their count in front, the ends of d2's strings with theirs."""
    return b''.join([
        struct.pack('<4i', m.k, *m.version),
        struct.pack(f'<I{len(m.d1)}H', len(m.d1), *m.d1),
        struct.pack(f'<I{len(m.d2)}H', len(m.d2), *m.d2),
        struct.pack(f'<I{len(m.ends)}I', len(m.ends), *m.ends),
    ])


def of_class(data):
    return program_input(ClassFile(data).metadata())


def of_jar(path):
    """Name and input of each class that carries metadata."""
    with zipfile.ZipFile(path) as jar:
        for name in jar.namelist():
            if name.endswith('.class'):
                try:
                    yield name, of_class(jar.read(name))
                except NoMetadata:
                    pass


def main(args):
    out = sys.stdout.buffer
    if len(args) == 2 and args[0] == '--all':
        for _, data in of_jar(args[1]):
            out.write(struct.pack('<I', len(data)) + data)
    elif len(args) == 2 and args[0] == '--list':
        for name, _ in of_jar(args[1]):
            print(name)
    elif len(args) == 2 and not args[0].startswith('-'):
        with zipfile.ZipFile(args[0]) as jar:
            out.write(of_class(jar.read(args[1])))
    elif len(args) == 1 and not args[0].startswith('-'):
        with open(args[0], 'rb') as f:
            out.write(of_class(f.read()))
    else:
        sys.exit(__doc__)


if __name__ == '__main__':
    signal.signal(signal.SIGPIPE, signal.SIG_DFL)
    try:
        main(sys.argv[1:])
    except NoMetadata:
        sys.exit('class_input: the class has no annotation kotlin.Metadata: it was not compiled from Kotlin, or the annotation was stripped')
    except Damaged as why:
        sys.exit(f'class_input: not a class file that can be read: {why}')
    except (OSError, KeyError, zipfile.BadZipFile) as why:
        sys.exit(f'class_input: {why}')
