#!/usr/bin/env python3
"""usage: mutation_test.py [COUNT [SEED]]      default 2000 1

Damaged class files in every form of ./sheet: COUNT copies of the examples and of made classes (annotations nested in one another, elements of
kotlin.Metadata of wrong kinds, types nested in one another, d1 in its old form), changed in some places of the file, of bytes alone, or of what the annotation
holds; then a tenth as many damaged jars.
A fault is an exception that the tool doesn't expect, JSON that doesn't keep to the schema, a character in the output that doesn't print, an
offset of the reader's at which the tool's own walk of the payload finds nothing broken, a room that isn't that of the sheet that is read, or a
sheet that changes with strings that it is said not to fall to. The same seed gives the same run. At the end stands what came of them; the exit status is 1 if there was a fault, with the class in a file that is
named."""
import collections, copy, io, json, os, random, sys, tempfile, time, traceback, zipfile

sys.dont_write_bytecode = True
sys.setrecursionlimit(20000)
import class_input, library, made_class, output, payloads, runs, schema, sheet_json, sheets
from commands import check, convert, read, room, strings

ROOT = os.path.dirname(os.path.dirname(os.path.realpath(__file__)))
with open(os.path.join(ROOT, 'docs', 'sheet.schema.json'), encoding='utf-8') as f:
    SCHEMA = json.load(f)
NUMBERS = [0, 1, 2, 3, 0x7f, 0x80, 0xff]


def seeds():
    """Class files to damage: examples, and made ones."""
    folder, examples = os.path.join(ROOT, 'examples'), []
    for name in sorted(os.listdir(folder)):
        if name.endswith('.class'):
            with open(os.path.join(folder, name), 'rb') as f:
                examples.append(f.read())
    return examples, list(made())


def made():
    function = made_class.package(made_class.field(3, b'\x10\0' + made_class.field(3, b'\x30\1')), ['f', 'kotlin/Unit'])
    aliases = made_class.package(made_class.alias(0, b'\x30\1', b'\x12\4\x12\2\x30\1') + made_class.alias(1, None, b''), ['A', 'kotlin/Int'])
    yield made_class.class_file(aliases)
    yield made_class.class_file({**function, 'd1': made_class.old_payload(b''.join(part.encode('latin-1') for part in function['d1'])[1:])})
    nest = made_class.nested_annotation
    for depth in (1, 3, 50, 3000):
        yield made_class.class_file(function, before=lambda pool: [nest(pool, depth)], methods=[('f', '()V')])
        yield made_class.class_file({**function, 'more': [['a', [1, 'b']]], 'nest': b'@\0\0\0\0' + b''}, methods=[('f', '()V')])
        yield made_class.class_file(made_class.nested_types(depth % 2000))
    # values of every kind under each name of kotlin.Metadata
    for name in ('k', 'mv', 'd1', 'd2', 'xs'):
        for value in (1, 'text', [1, 2], ['a', 'b'], [[1]], [], b'e\0\1\0\1', b'c\0\1', b'@\0\1\0\0', b'[\0\1@\0\1\0\0'):
            yield made_class.class_file({**function, name: value})
    yield made_class.class_file({'k': 4, 'd1': ['made/A', 'made/B']})
    yield made_class.class_file({**function, 'k': 5, 'xs': 'made/F'})
    yield made_class.class_file(None)


def changed(examples, others, chance):
    """A damaged copy of one of these: as a file, in bytes alone, or in what its annotation holds."""
    data, how = chance.choice(examples if chance.random() < 0.7 else others), chance.randrange(3)
    if how == 2:
        try:
            return with_other_metadata(class_input.ClassFile(data).metadata(), chance)
        except (class_input.Damaged, class_input.NoMetadata):
            pass
    return damaged(data, chance, 8 if how else 4)


def with_other_metadata(m, chance):
    """A class file whose kotlin.Metadata is a damaged copy of this one."""
    strings = [m.d2[start:end] for start, end in zip([0, *m.ends], m.ends)]
    d1 = list(damaged(bytes(unit & 255 for unit in m.d1), chance, 8)) if chance.random() < 0.8 else m.d1
    for _ in range(chance.randrange(4)):
        if strings:
            at = chance.randrange(len(strings))
            strings[at] = chance.choice([[], strings[at] * 2, strings[at][1:], [0xd800, *strings[at]], [0x1b, 10, 0x5c], chance.choice(strings)])
    text = [''.join(map(chr, units)) for units in [d1[:20000], *strings]]
    values = {'k': chance.choice([m.k, m.k, chance.randint(-1, 6)]), 'mv': m.version, 'd1': text[:1], 'd2': text[1:], 'xs': 'made/\n'}
    return made_class.class_file(values, chance.choice(['made/Made', 'made/A$B', '', '\u2028']), methods=[('f', '()V')])


def damaged(data, chance, kinds):
    """A copy with some changes: bytes, bits, numbers of two bytes; of eight kinds also parts left out, doubled or moved, an early end."""
    data = bytearray(data)
    for _ in range(chance.choice([1, 1, 2, 3, 8])):
        if not data:
            break
        at, kind = chance.randrange(len(data)), chance.randrange(kinds)
        size = min(chance.choice([1, 2, 3, 4, 8, 40, 400]), len(data) - at)
        if kind <= 1:
            data[at] = chance.choice(NUMBERS) if kind else chance.randrange(256)
        elif kind == 2:
            data[at] ^= 1 << chance.randrange(8)
        elif kind == 3:
            data[at:at + 2] = chance.choice([0, 1, 0xff, 0xffff, chance.randrange(65536)]).to_bytes(2, 'big')
        elif kind == 4:
            del data[at:at + size]
        elif kind == 5:
            data[at:at] = data[at:at + size]
        elif kind == 6:
            to = chance.randrange(len(data))
            data[to:to + size] = data[at:at + size]
        elif chance.random() < 0.2:
            del data[at:]
    return bytes(data)


class One:
    """A class file in memory, as classes.Found gives it."""
    file, entry, named = 'made', None, True

    def __init__(self, bytes_):
        self.bytes = bytes_

    def path(self):
        return self.file

    def data(self):
        return self.bytes


class Checked(read.InJson):
    """JSON that is held to the schema, one class of eight."""
    count = 0

    def told(self, value):
        sheet_json.line(value)
        Checked.count += 1
        if Checked.count % 8 == 0:
            wrong = schema.faults(value, SCHEMA, SCHEMA)
            if wrong:
                raise AssertionError(wrong[0])

    def read(self, one):
        self.told(sheet_json.read_json(one))
        found = check.findings(one)
        self.told(sheet_json.checked_json(one, found))

    def refused(self, found, name, refusal):
        """The tool's own walk comes to the offset that the reader tells, and finds something broken there."""
        self.told(sheet_json.refused_json(found, name, refusal))
        if (refusal.place is not None) != (refusal.number in payloads.PLACED) or refusal.place and refusal.place.where == payloads.UNKNOWN:
            raise AssertionError(f'no place is told: {refusal}')

    def not_a_class(self, *words):
        self.told(sheet_json.not_a_class_json(*words))


class CheckedRoom(Checked):
    """Rooms that are held to the sheets that `reading`, a run, reads."""

    def __init__(self, reading):
        self.reading = reading

    def read(self, one):
        self.told(sheet_json.measured_json(one))
        answer = self.reading.answer(class_input.ClassFile(one.found.data()).metadata())
        records = collections.Counter(record['record'] for record in sheets.records(answer.sheet, answer.text))
        kinds = {kind: records[name] for kind, (name, _) in sheets.RECORDS.items()}
        texts = sheets.list_texts(answer.sheet, answer.text)
        if answer.number != 11 and one.room != (0, 0, len(answer.sheet), len(answer.text), answer.types, kinds, texts) or one.fits() == (answer.number == 11):
            raise AssertionError(f'the room {one.room} is not that of what is read')


class CheckedStrings(Checked):
    """The strings that a class is read without: `reading`, a run, gives the same answer to a class with other ones in their place."""

    def __init__(self, reading):
        self.reading = reading

    def read(self, one):
        self.told(sheet_json.marked_json(one))
        metadata = class_input.ClassFile(one.found.data()).metadata()
        other = copy.copy(metadata)
        other.d2, other.ends = [], []
        for units, used in one.strings:
            other.d2 += units if used else [0x78] * (len(units) == 0)
            other.ends.append(len(other.d2))
        if len(other.d2) <= 32768 and self.reading.answer(other) != self.reading.answer(metadata):
            raise AssertionError('the answer changes with strings that the reading does not fall to')


class CheckedConversions(Checked):
    """The same of conversions."""

    def read(self, one):
        self.told(sheet_json.left_json(one) if isinstance(one, convert.Left) else sheet_json.converted_json(one))


def forms():
    """A run for each form of the tool."""
    shows = [read.form([]), read.form(['--records']), read.form(['--line']), read.form(['--json']), Checked(), check.FindingsInText(check.Tally())]
    reading = [runs.Run(show, 'sheet') for show in shows]
    rooms = [runs.RoomRun(show, 'sheet') for show in (room.RoomInText(), CheckedRoom(reading[0]))]
    of_strings = [runs.StringsRun(show, 'sheet') for show in (strings.StringsInText(), CheckedStrings(reading[0]))]
    conversions = [convert.Conversions(show, 'sheet', way) for show, way in (
        (convert.ConvertedInText(), library.OLD_TO_NEW), (CheckedConversions(), library.OLD_TO_NEW), (CheckedConversions(), library.NEW_TO_OLD))]
    return reading + rooms + of_strings + conversions


def keep(data, suffix):
    with tempfile.NamedTemporaryFile(prefix='sheet-fault-', suffix=suffix, delete=False) as f:
        f.write(data)
    return f.name


def over_classes(all_forms, count, chance):
    """Every class through every form. Gives how many faults there were."""
    (examples, others), faults = seeds(), 0
    whole = examples + others
    for at in range(count):
        data = whole[at] if at < len(whole) else changed(examples, others, chance)
        for one in all_forms:
            try:
                one.take(One(data))
            except Exception:
                traceback.print_exc()
                print(f'fault {at}: {keep(data, ".class")}')
                faults += 1
                break
    return faults


def over_jars(count, chance):
    """Damaged jars, through the reading of files."""
    examples, faults = seeds()[0], 0
    with tempfile.TemporaryDirectory() as folder:
        for at in range(count):
            made, path = io.BytesIO(), os.path.join(folder, 'made.jar')
            with zipfile.ZipFile(made, 'w', chance.choice([zipfile.ZIP_STORED, zipfile.ZIP_DEFLATED, zipfile.ZIP_BZIP2, zipfile.ZIP_LZMA])) as jar:
                for name in range(chance.randint(1, 3)):
                    jar.writestr(f'made/{name}.class', chance.choice(examples))
            data = damaged(made.getvalue(), chance, 8)
            with open(path, 'wb') as f:
                f.write(data)
            try:
                runs.Run(read.form(['--json']), 'sheet').over([path])
            except Exception:
                traceback.print_exc()
                print(f'fault in jar {at}: {keep(data, ".jar")}')
                faults += 1
    return faults


def held(text):
    """In place of writing to the output, and of messages."""
    if not all(line.isprintable() for line in text.split('\n')):
        raise AssertionError(f'this does not print: {text!r}')


def main(words):
    count, seed = [*map(int, words), 2000][0], [*map(int, words[1:]), 1][0]
    began, output.write, output.to_stderr = time.monotonic(), held, held
    all_forms = forms()
    faults = over_classes(all_forms, count, random.Random(seed))
    in_jars = over_jars(count // 10, random.Random(seed + 1))
    first = all_forms[0]
    print(f'{count} classes: {first.summary()}; {count // 10} jars; {faults + in_jars} faults ({time.monotonic() - began:.0f} s)')
    return 1 if faults or in_jars or not first.read or not first.refusals or not first.damaged else 0


if __name__ == '__main__':
    sys.exit(main(sys.argv[1:]))
