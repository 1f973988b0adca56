#!/usr/bin/env python3
"""./sheet from outside: examples, jars and folders, refusals, JSON, exit statuses, words. The lines of the examples are the Rust's, with
the count of no type aliases at the end of each sheet, which the Rust doesn't read."""
import collections, json, os, pty, re, resource, subprocess, sys, tempfile, types, unittest, zipfile

sys.dont_write_bytecode = True
sys.setrecursionlimit(20000)
import class_input, flag_words, made_class, payloads, schema, sheets

ROOT = os.path.dirname(os.path.dirname(os.path.realpath(__file__)))
SHEET, EXAMPLES = os.path.join(ROOT, 'sheet'), os.path.join(ROOT, 'examples')
NAMES = [name[:-6] for name in sorted(os.listdir(EXAMPLES)) if name.endswith('.class')]
with open(os.path.join(ROOT, 'docs', 'sheet.schema.json'), encoding='utf-8') as f:
    SCHEMA = json.load(f)
# what the tool may say of the library that it uses
LIBRARY = re.compile(r'^sheet: .*WITHOUT PROOF.*\n', re.M)


def example(name, suffix):
    with open(os.path.join(EXAMPLES, name + suffix), 'rb') as f:
        return f.read()


def sheet(*words, cwd=ROOT, command=SHEET, **more):
    """Exit status, output, messages."""
    done = subprocess.run([command, *words], cwd=cwd, stdin=subprocess.DEVNULL, stdout=subprocess.PIPE, stderr=subprocess.PIPE, **more)
    return done.returncode, done.stdout.decode(), LIBRARY.sub('', done.stderr.decode())


def objects(text):
    return [json.loads(line) for line in text.splitlines()]


class InFolder(unittest.TestCase):
    """A temporary folder with a space in its name."""

    def setUp(self):
        self.room = tempfile.TemporaryDirectory(prefix='a room ')
        self.here = self.room.name

    def tearDown(self):
        self.room.cleanup()

    def path(self, name):
        return os.path.join(self.here, name)

    def put(self, name, data):
        os.makedirs(os.path.dirname(self.path(name)), exist_ok=True)
        with open(self.path(name), 'wb') as f:
            f.write(data)
        return self.path(name)

    def jar(self, name, entries):
        with zipfile.ZipFile(self.path(name), 'w') as jar:
            for entry, data in entries.items():
                jar.writestr(entry, data)
        return self.path(name)


class Examples(unittest.TestCase):
    def test_words(self):
        for name in NAMES:
            self.assertEqual(sheet('read', f'examples/{name}.class'), (0, example(name, '.txt').decode(), ''), name)

    def test_lines(self):
        for name in NAMES:
            self.assertEqual(sheet('read', '--line', f'examples/{name}.class'), (0, example(name, '.line').decode(), ''), name)

    def test_parameters_without_a_name(self):
        """The stripped example is what made_class.py makes; its parameters are `_` in words and null in JSON, and its targets are in the class."""
        self.assertEqual(made_class.stripped(), example('Ledger', '.class'))
        o, = objects(sheet('read', '--json', 'examples/Ledger.class')[1])
        declared = o['constructors'] + o['functions']
        self.assertEqual([[p['name'] for p in m['parameters']] for m in declared], [[None], [None], [None, None]])
        self.assertEqual([m['default'] for m in declared], ['(Ljava/lang/String;)V', '(I)V', '(ILjava/lang/String;)V'])
        self.assertEqual([m['target']['in_class'] for m in declared], [True] * 3)

    def test_lines_alone_in_words(self):
        """sheet_text.py has the sheet alone: the same words, without what the class file tells."""
        for name in NAMES:
            words = re.sub(r' \[(not in|shared|may be|no target)[^]]*\]|  JVM name .*', '', example(name, '.txt').decode())
            words = re.sub(r'^(file|synthetic class) \S+', r'\1', words)
            line = os.path.join(EXAMPLES, name + '.line')
            given = subprocess.run([sys.executable, '-B', os.path.join(ROOT, 'tools', 'sheet_text.py'), line], stdout=subprocess.PIPE).stdout
            self.assertEqual(given.decode(), words, name)

    def test_records(self):
        status, out, _ = sheet('read', '--records', 'examples/TillKt.class')
        lines = out.splitlines()
        self.assertEqual((status, len(lines)), (0, 22))
        self.assertEqual(lines[1], '  function: name cents, flags 6 (public, final), signature none, descriptor none, receiver 1, parameters 1')
        self.assertEqual(lines[4], '        type: role argument, nullable 0, name none, arguments 0, projection invariant')
        self.assertEqual(lines[21], '  aliases: aliases 0')


class Rebuilt:
    """A sheet's bytes put together again from its JSON, by the table in docs/MANUAL.md."""

    def __init__(self, told):
        self.sheet, self.text = b'', b''
        of = [told['constructors'], told['functions'], told['properties']]
        self.put(1, 1, told['kind'])
        self.ref(told['name'])
        self.put(8, told['flags'])
        self.put(2, *map(len, of))
        for m in of[0] + of[1]:
            self.method(m)
        for p in of[2]:
            self.property(p)
        self.put(1, 9)
        self.put(2, len(told['aliases']))
        for a in told['aliases']:
            self.put(1, 8)
            self.ref(a['name'])
            self.put(8, a['flags'])
            self.type(6, a['underlying'])
            self.type(7, a['expanded'])

    def put(self, width, *numbers):
        self.sheet += b''.join(n.to_bytes(width, 'little') for n in numbers)

    def ref(self, text):
        if text is None:
            self.sheet += b'\xff' * 4
        else:
            self.put(2, len(self.text), len(text.encode()))
            self.text += text.encode()

    def pair(self, method):
        self.ref(method and method['name'])
        self.ref(method and method['descriptor'])

    def type(self, role, told):
        if told is not None:
            self.put(1, 6, role, told['nullable'])
            self.ref(told['class'])
            self.put(2, len(told['arguments']))
            self.put(1, ['in', 'out', 'invariant', 'star'].index(told['projection']))
            for inner in told['arguments']:
                self.type(5, inner)

    def method(self, m):
        self.put(1, 3 if 'name' in m else 2)
        if 'name' in m:
            self.ref(m['name'])
        self.put(8, m['flags'])
        self.pair(m['signature'])
        if 'name' in m:
            self.put(1, m['extension'])
        self.put(2, len(m['parameters']))
        for p in m['parameters']:
            self.put(1, 5)
            self.ref(p['name'])
            self.put(1, p['has_default'])
            self.type(3, p['type'])
            self.type(4, p['vararg'])
        self.type(2, m.get('receiver'))
        self.type(1, m.get('returns'))
        self.put(1, 7)
        self.ref(m['default'])

    def property(self, p):
        self.put(1, 4)
        self.ref(p['name'])
        self.put(8, p['flags'])
        self.put(1, p['extension'], p['getter_is_default'], p['setter_is_default'])
        for part in ('field', 'getter', 'setter'):
            self.pair(p[part])
        self.type(2, p['receiver'])
        self.type(1, p['type'])


class Json(InFolder):
    def test_examples_keep_to_the_schema_and_hold_the_whole_sheet(self):
        status, out, said = sheet('read', '--json', 'examples')
        told = objects(out)
        self.assertEqual(status, 0)
        self.assertEqual([o['file'] for o in told], [f'examples/{name}.class' for name in NAMES])
        for name, o in zip(NAMES, told):
            self.assertEqual(schema.faults(o, SCHEMA, SCHEMA), [])
            made = Rebuilt(o)
            self.assertEqual(f'0 0 {made.sheet.hex()} {made.text.hex() or "-"}\n', example(name, '.line').decode(), name)
            self.assertEqual(o['types'], made.sheet and self.types_of(o))

    def types_of(self, told):
        """How many types stand in the JSON."""
        if isinstance(told, dict):
            return ('nullable' in told) + sum(map(self.types_of, told.values()))
        return sum(map(self.types_of, told)) if isinstance(told, list) else 0

    def test_targets(self):
        o, = objects(sheet('read', '--json', 'examples/LinkingKt.class')[1])
        of = {json.dumps([m['name'], len(m['parameters']), m['parameters'] and m['parameters'][0]['name']]): m['target'] for m in o['functions']}
        self.assertEqual(of['["refund", 1, "numbers"]'], {
            'by': 'default', 'name': 'refund', 'descriptor': '(Ljava/util/List;)I', 'in_class': True, 'link': False, 'shared_with': [],
            'may_be_of': [{'declaration': 'fun refundSale(articles: kotlin.collections.List<kotlin.String>)', 'part': 'method'}]})
        self.assertEqual(of['["refundSale", 1, "articles"]']['in_class'], False)
        self.assertEqual(of['["sum", 1, "cents"]']['shared_with'],
                         [{'declaration': 'fun sum(lines: kotlin.collections.List<till.Line>)', 'part': 'method'}])
        self.assertEqual(of['["closed", 0, []]']['by'], 'signature')
        self.assertEqual([of[f'["sum", 1, "{name}"]']['link'] for name in ('cents', 'lines')], [True, False])

    def test_check(self):
        status, out, _ = sheet('check', '--json', 'examples')
        told = objects(out)
        self.assertEqual(status, 3)
        self.assertEqual([o['class'] for o in told],
                         ['till/Drawer$Companion', 'till/Drawer', 'till/LinkingKt', 'till/Priced', 'till/Stock', 'till/TillKt'])
        self.assertEqual([schema.faults(o, SCHEMA, SCHEMA) for o in told], [[]] * 6)
        self.assertEqual(told[-1]['findings'], [{
            'declaration': 'fun kotlin.collections.Iterable<(type parameter)>.cents(of: kotlin.Function1<(type parameter), kotlin.Long>)',
            'part': 'method', 'by': 'default', 'name': 'cents', 'descriptor': '(Ljava/lang/Iterable;Lkotlin/Function1;)J', 'in_class': False,
            'shared_with': [], 'may_be_of': [], 'link': False}])

    def test_facade_and_part(self):
        self.put('F.class', made_class.class_file({'k': 4, 'mv': [1, 1, 15], 'd1': ['made/F__AKt', 'made/F__BKt']}, 'made/F'))
        self.put('P.class', made_class.class_file(made_class.package(b'', [], k=5, xs='made/F'), 'made/F__AKt'))
        facade, part = objects(sheet('read', '--json', self.here)[1])
        self.assertEqual((facade['parts'], facade['facade'], facade['class']), (['made/F__AKt', 'made/F__BKt'], None, 'made/F'))
        self.assertEqual((part['parts'], part['facade'], part['class']), ([], 'made/F', 'made/F__AKt'))
        self.assertEqual(sheet('read', self.path('F.class'))[1], 'facade of a multi-file class made/F  flags 6  parts made/F__AKt, made/F__BKt\n')
        self.assertEqual(sheet('read', self.path('P.class'))[1], 'part of a multi-file class made/F__AKt  flags 6  facade made/F\n')

    def test_the_schema_refuses(self):
        """What the schema is there for: a name more or fewer, a value of another kind."""
        whole, = objects(sheet('read', '--json', 'examples/TillKt.class')[1])
        wrong = [{**whole, 'more': 1}, {k: v for k, v in whole.items() if k != 'types'}, {**whole, 'flags': -1}, {**whole, 'flags': True},
                 {**whole, 'state': 'written'}, {**whole, 'parts': [None]}, {**whole, 'functions': [{**whole['functions'][0], 'returns': 'Int'}]}]
        self.assertEqual([bool(schema.faults(o, SCHEMA, SCHEMA)) for o in [whole, *wrong]], [False] + [True] * len(wrong))

    def test_every_name_of_the_schema_is_told(self):
        with open(os.path.join(ROOT, 'docs', 'JSON.md'), encoding='utf-8') as f:
            told = set(re.findall(r'`(\w+)`', f.read()))
        names = {name for part in SCHEMA['$defs'].values() for name in part.get('properties', {})}
        names |= set(SCHEMA['$defs']['refused']['properties']['refusal']['properties'])
        self.assertEqual(names - told, set())

    def test_the_manual_shows_what_is_printed(self):
        with open(os.path.join(ROOT, 'docs', 'JSON.md'), encoding='utf-8') as f:
            shown = re.findall(r'^    \$ (./sheet .*)\n((?:    .*\n)+)', f.read(), re.M)
        self.assertTrue(shown)
        for command, text in shown:
            _, out, _ = sheet(*command.split()[1:])
            self.assertEqual(json.loads(text), objects(out)[0], command)


def manual_shows(test, command):
    """What the manual shows of a command of ./sheet is what that prints."""
    with open(os.path.join(ROOT, 'docs', 'MANUAL.md'), encoding='utf-8') as f:
        shown = re.findall(rf'^    \$ (./sheet {command} .*)\n((?:    .*\n)+)', f.read(), re.M)
    test.assertTrue(shown)
    for words, text in shown:
        test.assertEqual(sheet(*words.split()[1:])[1], re.sub(r'(?m)^    ', '', text), words)


def units(strings):
    """d1's units from its strings."""
    return [ord(unit) for string in strings for unit in string]


class OldForm(InFolder):
    """d1 from before the marker: it is read as the same payload with the marker is, and converted into it."""
    # a class that Kotlin 1.3.31 wrote in the old form, and the same class as it writes it otherwise
    OLD = bytes.fromhex('111509412241030219052901214201090f1501416139010d0165090114411305110569110167012517511b2101')
    MARKED = bytes.fromhex('00100a0218020a0218020a000a02100e0a0008c6011800320230014a0810021a0230034816a80604')
    D2 = ['Lde/till/app/Vat$FULL;', 'Lde/till/app/Vat;', 'label', '', 'till-app_main']

    def put_class(self, name, d1, **more):
        strings = [d1.decode('latin-1')] if isinstance(d1, bytes) else d1
        return self.put(name, made_class.class_file({'mv': [1, 1, 15], 'k': 1, 'd1': strings, 'd2': self.D2, **more}))

    def example(self, name):
        """k, mv, the payload and the strings of an example."""
        m = class_input.ClassFile(example(name, '.class')).metadata()
        d2 = bytes(b for unit in m.d2 for b in unit.to_bytes(2, 'little')).decode('utf-16-le')
        return m.k, m.version, bytes(m.d1[1:]), [d2[start:end] for start, end in zip([0, *m.ends], m.ends)]

    def test_a_real_class_gives_one_sheet_in_both_forms(self):
        old, marked = self.put_class('Old.class', self.OLD), self.put_class('Marked.class', self.MARKED)
        for options in ([], ['--records'], ['--line']):
            told = [sheet('read', *options, path) for path in (old, marked)]
            self.assertEqual((told[0], told[0][0]), (told[1], 0))
        self.assertIn('enum entry de.till.app.Vat.FULL', sheet('read', old)[1])

    def test_the_examples_in_the_old_form(self):
        for name in NAMES:
            k, version, data, d2 = self.example(name)
            if data:
                path = self.put('Old.class', made_class.class_file({'mv': version, 'k': k, 'd1': made_class.old_payload(data), 'd2': d2}))
                self.assertEqual(sheet('read', '--line', path)[:2], (0, example(name, '.line').decode()), name)
                o, = objects(sheet('convert', '--json', path)[1])
                self.assertEqual(bytes(o['units']), b'\0' + data, name)

    def test_convert_in_words(self):
        old, marked = self.put_class('Old.class', self.OLD), self.put_class('Marked.class', self.MARKED)
        forms = ['the old form, 45 units: 11 15 09 41 22 41 03 02 ..', 'with the marker, 40 units: 00 10 0a 02 18 02 0a 02 ..']
        self.assertEqual(sheet('convert', old), (0, f'{old}: {forms[0]}; {forms[1]}\n', ''))
        self.assertEqual(sheet('convert', '--old', marked), (0, f'{marked}: {forms[1]}; {forms[0]}\n', ''))
        self.assertEqual(sheet('convert', marked), (0, f'{marked}: {forms[1]}; nothing to convert\n', ''))
        self.assertEqual(sheet('convert', '--old', old), (0, f'{old}: {forms[0]}; nothing to convert\n', ''))
        one = self.put_class('One.class', b'\1')
        self.assertEqual(sheet('convert', one), (0, f'{one}: the old form, 1 unit: 01; with the marker, 1 unit: 00\n', ''))

    def test_the_manual_shows_what_is_printed(self):
        with open(os.path.join(ROOT, 'docs', 'MANUAL.md'), encoding='utf-8') as f:
            shown = re.search(r'^    \$ (./sheet convert old.jar)\n((?:    .*\n)+)', f.read(), re.M)
        self.jar('old.jar', {'de/till/app/Vat$FULL.class': made_class.class_file({'mv': [1, 1, 15], 'k': 1, 'd1': [self.OLD.decode()], 'd2': self.D2}),
                             'till/Sale.class': example('Sale', '.class')})
        self.assertEqual(sheet(*shown[1].split()[1:], cwd=self.here)[1], re.sub('^    ', '', shown[2], flags=re.M))

    def test_convert_in_json_and_back(self):
        for way, path, other in (([], self.put_class('Old.class', self.OLD), self.MARKED),
                                 (['--old'], self.put_class('Marked.class', self.MARKED), self.OLD)):
            o, = objects(sheet('convert', '--json', *way, path)[1])
            self.assertEqual(schema.faults(o, SCHEMA, SCHEMA), [])
            self.assertEqual((o['state'], o['class'], o['count'], bytes(o['units'])), ('converted', 'made/Made', 85 - len(other), other))
            left, = objects(sheet('convert', '--json', *(['--old'] if not way else []), path)[1])
            self.assertEqual((left['state'], schema.faults(left, SCHEMA, SCHEMA)), ('nothing to convert', []))

    def test_what_is_refused(self):
        for way, d1, number, detail in (('new', ['\1\u012c\u0190'], 6, 300), ('new', ['\uffff\1\1'], 6, 65535), ('new', [], 5, 0), ('old', [], 5, 0),
                                        ('new', ['\1' * 16385] * 2, 1, 0), ('old', ['\0' * 16385] * 2, 1, 0), ('old', ['\0'], 5, 0),
                                        ('old', ['\0\x7f\u012c'], 6, 300), ('old', ['\0\x7f'], 16, 0), ('old', ['\0\xff\1'], 16, 0)):
            path = self.put_class('Bad.class', d1)
            words = ['convert', *(['--old'] if way == 'old' else []), path]
            status, out, said = sheet(*words)
            self.assertEqual((status, out), (1, ''), (way, number))
            self.assertRegex(said, rf'^sheet: .*Bad.class: refused, {number}: .* What to do: ')
            o, = objects(sheet(*words[:-1], '--json', path)[1])
            self.assertEqual((schema.faults(o, SCHEMA, SCHEMA), o['refusal']['number'], o['refusal']['detail'], o['refusal']['place']), ([], number, detail, None))

    def test_classes_of_every_kind_in_a_jar(self):
        made = lambda values: made_class.class_file({'mv': [1, 1, 15], **values})
        jar = self.jar('a.jar', {
            'Old.class': made({'k': 1, 'd1': [self.OLD.decode()], 'd2': self.D2}), 'Facade.class': made({'k': 4, 'd1': ['made/F__AKt']}),
            'Synthetic.class': made({'k': 3}), 'Bad.class': made({'k': 2, 'd1': ['\1\u0100']}), 'Java.class': made_class.class_file(None)})
        status, out, said = sheet('convert', jar)
        self.assertEqual(status, 1)
        self.assertEqual([line.partition('!/')[2] for line in out.splitlines()], [
            'Old.class: the old form, 45 units: 11 15 09 41 22 41 03 02 ..; with the marker, 40 units: 00 10 0a 02 18 02 0a 02 ..',
            'Facade.class: d1 has the names of the parts of a multi-file class; nothing to convert',
            'Synthetic.class: d1 is empty, as a synthetic class may have it; nothing to convert'])
        self.assertRegex(said.splitlines()[1], r'^sheet: 3 looked at \(1 converted, 2 with nothing to convert\), 1 refused \(1 by 6, not a byte\), 1 without Kotlin metadata, 0 not a class')

    def test_long_ones(self):
        """The most units of both forms that are converted, and one more."""
        for data, count in ((bytes(28672), 32768), (bytes(32767), 37448)):
            path = self.put_class('Long.class', made_class.payload(data))
            o, = objects(sheet('convert', '--old', '--json', path)[1])
            self.assertEqual((len(o['units']), set(o['units'])), (count, {1}))
        path = self.put_class('Long.class', made_class.old_payload(bytes(28672)))
        o, = objects(sheet('convert', '--json', path)[1])
        self.assertEqual((o['count'], len(o['units']), set(o['units'])), (32768, 28673, {0}))
        self.assertRegex(sheet('convert', self.put_class('Long.class', made_class.old_payload(bytes(28673))))[2], 'refused, 1: ')

    def test_made_old_payloads(self):
        """made_class packs as Kotlin does."""
        self.assertEqual(units(made_class.old_payload(self.MARKED[1:])), list(self.OLD))


class Aliases(InFolder):
    """typealias Cents = Long; typealias Sales<T> = List<Cents, T>, whose expanded type has Long for Cents; and one without types."""
    CENTS = b'\x30\1'

    def setUp(self):
        super().setUp()
        argument = lambda message: made_class.field(2, made_class.field(2, message))
        sales = [b'\x30\3' + argument(first) + argument(b'') for first in (b'\x18\1', self.CENTS + b'\x18\1')]
        body = made_class.alias(0, self.CENTS, self.CENTS) + made_class.alias(2, *sales) + made_class.alias(4, None, None)
        self.file = self.put('Aliases.class', made_class.class_file(made_class.package(
            body, ['Cents', 'kotlin/Long', 'Sales', 'kotlin/collections/List', 'Nothing$'])))

    def test_words(self):
        self.assertEqual(sheet('read', self.file), (0, ''.join(line + '\n' for line in [
            'file made/Made  flags 6',
            '  public typealias Cents = kotlin.Long  flags 6',
            '  public typealias Sales = kotlin.collections.List<(type parameter or alias)?, (type parameter or alias)>  flags 6'
            '  expanded kotlin.collections.List<kotlin.Long?, (type parameter)>',
            '  public typealias Nothing$ = (no type)  flags 6']), ''))
        self.assertEqual(sheet('check', self.file)[:2], (0, ''))

    def test_records(self):
        lines = sheet('read', '--records', self.file)[1].splitlines()
        self.assertEqual(lines[1:5], [
            '  aliases: aliases 3',
            '    alias: name Cents, flags 6 (public)',
            '      type: role underlying type of an alias, nullable 0, name kotlin.Long, arguments 0, projection invariant',
            '      type: role expanded type of an alias, nullable 0, name kotlin.Long, arguments 0, projection invariant'])
        self.assertEqual(lines[7], '        type: role argument, nullable 1, name none, arguments 0, projection invariant')

    def test_json(self):
        o, = objects(sheet('read', '--json', self.file)[1])
        self.assertEqual(schema.faults(o, SCHEMA, SCHEMA), [])
        self.assertEqual([(a['name'], a['flags'], a['words']) for a in o['aliases']], [(name, 6, ['public']) for name in ('Cents', 'Sales', 'Nothing$')])
        long = {'class': 'kotlin.Long', 'nullable': False, 'projection': 'invariant', 'arguments': []}
        self.assertEqual((o['aliases'][0]['underlying'], o['aliases'][0]['expanded'], o['aliases'][2]['expanded']), (long, long, None))
        self.assertEqual(o['aliases'][1]['expanded']['arguments'][0], {**long, 'nullable': True})
        made = Rebuilt(o)
        self.assertEqual(f'0 0 {made.sheet.hex()} {made.text.hex()}\n', sheet('read', '--line', self.file)[1])


class Projections(InFolder):
    """fun f(p: Array<out Any?>, q: Comparable<in Map<*, out T>>): Array<*>, and a property whose type has an argument that is no projection's and a
    star that holds a broken type."""
    OUT, IN, STAR = b'\x08\1', b'\x08\0', b'\x08\3'

    def setUp(self):
        super().setUp()
        argument = lambda projection, *message: made_class.field(2, projection + b''.join(made_class.field(2, m) for m in message))
        array, anything, comparable, mapping = (bytes([0x30, name]) for name in (3, 4, 5, 6))
        parameter = lambda name, message: made_class.field(6, bytes([0x10, name]) + made_class.field(3, message))
        function = (parameter(1, array + argument(self.OUT, anything + b'\x18\1'))
                    + parameter(2, comparable + argument(self.IN, mapping + argument(self.STAR) + argument(self.OUT, b'')))
                    + made_class.field(3, array + argument(self.STAR)))
        of_property = made_class.field(3, mapping + argument(b'\x08\4', anything) + argument(self.STAR, b'\x0b'))
        self.file = self.put('Projections.class', made_class.class_file(made_class.package(
            made_class.field(3, b'\x10\0' + function) + made_class.field(4, b'\x10\1' + of_property),
            ['f', 'p', 'q', 'kotlin/Array', 'kotlin/Any', 'kotlin/Comparable', 'kotlin/collections/Map'])))

    def test_words(self):
        self.assertEqual(sheet('read', self.file)[:2], (0, ''.join(line + '\n' for line in [
            'file made/Made  flags 6',
            '  public final fun f(p: kotlin.Array<out kotlin.Any?>, q: kotlin.Comparable<in kotlin.collections.Map<*, out (type parameter)>>):'
            ' kotlin.Array<*>  flags 6  signature none  default none [no target]',
            '  public final val p: kotlin.collections.Map<kotlin.Any, *>  flags 6'])))

    def test_records(self):
        lines = [line.strip() for line in sheet('read', '--records', self.file)[1].splitlines() if 'role argument' in line]
        self.assertEqual([line.rpartition(' ')[2] for line in lines], ['out', 'in', 'star', 'out', 'star', 'invariant', 'star'])
        self.assertEqual(lines[2], 'type: role argument, nullable 0, name none, arguments 0, projection star')

    def test_json(self):
        o, = objects(sheet('read', '--json', self.file)[1])
        self.assertEqual(schema.faults(o, SCHEMA, SCHEMA), [])
        star = {'class': None, 'nullable': False, 'projection': 'star', 'arguments': []}
        self.assertEqual(o['functions'][0]['returns'], {'class': 'kotlin.Array', 'nullable': False, 'projection': 'invariant', 'arguments': [star]})
        self.assertEqual((o['types'], o['properties'][0]['type']['arguments'][1]), (11, star))
        made = Rebuilt(o)
        self.assertEqual(f'0 0 {made.sheet.hex()} {made.text.hex()}\n', sheet('read', '--line', self.file)[1])


def refused():
    """A class for each refusal that a class file can cause: number, detail, elements of kotlin.Metadata."""
    function = made_class.field(3, b'\x10\0')
    long_text = 'a' * 30000
    big_class = {'mv': [1, 1, 15], 'k': 2, 'd2': ['f' * 30000]}
    return [
        (1, 0, {'k': 2, 'd1': ['\0' * 16385] * 2}),
        (2, 0, {'k': 2, 'd1': ['\0\0'], 'd2': ['x' * 16385] * 2}),
        (2, 0, {'k': 2, 'd1': ['\0\0'], 'd2': [''] * 4097}),
        (4, 0, {'k': 2, 'mv': [3, 0, 0], 'd1': ['\0\0']}),
        (5, 0, {'k': 2}),
        (6, 256, {'k': 2, 'd1': ['\0\u0100']}),
        (7, 0, {'k': 2, 'd1': ['\0']}),
        (8, 1, {'k': 2, 'd1': ['\0\0\x0b']}),
        (9, 0, {'k': 2, 'd1': ['\0' + '\x80' * 11]}),
        (10, 0, made_class.nested_types(2049)),
        (13, 0, {'k': 2, 'd1': ['\0\1']}),
        (14, 1, {'k': 2, 'd1': ['\0\0\x80\x80\x80\x80\x80\x01\0']}),
        (17, 1, {'k': 2, 'd1': ['\0\0\0\0']}),
        (11, 0, {**big_class, 'd1': made_class.payload(b'\0' + function * 3), 'd2': [long_text]}),
    ]


class Refusals(InFolder):
    def test_each(self):
        for number, detail, values in refused():
            path = self.put('Bad.class', made_class.class_file(values))
            status, out, said = sheet('read', path)
            self.assertEqual((status, out), (1, ''))
            self.assertRegex(said, rf'^sheet: .*Bad.class: refused, {number}: .* What to do: ')
            self.assertEqual(sheet('read', '--line', path)[:2], (1, f'{number} {detail} - -\n'))
            status, out, said = sheet('read', '--json', path)
            o, = objects(out)
            self.assertEqual((status, said, schema.faults(o, SCHEMA, SCHEMA)), (1, '', []))
            self.assertEqual((o['class'], o['refusal']['number'], o['refusal']['detail']), ('made/Made', number, detail))
            self.assertTrue(o['refusal']['name'] and o['refusal']['what'] and o['refusal']['advice'])
            self.assertEqual(o['refusal']['place'] is not None, number in payloads.PLACED)
            self.assertEqual(sheet('check', path)[0], 1)

    def test_where_it_broke(self):
        """The words for each number, at places of every depth."""
        field, argument = made_class.field, lambda message: made_class.field(2, made_class.field(2, message))
        function = lambda rest: field(3, b'\x10\0' + rest)
        deep = b'\x0b'
        for _ in range(5):
            deep = argument(deep)
        for data, said in [
                (b'', 'offset 0 of 0 decoded bytes, at their end: a length is missing there, at the end of its message, in the length of the name table'),
                (b'\x7f\0', 'offset 0 of 2 decoded bytes, byte 7f hex: the length there is 127, and its message has 1 left, in the length of the name table'),
                (b'\0\x0b', 'offset 1 of 2 decoded bytes, byte 0b hex: the tag there has wire type 3, in the package itself'),
                (b'\0\x80\x80\x80\x80\x80\x01', 'offset 1 of 7 decoded bytes, byte 80 hex: the tag there has the field number 4294967296, in the package itself'),
                (b'\0' + function(b'\3'), 'offset 5 of 6 decoded bytes, byte 03 hex: the tag there has the field number 0, in function 1'),
                (b'\0\x80\x80\x80\x80\x10\0', 'offset 1 of 7 decoded bytes, byte 80 hex: the tag there has the field number 536870912, in the package itself'),
                (b'\6' + field(1, b'') + field(1, b'\x10\x80'), 'offset 6 of 7 decoded bytes, byte 80 hex: the number there is cut short, in record 2 of the name table'),
                (b'\4' + field(5, b'\1\x80'), 'offset 4 of 5 decoded bytes, byte 80 hex: the number there is cut short, in the list of local names of the name table'),
                (b'\0' + function(b'') + function(b'\x08'), 'offset 10 of 10 decoded bytes, at their end: a number is missing there, at the end of its message, in function 2'),
                (b'\0' + function(b'\x08' + b'\x80' * 11), 'offset 6 of 17 decoded bytes, byte 80 hex: the number there has more than ten bytes, in function 1'),
                (b'\0' + function(field(6, b'\x10\0' + field(3, b'\x0d\1\2'))), 'offset 12 of 14 decoded bytes, byte 01 hex: '
                 'a fixed number of 4 bytes begins there, and its message has 2 left, in the type of parameter 1 of function 1'),
                (b'\0' + function(field(3, argument(b'') + argument(argument(b'\x12\x7f')))), 'byte 7f hex: the length there is 127, '
                 'and its message has 0 left, in argument 1 of argument 2 of the return type of function 1'),
                (b'\0' + function(field(3, deep)), 'in argument 1, 5 arguments deep, of the return type of function 1'),
                (b'\0' + field(4, b'\x10\0' + field(100, field(4, b'\x0b'))), 'in the setter of the signature of property 1'),
                (b'\0' + made_class.alias(0, b'', b'\x0b'), 'in the expanded type of type alias 1'),
                (b'\0' + field(30, field(1, b'') + field(1, b'\x0b')), 'in entry 2 of the type table')]:
            path = self.put('Bad.class', made_class.class_file(made_class.package(b'', ['f'], d1=made_class.payload(data))))
            status, _, told = sheet('read', path)
            self.assertEqual(status, 1)
            self.assertIn(said + '). What to do: ', told)
        o, = objects(sheet('read', '--json', path)[1])
        self.assertEqual(o['refusal']['place'], {'offset': 8, 'of': 9, 'byte': 11, 'what': 'the tag there has wire type 3', 'where': 'entry 2 of the type table'})

    def test_the_payload_of_a_class_and_of_the_old_form(self):
        told = lambda k, d1, number, detail: payloads.place(types.SimpleNamespace(k=k, d1=d1), number, detail)
        self.assertEqual(told(1, list(b'\0\0\x42\1\x0b'), 8, 3).where, 'constructor 1')
        self.assertEqual(told(1, list(b'\0\0\x5a\1\x0b'), 8, 3).where, 'type alias 1')
        self.assertEqual(told(1, [0x81, 0x17], 8, 1), payloads.Place(1, 1, None, 'what stands there cannot be read', payloads.UNKNOWN))
        self.assertEqual(payloads.decoded([0x81, 0x17, 1]), b'\0\x0b')
        self.assertEqual(payloads.decoded(units(made_class.old_payload(bytes(range(256))))), bytes(range(256)))
        self.assertEqual(told(1, [0x81, 0x17, 1], 8, 1).where, 'the class itself')
        self.assertEqual((told(1, [], 5, 0), told(1, [0, 256], 6, 256), told(1, [0], 10, 0), told(1, [0], 7, 9)), (None,) * 4)

    def test_every_number_has_a_name_as_in_the_header(self):
        with open(os.path.join(ROOT, 'include', 'sheet_reader.h'), encoding='utf-8') as f:
            named = dict(re.findall(r'^    SHEET_(\w+) = (\d+),? +/\*', f.read().split('Refusals')[1].split('};')[0], re.M))
        with open(os.path.join(ROOT, 'include', 'sheet_reader.h'), encoding='utf-8') as f:
            self.assertIn(f'#define SHEET_FORMAT {sheets.FORMAT}\n', f.read())
        self.assertEqual({int(n): name.lower().replace('_', ' ') for name, n in named.items()}, sheets.REFUSAL_NAMES)
        self.assertEqual(SCHEMA['$defs']['refused']['properties']['refusal']['properties']['name']['enum'], list(sheets.REFUSAL_NAMES.values()))

    def test_types_2048_deep_and_annotations_nested(self):
        path = self.put('Deep.class', made_class.class_file(made_class.nested_types(2048), before=lambda pool: [made_class.nested_annotation(pool, 20000)]))
        status, out, _ = sheet('read', path)
        self.assertEqual((status, out.count('(type parameter)')), (0, 2048))
        status, out, _ = sheet('read', '--json', path)
        self.assertEqual((status, out.count('"arguments"')), (0, 2048))
        self.assertEqual(sheet('read', '--records', path)[0], 0)
        self.assertEqual(sheet('check', path)[0], 0)


def room_of(name):
    """What an example's line, which is the Rust's, says of its room: bytes of sheet and text, records by kind, text of each list."""
    _, _, sheet, text = sheets.line_answer(example(name, '.line').decode())
    records = collections.Counter(record['record'] for record in sheets.records(sheet, text))
    return len(sheet), len(text), {kind: records[record] for kind, (record, _) in sheets.RECORDS.items()}, sheets.list_texts(sheet, text)


class Room(InFolder):
    def test_examples(self):
        for name in NAMES:
            sheet_bytes, text_bytes, records, texts = room_of(name)
            self.assertEqual(sum(texts.values()), text_bytes)
            status, out, said = sheet('room', f'examples/{name}.class')
            self.assertEqual((status, said), (0, ''))
            self.assertEqual([int(n) for n in re.findall(r'\d+', out)], [sheet_bytes, text_bytes, *records.values(), *texts.values()], name)
            o, = objects(sheet('room', '--json', f'examples/{name}.class')[1])
            self.assertEqual(schema.faults(o, SCHEMA, SCHEMA), [])
            self.assertEqual((o['state'], o['format'], o['sheet_bytes'], o['text_bytes'], o['fits'], o['types'], list(o['records'].values())),
                             ('measured', sheets.FORMAT, sheet_bytes, text_bytes, True, records[6], list(records.values())), name)
            self.assertEqual(list(o['list_text_bytes'].items()), list(texts.items()), name)

    def test_words(self):
        self.assertEqual(sheet('room', 'examples/TillKt.class')[1], 'sheet 259 bytes, text 263 bytes; 1 head, 0 constructors, 2 functions, 1 property, '
                         '3 parameters, 12 types, 2 default descriptors, 0 aliases, 1 count of aliases; '
                         'text of properties 51, functions 212, constructors 0, aliases 0, head 0\n')

    def test_the_manual_shows_what_is_printed(self):
        manual_shows(self, 'room')

    def test_longest_and_sums(self):
        rooms = [room_of(name) for name in NAMES]
        status, out, said = sheet('room', 'examples')
        lines = out.splitlines()
        self.assertEqual((status, len(lines)), (0, len(NAMES) + 2))
        self.assertEqual([line.split(': ')[0] for line in lines[:-2]], [f'examples/{name}.class' for name in NAMES])
        longest = [max(zip(rooms, NAMES), key=lambda one: one[0][at]) for at in (0, 1)]
        self.assertEqual(lines[-2], 'longest: ' + ', '.join(
            f'{area} {room[at]} bytes (examples/{name}.class)' for at, (area, (room, name)) in enumerate(zip(('sheet', 'text'), longest))))
        sums = [sum(room[0] for room in rooms), sum(room[1] for room in rooms), *(sum(room[2][kind] for room in rooms) for kind in range(1, 10)),
                *(sum(room[3][name] for room in rooms) for name in sheets.LISTS)]
        self.assertEqual([int(n) for n in re.findall(r'\d+', lines[-1])], [len(NAMES), *sums])
        self.assertRegex(said, rf'^sheet: {len(NAMES)} measured, 0 refused, ')
        self.assertEqual(len(objects(sheet('room', '--json', 'examples')[1])), len(NAMES))

    def test_aliases_and_heads_alone(self):
        aliases = made_class.alias(0, b'\x30\1', b'\x30\1') + made_class.alias(0, None, None)
        path = self.put('Aliases.class', made_class.class_file(made_class.package(aliases, ['Cents', 'kotlin/Long'])))
        self.assertEqual(sheet('room', path)[1], 'sheet 69 bytes, text 32 bytes; 1 head, 0 constructors, 0 functions, 0 properties, 0 parameters, 2 types, '
                         '0 default descriptors, 2 aliases, 1 count of aliases; text of properties 0, functions 0, constructors 0, aliases 32, head 0\n')
        path = self.put('Facade.class', made_class.class_file({'k': 4, 'mv': [1, 1, 15], 'd1': ['made/F__AKt']}))
        self.assertEqual(sheet('room', path)[1], 'sheet 23 bytes, text 0 bytes; 1 head, 0 constructors, 0 functions, 0 properties, 0 parameters, 0 types, '
                         '0 default descriptors, 0 aliases, 1 count of aliases; text of properties 0, functions 0, constructors 0, aliases 0, head 0\n')

    def test_refusals_are_those_of_read_but_for_the_text(self):
        for number, _, values in refused():
            path = self.put('Bad.class', made_class.class_file(values))
            if number != 11:
                self.assertEqual(sheet('room', path), sheet('read', path), number)
                self.assertEqual(sheet('room', '--json', path), sheet('read', '--json', path), number)
                continue
            self.assertEqual(sheet('room', path), (0, 'sheet 110 bytes, text 90000 bytes; 1 head, 0 constructors, 3 functions, 0 properties, 0 parameters, '
                             '0 types, 3 default descriptors, 0 aliases, 1 count of aliases; text of properties 0, functions 90000, constructors 0, '
                             'aliases 0, head 0 [the text fits no area: more than 65534 bytes]\n', ''))
            o, = objects(sheet('room', '--json', path)[1])
            self.assertEqual((o['fits'], o['text_bytes'], schema.faults(o, SCHEMA, SCHEMA)), (False, 90000, []))

    def test_jars_refused_and_damaged_classes(self):
        values = {number: values for number, _, values in refused()}
        jar = self.jar('a.jar', {'till/Line.class': example('Line', '.class'), 'x/Bad.class': made_class.class_file(values[7]),
                                 'x/Cut.class': example('Sale', '.class')[:400], 'x/Long.class': made_class.class_file(values[11])})
        status, out, said = sheet('room', jar)
        lines, (sheet_bytes, text_bytes, _, _) = out.splitlines(), room_of('Line')
        self.assertEqual((status, len(lines)), (1, 5))
        self.assertTrue(lines[1].startswith(f'{jar}!/x/Long.class: sheet 110 bytes, text 90000 bytes; '))
        self.assertEqual(lines[2:4], [f'longest: sheet {sheet_bytes} bytes ({jar}!/till/Line.class), text {text_bytes} bytes ({jar}!/till/Line.class)',
                                      '1 with a text that fits no area'])
        self.assertTrue(lines[4].startswith(f'all 2: sheet {sheet_bytes + 110} bytes, text {text_bytes + 90000} bytes; 2 heads, '))
        self.assertIn('x/Bad.class: refused, 7', said)
        self.assertIn('2 measured, 1 refused (1 by 7, truncated), 0 without Kotlin metadata, 1 not a class', said)

    def test_nothing_to_measure(self):
        status, out, said = sheet('room', self.put('Java.class', made_class.class_file(None)))
        self.assertEqual((status, out), (1, ''))
        self.assertIn('no annotation kotlin.Metadata', said)
        self.assertEqual(sheet('room', self.here)[:2], (0, ''))
        self.assertEqual(sheet('room', self.path('missing.class'))[0], 4)


def used_strings():
    """Of each example the indices of the strings of d2 that its reading falls to, and how many strings there are: the second reading gave them."""
    told = {}
    for line in example('used_strings', '.txt').decode().splitlines():
        name, _, strings = line.partition(': ')
        used, count = strings.removeprefix('none').split('of ')
        told[name] = [int(index) for index in used.split()], int(count)
    return told


class Strings(InFolder):
    def strings(self, name):
        """k, mv, d1 and the strings of an example."""
        m = class_input.ClassFile(example(name, '.class')).metadata()
        texts = [''.join(map(chr, m.d2[start:end])) for start, end in zip([0, *m.ends], m.ends)]
        return m.k, m.version, [''.join(map(chr, m.d1))], texts

    def test_examples(self):
        told = used_strings()
        self.assertEqual(list(told), NAMES)
        for name, (used, count) in told.items():
            texts = self.strings(name)[3]
            self.assertEqual(len(texts), count, name)
            status, out, said = sheet('strings', f'examples/{name}.class')
            width = len(str(count - 1))
            lines = [f"  {i:>{width}}  {'fallen to     ' if i in used else 'may be blanked'}  \"{text}\"" for i, text in enumerate(texts)]
            self.assertEqual((status, said), (0, ''))
            self.assertEqual(out.splitlines(), [f'{count} strings: {len(used)} fallen to, {count - len(used)} may be blanked', *lines], name)
            o, = objects(sheet('strings', '--json', f'examples/{name}.class')[1])
            self.assertEqual(schema.faults(o, SCHEMA, SCHEMA), [])
            self.assertEqual((o['state'], o['used']), ('strings told', len(used)), name)
            self.assertEqual([(s['index'], s['used'], s['text']) for s in o['strings']], [(i, i in used, text) for i, text in enumerate(texts)], name)

    def test_the_manual_shows_what_is_printed(self):
        manual_shows(self, 'strings')

    def test_what_may_be_blanked_is_blanked(self):
        """Other strings in their place, and none: the sheet stays, also where many are longer. What is fallen to is still told, and no more."""
        for name, (used, count) in used_strings().items():
            k, version, d1, texts = self.strings(name)
            for other in ('', 'another string', '\ud800'):
                d2 = [text if i in used else other for i, text in enumerate(texts)]
                path = self.put('Blanked.class', made_class.class_file({'k': k, 'mv': version, 'd1': d1, 'd2': d2}))
                self.assertEqual(sheet('read', '--line', path)[:2], (0, example(name, '.line').decode()), name)
                o, = objects(sheet('strings', '--json', path)[1])
                self.assertEqual([s['index'] for s in o['strings'] if s['used']], used, name)

    def test_many_classes(self):
        told = used_strings()
        status, out, said = sheet('strings', 'examples')
        parts = out.split('\n\n')
        self.assertEqual((status, [part.splitlines()[0] for part in parts[:-1]]), (0, [f'examples/{name}.class:' for name in NAMES]))
        used, count = sum(len(used) for used, _ in told.values()), sum(count for _, count in told.values())
        self.assertEqual(parts[-1], f'all {len(NAMES)}: {count} strings: {used} fallen to, {count - used} may be blanked\n')
        self.assertRegex(said, rf'^sheet: {len(NAMES)} looked at, 0 refused, ')

    def test_refusals_are_those_of_read_but_for_the_text(self):
        for number, _, values in refused():
            path = self.put('Bad.class', made_class.class_file(values))
            if number != 11:
                self.assertEqual(sheet('strings', path), sheet('read', path), number)
                self.assertEqual(sheet('strings', '--json', path), sheet('read', '--json', path), number)
            else:
                self.assertEqual(sheet('strings', path), (0, f'1 string: 1 fallen to, 0 may be blanked\n  0  fallen to       "{"a" * 30000}"\n', ''))

    def test_strings_that_do_not_print(self):
        """Line ends, quotes, backslashes, surrogates that stand alone, none at all: a string is a line, and JSON has it whole."""
        strings = ['f', 'a\nb', '"', '\\', '\ud800x', '\U0001f600', '\u202e', '']
        path = self.put('Odd.class', made_class.class_file(made_class.package(made_class.field(3, b'\x10\0'), strings)))
        self.assertEqual(sheet('strings', path)[1].splitlines(), [
            '8 strings: 1 fallen to, 7 may be blanked', '  0  fallen to       "f"', r'  1  may be blanked  "a\u{a}b"', r'  2  may be blanked  "\""',
            r'  3  may be blanked  "\\"', r'  4  may be blanked  "\u{d800}x"', '  5  may be blanked  "\U0001f600"', r'  6  may be blanked  "\u{202e}"',
            '  7  may be blanked  ""'])
        o, = objects(sheet('strings', '--json', path)[1])
        self.assertEqual(([s['text'] for s in o['strings']], schema.faults(o, SCHEMA, SCHEMA)), (strings, []))

    def test_without_a_payload(self):
        facade = self.put('Facade.class', made_class.class_file({'k': 4, 'mv': [1, 1, 15], 'd1': ['made/F__AKt'], 'd2': ['a', 'b']}))
        self.assertEqual(sheet('strings', facade)[1], '2 strings: 0 fallen to, 2 may be blanked\n  0  may be blanked  "a"\n  1  may be blanked  "b"\n')
        none = self.put('None.class', made_class.class_file({'k': 3, 'mv': [1, 1, 15]}))
        self.assertEqual(sheet('strings', none)[1], '0 strings: 0 fallen to, 0 may be blanked\n')
        status, out, said = sheet('strings', self.put('Java.class', made_class.class_file(None)))
        self.assertEqual((status, out), (1, ''))
        self.assertIn('no annotation kotlin.Metadata', said)


class Paths(InFolder):
    def test_files_folders_and_jars_at_once(self):
        self.put('classes/sub/Sale.class', example('Sale', '.class'))
        self.put('classes/Java.class', made_class.class_file(None, 'Java'))
        self.put('classes/note.txt', b'no class')
        jar = self.jar('a jar.jar', {'till/Line.class': example('Line', '.class'), 'x/Bad.class': made_class.class_file({'k': 2, 'd1': ['\0']}),
                                     'x/Cut.class': example('Sale', '.class')[:400], 'till/Reason.class': example('Reason', '.class')})
        status, out, said = sheet('read', self.path('classes'), jar, 'examples/Refund.class')
        self.assertEqual(status, 1)
        headings = [self.path('classes/sub/Sale.class'), jar + '!/till/Line.class', jar + '!/till/Reason.class', 'examples/Refund.class']
        texts = [example(name, '.txt').decode() for name in ('Sale', 'Line', 'Reason', 'Refund')]
        self.assertEqual(out, '\n'.join(f'{heading}:\n{text}' for heading, text in zip(headings, texts)))
        lines = said.splitlines()
        self.assertEqual(len(lines), 3)
        self.assertIn('x/Bad.class: refused, 7', lines[0])
        self.assertIn('x/Cut.class: not a class file that can be read: the file ends in the middle', lines[1])
        self.assertRegex(lines[2], r'^sheet: 4 read, 1 refused \(1 by 7, truncated\), 1 without Kotlin metadata, 1 not a class \([\d.]+ s\)$')

    def test_one_entry_of_a_jar(self):
        jar = self.jar('a.jar', {'till/Sale.class': example('Sale', '.class'), 'till/Line.class': example('Line', '.class')})
        self.assertEqual(sheet('read', jar + '!/till/Sale.class'), (0, example('Sale', '.txt').decode(), ''))
        self.assertEqual(sheet('read', jar + '!/till/No.class')[0], 4)

    def test_a_jar_in_a_folder(self):
        self.jar('a.jar', {'till/Sale.class': example('Sale', '.class')})
        self.assertEqual(sheet('read', self.here)[1], f'{self.path("a.jar")}!/till/Sale.class:\n' + example('Sale', '.txt').decode())

    def test_a_file_that_cannot_be_read_does_not_end_the_run(self):
        status, out, said = sheet('read', self.path('missing.class'), 'examples/Sale.class')
        self.assertEqual(status, 4)
        self.assertIn('till.Sale', out)
        self.assertIn('missing.class: No such file', said)
        self.put('bad.jar', b'PK\3\4 no jar')
        status, _, said = sheet('read', self.here)
        self.assertEqual(status, 4)
        self.assertIn('bad.jar: not a jar that can be read', said)

    def test_more_jars_than_may_be_open(self):
        for at in range(40):
            self.jar(f'{at:02}.jar', {'till/Line.class': example('Line', '.class')})
        os.mkfifo(self.path('pipe.class'))
        status, out, said = sheet('check', self.here, preexec_fn=lambda: resource.setrlimit(resource.RLIMIT_NOFILE, (30, 30)))
        self.assertEqual((status, out), (0, ''))
        self.assertIn('40 read, 0 refused', said)

    def test_what_is_no_kotlin_class(self):
        status, out, said = sheet('read', self.put('Java.class', made_class.class_file(None)))
        self.assertEqual((status, out), (1, ''))
        self.assertIn('no annotation kotlin.Metadata', said)
        status, out, said = sheet('read', 'README.md')
        self.assertEqual((status, out), (1, ''))
        self.assertIn('README.md: not a class file that can be read: it does not begin', said)
        self.assertEqual(sheet('read', self.here)[0], 0)
        o, = objects(sheet('read', '--json', 'README.md')[1])
        self.assertEqual((o['state'], schema.faults(o, SCHEMA, SCHEMA)), ('not a class', []))

    def test_from_anywhere_by_a_symlink(self):
        os.symlink(SHEET, self.path('my sheet'))
        self.put('in/Sale.class', example('Sale', '.class'))
        self.assertEqual(sheet('read', 'Sale.class', cwd=self.path('in'), command=self.path('my sheet'))[:2], (0, example('Sale', '.txt').decode()))

    def test_names_of_any_bytes(self):
        path = os.path.join(self.here.encode(), b'\xff\n.class')
        with open(path, 'wb') as f:
            f.write(example('Sale', '.class'))
        done = subprocess.run([SHEET, 'read', '--json', path], stdout=subprocess.PIPE, stderr=subprocess.PIPE)
        o, = objects(done.stdout.decode())
        self.assertEqual((done.returncode, os.path.basename(o['file'])), (0, '\ufffd\n.class'))
        done = subprocess.run([SHEET, 'read', self.here], stdout=subprocess.PIPE, stderr=subprocess.PIPE)
        self.assertEqual(done.returncode, 0)
        self.assertIn(b'/\xff\\u{a}.class:\n', done.stdout)

    def test_a_progress_line_on_a_terminal_alone(self):
        controller, terminal = pty.openpty()
        subprocess.run([SHEET, 'read', 'examples'], cwd=ROOT, stdout=subprocess.DEVNULL, stderr=terminal)
        os.close(terminal)
        self.assertIn(f' of {len(NAMES)} classes, examples/'.encode(), os.read(controller, 65536))
        os.close(controller)
        self.assertNotIn('classes,', sheet('read', 'examples')[2])

    def test_results_and_progress_on_one_terminal(self):
        controller, terminal = pty.openpty()
        subprocess.run([SHEET, 'read', '--line', 'examples/Line.class', 'examples/Reason.class'], cwd=ROOT, stdout=terminal, stderr=terminal)
        os.close(terminal)
        told = os.read(controller, 65536).decode().replace('\r\n', '\n')
        os.close(controller)
        told = re.sub('(\x1b\\[K)sheet: the reader is built WITHOUT PROOF.*\n', r'\1', told)  # said in front of the first result, if it is so
        self.assertIn('\r\x1b[K' + example('Line', '.line').decode(), told)
        self.assertIn('classes, examples/Line.class', told)


class Statuses(InFolder):
    def test_help(self):
        for words in (['--help'], ['-h'], ['help']):
            status, out, said = sheet(*words)
            self.assertEqual((status, said), (0, ''))
            for name in ('read', 'check', 'room', 'strings', 'convert', 'build'):
                self.assertRegex(out, rf'(?m)^  {name} ')
        for name in ('read', 'check', 'room', 'strings', 'convert', 'build'):
            for words in ([name, '--help'], [name, '-h'], ['help', name]):
                status, out, said = sheet(*words)
                self.assertEqual((status, said, out.startswith(f'usage: sheet {name}')), (0, '', True))
                self.assertIn('Exit status: 0', out)

    def test_usage(self):
        for words in ([], ['write'], ['--json'], ['read'], ['read', '--all', 'x'], ['read', '--json', '--line', 'x'], ['check', '--line', 'x'],
                      ['room'], ['room', '--line', 'x'], ['strings'], ['strings', '--records', 'x'],
                      ['convert'], ['convert', '--line', 'x'],
                      ['build', 'x'], ['help', 'nothing']):
            status, out, said = sheet(*words)
            self.assertEqual((status, out), (2, ''), words)
            self.assertRegex(said, '^sheet: .*--help')

    def test_a_file_that_looks_like_an_option(self):
        self.put('--json', example('Sale', '.class'))
        self.assertEqual(sheet('read', '--', '--json', cwd=self.here)[:2], (0, example('Sale', '.txt').decode()))

    def test_check(self):
        self.assertEqual(sheet('check', 'examples/Line.class')[:2], (0, ''))
        status, out, said = sheet('check', 'examples/TillKt.class', 'examples/Sale.class')
        self.assertEqual((status, out), (3, 'examples/TillKt.class: fun kotlin.collections.Iterable<(type parameter)>.cents(of: kotlin.Function1<'
                                         '(type parameter), kotlin.Long>)  default cents(Ljava/lang/Iterable;Lkotlin/Function1;)J [not in the class]\n'))
        self.assertEqual(said.splitlines()[1:], [
            'sheet: functions and constructors by default: 4, of which 1 not in the class, 0 shared, 0 perhaps of another',
            'sheet: functions and constructors by signature: 2, of which 0 not in the class, 0 shared, 0 perhaps of another',
            'sheet: functions and constructors without a target: 1',
            'sheet: fields, getters and setters by signature: 6, of which 0 not in the class, 0 shared, 0 perhaps of another'])

    def test_output_that_cannot_be_written(self):
        for words in (['read', 'examples'], ['read', '--json', 'examples'], ['check', 'examples'], ['room', 'examples'], ['strings', 'examples'],
                      ['convert', 'examples'], ['--help']):
            with open('/dev/full', 'wb') as full:
                done = subprocess.run([SHEET, *words], cwd=ROOT, stdout=full, stderr=subprocess.PIPE)
            self.assertEqual(done.returncode, 4, words)
            self.assertRegex(LIBRARY.sub('', done.stderr.decode()), r'(?m)^sheet: the output cannot be written: No space left')
            self.assertNotIn(b'Exception', done.stderr)

    def test_closed_output(self):
        done = subprocess.run(['sh', '-c', '"$0" read examples >&-', SHEET], cwd=ROOT, stderr=subprocess.PIPE)
        self.assertEqual(done.returncode, 4)
        self.assertIn(b'the output cannot be written', done.stderr)
        reading, writing = os.pipe()
        os.close(reading)
        done = subprocess.run([SHEET, 'read', 'examples'], cwd=ROOT, stdout=writing, stderr=subprocess.PIPE)
        os.close(writing)
        self.assertEqual(done.returncode, 4)
        self.assertNotIn(b'Exception', done.stderr)

    def test_closed_messages(self):
        done = subprocess.run(['sh', '-c', '"$0" read README.md 2>&-', SHEET], cwd=ROOT, stdout=subprocess.PIPE)
        self.assertEqual((done.returncode, done.stdout), (1, b''))

    def test_any_locale(self):
        path = self.put('Named.class', made_class.class_file(made_class.package(made_class.field(3, b'\x10\0'), ['caf\u00e9\u001b[1m'])))
        for locale in ('C', 'POSIX', 'C.UTF-8'):
            done = subprocess.run([SHEET, 'read', path], stdout=subprocess.PIPE, env={**os.environ, 'LC_ALL': locale, 'PYTHONCOERCECLOCALE': '0', 'PYTHONUTF8': '0'})
            self.assertEqual(done.returncode, 0)
            self.assertIn('fun caf\u00e9\\u{1b}[1m()'.encode(), done.stdout)


class Words(unittest.TestCase):
    def test_flags(self):
        """The bits of each flag, as Kotlin's own reader of metadata has them."""
        self.words('head', {
            6: 'public final class', 0x66: 'public abstract interface', 0x86: 'public final enum class', 0xc6: 'public final enum entry',
            0x106: 'public final annotation class', 0x146: 'public final object', 0x186: 'public final companion object',
            0x206: 'public final inner class', 0x406: 'public final data class', 0x806: 'public final external class',
            0x1006: 'public final expect class', 0x2006: 'public final inline class', 0x36: 'public sealed class', 0x10: 'internal open class',
            0x1c6: 'public final class of kind 7'})
        self.words('constructor', {6: 'public', 2: 'private', 4: 'protected', 0x16: 'public secondary', 8: 'private to this', 10: 'local', 14: 'visibility 7'})
        self.words('alias', {6: 'public', 7: 'public', 2: 'private', 0x10: 'internal', 14: 'visibility 7'})
        self.words('function', {
            6: 'public final', 0x46: 'public final fake override', 0x86: 'public final delegation', 0xc6: 'public final synthesized',
            0x106: 'public final operator', 0x206: 'public final infix', 0x406: 'public final inline', 0x806: 'public final tailrec',
            0x1006: 'public final external', 0x2006: 'public final suspend', 0x4006: 'public final expect', 7: 'public final',
            0x2500 | 0x26: 'public abstract suspend inline operator'})
        self.words('property', {
            6: 'public final val', 0x106: 'public final var', 0x806: 'public final const val', 0x1106: 'public final lateinit var',
            0x4006: 'public final external val', 0x8006: 'public final delegated val', 0x10006: 'public final expect val', 0x2606: 'public final val'})

    def test_the_manual_has_the_same_bits(self):
        with open(os.path.join(ROOT, 'docs', 'MANUAL.md'), encoding='utf-8') as f:
            rows = re.findall(r'^\| (\d+) \| ([\w ]*?) ?\| ([\w ]*?) ?\| ([\w ]*?) ?\| ([\w ]*?) ?\|$', f.read(), re.M)
        tables = [flag_words.CLASS_BITS, flag_words.CONSTRUCTOR_BITS, flag_words.FUNCTION_BITS, [*flag_words.PROPERTY_BITS, (8, 'var')]]
        told = [[(int(row[0]), row[at]) for row in rows if row[at] and not row[at].startswith('has ')] for at in range(1, 5)]
        told[1].append((4, 'secondary'))
        self.assertEqual(told, [sorted(table) for table in tables])

    def words(self, record, table):
        for flags, words in table.items():
            self.assertEqual(' '.join(flag_words.words(record, flags)), words, (record, flags))


if __name__ == '__main__':
    unittest.main()
