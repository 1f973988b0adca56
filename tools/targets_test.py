#!/usr/bin/env python3
"""targets.py and measure_links.py on the examples, on class files that are cut short, and on sheets made here. The lines of the examples are
the Rust's."""
import os, re, shutil, sys, unittest

sys.dont_write_bytecode = True
import class_input, measure_links, sheets, targets

EXAMPLES = os.path.join(os.path.dirname(os.path.abspath(__file__)), '..', 'examples')
STDLIB = '/usr/share/java/kotlin-stdlib.jar'
MANUAL = os.path.join(EXAMPLES, '..', 'docs', 'MANUAL.md')
KOTLIN_THERE = bool(shutil.which('java')) and all(map(os.path.exists, measure_links.KOTLIN.split(':')))


def example(name):
    with open(os.path.join(EXAMPLES, name + '.line'), encoding='ascii') as f:
        sheet, text = (b'' if w == '-' else bytes.fromhex(w) for w in f.read().split()[2:])
    with open(os.path.join(EXAMPLES, name + '.class'), 'rb') as f:
        return sheets.Walk(sheet, text).sheet(), f.read()


def members_of(data):
    return targets.class_members(class_input.ClassFile(data))


def complaints(name):
    """Each declaration of an example of which something is said, and what."""
    head, data = example(name)
    said = [(targets.declared(head['of'][j.target.declaration]), targets.words(j, head))
            for j in targets.judge(targets.targets(head), members_of(data))]
    return [(declared, words) for declared, words in said if words]


PLAIN, ANNOTATED, INTERNAL, PRIVATE = 6, 7, 0, 2


def function(name, default, signature=None, descriptor=None, flags=PLAIN):
    """A function as sheets.Walk gives it."""
    return {'record': 'function', 'name': name, 'flags': flags, 'receiver': 0, 'of': [],
            'signature': signature, 'descriptor': descriptor, 'default': default}


def said(kind, declarations, methods):
    """What is said of each function of a sheet over a class with these methods."""
    head = {'kind': kind, 'of': declarations}
    judged = targets.judge(targets.targets(head), targets.Members(dict.fromkeys(methods, 1), {}))
    return [targets.words(j, head) for j in judged]


class Members(unittest.TestCase):
    def test_tables_are_those_that_javap_prints(self):
        """Name, descriptor and access of every method and field of TillKt and Reason, from `javap -p -v`."""
        _, data = example('TillKt')
        self.assertEqual(members_of(data), targets.Members({
            ('refund', '(Ltill/Sale;JLtill/Reason;)Ltill/Refund;'): 0x0019,
            ('refund$default', '(Ltill/Sale;JLtill/Reason;ILjava/lang/Object;)Ltill/Refund;'): 0x1009,
            ('cents', '(Ljava/lang/Iterable;Lkotlin/jvm/functions/Function1;)J'): 0x0019,
            ('isEmpty', '(Ltill/Sale;)Z'): 0x0019}, {}))
        _, data = example('Reason')
        self.assertEqual(members_of(data).fields, {
            ('DAMAGED', 'Ltill/Reason;'): 0x4019, ('UNWANTED', 'Ltill/Reason;'): 0x4019, ('$VALUES', '[Ltill/Reason;'): 0x101a})

    def test_a_file_that_ends_early_is_damaged(self):
        _, data = example('Sale')
        methods = data.index(b'RuntimeVisibleAnnotations')
        for size in range(0, methods, 7):
            with self.assertRaises(class_input.Damaged):
                members_of(data[:size])

    def test_text_of_a_constant(self):
        self.assertEqual(class_input.text_of(b'\xc0\x80a\xed\xa0\xbd\xed\xb8\x80'), '\0a\U0001f600')
        self.assertEqual(class_input.text_of(b'\xed\xa0\xbdx'), '\ufffdx')


class Targets(unittest.TestCase):
    def test_each_part_of_a_declaration(self):
        head, _ = example('Line')
        self.assertEqual([t[1:5] for t in targets.targets(head)], [
            ('method', 'signature', '<init>', '(Ljava/lang/String;JI)V'),
            ('method', 'default', 'discounted', '(IZ)J'),
            ('getter', 'signature', 'getArticle', '()Ljava/lang/String;'),
            ('getter', 'signature', 'getCents', '()J'),
            ('getter', 'signature', 'getCount', '()I'),
            ('setter', 'signature', 'setCount', '(I)V'),
            ('getter', 'signature', 'getTotal', '()J')])

    def test_a_constructor_without_a_signature(self):
        head = {'kind': 1, 'of': [dict(function('', '()V', flags=INTERNAL), record='constructor')]}
        self.assertEqual(targets.targets(head), [(0, 'method', 'default', '<init>', '()V', False)])

    def test_neither_signature_nor_default(self):
        self.assertEqual(said(2, [function('f', None), function('f', None)], []), [['no target'], ['no target']])


class Judgements(unittest.TestCase):
    def test_examples(self):
        self.assertEqual(complaints('TillKt'), [(
            'fun kotlin.collections.Iterable<(type parameter)>.cents(of: kotlin.Function1<(type parameter), kotlin.Long>)', ['not in the class'])])
        self.assertEqual(complaints('Sale'), [('fun void()', ['no target'])])
        for name in ('Line', 'Refund', 'Reason', 'Journal', 'Journal$DefaultImpls'):
            self.assertEqual(complaints(name), [])

    def test_linking(self):
        """The classes of Linking.kt: what is said of them in MANUAL, "How to link"."""
        lost = ['not in the class']
        self.assertEqual(complaints('LinkingKt'), [
            ('fun count(coin: till.Drawer.Coin)', lost),
            ('fun each(sale: till.Sale, of: kotlin.Function1<till.Line, kotlin.Unit>)', lost),
            ('fun kept(copy: kotlin.Cloneable)', lost),
            ('fun lines(sale: till.Sale)', lost),
            ('fun named(function: kotlin.reflect.KFunction1<till.Sale, till.Refund>)', lost),
            ('fun paid(cents: till.Cents?)', lost),
            ('fun price(article: kotlin.collections.Map.Entry<kotlin.String, kotlin.Long>)', lost),
            ('fun refund(numbers: kotlin.collections.List<kotlin.Int>)',
             ['may be the method of fun refundSale(articles: kotlin.collections.List<kotlin.String>)']),
            ('fun refundSale(articles: kotlin.collections.List<kotlin.String>)', lost),
            ('fun sum(cents: kotlin.collections.List<kotlin.Long>)', ['shared with fun sum(lines: kotlin.collections.List<till.Line>)']),
            ('fun sum(lines: kotlin.collections.List<till.Line>)', ['shared with fun sum(cents: kotlin.collections.List<kotlin.Long>)']),
            ('fun kotlin.Int.Companion.cents()', lost)])
        self.assertEqual(complaints('Drawer'), [('fun open()', lost)])
        self.assertEqual(complaints('Drawer$Companion'), [('property opened', lost)])
        self.assertEqual(complaints('Stock'), [('fun find(article: kotlin.String)', lost)])
        self.assertEqual(complaints('Priced'), [('constructor(cents: kotlin.Long)', lost)])
        self.assertEqual(complaints('Drawer$Coin'), [])
        self.assertEqual(complaints('Cents'), [])

    def test_shared(self):
        self.assertEqual(said(2, [function('f', '()V'), function('g', '()I', 'f', '()V'), function('f', '()I')], [('f', '()V')]),
                         [['shared with fun g()'], ['shared with fun f()'], ['not in the class']])

    def test_may_be_the_method_of_another(self):
        """g is f on the JVM, and f something else: only annotations or an internal member make that possible."""
        lost = ['not in the class']
        f, g = function('f', '()V', flags=ANNOTATED), function('g', '()V', flags=ANNOTATED)
        self.assertEqual(said(2, [f, g], [('f', '()V'), ('h', '()V')]), [['may be the method of fun g()'], lost])
        self.assertEqual(said(2, [function('f', '()V'), g], [('f', '()V'), ('h', '()V')]), [[], lost])
        self.assertEqual(said(2, [f, function('g', '()V')], [('f', '()V')]), [[], lost])
        self.assertEqual(said(2, [f, function('g', '()I', flags=ANNOTATED)], [('f', '()V')]), [[], lost])
        self.assertEqual(said(1, [function('f', '()V', flags=INTERNAL), g], [('f', '()V')]), [['may be the method of fun g()'], lost])
        self.assertEqual(said(2, [function('f', '()V', flags=INTERNAL), g], [('f', '()V')]), [[], lost])

        self.assertEqual(said(5, [function('f', '()V', flags=PRIVATE), g], [('f', '()V')]), [['may be the method of fun g()'], lost])
        self.assertEqual(said(2, [function('f', '()V', flags=PRIVATE), g], [('f', '()V')]), [[], lost])

    def test_a_parameter_of_an_inline_class(self):
        """f is f-hash on the JVM, and g is f."""
        methods = [('f', '(LC;)V'), ('f-hash', '(LC;)V')]
        self.assertEqual(said(2, [function('f', '(LC;)V'), function('g', '(LC;)V', flags=ANNOTATED)], methods),
                         [['may be the method of fun g()'], ['not in the class']])

    def test_a_function_under_its_longer_name_takes_no_other(self):
        f = function('f', '()V', flags=ANNOTATED)
        for kind, flags in (1, INTERNAL), (5, PRIVATE):
            self.assertEqual(said(kind, [f, function('g', '()V', flags=flags)], [('f', '()V'), ('g$main', '()V')]),
                             [[], ['not in the class']])

    def test_what_to_link(self):
        def linked(declarations, methods):
            judged = targets.judge(targets.targets({'kind': 2, 'of': declarations}), targets.Members(dict.fromkeys(methods, 1), {}))
            return [j.link for j in judged]
        plain, renamed, recorded = function('f', '()V'), function('f', '()V', flags=ANNOTATED), function('g', '()V', 'f', '()V', ANNOTATED)
        self.assertEqual(linked([plain], [('f', '()V')]), [True])
        self.assertEqual(linked([plain], [('f', '()I')]), [False])
        self.assertEqual(linked([function('f', None)], [('f', '()V')]), [False])
        self.assertEqual(linked([plain, renamed, renamed], [('f', '()V')]), [True, False, False])
        self.assertEqual(linked([recorded, renamed], [('f', '()V')]), [True, False])
        self.assertEqual(linked([plain, plain], [('f', '()V')]), [False, False])
        self.assertEqual(linked([renamed, renamed], [('f', '()V')]), [False, False])
        self.assertEqual(linked([plain, renamed], []), [False, False])
        self.assertEqual(linked([renamed, function('h', '()V', flags=ANNOTATED)], [('f', '()V')]), [False, False])

    def test_a_field_is_no_method(self):
        p = {'record': 'property', 'name': 'p', 'receiver': 0, 'field': 'p', 'field descriptor': 'I',
             'getter': 'p', 'getter descriptor': 'I', 'setter': None, 'setter descriptor': None}
        judged = targets.judge(targets.targets({'kind': 1, 'of': [p]}), targets.Members({}, {('p', 'I'): 2}))
        self.assertEqual([(j.target.part, j.there, j.shared) for j in judged], [('field', True, []), ('getter', False, [])])


# the methods of functions and constructors of the examples whose sheets say another or none, by `javap -p -s`, and the kind of departure;
# where the class has none, what Kotlin's reader gives
DEPARTURES = {
    'LinkingKt': {
        'count': ('count', '(Ltill/Drawer$Coin;)I', measure_links.NESTED),
        'each': ('each', '(Ltill/Sale;Lkotlin/jvm/functions/Function1;)V', measure_links.FUNCTION),
        'kept': ('kept', '(Ljava/lang/Cloneable;)Z', measure_links.BUILT_IN),
        'lines': ('lines', '(Ltill/Sale;)Ljava/util/Iterator;', measure_links.COLLECTION),
        'named': ('named', '(Lkotlin/reflect/KFunction;)Ljava/lang/String;', measure_links.REFERENCE),
        'paid': ('paid-2nxs4XI', '(Ltill/Cents;)Z', measure_links.INLINE),
        'price': ('price', '(Ljava/util/Map$Entry;)J', measure_links.COLLECTION),
        'refund': ('refundAll', '(Ljava/util/List;)I', measure_links.JVM_NAME),
        'refundSale': ('refund', '(Ljava/util/List;)I', measure_links.JVM_NAME),
        'cents': ('cents', '(Lkotlin/jvm/internal/IntCompanionObject;)I', measure_links.COMPANION)},
    'Drawer': {'open': ('open$main', '()Z', measure_links.INTERNAL)},
    'Sale': {'void': ('void', '()Ljava/lang/Void;', measure_links.NOTHING)},
    'Stock': {'find': ('find', '(Ljava/lang/String;)I', measure_links.INTERFACE)},
    'Priced': {'<init>': ('<init>', '(J)V', measure_links.ANNOTATION)},
}


class Kinds(unittest.TestCase):
    def test_departures_of_the_examples(self):
        for name, expected in DEPARTURES.items():
            head, data = example(name)
            members = members_of(data)
            judged = {j.target.name: j for j in targets.judge(targets.targets(head), members)}
            for declared, (method, descriptor, kind) in expected.items():
                self.assertEqual(measure_links.departures(head, judged[declared], (method, descriptor), members), [kind])

    @unittest.skipUnless(KOTLIN_THERE, 'no Java or no Kotlin')
    def test_what_kotlin_reads_of_the_examples(self):
        found = [example(name) for name in DEPARTURES]
        told = measure_links.kotlin_targets([class_input.ClassFile(data).metadata() for _, data in found])
        for (head, _), kotlins, expected in zip(found, told, DEPARTURES.values()):
            self.assertEqual(len(kotlins), len(head['of']))
            for m, rows in zip(head['of'], kotlins):
                name = m.get('name', '<init>')
                if name in expected and not m['signature']:
                    self.assertEqual(rows, [expected[name][:2]])

    def test_names_that_get_longer(self):
        m = {'name': 'f', 'flags': PRIVATE}
        self.assertEqual(measure_links.name_kind({'kind': 5}, m, 'f$FilesKt__FileKt'), measure_links.PART)
        self.assertEqual(measure_links.name_kind({'kind': 2}, m, 'f$FilesKt__FileKt'), measure_links.JVM_NAME)
        self.assertEqual(measure_links.name_kind({'kind': 5}, m, 'g'), measure_links.JVM_NAME)
        self.assertEqual(measure_links.name_kind({'kind': 2}, m, 'f-2nxs4XI'), measure_links.INLINE)

    def test_relocated_packages(self):
        t = targets.Target(0, 'method', 'signature', 'f', '(La/b/C;I)La/D;', False)
        members = targets.Members({('f', '(Lx/a/b/C;I)Lx/a/D;'): 1}, {})
        head = {'kind': 1, 'flags': PLAIN, 'of': [function('f', None)]}
        self.assertEqual(measure_links.absent_kind(head, head['of'][0], t, members), measure_links.RELOCATED)
        self.assertEqual(measure_links.absent_kind(head, head['of'][0], t, targets.Members({}, {})), measure_links.OTHER)


class Figures(unittest.TestCase):
    """What MANUAL says of the standard library, measured again where the library that it speaks of is there."""

    @unittest.skipUnless(KOTLIN_THERE and os.path.realpath(STDLIB).endswith('-1.3.31.jar') and shutil.which('rt'),
                         'no Java, no Kotlin 1.3.31 or no rt')
    def test_the_standard_library(self):
        count = measure_links.measured(STDLIB, measure_links.reader_library(), set()).of
        with open(MANUAL, encoding='utf-8') as f:
            rows = [[cell.strip() for cell in line.strip()[1:-1].split('|')] for line in f if line.startswith('|')]
        start = rows.index(['', 'kotlin-stdlib', 'kotlinx-coroutines-core', 'gradle-kotlin-dsl', 'kotlin-reflect', 'kotlin-compiler', 'all'])
        keys = ('classes', 'declarations', 'signature', ('signature', 'absent'), 'default', ('default', 'absent'), 'none',
                'shared', ('shared', 'there'), 'wrong')
        self.assertEqual([int(row[1].replace(',', '')) for row in rows[start + 2:start + 2 + len(keys)]], [count[key] for key in keys])
        start = rows.index(['declared', "the sheet's target", 'in the class', 'found'])
        M = measure_links
        kinds = (M.FUNCTION, M.NESTED, M.COLLECTION, M.BUILT_IN, M.COMPANION, M.REFERENCE, M.NOTHING, M.INTERNAL, M.PART, M.INLINE, M.JVM_NAME,
                 M.ANNOTATION, M.INTERFACE, M.UNNAMED, M.RELOCATED, M.UNIT)
        found = [re.search(r'\((\d+)\)|^0$', row[-1]) for row in rows[start + 2:start + 2 + len(kinds)]]
        self.assertEqual([int(f[1] or 0) for f in found], [count[kind] for kind in kinds])
        self.assertEqual(count[M.OTHER], 0)


if __name__ == '__main__':
    unittest.main()
