#!/usr/bin/env python3
"""usage: measure_links.py [--examples N] JAR..

How well the sheets of all classes in these jars link. Each target on a sheet is looked up in the class file and compared with the one that
the Kotlin compiler's own reader gives (KotlinTargets.java). Printed are, for each jar and for all together: how many functions and constructors
link by signature and by default, how many of these name no method of the class, share a method, or name another declaration's; then the
kinds of departure; then properties. A class file that is in several jars counts in the first. With --examples N declarations of each kind.

It reads by the library, as ./sheet does. It needs a JDK of version 16 or above and Debian's package kotlin (or KOTLIN_JARS: a class path
that holds kotlin-compiler.jar and kotlin-stdlib.jar)."""
import collections, os, re, struct, subprocess, sys, zipfile

sys.dont_write_bytecode = True
import class_input, library, library_build, sheets, targets

HERE = os.path.dirname(os.path.abspath(__file__))
KOTLIN = os.environ.get('KOTLIN_JARS', '/usr/share/java/kotlin-compiler.jar:/usr/share/java/kotlin-stdlib.jar')

# kinds of departure, in the order in which they are printed
FUNCTION = 'function type'
NESTED = 'nested class'
COLLECTION = 'Iterator, ListIterator, Map.Entry'
BUILT_IN = 'other built-in class'
COMPANION = 'companion of a built-in class'
REFERENCE = 'type of a function reference'
UNIT = 'Unit? returned'
NOTHING = 'Nothing'
INTERNAL = 'internal member'
PART = 'private function of a multi-file part'
INLINE = 'parameter of an inline class'
JVM_NAME = '@JvmName'
ANNOTATION = 'constructor of an annotation class'
INTERFACE = 'private function of an interface'
RELOCATED = 'relocated packages'
UNNAMED = 'class without a name'
OTHER = 'other'
KINDS = (FUNCTION, NESTED, COLLECTION, BUILT_IN, COMPANION, REFERENCE, UNIT, NOTHING, INTERNAL, PART, INLINE, JVM_NAME,
         ANNOTATION, INTERFACE, RELOCATED, UNNAMED, OTHER)

# flags (metadata.proto): visibility of a declaration, kind of a class
VISIBILITY = {0: 'internal', 1: 'private'}
CLASS_KIND = {1: 'interface', 4: 'annotation'}


def classes(path, seen):
    """Name, class file and metadata of each class that carries metadata and isn't among those seen, which it then is."""
    with zipfile.ZipFile(path) as jar:
        for name in jar.namelist():
            data = jar.read(name) if name.endswith('.class') else None
            if data is None or data in seen:
                continue
            try:
                class_file = class_input.ClassFile(data)
                yield name, class_file, class_file.metadata()
                seen.add(data)
            except class_input.NoMetadata:
                pass


def kotlin_targets(all_metadata):
    """For each class what Kotlin's reader links its declarations to, by rows of names and descriptors, or None if it doesn't read it."""
    inputs = map(class_input.program_input, all_metadata)
    batch = b''.join(struct.pack('<I', len(data)) + data for data in inputs)
    java = ['java', '-cp', KOTLIN, os.path.join(HERE, 'KotlinTargets.java')]
    told = []
    for line in subprocess.run(java, input=batch, stdout=subprocess.PIPE, check=True).stdout.decode().splitlines():
        if line in ('class', 'unread'):
            told.append([] if line == 'class' else None)
        else:
            cells = [None if cell == '-' else cell for cell in line.split('\t')]
            told[-1].append(list(zip(cells[::2], cells[1::2])))
    return told


def parts(descriptor):
    return re.findall(r'\[*(?:L[^;]*;|[BCDFIJSVZ])', descriptor)


def part_kind(ours, kotlins):
    """Why one part of a default descriptor isn't Kotlin's."""
    if re.fullmatch(r'Lkotlin/Function\d+;', ours):
        return FUNCTION
    if re.fullmatch(r'Lkotlin/reflect/K(Suspend)?Function\d+;', ours):
        return REFERENCE
    if ours.endswith('/Companion;') and kotlins.startswith('Lkotlin/jvm/internal/'):
        return COMPANION
    if ours == kotlins.replace('$', '/'):
        return NESTED
    if ours.startswith('Lkotlin/collections/') and kotlins.startswith('Ljava/util/'):
        return COLLECTION
    if ours.startswith('Lkotlin/') and kotlins.startswith('Ljava/'):
        return BUILT_IN
    return UNIT if (ours, kotlins) == ('V', 'Lkotlin/Unit;') else OTHER


def absent_kind(head, m, target, members):
    """Why the class doesn't have the method that Kotlin's reader gives either."""
    class_kind = CLASS_KIND.get(head['flags'] >> 6 & 7) if head['kind'] == 1 else None
    if class_kind == 'annotation' and m['record'] == 'constructor':
        return ANNOTATION
    if class_kind == 'interface' and VISIBILITY.get(m['flags'] >> 1 & 7) == 'private':
        return INTERFACE
    if target.descriptor is None:
        return OTHER
    if 'L;' in target.descriptor:
        return UNNAMED

    def plain(descriptor):
        return re.sub(r'L[^;]*/', 'L', descriptor)
    relocated = any(name == target.name and plain(descriptor) == plain(target.descriptor) for name, descriptor in members.methods)
    return RELOCATED if relocated else OTHER


def name_kind(head, m, kotlins):
    """Why Kotlin's method has another name."""
    visibility, longer = VISIBILITY.get(m['flags'] >> 1 & 7), kotlins.startswith(m['name'] + '$')
    if longer and visibility == 'internal' and head['kind'] == 1:
        return INTERNAL
    if longer and visibility == 'private' and head['kind'] == 5:
        return PART
    return INLINE if kotlins.startswith(m['name'] + '-') else JVM_NAME


def departures(head, j, kotlins, members):
    """The kinds of departure of a constructor or function whose target isn't the method that it is."""
    m, t = head['of'][j.target.declaration], j.target
    if kotlins not in members.methods:
        return [absent_kind(head, m, t, members)]
    kinds = []
    if kotlins[0] != t.name:
        kinds.append(name_kind(head, m, kotlins[0]))
    if t.by is None:
        kinds.append(NOTHING if 'Ljava/lang/Void;' in kotlins[1] else OTHER)
    elif len(parts(t.descriptor)) != len(parts(kotlins[1])):
        kinds.append(OTHER)
    else:
        kinds += [part_kind(*pair) for pair in zip(parts(t.descriptor), parts(kotlins[1])) if pair[0] != pair[1]]
    return sorted(set(kinds), key=KINDS.index)


class Count:
    """Sums over the classes of a jar, or of several."""

    def __init__(self):
        self.of, self.examples = collections.Counter(), collections.defaultdict(list)

    def add(self, other):
        self.of.update(other.of)
        for kind, examples in other.examples.items():
            self.examples[kind] += examples

    def method(self, name, head, j, kotlins, members):
        """One constructor or function. It is wrong if Kotlin links it to another method of the class."""
        by, said = j.target.by or 'none', targets.words(j, head)
        wrong = j.there and kotlins in members.methods and kotlins != (j.target.name, j.target.descriptor)
        self.of['declarations'] += 1
        self.of[by] += 1
        self.of[by, 'absent'] += not j.there
        self.of['shared'] += bool(j.shared)
        self.of['shared', 'there'] += bool(j.shared) and j.there
        self.of['wrong'] += wrong
        self.of['wrong', 'said'] += wrong and bool(said)
        self.of['others'] += bool(j.others)
        self.of['others', 'right'] += bool(j.others) and not wrong
        self.of['link', by] += j.link
        self.of['link', 'differs'] += j.link and kotlins != (j.target.name, j.target.descriptor)
        self.of['link', 'wrong'] += j.link and wrong
        if j.there and not wrong:
            return
        kinds = departures(head, j, kotlins, members)
        self.of['several'] += len(kinds) > 1
        for kind in kinds:
            self.of[kind] += 1
            example = targets.declared(head['of'][j.target.declaration]), j.target.name, j.target.descriptor, *kotlins
            self.examples[kind].append((name, *example))

    def part(self, j):
        self.of[j.target.part] += 1
        self.of[j.target.part, 'absent'] += not j.there

    def class_file(self, name, class_file, answer, kotlins):
        self.of['classes'] += 1
        if answer.number or kotlins is None:
            self.of['refused' if answer.number else 'unread'] += 1
            return
        head = sheets.Walk(answer.sheet, answer.text).sheet()
        linked = [m for m in head['of'] if m['record'] != 'alias']
        if len(kotlins) != len(linked):
            raise SystemExit(f"measure_links: {name} has {len(linked)} declarations on its sheet and {len(kotlins)} for Kotlin")
        members = targets.class_members(class_file)
        for j in targets.judge(targets.targets(head), members):
            if j.target.part == 'method':
                self.method(name, head, j, kotlins[j.target.declaration][0], members)
            else:
                self.part(j)
        for m, told in zip(linked, kotlins):
            if m['record'] == 'property':
                self.of['properties'] += 1
                self.of['fields'] += told[0] in members.fields
                self.of['fields', 'unsaid'] += told[0] in members.fields and m['field'] is None
                self.of['bare'] += all(m[part] is None for part in ('field', 'getter', 'setter'))


def measured(path, reader, seen):
    found, count = list(classes(path, seen)), Count()
    for (name, class_file, metadata), kotlins in zip(found, kotlin_targets([metadata for _, _, metadata in found])):
        count.class_file(name, class_file, reader.read(metadata), kotlins)
    return count


def reader_library():
    return library.opened(lambda words: print(f'measure_links: {words}', file=sys.stderr), './sheet')


ROWS = (('classes with metadata', 'classes'), ('  refused by the reader', 'refused'), ("  not read by Kotlin's reader", 'unread'),
        ('functions and constructors', 'declarations'),
        ('by signature', 'signature'), ('  not in the class', ('signature', 'absent')),
        ('by default', 'default'), ('  not in the class', ('default', 'absent')),
        ('no target', 'none'),
        ('share a target', 'shared'), ('  that is in the class', ('shared', 'there')),
        ("in the class, but another's", 'wrong'), ('  of which targets.py says something', ('wrong', 'said')),
        ('"may be the method of"', 'others'), ('  of a right target', ('others', 'right')),
        ('to be linked by signature', ('link', 'signature')), ('to be linked by default', ('link', 'default')),
        ("  either not as Kotlin's reader says", ('link', 'differs')), ("    which is another method of the class", ('link', 'wrong')),
        ('kinds of departure', None), *(('  ' + kind, kind) for kind in KINDS), ('  (several at once)', 'several'),
        ('properties', 'properties'), ('  getters', 'getter'), ('    not in the class', ('getter', 'absent')),
        ('  setters', 'setter'), ('    not in the class', ('setter', 'absent')),
        ('  fields', 'field'), ('    not in the class', ('field', 'absent')),
        ('  with a field in the class', 'fields'), ('    of which the sheet says nothing', ('fields', 'unsaid')),
        ('  without field, getter and setter', 'bare'))


def main(args):
    shown = 0
    if args[:1] == ['--examples'] and len(args) > 1 and args[1].isdigit():
        shown, args = int(args[1]), args[2:]
    if not args or any(path.startswith('-') for path in args):
        sys.exit(__doc__)
    reader, counts, total, seen = reader_library(), {}, Count(), set()
    for path in args:
        counts[os.path.basename(path)] = measured(path, reader, seen)
    for count in counts.values():
        total.add(count)
    if len(counts) > 1:
        counts['all'] = total
    widths = [max(len(name), 6) + 2 for name in counts]
    print(' ' * 39 + ''.join(f'{name:>{width}}' for name, width in zip(counts, widths)))
    for words, key in ROWS:
        cells = ('' if key is None else count.of[key] for count in counts.values())
        print(f'{words:39}' + ''.join(f'{cell:>{width}}' for cell, width in zip(cells, widths)))
    for kind in KINDS if shown else ():
        for name, declared, *links in total.examples[kind][:shown]:
            print(f'{kind}: {name}: {declared}', *links, sep='\n    ')


if __name__ == '__main__':
    try:
        main(sys.argv[1:])
    except (OSError, zipfile.BadZipFile, class_input.Damaged, library_build.BuildFailed, subprocess.CalledProcessError) as why:
        sys.exit(f'measure_links: {why}')
