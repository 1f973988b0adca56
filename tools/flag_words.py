"""Flags in words. metadata.proto names the flags of each kind of declaration in the order of their bits, from bit 0: whether there are
annotations, then fields of some bits (visibility, modality, kind), then single bits. Bits that it doesn't name have no word."""

VISIBILITY = {0: 'internal', 1: 'private', 2: 'protected', 3: 'public', 4: 'private to this', 5: 'local'}
MODALITY = {0: 'final', 1: 'open', 2: 'abstract', 3: 'sealed'}
CLASS_KIND = {0: 'class', 1: 'interface', 2: 'enum class', 3: 'enum entry', 4: 'annotation class', 5: 'object', 6: 'companion object'}
MEMBER_KIND = {0: None, 1: 'fake override', 2: 'delegation', 3: 'synthesized'}

# single bits, in the order in which Kotlin sources write the words
CLASS_BITS = [(12, 'expect'), (11, 'external'), (9, 'inner'), (13, 'inline'), (10, 'data')]
CONSTRUCTOR_BITS = [(4, 'secondary')]
FUNCTION_BITS = [(14, 'expect'), (12, 'external'), (11, 'tailrec'), (13, 'suspend'), (10, 'inline'), (9, 'infix'), (8, 'operator')]
PROPERTY_BITS = [(16, 'expect'), (14, 'external'), (11, 'const'), (12, 'lateinit'), (15, 'delegated')]


def part(flags, start, width):
    return flags >> start & (1 << width) - 1


def visibility(flags):
    value = part(flags, 1, 3)
    return VISIBILITY.get(value, f'visibility {value}')


def bits(flags, table):
    return [word for bit, word in table if part(flags, bit, 1)]


def class_words(flags):
    kind = part(flags, 6, 3)
    return [visibility(flags), MODALITY[part(flags, 4, 2)], *bits(flags, CLASS_BITS), CLASS_KIND.get(kind, f'class of kind {kind}')]


def member_words(flags, table):
    kind = MEMBER_KIND[part(flags, 6, 2)]
    return [visibility(flags), MODALITY[part(flags, 4, 2)], *([kind] if kind else []), *bits(flags, table)]


def words(record, flags):
    """The words of a head of metadata kind 1 (the last says what kind of class), of a constructor, a function, a property (val or var) or an
    alias."""
    if record == 'head':
        return class_words(flags)
    if record == 'constructor':
        return [visibility(flags), *bits(flags, CONSTRUCTOR_BITS)]
    if record == 'alias':
        return [visibility(flags)]
    if record == 'function':
        return member_words(flags, FUNCTION_BITS)
    return [*member_words(flags, PROPERTY_BITS), 'var' if part(flags, 8, 1) else 'val']
