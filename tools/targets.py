"""Which methods and fields the declarations of a sheet link to, and whether the class has them.

    head = sheets.Walk(sheet, text).sheet()
    members = targets.class_members(class_input.ClassFile(data))
    for j in targets.judge(targets.targets(head), members):
        print(targets.declared(head['of'][j.target.declaration]), j.target.name, j.target.descriptor, targets.words(j, head))

What a sheet says of a method may differ from what the Kotlin compiler wrote (docs/MANUAL.md, "How to link"). So a target is looked up in the
class file's own tables (JVMS 4.5, 4.6) before it is linked."""
import collections

import class_input, sheet_text

# what a class has: for both, (name, descriptor) to the access flags
Members = collections.namedtuple('Members', 'methods fields')

# what one declaration links to
#   declaration  its place in head['of']
#   part         'method' of a constructor or function; 'getter', 'setter' or 'field' of a property
#   by           'signature', 'default' (the name, or <init>, and the default descriptor), or None where the sheet tells no method
#   descriptor   None where `by` is None
#   renamed      whether the compiler may have named the method otherwise, which a sheet doesn't tell of a target by default: the declaration
#                has annotations, of which one may be @JvmName, is an internal member of a class, or a private function of a multi-file part
Target = collections.namedtuple('Target', 'declaration part by name descriptor renamed')

# what the class says of a target
#   there        the class has that method or field
#   shared       the other targets of the sheet that are the same method or field
#   others       of a target that is there: targets that aren't, whose method this may be
#   link         whether to link it
Judgement = collections.namedtuple('Judgement', 'target there shared others link')

# bits of a declaration's flags (metadata.proto): 0 says that it has annotations, 1 to 3 are its visibility
ANNOTATED, VISIBILITY, INTERNAL, PRIVATE = 1, 7 << 1, 0 << 1, 1 << 1
# metadata kind and visibility of functions that get a longer name
LONGER = {(1, INTERNAL), (5, PRIVATE)}


def class_members(class_file):
    """The methods and fields of a class_input.ClassFile; class_input.Damaged if one has no name or descriptor."""
    def text(place):
        return class_input.text_of(class_input.constant(class_file.pool, place, bytes))

    def named(members):
        return {(text(name), text(descriptor)): access for access, name, descriptor in members}
    return Members(named(class_file.methods), named(class_file.fields))


def method_target(place, m, kind):
    """By the signature where it is there, else by the default descriptor."""
    if m['signature'] is not None:
        return Target(place, 'method', 'signature', m['signature'], m['descriptor'], False)
    if m['record'] == 'constructor':
        return Target(place, 'method', 'default' if m['default'] is not None else None, '<init>', m['default'], False)
    renamed = bool(m['flags'] & ANNOTATED) or (kind, m['flags'] & VISIBILITY) in LONGER
    return Target(place, 'method', 'default' if m['default'] is not None else None, m['name'], m['default'], renamed)


def targets(head):
    """The targets of a sheet, in its order. A constructor and a function has one; a property has those that are recorded; an alias has none."""
    found = []
    for place, m in enumerate(head['of']):
        if m['record'] == 'property':
            found += [Target(place, part, 'signature', m[part], m[part + ' descriptor'], False)
                      for part in ('field', 'getter', 'setter') if m[part] is not None]
        elif m['record'] != 'alias':
            found.append(method_target(place, m, head['kind']))
    return found


def judge(found, members):
    """A judgement for each target of a sheet, in their order."""
    same, lost = collections.defaultdict(list), collections.defaultdict(list)
    for t in found:
        same[is_field(t), t.name, t.descriptor].append(t)
        if t.renamed and t.by and not there(t, members) and not lengthened(t, '$-', members):
            lost[t.descriptor].append(t)

    def can_be_renamed(t):
        return t.renamed or t.by == 'default' and lengthened(t, '-', members)

    def judgement(t):
        if t.by is None:
            return Judgement(t, False, [], [], False)
        shared = [other for other in same[is_field(t), t.name, t.descriptor] if other is not t]
        others = lost[t.descriptor] if there(t, members) and can_be_renamed(t) else []
        alone = not shared or not can_be_renamed(t) and all(map(can_be_renamed, shared))
        return Judgement(t, there(t, members), shared, others, there(t, members) and alone and not others)
    return [judgement(t) for t in found]


def is_field(t):
    return t.part == 'field'


def there(t, members):
    return (t.name, t.descriptor) in (members.fields if is_field(t) else members.methods)


def lengthened(t, marks, members):
    """Whether the class has a function's descriptor under its name, one of these marks, and more: NAME$MODULE of an internal member, NAME$PART
    of a private function of a part, NAME-HASH of a function with a parameter of an inline class."""
    longer = tuple(t.name + mark for mark in marks)
    return any(name.startswith(longer) and descriptor == t.descriptor for name, descriptor in members.methods)


def declared(m):
    """A declaration in words, without its flags and targets."""
    parameters = '(' + ', '.join(map(sheet_text.parameter_text, m.get('of', []))) + ')'
    if m['record'] == 'constructor':
        return 'constructor' + parameters
    name = sheet_text.receiver_text(m) + sheet_text.shown(m['name'])
    return f'property {name}' if m['record'] == 'property' else f'fun {name}{parameters}'


def words(judgement, head):
    """What is to be said of a target, as a list of texts; empty if nothing stands against it."""
    t, said = judgement.target, []
    if t.by is None:
        said.append('no target')
    elif not judgement.there:
        said.append('not in the class')
    for other in judgement.shared:
        part = '' if other.part == 'method' else f"'s {other.part}"
        said.append(f"shared with {declared(head['of'][other.declaration])}{part}")
    for other in judgement.others:
        said.append(f"may be the method of {declared(head['of'][other.declaration])}")
    return said
