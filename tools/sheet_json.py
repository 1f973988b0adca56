"""Classes as JSON, an object to a line (docs/JSON.md)."""
import json

import flag_words, sheets, targets


def line(value):
    """A value as one line of JSON, in ASCII. No recursion: types may be 2,048 deep, which json.dumps doesn't take."""
    done, left = [], [value]
    while left:
        value = left.pop()
        if isinstance(value, Text):
            done.append(value)
        elif isinstance(value, dict):
            parts = [(Text(json.dumps(key) + ':'), item) for key, item in value.items()]
            left += reversed(between('{', parts, '}'))
        elif isinstance(value, list):
            left += reversed(between('[', [(item,) for item in value], ']'))
        else:
            done.append(json.dumps(value))
    return ''.join(done) + '\n'


class Text(str):
    """JSON that is written already."""


def between(opening, parts, closing):
    laid = [Text(opening)]
    for at, part in enumerate(parts):
        laid += [Text(',')] * (at > 0) + list(part)
    return laid + [Text(closing)]


def where(found, name=None):
    """Where a class was found. Bytes of a file's name that are no UTF-8 become U+FFFD."""
    told = {'file': found.file, 'entry': found.entry, 'class': name}
    return {key: value and value.encode('utf-8', 'surrogateescape').decode('utf-8', 'replace') for key, value in told.items()}


def type_json(t):
    """A type with its arguments; None stays."""
    if t is None:
        return None
    whole = {}
    left = [(t, whole)]
    while left:
        t, told = left.pop()
        told.update({'class': t['name'], 'nullable': bool(t['nullable']), 'projection': sheets.PROJECTIONS[t['projection']],
                     'arguments': [{} for _ in t['of']]})
        left += zip(t['of'], told['arguments'])
    return whole


def method_json(name, descriptor):
    return None if name is None else {'name': name, 'descriptor': descriptor}


def target_json(judgement, head):
    """What a declaration links to, and what the class file says of it."""
    t = judgement.target
    return {'by': t.by, 'name': t.name if t.by else None, 'descriptor': t.descriptor, 'in_class': judgement.there,
            'shared_with': others_json(judgement.shared, head), 'may_be_of': others_json(judgement.others, head), 'link': judgement.link}


def others_json(others, head):
    """Other targets of the sheet, by the declarations that they are of."""
    return [{'declaration': targets.declared(head['of'][t.declaration]), 'part': t.part} for t in others]


def parameter_json(p):
    return {'name': p['name'], 'type': type_json(p['type']), 'vararg': type_json(p['vararg']), 'has_default': bool(p['default'])}


def flags_json(m):
    return {'flags': m['flags'], 'words': flag_words.words(m['record'], m['flags'])}


def receiver_json(m):
    return {'extension': bool(m['receiver']), 'receiver': type_json(m['receiver type'])}


def callable_json(m):
    """What constructors and functions have in common."""
    return {'parameters': [parameter_json(p) for p in m['of']], 'signature': method_json(m['signature'], m['descriptor']), 'default': m['default']}


def declaration_json(m, told):
    """A declaration; `told` has the JSON of its targets by part, of which an alias has none."""
    if m['record'] == 'alias':
        return {'name': m['name'], **flags_json(m), 'underlying': type_json(m['underlying']), 'expanded': type_json(m['expanded'])}
    if m['record'] == 'constructor':
        return {**flags_json(m), **callable_json(m), 'target': told['method']}
    if m['record'] == 'function':
        return {'name': m['name'], **flags_json(m), **receiver_json(m), 'returns': type_json(m['type']), **callable_json(m), 'target': told['method']}
    return {'name': m['name'], **flags_json(m), **receiver_json(m), 'type': type_json(m['type']),
            'getter_is_default': bool(m['getter default']), 'setter_is_default': bool(m['setter default']),
            **{part: told.get(part) for part in ('field', 'getter', 'setter')}}


def read_json(one):
    """A runs.Read."""
    head, told = one.head, [{} for _ in one.head['of']]
    for j in one.judgements:
        told[j.target.declaration][j.target.part] = target_json(j, head)
    of = {kind: [declaration_json(m, t) for m, t in zip(head['of'], told) if m['record'] == kind]
          for kind in ('constructor', 'function', 'property', 'alias')}
    return {**where(one.found, one.names.name), 'state': 'read', 'format': sheets.FORMAT,
            'kind': head['kind'], 'kind_name': sheets.KINDS[head['kind']], 'name': head['name'], 'flags': head['flags'],
            'words': flag_words.words('head', head['flags']) if head['kind'] == 1 else [],
            'parts': one.names.parts, 'facade': one.names.facade, 'types': one.answer.types,
            'constructors': of['constructor'], 'functions': of['function'], 'properties': of['property'],
            'aliases': of['alias']}


def refused_json(found, name, refusal):
    """A runs.Refusal."""
    number, detail, place = refusal
    what, advice = sheets.REFUSALS[number]
    told = place and {'offset': place.offset, 'of': place.of, 'byte': place.byte, 'what': place.what, 'where': place.where}
    return {**where(found, name), 'state': 'refused',
            'refusal': {'number': number, 'detail': detail, 'name': sheets.REFUSAL_NAMES[number], 'what': what, 'advice': advice, 'place': told}}


def converted_json(c):
    """A class whose d1 was converted: a Conversion of commands.convert."""
    return {**where(c.found, c.name), 'state': 'converted', 'from': c.form, 'count': len(c.before), 'to': c.other, 'units': c.after}


def left_json(one):
    """A class with nothing to convert: a Left of commands.convert."""
    return {**where(one.found, one.name), 'state': 'nothing to convert', 'why': one.why}


def not_a_class_json(found, why):
    return {**where(found), 'state': 'not a class', 'why': why}


def checked_json(one, findings):
    """A class of which `check` found something; a finding is a judgement."""
    return {**where(one.found, one.names.name), 'state': 'checked',
            'findings': [{'declaration': targets.declared(one.head['of'][j.target.declaration]), 'part': j.target.part, **target_json(j, one.head)}
                         for j in findings]}


def text_json(units):
    """A string of d2 by its UTF-16 units. A surrogate that stands alone stays one."""
    return b''.join(unit.to_bytes(2, 'little') for unit in units).decode('utf-16-le', 'surrogatepass')


def marked_json(one):
    """A runs.Marked."""
    return {**where(one.found, one.name), 'state': 'strings told', 'used': sum(used for _, used in one.strings),
            'strings': [{'index': index, 'used': used, 'text': text_json(units)} for index, (units, used) in enumerate(one.strings)]}


def measured_json(one):
    """A runs.Measured. Records are counted by kind and text by lists, also those that a class has none of."""
    room = one.room
    return {**where(one.found, one.name), 'state': 'measured', 'format': sheets.FORMAT, 'sheet_bytes': room.sheet, 'text_bytes': room.text,
            'fits': one.fits(), 'types': room.types,
            'records': {sheets.RECORDS[kind][0].replace(' ', '_'): number for kind, number in sorted(room.records.items())},
            'list_text_bytes': room.texts}
