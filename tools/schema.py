"""Whether a value keeps to a JSON Schema, for the words of it that docs/sheet.schema.json uses; any other word is an error."""

TYPES = {'object': dict, 'array': list, 'string': str, 'boolean': bool, 'null': type(None), 'integer': int}
KNOWN = {'$schema', 'title', '$defs', '$ref', 'oneOf', 'type', 'enum', 'const', 'minimum', 'maximum', 'items', 'properties', 'required',
         'additionalProperties'}


def is_of(value, name):
    return isinstance(value, TYPES[name]) and not (name == 'integer' and isinstance(value, bool))


def own_faults(value, schema, at):
    """Faults of the value itself, not of what is in it."""
    if set(schema) - KNOWN:
        raise ValueError(f'schema.py does not know {set(schema) - KNOWN}')
    types = schema.get('type', [])
    types = [types] if isinstance(types, str) else types
    if types and not any(is_of(value, name) for name in types):
        yield f'{at}: {value!r:.60} is not of type {types}'
    allowed = schema.get('enum', [schema['const']] if 'const' in schema else None)
    if allowed is not None and not any(value == a and type(value) is type(a) for a in allowed):
        yield f'{at}: {value!r:.60} is none of {allowed}'
    if is_of(value, 'integer') and not schema.get('minimum', value) <= value <= schema.get('maximum', value):
        yield f'{at}: {value} is too small or too large'
    if isinstance(value, dict):
        yield from (f'{at}: {name} is missing' for name in schema.get('required', []) if name not in value)
        if schema.get('additionalProperties') is False:
            yield from (f'{at}: {name} is not in the schema' for name in value if name not in schema['properties'])


def faults(value, schema, root, at='$'):
    """What is wrong with a value, each with its place. `root` is the whole schema, for references."""
    if '$ref' in schema:
        schema = root['$defs'][schema['$ref'].rpartition('/')[2]]
    found = list(own_faults(value, schema, at))
    if 'oneOf' in schema:
        each = [faults(value, choice, root, at) for choice in schema['oneOf']]
        if sum(not wrong for wrong in each) != 1:
            found.append(f"{at}: not exactly one of the choices fits: {'; '.join(wrong[0] for wrong in each if wrong)}")
    if isinstance(value, dict):
        for name, inner in schema.get('properties', {}).items():
            if name in value:
                found += faults(value[name], inner, root, f'{at}.{name}')
    if isinstance(value, list) and 'items' in schema:
        for place, item in enumerate(value):
            found += faults(item, schema['items'], root, f'{at}[{place}]')
    return found
