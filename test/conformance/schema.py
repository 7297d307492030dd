"""Whether values fit conformance/schema.json, by the keywords of JSON Schema 2020-12 that it uses."""
import json
import re

import suite

SCHEMA = json.loads((suite.FOLDER / 'schema.json').read_text())
KEYWORDS = {'$ref', 'oneOf', 'type', 'enum', 'minimum', 'maximum', 'pattern', 'items', 'required', 'properties', 'additionalProperties',
            'description', '$schema', '$comment', 'title', '$defs'}
TYPES = {'object': dict, 'array': list, 'string': str, 'integer': int, 'null': type(None)}


def fits(value, rule=SCHEMA):
    """Whether a value fits a schema. Objects have no other members than its properties."""
    assert set(rule) <= KEYWORDS, rule
    if '$ref' in rule:
        return fits(value, SCHEMA['$defs'][rule['$ref'].removeprefix('#/$defs/')])
    if 'oneOf' in rule:
        return sum(fits(value, one) for one in rule['oneOf']) == 1
    if 'enum' in rule:
        return any(value == one and type(value) is type(one) for one in rule['enum'])
    if not isinstance(value, TYPES[rule['type']]) or isinstance(value, bool):
        return False
    if isinstance(value, dict):
        return all(name in value for name in rule['required']) and all(
            name in rule['properties'] and fits(member, rule['properties'][name]) for name, member in value.items())
    if isinstance(value, list):
        return all(fits(item, rule['items']) for item in value)
    if isinstance(value, str):
        return re.search(rule.get('pattern', ''), value) is not None
    return value is None or rule.get('minimum', value) <= value <= rule.get('maximum', value)
