"""The interface as JSON, for those who make bindings. docs/BINDINGS.md says what its members are."""
from __future__ import annotations

import json
import re
from typing import Any, Dict, List, Tuple

from . import layout
from .model import MARK, Call, Group, Interface, Struct

WIDEST = 140
# The texts that the library has for constants, by the enum; a reason has a sentence besides.
PRINTED = {'ndef_status': 'NDEF_STATUSES', 'ndef_reason': 'NDEF_REASONS', 'ndef_field_names': 'NDEF_FIELDS'}


def printed(value: Any, indent: str = '') -> str:
    """JSON, where what fits in a line stands in one."""
    line = json.dumps(value, ensure_ascii=False)
    if len(indent) + len(line) <= WIDEST or not isinstance(value, (dict, list)):
        return line
    deeper = indent + ' '
    if isinstance(value, dict):
        parts = [f'{deeper}{json.dumps(name)}: {printed(part, deeper)}' for name, part in value.items()]
        return '{\n' + ',\n'.join(parts) + f'\n{indent}}}'
    return '[\n' + ',\n'.join(deeper + printed(part, deeper) for part in value) + f'\n{indent}]'


def statuses(interface: Interface) -> Tuple[str, ...]:
    return tuple('NDEF_' + name for _, name, _ in interface.lists['NDEF_STATUSES'])


def call(given: Call, interface: Interface) -> Dict[str, Any]:
    comment = interface.comments[given.name]
    parameters: List[Dict[str, Any]] = []
    for at, parameter in enumerate(given.parameters):
        made = {'name': parameter.name, 'type': parameter.type, 'role': parameter.role}
        if parameter.role in ('array', 'buffer'):
            made['length'] = given.parameters[at + 1].name
        parameters.append(made)
    answers = [name for name in statuses(interface) if re.search(rf'\b{name}\b', comment)]
    return {'name': given.name, 'text': given.text, 'result': given.result, 'answers': answers, 'parameters': parameters,
            'comment': comment}


def struct(given: Struct, interface: Interface) -> Dict[str, Any]:
    layouts = layout.all_of(given, interface.structs)
    fields = []
    for at, field in enumerate(given.fields):
        made: Dict[str, Any] = {'name': field.name, 'type': field.type}
        if field.count:
            made['count'] = field.count
        made['offset'] = layouts['64'].offsets[at]
        made['text'] = field.text
        fields.append(made)
    return {'name': given.name, 'text': given.text, 'size': {machine: one.size for machine, one in layouts.items()},
            'alignment': {machine: one.alignment for machine, one in layouts.items()}, 'fields': fields,
            'comment': interface.comments.get(given.name, '')}


def group(given: Group, interface: Interface) -> Dict[str, Any]:
    names = {number: text for number, _, text in interface.lists.get(PRINTED.get(given.name, ''), [])}
    sentences = {number: text for number, _, text in interface.lists['NDEF_SENTENCES']} if given.name == 'ndef_reason' else {}
    members = []
    for constant in given.constants:
        made = {'name': constant.name, 'number': constant.number, 'text': constant.text}
        if constant.number in names:
            made['printed'] = names[constant.number]
        if constant.number in sentences:
            made['sentence'] = sentences[constant.number]
        members.append(made)
    return {'name': given.name, 'text': given.text, 'constants': members}


def text(interface: Interface) -> str:
    """The whole description."""
    return printed({
        'about': MARK,
        'header': 'ndef.h',
        'version': list(interface.version),
        'enums': [group(one, interface) for one in interface.groups],
        'structs': [struct(one, interface) for one in interface.structs.values()],
        'calls': [call(one, interface) for one in interface.calls.values()],
    }) + '\n'
