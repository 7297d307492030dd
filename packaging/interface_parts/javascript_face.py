"""What the modules for JavaScript say of the interface: interface.js."""
from __future__ import annotations

import re
import textwrap
from typing import List

from . import layout
from .model import MARK, Group, Interface, Parameter, Struct

WIDTH = 132
PATH = 'bindings/web/interface.js'
# The enums that the script needs, and the names of the tables.
TABLES = {'ndef_status': ('STATUS', 'NDEF_'), 'ndef_hint_number': ('HINT', 'NDEF_HINT_'), 'ndef_kinds': ('KIND', 'NDEF_KIND_')}


def camel(name: str) -> str:
    return re.sub(r'_(\w)', lambda found: found[1].upper(), name)


def wrapped(line: str, indent: str) -> str:
    """A line of code, cut where a space may become the end of a line; \\0 stands for a space that may not."""
    return textwrap.fill(line, WIDTH, initial_indent=indent, subsequent_indent=indent).replace('\0', ' ')


def struct(given: Struct, interface: Interface) -> str:
    placed = layout.all_of(given, interface.structs)['64']
    sizes = [layout.SIZES.get(field.type) or layout.of(interface.structs[field.type], interface.structs, '32').size for field in given.fields]
    members = [f'{camel(field.name)}:\0[{at},\0{size * max(field.count, 1)}]'
               for field, at, size in zip(given.fields, placed.offsets, sizes)]
    head, rows = f'    {given.name.removeprefix("ndef_")}: {{ size: {placed.size}, members: {{', ', '.join(members)
    line = f'{head} {rows} }} }},'
    if len(line) <= WIDTH:
        return line.replace('\0', ' ')
    return head + '\n' + wrapped(rows + ',', ' ' * 8) + '\n    } },'


def type_of(given: Parameter) -> str:
    return 'i64' if given.type in ('ndef_size', 'uint64_t') else 'i32'


def table(group: Group) -> str:
    name, prefix = TABLES[group.name]
    rows = ', '.join(f'{one.name.removeprefix(prefix)}:\0{one.number}' for one in group.constants)
    return f'// {group.text}\nexport const {name} = {{\n{wrapped(rows + ",", "    ")}\n}};'


def text(interface: Interface) -> str:
    """interface.js as it has to be."""
    flags = [one for group in interface.groups for one in group.constants if one.name in ('NDEF_STANDARD', 'NDEF_OPAQUE')]
    lines: List[str] = [f'// The interface of the library. {MARK[0].upper()}{MARK[1:]}.']
    lines += [table(group) for group in interface.groups if group.name in TABLES]
    lines += ['// Flags.', f'export const FLAG = {{ {", ".join(f"{one.name[5:]}: {one.number}" for one in flags)} }};']
    lines += ['// The structs: the size of each in bytes, and of each member where it begins and its bytes.', 'export const LAYOUT = {']
    lines += [struct(one, interface) for one in interface.structs.values()]
    lines += ['};', '// The calls, and what each takes: an i32 is a number, an i64 a BigInt.', 'export const CALLS = {']
    for call in interface.calls.values():
        names = ', '.join(one.name for one in call.parameters)
        lines.append(f'    {call.name}: "{" ".join(type_of(one) for one in call.parameters)}",' + (f' // {names}' if names else ''))
    return '\n'.join([*lines, '};']) + '\n'
