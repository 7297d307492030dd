"""Makes declarations of C of what the crates have, with their comments, in the style of the header."""
from __future__ import annotations

import dataclasses
import re
import textwrap
from typing import List, Sequence, Tuple

from . import comments, layout
from .model import Call, Constant, Field, Group, Interface, Parameter, Rows, Struct, Unknown

WIDTH = 120
# The columns of a row of a list, without its indent and the sign that it goes on.
ROW = 112


def named(parameters: Sequence[Parameter]) -> List[Parameter]:
    """The parameters, each with a name. A length is `capacity` for a buffer, `length` for the only array of bytes or the one called `bytes`,
    and else it has the name of its array."""
    octets = [one for one in parameters if one.role == 'array' and 'uint8_t' in one.type]
    made: List[Parameter] = []
    for one in parameters:
        if one.name:
            made.append(one)
            continue
        array = made[-1]
        if array.role == 'buffer':
            name = 'capacity'
        elif array not in octets:
            name = array.name + '_count'
        else:
            name = 'length' if len(octets) == 1 or array.name == 'bytes' else array.name + '_length'
        made.append(dataclasses.replace(one, name=name))
    return made


def mark(call: Call) -> str:
    """What compilers are to know of a call: the numbers of the pointers without a length, which are never NULL, and whether its
    answer is to be looked at. That of ndef_begin need not be: each ndef_feed answers the same."""
    pointers = [number for number, one in enumerate(call.parameters, 1) if one.role in ('in', 'out', 'change')]
    name = 'NDEF_NEEDS' if call.result == 'void' or call.name == 'ndef_begin' else 'NDEF_ANSWERS'
    return f'{name}({", ".join(map(str, pointers))})' if pointers else ''


def prototype(call: Call) -> str:
    """The prototype with its mark, cut between parameters where it is long."""
    said = [f'{one.type} {one.name}'.replace('* ', '*').replace(' ', '\0') for one in named(call.parameters)]
    head = f'{call.result} {call.name}('
    line = ' '.join([head.replace(' ', '\0') + (', '.join(said) or 'void') + ')', mark(call).replace(' ', '\0')]).rstrip() + ';'
    return textwrap.fill(line, WIDTH, subsequent_indent=' ' * len(head)).replace('\0', ' ')


def members(struct: Struct, interface: Interface) -> Tuple[Field, ...]:
    """The members. Where a uint64_t would make the struct shorter on some machine, it is an ndef_size."""
    try:
        layout.all_of(struct, interface.structs)
        return struct.fields
    except Unknown:
        return tuple(dataclasses.replace(field, type='ndef_size') if field.type == 'uint64_t' else field for field in struct.fields)


def with_aside(line: str, column: int, said: str) -> List[str]:
    """A line with a comment from a column on, or, where that is too long, before it."""
    if not said:
        return [line]
    beside = f'{line:{column}} /* {said} */'
    if len(beside) <= WIDTH:
        return [beside]
    return textwrap.wrap(f'/* {said} */', WIDTH, initial_indent='    ', subsequent_indent='     * ') + [line]


def definition(struct: Struct, interface: Interface) -> str:
    """The struct, each member with what it is."""
    code = [f'    {field.type} {field.name}{f"[{field.count}]" if field.count else ""};' for field in members(struct, interface)]
    said = [comments.aside(field.text, interface.words, struct.name) for field in struct.fields]
    lines = [line for pair in zip(code, said) for line in with_aside(pair[0], max(map(len, code)), pair[1])]
    return '\n'.join([f'typedef struct {struct.name} {{', *lines, f'}} {struct.name};'])


def call(given: Call, interface: Interface) -> str:
    """The block of a call in the header."""
    return comments.whole(given.doc, interface.words, given.name) + '\n' + prototype(given)


def struct(given: Struct, interface: Interface) -> str:
    """The block of a struct in the header."""
    return comments.whole(given.doc, interface.words, given.name) + '\n' + definition(given, interface)


def enum(group: Group, interface: Interface) -> str:
    """An enum: that of flags in a line, and any other with a comment before it and what each constant is."""
    if not group.name:
        return 'enum { ' + ', '.join(f'{one.name} = {one.number}' for one in group.constants) + ' };'
    code = [f'    {one.name} = {one.number},' for one in group.constants]
    code[-1] = code[-1].removesuffix(',')
    said = [comments.aside(one.text, interface.words, group.name) for one in group.constants]
    lines = [line for pair in zip(code, said) for line in with_aside(pair[0], max(map(len, code)), pair[1])]
    return '\n'.join([f'/* {group.text} */', f'enum {group.name} {{', *lines, '};'])


def rows(name: str, given: Rows) -> str:
    """The definition of a list, as NDEF_REASONS."""
    said = ' '.join(f'X({number}, {row}, "{text}")'.replace(' ', '\0') for number, row, text in given)
    lines = textwrap.wrap(said, ROW, break_long_words=False, break_on_hyphens=False)
    return f'#define {name}(X) \\\n' + ' \\\n'.join('    ' + line.replace('\0', ' ') for line in lines)


def constant(given: Constant, comma: str, column: int, interface: Interface) -> str:
    """A constant in a line of its own, with what it is from a column on; without that where the column is 0."""
    said = comments.aside(given.text, interface.words, given.name) if column else ''
    return '\n'.join(with_aside(f'    {given.name} = {given.number}{comma}', column, said))


def heading(said: str) -> str:
    """What stands before the first block of a file: the subject of the file, without the names of standards."""
    text = re.sub(r' \([^)]*\)', '', said).removesuffix('.')
    return f'/* ---- {text[:1].lower()}{text[1:]} */'
