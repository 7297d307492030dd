"""Compares what the header declares with what the crates have, and joins both."""
from __future__ import annotations

import dataclasses
import re
from typing import Dict, Iterator, Mapping, Sequence

from . import declarations
from .model import Call, Constant, Field, Group, Interface, Parameter, Struct

HEADER = 'include/ndef.h'


def missing(what: str, header: Mapping[str, object], crates: Mapping[str, object]) -> Iterator[str]:
    """What one of both has alone."""
    for name in crates:
        if name not in header:
            yield f'{HEADER}: no {what} {name}, which the crates have'
    for name in header:
        if name not in crates:
            yield f'{HEADER}: the {what} {name}, which the crates do not have'


def spelled(parameter: Parameter) -> str:
    return (parameter.type + ' ' + parameter.name).replace('* ', '*').strip()


def of_call(header: Call, crates: Call) -> Iterator[str]:
    at = f'{HEADER}: {header.name}'
    if header.result != crates.result:
        yield f'{at} returns {header.result}; {crates.where} has {crates.result}'
    if len(header.parameters) != len(crates.parameters):
        yield f'{at} has {len(header.parameters)} parameters; {crates.where} makes {len(crates.parameters)}'
        return
    for number, (one, other) in enumerate(zip(header.parameters, crates.parameters), 1):
        if one.type != other.type or other.name not in ('', one.name):
            yield f'{at}: parameter {number} is `{spelled(one)}`; {crates.where} has `{spelled(other)}`'
    if header.mark != declarations.mark(crates):
        yield f'{at} is marked {header.mark or "with nothing"}; it has to be {declarations.mark(crates) or "without"}'


def member(field: Field) -> str:
    return f'{field.type} {field.name}' + (f'[{field.count}]' if field.count else '')


def agree(header: Field, crates: Field) -> bool:
    """Whether both are the same member. The library aligns 64 bits to 8 bytes on every machine, as an ndef_size, and a uint64_t
    is not everywhere."""
    wide = dataclasses.replace(crates, type='ndef_size') if crates.type == 'uint64_t' else crates
    return member(header) in (member(crates), member(wide))


def of_struct(header: Struct, crates: Struct) -> Iterator[str]:
    at = f'{HEADER}: {header.name}'
    if len(header.fields) != len(crates.fields):
        yield f'{at} has {len(header.fields)} members; {crates.where} has {len(crates.fields)}'
    for number, (one, other) in enumerate(zip(header.fields, crates.fields), 1):
        if not agree(one, other):
            yield f'{at}: member {number} is `{member(one)}`; {crates.where} has `{member(other)}`'


def of_numbers(header: Mapping[str, int], groups: Sequence[Group]) -> Iterator[str]:
    for group in groups:
        for constant in group.constants:
            if header.get(constant.name, constant.number) != constant.number:
                yield f'{HEADER}: {constant.name} is {header[constant.name]}; {group.where} has {constant.number}'


def of_groups(header: Sequence[Group], crates: Sequence[Group]) -> Iterator[str]:
    """Whether each constant stands in the enum of its name."""
    def homes(groups: Sequence[Group]) -> Dict[str, str]:
        return {constant.name: group.name for group in groups for constant in group.constants}
    there = homes(crates)
    for name, home in homes(header).items():
        if there.get(name, home) != home:
            yield f'{HEADER}: {name} stands in `enum {home}`, and belongs to `enum {there[name]}`'


def of_lists(header: Interface, crates: Interface) -> Iterator[str]:
    for name, rows in crates.lists.items():
        given = header.lists.get(name, [])
        for row in rows:
            if row not in given:
                yield f'{name}: no {row}, as the crates have it'
        for row in given:
            if row not in rows:
                yield f'{name}: {row}, which the crates do not have'
        if sorted(given) != given:
            yield f'{name}: the numbers are not in order'


def of_comment(comment: str, crates: Call) -> Iterator[str]:
    for status in crates.answers:
        if not re.search(rf'\b{status}\b', comment):
            yield f'{HEADER}: the comment of {crates.name} does not say when it answers {status}, as {crates.where} does'


def differences(header: Interface, crates: Interface) -> Iterator[str]:
    """Where the header declares another thing than the crates have, in sentences that name it."""
    if header.version != crates.version:
        yield f'{HEADER}: the version is {header.version}; crates/ndef_c/src/version.rt has {crates.version}'
    yield from missing('call', header.calls, crates.calls)
    yield from missing('struct', header.structs, crates.structs)
    yield from missing('constant', header.constants(), crates.constants())
    for name, call in header.calls.items():
        if name in crates.calls:
            yield from of_call(call, crates.calls[name])
            yield from of_comment(header.comments[name], crates.calls[name])
    for name, struct in header.structs.items():
        if name in crates.structs:
            yield from of_struct(struct, crates.structs[name])
    yield from of_numbers(header.constants(), crates.groups)
    yield from of_groups(header.groups, crates.groups)
    yield from missing('list', header.lists, crates.lists)
    yield from of_lists(header, crates)


def joined_call(header: Call, crates: Call) -> Call:
    parameters = tuple(Parameter(one.name, one.type, other.role) for one, other in zip(header.parameters, crates.parameters))
    return dataclasses.replace(header, parameters=parameters, text=crates.text, where=crates.where)


def joined_struct(header: Struct, crates: Struct) -> Struct:
    fields = tuple(dataclasses.replace(other, type=one.type) for one, other in zip(header.fields, crates.fields))
    return dataclasses.replace(crates, fields=fields)


def joined(header: Interface, crates: Interface) -> Interface:
    """One interface of both that agree: the order, the names and the types are those of the header, the texts and the roles those of
    the crates."""
    calls = {name: joined_call(call, crates.calls[name]) for name, call in header.calls.items()}
    structs = {name: joined_struct(struct, crates.structs[name]) for name, struct in header.structs.items()}
    texts = {constant.name: constant for group in crates.groups for constant in group.constants}
    heads = {group.constants[0].name: group.text for group in crates.groups}
    groups = [Group(group.name, tuple(Constant(one.name, one.number, texts[one.name].text) for one in group.constants),
                    heads[group.constants[0].name]) for group in header.groups]
    return Interface(calls, structs, groups, header.lists, header.version, header.comments)
