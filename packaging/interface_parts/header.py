"""Reads the interface from include/ndef.h and include/ndef_names.h."""
from __future__ import annotations

import re
from typing import Dict, List, Tuple

from .model import TOP, Call, Constant, Field, Group, Interface, Parameter, Rows, Struct, Unknown

PATH, NAMES = 'include/ndef.h', 'include/ndef_names.h'
COMMENT = r'/\*((?:[^*]|\*(?!/))*)\*/'
CALL = re.compile(r'^(uint32_t|void) (ndef_\w+)\(([^()]*)\)(?:\s+(NDEF_\w+\([^()]*\)))?;', re.M)
STRUCT = re.compile(r'^typedef struct (\w+) \{(.*?)\} \1;', re.M | re.S)
ENUM = re.compile(r'^enum (\w*) ?\{(.*?)\};', re.M | re.S)
LIST = re.compile(r'^#define (NDEF_[A-Z]+)\(X\) (.*?[^\\])$', re.M | re.S)
ROW = re.compile(r'X\((\d+), (\w+), "([^"]*)"\)')
# What stands in the header besides: the type of lengths, and what C++ needs.
BESIDE = re.compile(r'^typedef \w+ ndef_size(?: __attribute__\(\(aligned\(8\)\)\))?;$|^extern "C" \{$|^\}$', re.M)


def without_comments(text: str) -> str:
    return re.sub(COMMENT, lambda found: '\n' * found[0].count('\n'), text)


def words(comment: str) -> str:
    """The lines of a comment, without its signs."""
    return '\n'.join(re.sub(r'^ \* ?', '', line).rstrip() for line in comment.strip().splitlines())


def declarator(said: str) -> Tuple[str, str]:
    """The name and the type of one parameter, as `const uint8_t *bytes`."""
    found = re.fullmatch(r'((?:const )?\w+) (\*?)(\w+)', ' '.join(said.split()))
    if not found:
        raise Unknown(f'include/ndef.h: {said!r} is no parameter that the script knows')
    return found[3], found[1] + (' *' if found[2] else '')


def parameters(said: str) -> Tuple[Parameter, ...]:
    return () if said == 'void' else tuple(Parameter(*declarator(part)) for part in said.split(','))


def fields(said: str) -> Tuple[Field, ...]:
    made: List[Field] = []
    for line in filter(None, (line.strip() for line in said.split(';'))):
        kind, _, names = line.partition(' ')
        for name in names.split(','):
            found = re.fullmatch(r'(\w+)(?:\[(\d+)\])?', name.strip())
            if not found:
                raise Unknown(f'include/ndef.h: {line!r} declares no members that the script knows')
            made.append(Field(found[1], kind, int(found[2] or 0)))
    return tuple(made)


def constants(said: str) -> Tuple[Constant, ...]:
    found = [part.split() for part in said.split(',')]
    if any(len(part) != 3 or part[1] != '=' for part in found):
        raise Unknown(f'include/ndef.h: {said!r} is no list of constants, each with its number')
    return tuple(Constant(name, int(number)) for name, _, number in found)


def comments(text: str) -> Dict[str, str]:
    """What the header says of each call, struct and enum that has a name: the comment before it."""
    found = re.finditer(COMMENT + r'\n(?:(?:uint32_t|void) (ndef_\w+)\(|typedef struct (\w+)|enum (\w+))', text)
    return {one[2] or one[3] or one[4]: words(one[1]) for one in found}


def lists(text: str) -> Dict[str, Rows]:
    return {name: [(int(number), row, said) for number, row, said in ROW.findall(body)] for name, body in LIST.findall(text)}


def left_over(text: str) -> None:
    """Raises Unknown where something is declared that was not read."""
    for pattern in (CALL, STRUCT, ENUM, BESIDE):
        text = pattern.sub('', text)
    text = re.sub(r'^#(?:.*\\\n)*.*$', '', text, flags=re.M).strip()
    if text:
        raise Unknown(f'include/ndef.h declares what the script does not know: {text.splitlines()[0]!r}')


def read() -> Dict[str, str]:
    """The headers, and their texts."""
    return {path: (TOP / path).read_text() for path in (PATH, NAMES)}


def declared(texts: Dict[str, str]) -> Interface:
    """The interface as the headers with these texts declare it."""
    text = texts[PATH]
    bare, names = without_comments(text), without_comments(texts[NAMES])
    left_over(bare)
    said = {**comments(text), **comments(texts[NAMES])}
    calls = {name: Call(name, result, parameters(given), where=PATH, mark=mark) for result, name, given, mark in CALL.findall(bare)}
    silent = [name for name in calls if name not in said]
    if silent:
        raise Unknown(f'include/ndef.h: no comment stands before {", ".join(silent)}')
    structs = {name: Struct(name, fields(body)) for name, body in STRUCT.findall(bare)}
    groups = [Group(name, constants(body)) for name, body in ENUM.findall(bare) + ENUM.findall(names)]
    version = tuple(int(number) for number in re.findall(r'^#define NDEF_VERSION_(?:MAJOR|MINOR|PATCH) (\d+)$', bare, re.M))
    return Interface(calls, structs, groups, lists(names), version, said)
