"""What the module for Java says of the interface: Numbers.java, and the constants of the enums Reason, FieldName and HintKind."""
from __future__ import annotations

import re
import textwrap
from typing import Dict, List

from . import layout
from .model import MARK, TOP, Constant, Group, Interface

FOLDER = 'bindings/java/src/main/java/org/simbegyor/ndef'
# The enums of Java, with the prefix of the names in C; what comes before and after their constants is written by hand.
ENUMS = {'Reason': ('ndef_reason', 'NDEF_REASON_'), 'FieldName': ('ndef_field_names', 'NDEF_FIELD_'), 'HintKind': ('ndef_hint_number', 'NDEF_HINT_')}
GROUPS = ('ndef_status', 'ndef_kinds')
FLAGS = ('NDEF_STANDARD', 'NDEF_OPAQUE', 'NDEF_WRITE_FIRST', 'NDEF_WRITE_LAST', 'NDEF_WRITE_LONG')
# The structs that Java has as arrays of ints.
NO_BREAK = '\0'
WORDS = {'ndef_item': 'ITEM', 'ndef_writer': 'WRITER'}
# A constant with its comment.
ROW = re.compile(r'    /\*\*(?:(?!\*/).)*\*/\n    \w+\((\d+)[^\n]*\)(?=[,;]\n)', re.S)


def numbers(comment: str, rows: List[str]) -> List[str]:
    line = f'static final int {", ".join(row.replace(" ", NO_BREAK) for row in rows)};'
    return [f'    /** {comment} */', textwrap.fill(line, 120, initial_indent='    ', subsequent_indent=' ' * 12).replace(NO_BREAK, ' ')]


def named(constants: List[Constant]) -> List[str]:
    return [f'{one.name.removeprefix("NDEF_")} = {one.number}' for one in constants]


def table(interface: Interface) -> str:
    """Numbers.java as it has to be."""
    lines = ['package org.simbegyor.ndef;', '', f'/** The numbers of {{@code ndef.h}}. {MARK[0].upper()}{MARK[1:]}. */', 'final class Numbers {']
    for group in interface.groups:
        if group.name in GROUPS:
            lines += numbers(group.text, named(list(group.constants)))
    lines += numbers('Flags.', named([one for group in interface.groups for one in group.constants if one.name in FLAGS]))
    for name, prefix in WORDS.items():
        given = interface.structs[name]
        placed = layout.all_of(given, interface.structs)['64']
        rows = [f'{prefix}_{field.name.upper()} = {at // 4}' for field, at in zip(given.fields, placed.offsets)]
        lines += numbers(f'The words of {{@code {name}}}.', [*rows, f'{prefix}_WORDS = {placed.size // 4}'])
    checker = layout.all_of(interface.structs['ndef_checker'], interface.structs)['64']
    lines += numbers('The longs of {@code ndef_checker}.', [f'CHECKER_LONGS = {checker.size // 8}'])
    return '\n'.join([*lines, '', '    private Numbers() {', '    }', '}']) + '\n'


def constants(name: str, group: Group, sentences: Dict[int, str]) -> str:
    """The file of an enum with the constants of the interface; those with another number, and all else, stay as they are."""
    text = (TOP / FOLDER / f'{name}.java').read_text()
    head, rest = text.split(f'public enum {name} {{\n', 1)
    body = re.match(rf'(?:{ROW.pattern},\n)*{ROW.pattern};\n', rest, re.S)
    had = {at: found for at, found in enumerate(ROW.finditer(body[0] if body else ''))}
    own = [found for found in had.values() if found[1] == '0']
    made = [f'    /** {sentences.get(one.number, one.text).replace("pieces", "chunks")} */\n    {one.name.removeprefix(ENUMS[name][1])}({one.number})' for one in group.constants]
    first, last = ([found[0] for found in own if (found.start() == 0) == is_first] for is_first in (True, False))
    return f'{head}public enum {name} {{\n' + ',\n'.join([*first, *made, *last]) + ';\n' + rest[body.end() if body else 0:]


def files(interface: Interface) -> Dict[str, str]:
    """Each file by its path."""
    sentences = {number: text for number, _, text in interface.lists['NDEF_SENTENCES']}
    groups = {group.name: group for group in interface.groups}
    return {f'{FOLDER}/Numbers.java': table(interface),
            **{f'{FOLDER}/{name}.java': constants(name, groups[group], sentences if name == 'Reason' else {}) for name, (group, _) in ENUMS.items()}}
