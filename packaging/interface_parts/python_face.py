"""What the Python module says of the interface: the file _interface.py."""
from __future__ import annotations

import textwrap
from typing import List

from .model import MARK, Call, Interface, Parameter, Struct

WIDTH = 120
TYPES = {'uint32_t': 'u32', 'uint64_t': 'u64', 'ndef_size': 'u64'}

HEAD = f'''# {MARK[0].upper()}{MARK[1:]}.
"""The structs, the numbers and the calls of ndef.h."""
from __future__ import annotations

import ctypes
from typing import Any, Protocol, cast

u32 = ctypes.c_uint32
u64 = ctypes.c_uint64

# What a call takes: octets, or memory for them; a length or a place; a reference to a struct, or an array of structs.
Octets = Any
Size = Any
Reference = Any
'''

CALLS = '''

class _Loaded:
    """The calls of a library that ctypes has loaded, each looked up when it is first asked for."""

    def __init__(self, loaded: Any) -> None:
        self._loaded = loaded

    def __getattr__(self, name: str) -> Any:
        call = getattr(self._loaded, 'ndef_' + name)
        call.restype = None if name in WITHOUT_RESULT else u32
        setattr(self, name, call)
        return call


def calls(loaded: Any) -> Calls:
    """The calls of a library that ctypes has loaded."""
    return cast(Calls, _Loaded(loaded))


class Calls(Protocol):
    """What each call takes and returns. ctypes does not look at the arguments; mypy does."""
'''


def camel(name: str) -> str:
    return ''.join(part.capitalize() for part in name.removeprefix('ndef_').split('_'))


def wrapped(line: str, first: int, others: int) -> str:
    return textwrap.fill(line, WIDTH, initial_indent=' ' * first, subsequent_indent=' ' * others, break_long_words=False,
                         break_on_hyphens=False)


def struct(given: Struct) -> str:
    fields = []
    for field in given.fields:
        kind = TYPES.get(field.type) or camel(field.type)
        fields.append(f"('{field.name}', {kind}{f' * {field.count}' if field.count else ''})")
    line = f'_fields_ = [{", ".join(fields)}]'.replace("', ", "',\0")
    body = wrapped(line, 4, 16).replace('\0', ' ')
    return f'class {camel(given.name)}(ctypes.Structure):\n    """{given.text}"""\n{body}'


def parameter(given: Parameter) -> str:
    if given.role == 'length' or given.type == 'ndef_size':
        return 'Size'
    if given.role == 'value':
        return TYPES[given.type]
    return 'Octets' if 'uint8_t' in given.type else 'Reference'


def call(given: Call) -> str:
    """A method, with the types and the names of what the call takes."""
    said = ', '.join(['self', *(f'{one.name}: {parameter(one)}' for one in given.parameters)]).replace(': ', ':\0')
    name, result = given.name.removeprefix('ndef_'), 'None' if given.result == 'void' else 'int'
    head = wrapped(f'def {name}({said})\0->\0{result}:', 4, 4 + len(f'def {name}(')).replace('\0', ' ')
    about = textwrap.fill(f'''"""{given.text}"""''', WIDTH, initial_indent=' ' * 8, subsequent_indent=' ' * 8)
    return f'{head}\n{about}'


def text(interface: Interface) -> str:
    parts: List[str] = [HEAD, f'# The first number of the version of ndef.h.\nVERSION_MAJOR = {interface.version[0]}\n']
    for group in interface.groups:
        parts.append(f'# {group.text}')
        parts += [f'{one.name.removeprefix("NDEF_")} = {one.number}' for one in group.constants]
        parts.append('')
    for one in interface.structs.values():
        parts += ['', struct(one), '']
    silent = ', '.join(f"'{one.name.removeprefix('ndef_')}'" for one in interface.calls.values() if one.result == 'void')
    parts += ['', '# The calls that return nothing; the others return a number.', f'WITHOUT_RESULT = ({silent},)', CALLS]
    parts.append('\n\n'.join(call(one) for one in interface.calls.values()))
    return '\n'.join(parts) + '\n'
