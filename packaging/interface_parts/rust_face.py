"""What the Rust crate says of the interface: the rows of its macros for the names of fields and for reasons."""
from __future__ import annotations

from typing import Dict

from .model import TOP, Interface, Unknown

FIELDS, REASONS = 'bindings/rust/src/field.rs', 'bindings/rust/src/refusal.rs'


def rows(path: str, macro: str, made: str) -> str:
    """The file with these rows in its macro."""
    front, begin, rest = (TOP / path).read_text().partition(f'\n{macro}! {{\n')
    _, end, tail = rest.partition('\n}\n')
    if not begin or not end:
        raise Unknown(f'{path}: no rows of {macro}!')
    return f'{front}{begin}{made}{end}{tail}'


def files(interface: Interface) -> Dict[str, str]:
    """Each file by its path."""
    printed = {number: text for number, _, text in interface.lists['NDEF_REASONS']}
    fields = '\n'.join(f'    {number} {name.title().replace("_", "")} "{text}",' for number, name, text in interface.lists['NDEF_FIELDS'])
    reasons = '\n'.join(f'    {number} {printed[number]} "{text}",' for number, _, text in interface.lists['NDEF_SENTENCES'])
    return {FIELDS: rows(FIELDS, 'names', fields), REASONS: rows(REASONS, 'reasons', reasons)}
