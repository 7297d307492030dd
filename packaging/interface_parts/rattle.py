"""Reads the interface from the crates: the calls, structs and constants of ndef_c, and the enums whose numbers it gives."""
from __future__ import annotations

import re
from typing import Dict, List, Tuple

from .comments import unlinked
from .model import TOP, Call, Constant, Field, Group, Interface, Parameter, Rows, Struct, Unknown, first_sentence

DOC = r'((?:^ *///[^\n]*\n)*)'
CALL = re.compile(DOC + r'#\[unsafe\(no_mangle\)\]\npub (?:unsafe )?extern "C" fn (\w+)(?:<[^>]*>)?\((.*?)\)(?: -> (\w+))?\n(.*?)^\{',
                  re.M | re.S)
STRUCT = re.compile(DOC + r'#\[repr\(C\)\]\n(?:#\[[^\n]*\]\n)*pub struct (\w+) \{\n(.*?)^\}', re.M | re.S)
OPEN = re.compile(r'^pub struct (\w+) \{$', re.M)
MEMBER = re.compile(DOC + r'^    (?:pub )?(\w+): (.+),$', re.M)
# A struct whose bytes mean something to the library alone: this promise says how many there are.
SEALED = re.compile(r'prove!\(size_of::<(\w+)>\(\) <= (\d+)\)')
CONSTANT = re.compile(DOC + r'^pub const (\w+): u32 = (\d+);$', re.M)
VARIANT = re.compile(DOC + r'^    (\w+)(?: = (\d+))?,$', re.M)
# A status that a contract says a call answers, or does not answer.
ANSWER = re.compile(r'\bresult [≡≢] ([A-Z_]+)\b')
TYPE = re.compile(r"(?:&(?:'\w+ )?|\*)(mut )?(\[)?(\w+)\]?")

NUMBERS = {'u8': 'uint8_t', 'u32': 'uint32_t', 'u64': 'uint64_t', 'usize': 'ndef_size'}
# Parameters and members that have another name in C: most since Rattle reserves the word.
WORDS = {
    'ndef_append.kind': 'type', 'ndef_find_type.kind': 'type', 'ndef_payload_fields.kind': 'type', 'ndef_write_carrier.kind': 'type',
    'ndef_write_record.kind': 'type', 'ndef_writer_next.kind': 'type',
    'ndef_write_carrier.carried': 'data', 'ndef_write_error.detail': 'data',
    'ndef_poster_icons.array': 'icons', 'ndef_poster_titles.texts': 'titles', 'ndef_write_handover.number': 'handover',
    'NdefIcon.octets': 'data', 'NdefIconWriting.octets': 'data', 'NdefSelectWriting.detail': 'data',
}
# What a call writes whatever it held, by its name: the header says so of these.
WRITTEN = ('out', 'count', 'refusal')
# Flags: the code has no names for them, but tests their bits.
FLAGS = {
    'NDEF_STANDARD': (1, 'Read reserved values as the standards say.'),
    'NDEF_OPAQUE': (2, 'Do not look into payloads.'),
    'NDEF_WRITE_FIRST': (1, 'The record is the first of its message.'),
    'NDEF_WRITE_LAST': (2, 'The record is the last of its message.'),
    'NDEF_WRITE_LONG': (4, 'Write the payload length in four bytes.'),
    'NDEF_AS_UTF16': (1, 'Write the text in UTF-16.'),
}
# The flags of one enum, by the struct or call right after which the header has it.
FLAG_GROUPS = {'ndef_limits': ('NDEF_STANDARD', 'NDEF_OPAQUE'), 'ndef_writing': ('NDEF_WRITE_FIRST', 'NDEF_WRITE_LAST', 'NDEF_WRITE_LONG'),
               'ndef_write_text': ('NDEF_AS_UTF16',)}


def upper(name: str) -> str:
    """CamelCase as C writes a constant; a record's type is its kind in Rattle."""
    return re.sub(r'(?<!^)(?=[A-Z])', '_', re.sub(r'^Kind|(?<=Carrier)Kind', 'Type', name)).upper()


def described(doc: str) -> str:
    """The words of a doc comment."""
    return unlinked(' '.join(line.strip().removeprefix('///').strip() for line in doc.splitlines()))


def sources() -> Dict[str, str]:
    """The files of ndef_c, and their texts."""
    paths = sorted((TOP / 'crates/ndef_c/src').glob('*.rt'))
    return {str(path.relative_to(TOP)): path.read_text() for path in paths}


class Crates:
    """The names that the types of the crates have in C."""

    def __init__(self) -> None:
        self.files = sources()
        calls = {found[2] for text in self.files.values() for found in CALL.finditer(text)}
        self.types = dict(NUMBERS)
        for text in self.files.values():
            for name in [found[2] for found in STRUCT.finditer(text)] + [found[1] for found in SEALED.finditer(text)]:
                plain = upper(name).lower()
                self.types[name] = plain + '_parts' if plain in calls else plain

    def type_of(self, name: str, where: str) -> str:
        if name not in self.types:
            raise Unknown(f'{where}: the type {name} has no name in C')
        return self.types[name]

    def parameters(self, call: str, said: str, contract: str, where: str) -> Tuple[Parameter, ...]:
        made: List[Parameter] = []
        for part in filter(None, (part.strip() for part in said.split(','))):
            name, _, kind = part.partition(': ')
            name = WORDS.get(f'{call}.{name}', name)
            found = TYPE.fullmatch(kind)
            if not found:
                made.append(Parameter(name, self.type_of(kind, where), 'value'))
                continue
            pointer = f'{"" if found[1] else "const "}{self.type_of(found[3], where)} *'
            if found[2]:
                made += [Parameter(name, pointer, 'buffer' if found[1] else 'array'), Parameter('', 'ndef_size', 'length')]
            else:
                fresh = name in WRITTEN or f'room_at NdefCheckers.the_row {name}' in contract
                made.append(Parameter(name, pointer, 'in' if not found[1] else 'out' if fresh else 'change'))
        return tuple(made)

    def calls(self) -> Dict[str, Call]:
        made = {}
        for path, text in self.files.items():
            found = list(CALL.finditer(text))
            if len(found) != text.count('no_mangle'):
                raise Unknown(f'{path}: a function with `no_mangle` is written in another way than the others')
            for doc, name, said, result, contract in (call.groups() for call in found):
                kind = self.type_of(result, path) if result else 'void'
                answers = tuple('NDEF_' + status for status in sorted(set(ANSWER.findall(contract))))
                parameters = self.parameters(name, said, contract, path)
                made[name] = Call(name, kind, parameters, first_sentence(described(doc)), path, doc, answers)
        return made

    def structs(self) -> Dict[str, Struct]:
        made = {}
        for path, text in self.files.items():
            found = list(STRUCT.finditer(text))
            if len(found) != text.count('repr(C)'):
                raise Unknown(f'{path}: a struct with `repr(C)` is written in another way than the others')
            for doc, name, said in (struct.groups() for struct in found):
                fields = tuple(Field(WORDS.get(f'{name}.{member[2]}', member[2]), self.type_of(member[3], path), 0, described(member[1]))
                               for member in MEMBER.finditer(said))
                made[self.types[name]] = Struct(self.types[name], fields, first_sentence(described(doc)), path, doc)
            for sealed in SEALED.finditer(text):
                found_doc = re.search(DOC + rf'(?:#\[.*\]\n)*^pub struct {sealed[1]}\b', text, re.M)
                doc = found_doc[1] if found_doc else ''
                words = Field('words', 'uint64_t', int(sealed[2]) // 8, 'They have a meaning for the library alone.')
                name = self.types[sealed[1]]
                made[name] = Struct(name, (words,), first_sentence(described(doc)), path, doc)
        return made

    def order(self) -> Dict[str, Tuple[str, ...]]:
        """The calls and structs of each file, in its order."""
        made = {}
        for path, text in self.files.items():
            found = [(call.start(), call[2]) for call in CALL.finditer(text)]
            found += [(struct.start(), self.types[struct[1]]) for struct in OPEN.finditer(text) if struct[1] in self.types]
            made[path] = tuple(name for _, name in sorted(found))
        return made

    def heads(self) -> Dict[str, str]:
        """The subject of each file: the first sentence of its doc comment."""
        said = {path: ' '.join(re.findall(r'^//! ?(.*)', text, re.M)) for path, text in self.files.items()}
        return {path: first_sentence(text) for path, text in said.items()}

    def words(self) -> Dict[str, str]:
        """The names that C has for those of Rattle in doc comments."""
        changed = (key.split('.') + [name] for key, name in WORDS.items())
        return {**self.types, **{f'{self.types.get(owner, owner)}.{given}': name for owner, given, name in changed}}


def constants(path: str, prefix: str) -> Tuple[Constant, ...]:
    """The numbers that a file names, as C names them."""
    found = CONSTANT.finditer((TOP / path).read_text())
    return tuple(Constant(prefix + one[2], int(one[3]), described(one[1]), one[2]) for one in found)


def variants(path: str, enum: str, prefix: str) -> Tuple[Constant, ...]:
    """The variants of an enum, as C names them. One without a number follows the one before it, from 0."""
    found = re.search(rf'^pub enum {enum} \{{\n(.*?)^\}}', (TOP / path).read_text(), re.M | re.S)
    if not found:
        raise Unknown(f'{path}: no enum {enum}')
    made: List[Constant] = []
    for variant in VARIANT.finditer(found[1]):
        number = int(variant[3]) if variant[3] else made[-1].number + 1 if made else 0
        made.append(Constant(prefix + upper(variant[2]), number, described(variant[1]), f'{enum}::{variant[2]}'))
    return tuple(sorted(made, key=lambda constant: constant.number))


def rows(path: str, enum: str, group: Group, prefix: str) -> Rows:
    """What a file says of each variant of an enum, in the order of the group."""
    said = {upper(name): text for name, text in re.findall(rf'\b{enum}::(\w+)\s*=>\s*b?"([^"]*)"', (TOP / path).read_text())}
    names = [(constant.number, constant.name.removeprefix(prefix)) for constant in group.constants]
    missing = [name for _, name in names if name not in said]
    if missing:
        raise Unknown(f'{path}: no text for {", ".join(missing)}')
    return [(number, name, said[name]) for number, name in names]


def groups() -> List[Group]:
    """The enums of C, each with the file that has its numbers."""
    formats = tuple(one for one in variants('crates/ndef_format/src/tnf.rt', 'Tnf', 'NDEF_TNF_') if one.name != 'NDEF_TNF_UNCHANGED')
    made = [
        Group('ndef_status', constants('crates/ndef_c/src/status.rt', 'NDEF_'), 'What most calls return.', 'crates/ndef_c/src/status.rt'),
        Group('ndef_reason', variants('crates/ndef_format/src/reason.rt', 'Reason', 'NDEF_REASON_'), 'Why a byte is refused.',
              'crates/ndef_format/src/reason.rt'),
        Group('ndef_tnf', formats, 'The type name format of a record.', 'crates/ndef_format/src/tnf.rt'),
        Group('ndef_kinds', variants('crates/ndef_format/src/kind.rt', 'Kind', 'NDEF_KIND_'), 'What the payload of a record is.',
              'crates/ndef_format/src/kind.rt'),
        Group('ndef_field_names', variants('crates/ndef_fields/src/name.rt', 'FieldName', 'NDEF_FIELD_'), 'The names of fields.',
              'crates/ndef_fields/src/name.rt'),
        Group('ndef_handover', constants('crates/ndef_c/src/handover_writing.rt', 'NDEF_'), 'What a handover is.',
              'crates/ndef_c/src/handover_writing.rt'),
        Group('ndef_hint_number', constants('crates/ndef_c/src/hints.rt', 'NDEF_'), 'What a hint is about.', 'crates/ndef_c/src/hints.rt'),
        Group('ndef_layout_form', constants('crates/ndef_c/src/layout.rt', 'NDEF_'), 'What a field of a layout holds.', 'crates/ndef_c/src/layout.rt'),
    ]
    return made + [Group('', tuple(Constant(name, *FLAGS[name]) for name in names), 'Flags.', 'packaging/interface_parts/rattle.py', beside)
                   for beside, names in FLAG_GROUPS.items()]


def read() -> Interface:
    """The interface as the crates have it, with the names that C has for it as far as Rattle's names give them."""
    crates = Crates()
    made = groups()
    by_name = {group.name: group for group in made}
    lists = {
        'NDEF_STATUSES': rows('crates/ndef_c/src/status_name.rt', 'Status', by_name['ndef_status'], 'NDEF_'),
        'NDEF_REASONS': rows('crates/ndef_format/src/reason.rt', 'Reason', by_name['ndef_reason'], 'NDEF_REASON_'),
        'NDEF_SENTENCES': rows('crates/ndef_format/src/sentence.rt', 'Reason', by_name['ndef_reason'], 'NDEF_REASON_'),
        'NDEF_FIELDS': rows('crates/ndef_fields/src/name.rt', 'FieldName', by_name['ndef_field_names'], 'NDEF_FIELD_'),
    }
    version = tuple(one.number for one in constants('crates/ndef_c/src/version.rt', ''))
    return Interface(crates.calls(), crates.structs(), made, lists, version, files=crates.order(), heads=crates.heads(),
                     words={**crates.words(), **{one.said: one.name for group in made for one in group.constants if one.said}})
