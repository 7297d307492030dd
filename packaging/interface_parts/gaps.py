"""Which calls each language over C does not reach, and why: the table of docs/BINDINGS.md. Rust reads by the proved types."""
from __future__ import annotations

import re
from typing import Dict, Iterator, List, Set, Tuple

from .model import MARK, TOP, Interface, Unknown

PATH = 'docs/BINDINGS.md'
BEGIN, END = f'<!-- {MARK} -->\n', '<!-- the end of what is generated -->\n'
LIBRARY = 'bindings/python/simbegyor_ndef/_library.py'
# Where each face makes its calls by their names in C.
SOURCES = {
    'C++': ('include/*.hpp',),
    'Python': (LIBRARY,),
    'JavaScript': ('bindings/web/ndef.js',),
    'Java': ('bindings/java/native/ndef_jni.c',),
    'Go': ('bindings/go/*.go', 'bindings/go/calls.h'),
}
WHOLE = 'write_poster write_request write_select'
POSTER = 'poster_titles title poster_media_type poster_icons'
APPEND = 'append append_text append_uri'
# Why a face does not reach calls: the reason, and for each face the calls.
REASONS: Tuple[Tuple[str, Dict[str, str]], ...] = (
    ('Another call gives all of them at once: ndef_links, ndef_references or ndef_fields.', {
        'C++': 'link_at field_at next_field', 'Python': 'reference field_at next_field',
        'JavaScript': 'reference link_at field_at next_field', 'Java': 'reference link_at field_at next_field',
        'Go': 'reference link_at field_at next_field'}),
    ('It walks the records itself: what is looked for is picked of them.', {
        'C++': 'poster_titles poster_icons', 'Python': 'find_type find_id ' + POSTER,
        'JavaScript': 'find_type find_id title', 'Java': 'find_type find_id poster_titles', 'Go': 'find_type find_id poster_titles title'}),
    ('The file ndef.hpp includes ndef.h: a program makes this call as in C.', {'C++': 'chunks payload_fields version uri_prefix'}),
    ('The file ndef_names.h has these texts, and they are taken from there.', {
        'C++': 'reason_name reason_sentence field_name status_name', 'Go': 'reason_name reason_sentence field_name'}),
    ('Its classes are those of ndeflib, which has nothing of the kind.', {'Python': 'kind links link_at'}),
    ('A payload is given with its chunks joined, and not where they lie.', {
        'Python': 'chunks', 'JavaScript': 'chunks', 'Java': 'chunks', 'Go': 'chunks'}),
    ('It gives only the fields of messages.', {
        'Python': 'payload_fields', 'JavaScript': 'payload_fields', 'Java': 'payload_fields',
        'Go': 'payload_fields'}),
    ('A refusal is an error of the language, so a status has no name there.', {
        'Python': 'status_name', 'Java': 'status_name', 'Go': 'status_name'}),
    ('The package has the version of the library that it brings or asks for.', {
        'Java': 'version', 'Go': 'version'}),
    ('A URI is given whole, with its prefix spelled out.', {
        'Python': 'split_uri', 'JavaScript': 'split_uri', 'Java': 'split_uri'}),
    ('It puts a URI together of the prefix and the rest.', {'Go': 'uri'}),
    ('A message is written of all its records at once, into memory that grows.', {
        'Python': APPEND, 'JavaScript': APPEND, 'Java': APPEND, 'Go': APPEND}),
    ('A message is written again by decoding it and encoding its records.', {
        'Python': 'normalize', 'Java': 'normalize', 'Go': 'normalize'}),
    ('Posters and handovers are written record by record.', {'Python': WHOLE, 'Java': WHOLE}),
    ('Posters and handovers are written whole, by one call each.', {
        'Go': 'write_alternative write_action write_size write_collision write_error write_error_number write_handover'}),
    ('The class Limits has these numbers.', {'Java': 'default_limits'}),
    ('It asks for each record by itself, as the program takes it.', {'C++': 'items'}),
    ('A program checks the payloads of its own types itself.', {
        face: 'check_layout' for face in ('C++', 'JavaScript', 'Java', 'Go')}),
    ('A message is checked by the call that gives all its records.', {'Java': 'check'}),
    ('It reads posters and handovers by other calls.', {
        face: 'number items_within handover_items' for face in ('C++', 'Python', 'JavaScript', 'Java', 'Go')}),
)


def source(face: str) -> str:
    """The code of a face, without comments and without what is generated."""
    text = '\n'.join(path.read_text() for pattern in SOURCES[face] for path in sorted(TOP.glob(pattern)))
    if face == 'Python':
        return re.sub(r'\b(?:_long|_short|found)\.(\w+)', r'ndef_\1', text)
    return re.sub(r'/\*.*?\*/|//[^\n]*', '', text, flags=re.S)


def reached(face: str, interface: Interface) -> Set[str]:
    return set(re.findall(r'\bndef_\w+', source(face))) & set(interface.calls)


def given(face: str) -> Set[str]:
    """The calls that the face does not reach, for a reason."""
    return {f'ndef_{name}' for _, faces in REASONS for name in faces.get(face, '').split()}


def unexplained(interface: Interface) -> Iterator[str]:
    """What a face neither reaches nor has a reason for, and reasons that do not hold."""
    for face in SOURCES:
        has, explained = reached(face, interface), given(face)
        for name in interface.calls:
            if name not in has and name not in explained:
                yield f'{face} does not reach {name}: make the call, or say why not in packaging/interface_parts/gaps.py'
        for name in sorted(explained):
            if name in has or name not in interface.calls:
                yield f'{face}: packaging/interface_parts/gaps.py says why it does not reach {name}, but it does, or there is no such call'


def table(interface: Interface) -> str:
    """For each reason the calls that languages don't make."""
    missing = {face: ' '.join(name.removeprefix('ndef_') for name in interface.calls if name not in reached(face, interface) | given(face)) for face in SOURCES}
    rows = [*REASONS, *([('No reason is said.', missing)] if any(missing.values()) else [])]
    lines: List[str] = ['| why a call is not made | by language |', '|---|---|']
    for reason, faces in rows:
        of_calls: Dict[str, List[str]] = {}
        for face, names in faces.items():
            for calls in filter(None, [', '.join(f'ndef_{name}' for name in names.split())]):
                of_calls.setdefault(calls, []).append(face)
        lines.append(f'| {reason} | ' + '; '.join(f'{", ".join(of)}: {calls}' for calls, of in of_calls.items()) + ' |')
    return '\n'.join(lines) + '\n'


def text(interface: Interface) -> str:
    """The page with the table as it has to be."""
    page = (TOP / PATH).read_text()
    if page.count(BEGIN) != 1 or page.count(END) != 1:
        raise Unknown(f'{PATH}: the lines that begin and end the generated part do not stand there once')
    front, rest = page.split(BEGIN)
    return front + BEGIN + table(interface) + END + rest.split(END)[1]
