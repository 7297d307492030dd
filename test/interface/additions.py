#!/usr/bin/env python3
"""Tests that packaging/interface writes what the crates have and the header lacks. The first word is a folder with a copy of what the
script reads and writes, where a call with its struct, constants and flags are added. The last line is 'N passed, M failed'."""
import json
import os
import pathlib
import re
import subprocess
import sys

HERE = pathlib.Path(__file__).resolve().parent
sys.path.insert(0, str(HERE.parent))
import harness  # noqa: E402
from harness import count  # noqa: E402

COPY = pathlib.Path(sys.argv[1])
HEADER, NAMES, CRATE = 'include/ndef.h', 'include/ndef_names.h', 'crates/ndef_c/src/'
WRITTEN = (HEADER, NAMES, 'packaging/share/interface.json', 'test/c/layout.c', 'bindings/python/simbegyor_ndef/_interface.py', 'bindings/web/interface.js',
           'docs/BINDINGS.md')
FACES = ('C++', 'Python', 'JavaScript', 'Java', 'Go')
END = '#include "ndef_names.h"'


def read(path):
    return (COPY / path).read_text()


def files():
    return {path: read(path) for path in WRITTEN}


def run(*command, cwd=COPY, **more):
    return subprocess.run(command, cwd=cwd, stdout=subprocess.PIPE, stderr=subprocess.STDOUT, text=True, **more)


def interface(*words):
    """What packaging/interface prints."""
    return run('packaging/interface', *words).stdout.splitlines()


class Edited:
    """The copy with edits of some files: pairs of a path and a function of its text. It is as it was afterwards."""

    def __init__(self, *edits):
        self.edits, self.kept = edits, {}

    def __enter__(self):
        self.kept = files()
        for path, edit in self.edits:
            given = read(path) if (COPY / path).exists() else None
            self.kept.setdefault(path, given)
            made = edit(given)
            assert made != given, f'nothing was planted in {path}'
            (COPY / path).write_text(made)

    def __exit__(self, *_):
        for path, text in self.kept.items():
            if text is None:
                (COPY / path).unlink()
            else:
                (COPY / path).write_text(text)


def instead(old, new):
    """The edit that puts a text for another one, which stands there once."""
    def edit(text):
        assert text.count(old) == 1, f'{old!r} stands there {text.count(old)} times'
        return text.replace(old, new)
    return edit


def new_file(change=lambda text: text):
    return CRATE + 'octet_sum.rt', lambda _: change((HERE / 'octet_sum.rt.txt').read_text())


def unreached(name):
    return [f'{face} does not reach {name}: make the call, or say why not in packaging/interface_parts/gaps.py' for face in FACES]


def generated():
    """What each generated file has of the call and its struct, and whether compilers take it."""
    for path, said in (('bindings/web/interface.js', '    octet_sum_parts: { size: 16, members: { added: [0, 8], sum: [8, 4] } },'),
                       ('bindings/web/interface.js', '    ndef_octet_sum: "i32 i64 i32", // bytes, length, out'),
                       ('test/c/layout.c', 'AT(ndef_octet_sum_parts, sum, uint32_t, 8);'),
                       ('docs/BINDINGS.md', f'| No reason is said. | {", ".join(FACES)}: ndef_octet_sum |')):
        count(f'{path} has {said.strip()!r}', f'{said}\n' in read(path))
    described = json.loads(read('packaging/share/interface.json'))
    call = next(call for call in described['calls'] if call['name'] == 'ndef_octet_sum')
    count('the description has the call', call['answers'] == ['NDEF_OK', 'NDEF_BAD_ARGUMENT'] and
          [one['role'] for one in call['parameters']] == ['array', 'length', 'out'] and call['text'].startswith('Adds up octets, for `NdefOctetSum`'), call)
    python = ('import importlib.util as i, ctypes; s = i.spec_from_file_location("m", "bindings/python/simbegyor_ndef/_interface.py")\n'
              'm = i.module_from_spec(s); s.loader.exec_module(m); print(ctypes.sizeof(m.OctetSumParts), m.OctetSumParts.sum.offset, m.Calls.octet_sum)')
    printed = run(sys.executable, '-c', python).stdout
    count('Python has the struct and the call', printed.startswith('16 8 <function Calls.octet_sum'), printed)
    result = run(os.environ.get('CC', 'cc'), '-fsyntax-only', '-Iinclude', 'test/c/layout.c')
    count('the layouts compile', result.returncode == 0, result.stdout)
    if harness.has('cargo'):
        result = run('cargo', 'check', '--offline', cwd=COPY / 'bindings/rust', env={**os.environ, 'DOCS_RS': '1', 'CARGO_TARGET_DIR': str(COPY / 'target')})
        count('the declarations of Rust compile', result.returncode == 0, result.stdout)
    if harness.has('node'):
        result = run('node', '--check', 'bindings/web/interface.js')
        count('node reads the tables for JavaScript', result.returncode == 0, result.stdout)


def added_call():
    before = read(HEADER)
    with Edited(new_file()):
        named = interface('--check')
        count('a call and a struct that the header lacks are named', named == [
            f'{HEADER}: no call ndef_octet_sum, which the crates have', f'{HEADER}: no struct ndef_octet_sum_parts, which the crates have'], *named)
        named = interface()
        count('the script names the languages that do not make the new call', named == unreached('ndef_octet_sum'), *named)
        count('the header gets both at its end, and stays as it is elsewhere',
              read(HEADER) == before.replace(END, (HERE / 'octet_sum.h').read_text() + END), read(HEADER)[-2000:])
        generated()
        made = files()
        named = interface('--check')
        count('what is written is up to date', named == unreached('ndef_octet_sum') and files() == made, *named)
        interface()
        count('the script writes the same again', files() == made)


def places():
    """Where the header gets a call of a file that it knows."""
    path = CRATE + 'uri_parts.rt'
    call = re.search(r'/// Adds up.*\Z', (HERE / 'octet_sum.rt.txt').read_text(), re.S)[0].replace('NdefOctetSum', 'NdefUri')
    for name, edit, first, then in (('last', lambda text: text + '\n' + call, 'ndef_uri_prefix', 'ndef_octet_sum'),
                                    ('first', lambda text: text.replace('/// A URI:', call + '\n/// A URI:'), 'ndef_uri_parts;', 'ndef_octet_sum')):
        with Edited((path, edit)):
            named = interface()
            blocks = read(HEADER).split('\n\n')
            at = next((at for at, block in enumerate(blocks) if 'ndef_octet_sum(' in block), 0)
            count(f'the header has the {name} call of a file at its place', first in blocks[at - 1] and then in blocks[at], *named, *blocks[at - 1:at + 1])


def restored():
    """What is taken out of the headers comes back as it was."""
    end = '    NDEF_END = 4,          /* there are no more records, references, links or fields */\n'
    for name, path, old, new in (('a constant', HEADER, end, ''), ('a text of a constant', NAMES, 'X(4, END, "End") ', ''),
                                 ('a text in a long list', NAMES, 'X(20, REFERENCE_LENGTH, "carrier data reference length") ', '')):
        before = files()
        with Edited((path, instead(old, new))):
            named = interface()
            count(f'it is written as it was: {name}', not named and files() == before, *named, read(path))


def spelled():
    """How a struct of 64 bits is declared, a parameter with another name in C, and a struct that a call before it takes."""
    def octet_sum(*pairs):
        def edit(text):
            for old, new in pairs:
                text = instead(old, new)(text)
            return text
        return new_file(edit)
    words = ('packaging/interface_parts/rattle.py', instead("'ndef_append.kind': 'type',", "'ndef_append.kind': 'type', 'ndef_octet_sum.kind': 'type',"))
    kind = octet_sum(('(bytes: &[u8], ', '(kind: &[u8], '), ('`bytes`', '`kind`'), ('(bytes.now', '(kind.now'), ('length bytes.now', 'length kind.now'))
    earlier = (CRATE + 'adding.rt', lambda _: '//! Adds.\n' + re.search(r'/// Adds up.*\Z', (HERE / 'octet_sum.rt.txt').read_text(), re.S)[0].replace('fn ndef_octet_sum', 'fn ndef_adding'))
    for name, edits, said in (
            ('a member of 64 bits that some machine aligns to 4 bytes', [octet_sum(('added: usize', 'added: u64'))], '    ndef_size added; /* the number'),
            ('a member of 64 bits in a struct of the same size everywhere', [octet_sum(('added: usize', 'added: u64'), ('    pub sum', '    pub rest: u32,\n    pub sum'))],
             '    uint64_t added; /* the number'),
            ('a parameter that has another name in C', [words, kind], ' * It reads `type` once:\n'),
            ('a length of an array that has another name', [words, kind], '(const uint8_t *type, ndef_size length, ndef_octet_sum_parts *out) NDEF_ANSWERS(3);'),
            ('a call before the file of its struct', [new_file(), earlier], 'uint32_t ndef_adding(const uint8_t *bytes, ndef_size length, ndef_octet_sum_parts *out) NDEF_ANSWERS(3);')):
        with Edited(*edits):
            named = interface()
            compiled = run(os.environ.get('CC', 'cc'), '-fsyntax-only', '-Iinclude', 'test/c/layout.c')
            count(f'the header has {name}', said in read(HEADER) and not compiled.returncode, *named, compiled.stdout, read(HEADER)[-2500:])


def added_constants():
    field = ('crates/ndef_fields/src/name.rt', instead('    CarrierData = 31,\n', '    CarrierData = 31,\n    /// The sum of octets.\n    OctetSum = 32,\n'))
    text = ('crates/ndef_fields/src/name.rt', instead('            FieldName::Header => b"header",\n',
                                                      '            FieldName::OctetSum => b"sum",\n            FieldName::Header => b"header",\n'))
    status = (CRATE + 'status.rt', lambda text: text + '\n/// The sum is too large.\npub const TOO_LARGE: u32 = 6;\n')
    name = (CRATE + 'status_name.rt', lambda text: text.replace('Status::', 'Status::TooLarge => b"TooLarge",\n        Status::', 1))
    flags = 'packaging/interface_parts/rattle.py'
    one = (flags, instead("    'NDEF_AS_UTF16': (1,", "    'NDEF_SUM': (4, 'Add octets up.'),\n    'NDEF_TWICE': (1, 'Do it twice.'),\n    'NDEF_AS_UTF16': (1,"))
    two = (flags, instead("'NDEF_OPAQUE'),", "'NDEF_OPAQUE', 'NDEF_SUM'), 'ndef_kind': ('NDEF_TWICE',),"))
    with Edited(field, text, status, name, one, two):
        named = interface()
        count('constants and flags are written', not named, *named)
        for path, said in ((NAMES, 'NDEF_FIELD_CARRIER_DATA = 31,\n    NDEF_FIELD_OCTET_SUM = 32\n};'),
                           (NAMES, 'X(31, CARRIER_DATA, "carrier data") X(32, OCTET_SUM, "sum")\n'),
                           (HEADER, '    NDEF_MORE = 5,         /* the bytes so far begin a message, and more must follow (ndef_feed alone) */\n'
                                    '    NDEF_TOO_LARGE = 6     /* the sum is too large */\n};'),
                           (NAMES, 'X(4, END, "End") X(5, MORE, "More") X(6, TOO_LARGE, "TooLarge")\n'),
                           (HEADER, 'enum { NDEF_STANDARD = 1, NDEF_OPAQUE = 2, NDEF_SUM = 4 };\n'),
                           (HEADER, 'const ndef_record *record, uint32_t within) NDEF_ANSWERS(3);\nenum { NDEF_TWICE = 1 };\n')):
            count(f'{path} has {said!r}', said in read(path))


def refused():
    """What the script names and does not write, though a call is new."""
    silent = new_file(lambda text: text.replace('/// - `BAD_ARGUMENT`: there are no octets.\n', ''))
    for name, edits, words in (
            ('a changed signature', [new_file(), (HEADER, instead('uint32_t ndef_version(void)', 'uint32_t ndef_version(uint32_t which)'))],
             f'{HEADER}: ndef_version has 1 parameters; {CRATE}version.rt makes 0'),
            ('a changed member', [new_file(), (HEADER, instead('uint64_t words[61]', 'uint64_t words[62]'))], f'{HEADER}: ndef_checker: member 1 is'),
            ('a changed text', [new_file(), (NAMES, instead('"The text is not UTF-8."', '"The text is no UTF-8."'))],
             "NDEF_SENTENCES: no (17, 'UTF8', 'The text is not UTF-8.')"),
            ('a call that the crates no longer have', [new_file(), (CRATE + 'version.rt', instead('#[unsafe(no_mangle)]\n', ''))],
             f'{HEADER}: the call ndef_version, which the crates do not have'),
            ('a new call that does not say when it answers what', [silent],
             f'{HEADER}: the comment of ndef_octet_sum does not say when it answers NDEF_BAD_ARGUMENT, as {CRATE}octet_sum.rt does'),
            ('a comment that would end that of C', [new_file(lambda text: text.replace('It reads', 'It (*/) reads'))], 'ndef_octet_sum: the comment has `*/`'),
            ('a call without a comment', [new_file(lambda text: re.sub(r'///.*\n(?=(?:///.*\n)*#\[unsafe)', '', text))], 'ndef_octet_sum has no doc comment')):
        with Edited(*edits):
            before = files()
            named = interface()
            count(f'named, and nothing is written: {name}', any(line.startswith(words) for line in named) and files() == before, *named)


added_call()
places()
restored()
spelled()
added_constants()
refused()
harness.finish()
