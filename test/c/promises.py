#!/usr/bin/env python3
"""test/c/promises.py LIBRARY INTERFACE [TRIES]: makes each call of a shared library with random arguments, 2000 times without the word, as INTERFACE
(packaging/share/interface.json, or that of the release in dist/) describes it, and looks whether the library keeps what the comments of include/ndef.h promise of all calls:
which statuses a call answers, what it writes with each of them, and what it leaves as it was. What is expected is read from the words of the header. A sentence of
the header that promises such a thing, and is none of those that are looked at here, fails. Prints 'N passed, M failed'."""
import collections
import ctypes
import itertools
import json
import pathlib
import random
import re
import sys

sys.path.insert(0, str(pathlib.Path(__file__).resolve().parents[1]))
from harness import TOP, count, finish  # noqa: E402

OK, REFUSED, BUFFER_TOO_SMALL, BAD_ARGUMENT, END, MORE = range(6)
STATUSES = ('NDEF_OK', 'NDEF_REFUSED', 'NDEF_BUFFER_TOO_SMALL', 'NDEF_BAD_ARGUMENT', 'NDEF_END', 'NDEF_MORE')
CAPACITY, MARGIN = 600, 8
HEADER = (TOP / 'include/ndef.h').read_text()
COMMENTS = [re.sub(r'\s+', ' ', re.sub(r'\n \*', '\n', found)) for found in re.findall(r'/\*(.*?)\*/', HEADER, re.S)]
SAID = ' / '.join(comment.strip() for comment in COMMENTS)

# Messages, payloads of each type, texts and names, in hexadecimal; the standards' layouts.
MESSAGES = ('d00000', 'd101085402656e48656c6c6f', 'b1010154025600 03656e41', 'd102065370d10102550061', '91020a487312d10204616301013000 5a03010 1612f623001',
            'd102234872 12 91020263721234 510204616301013000', 'd102024863 0700', 'd10103550468c3a9', 'd700015a', 'd10101 5424', 'd101025524 61', '9a030101612f623041 5d00010131 42',
            'd10225 5370 910102550061 1101035402656e 11030161637401 1101047300000102 5109 0174 612f62', '04d10101', 'd10103 550a610a', 'c1010000000154 00', '9d00000161 5d00000161')
PAYLOADS = ('', '02656e48656c6c6f', '82656efeff0041', '0161', '2461', '12', '12d10204616301013000', '12d1020263720102', 'd10102550061', '010130010131', '01013000',
            '0140', '0200000102', '0103612f6205', '0700', 'ff', '00ff', '910102550061 5201 0161 78', '910102550061 1101055402656e4142 110103 74612f62 520901 696d6167652f706e67 78',
            '12910204616301013000510302657272 0140')
NAMES = ('', '54', '55', '5370', '4872', '612f62', '656e', '6465', '30', '6964', 'e9', 'ff', '68747470733a2f2f612e636f6d', '74656c3a31', '61' * 64, '78' * 256, '0a')
NUMBERS = (0, 0, 0, 1, 1, 2, 3, 4, 5, 7, 8, 12, 13, 24, 36, 40, 255, 256, 65536, 0xffffffff)
VALUES = {'tnf': (0, 1, 1, 1, 2, 5, 7), 'at': (0, 0, 0, 0, 3, 12, 15, 0xffffffff), 'kind': (0, 3, 3, 4, 5, 7, 8, 11, 13)}
OCTETS = {'bytes': MESSAGES + NAMES, 'message': MESSAGES, 'payload': PAYLOADS + NAMES, 'part': ('', '', '54', '5370', '00' * 100)}
LIMITS = ((1048576, 1024, 4096, 0), (1048576, 1024, 4096, 1), (1048576, 1024, 4096, 2), (5, 1, 1, 0), (0, 1, 1, 0), (1, 1, 65536, 0), (1, 1, 1, 8))


def octets_of(digits):
    return bytes.fromhex(digits.replace(' ', ''))


class Library:
    """The calls of a library, and how a call is made."""

    def __init__(self, path, interface):
        self.library, described = ctypes.CDLL(path), json.loads(pathlib.Path(interface).read_text())
        self.structs = {one['name']: one for one in described['structs']}
        self.calls = {one['name']: one for one in described['calls'] if one['answers']}

    def size(self, kind):
        """The bytes of a value of a type of C, of which there may be a pointer."""
        kind = kind.replace('const ', '').rstrip(' *')
        return self.structs[kind]['size']['64'] if kind in self.structs else {'uint8_t': 1, 'uint32_t': 4}.get(kind, 8)

    def value(self, dice, kind):
        """A value of a struct with numbers that are small, and at times with others."""
        if kind == 'ndef_limits':
            return b''.join(number.to_bytes(4, 'little') for number in dice.choice(LIMITS))
        made = bytearray(self.size(kind))
        for field in self.structs[kind]['fields']:
            inner = field['type']
            part = self.value(dice, inner) if inner in self.structs else dice.choice((0, 0, 1, 1, 2, 3, 5, 300)).to_bytes(self.size(inner), 'little')
            made[field['offset']:field['offset'] + len(part)] = part
        return bytes(made)

    def begun(self, dice):
        """A checker that ndef_begin wrote."""
        checker = ctypes.create_string_buffer(self.size('ndef_checker'))
        self.library.ndef_begin(self.value(dice, 'ndef_limits'), checker)
        return checker.raw

    def writer(self, dice):
        """A writer that ndef_writer_begin and ndef_writer_next left."""
        writer, count = ctypes.create_string_buffer(self.size('ndef_writer')), ctypes.c_uint64(0)
        lengths = [dice.choice((1, 2)), dice.choice((1, 2)), dice.choice((0, 1, 300))]
        how = b''.join(number.to_bytes(4, 'little') for number in (1, dice.choice((0, 3, 4)), dice.choice((0, 1, 100))))
        self.library.ndef_writer_begin(writer, *(ctypes.c_uint64(length) for length in lengths), how)
        for size in dice.choice(((), (3,), (7, 20), (CAPACITY,), (CAPACITY, CAPACITY, CAPACITY))):
            part = lengths[2] - int.from_bytes(writer.raw[24:28], 'little')
            self.library.ndef_writer_next(writer, bytes(2), ctypes.c_uint64(lengths[0]), bytes(2), ctypes.c_uint64(lengths[1]), bytes(300), ctypes.c_uint64(part),
                                          ctypes.create_string_buffer(CAPACITY), ctypes.c_uint64(size), ctypes.byref(count))
        return writer.raw

    def given(self, dice, parameter, before):
        """What a parameter is given: a number, or the bytes of what it points to."""
        role, name = parameter['role'], parameter['name']
        kind = parameter['type'].replace('const ', '').rstrip(' *')
        if role == 'length':
            of = before[-1]
            return dice.choice((0, 1, 3, 20, CAPACITY)) if of[0] == 'buffer' else len(of[1]) // of[2]
        if role == 'value':
            return dice.choice(VALUES.get(name, NUMBERS))
        if role == 'array' and kind == 'uint8_t':
            return octets_of(dice.choice(OCTETS.get(name, NAMES)))
        if role == 'array':
            return b''.join(self.value(dice, kind) for _ in range(dice.choice((0, 0, 1, 2))))
        if role in ('in', 'change'):
            made = {'ndef_checker': self.begun, 'ndef_writer': self.writer}.get(kind)
            return made(dice) if made else dice.choice((bytes(self.size(kind)), self.value(dice, kind)))
        return b''

    def memory(self, call, arguments, fill):
        """Memory for what each parameter of a call points to. What the call may write holds the number `fill`; a buffer is longer than the call knows."""
        made = {}
        for parameter in call['parameters']:
            name, role, given = parameter['name'], parameter['role'], arguments[parameter['name']]
            if role in ('out', 'buffer'):
                size = self.size(parameter['type']) * (arguments['capacity'] + MARGIN if role == 'buffer' else 1)
                made[name] = ctypes.create_string_buffer(bytes([fill]) * size, size)
            elif isinstance(given, bytes):
                made[name] = ctypes.create_string_buffer(given, max(1, len(given)))
        return made

    def made(self, name, dice):
        """Makes a call twice with the same arguments, over memory that holds other numbers. Its statuses, its arguments by their names, the end of what it wrote of
        each parameter, 0 where it wrote nothing, and the memory."""
        call, arguments, before, statuses, written = self.calls[name], {}, [], set(), collections.Counter()
        for parameter in call['parameters']:
            arguments[parameter['name']] = self.given(dice, parameter, before)
            before.append((parameter['role'], arguments[parameter['name']], self.size(parameter['type'])))
        for fill in (0xa5, 0x5a):
            memory = self.memory(call, arguments, fill)
            old = {at: part.raw for at, part in memory.items()}
            words = [(at, one['type'], memory.get(at, arguments[at])) for one in call['parameters'] for at in [one['name']]]
            statuses.add(getattr(self.library, name)(*((ctypes.c_uint32 if kind == 'uint32_t' else ctypes.c_uint64)(word) if isinstance(word, int) else word
                                                       for _, kind, word in words)))
            for at, part in memory.items():
                differs = int.from_bytes(old[at], 'little') ^ int.from_bytes(part.raw, 'little')
                written[at] = max(written[at], (differs.bit_length() + 7) // 8)
        return statuses, arguments, written, memory


class Promises:
    """What the header says that a call writes."""

    def __init__(self):
        found = re.search(r'With NDEF_BAD_ARGUMENT and NDEF_END the call has written nothing \(but (\w+) has written its (\w+)\); with NDEF_BUFFER_TOO_SMALL it has written (.+?)\. '
                          r'Where the array is too small or there is no field, (.+?) have written \*(\w+) as well, and ((?:ndef_\w+(?:, | and ))+ndef_\w+), which have no count, \*(\w+)\.', SAID)
        self.beside = {found[1]: found[2]}
        self.without_buffer = {found[3].split()[0].lstrip('*')} if found[3].startswith('*') else set()
        self.with_refusal = {name: found[5] for name in re.findall(r'ndef_\w+', found[4])}
        self.without_count = {name: found[7] for name in re.findall(r'ndef_\w+', found[6])}
        self.is_refusal_kept = 'With NDEF_OK it leaves `refusal` unchanged.' in SAID
        more = re.search(r'NDEF_MORE = \d+ +/\*.*?\((ndef_\w+) alone\) \*/', HEADER)
        self.of_more = {more[1]} if more else None
        self.refused_records = re.search(r'uint32_t records; +/\* the number of records; if refused, (\d+) \*/', HEADER)

    def may_write(self, call, status):
        """The parameters that a call may write when it answers with a status."""
        name, all_of = call['name'], {one['name'] for one in call['parameters'] if one['role'] in ('out', 'buffer', 'change')}
        buffers = {one['name'] for one in call['parameters'] if one['role'] == 'buffer'}
        if status == BAD_ARGUMENT:
            return {self.beside[name]} if name in self.beside else set()
        if status == BUFFER_TOO_SMALL and name in self.without_count:
            return {self.without_count[name]}
        if status in (END, BUFFER_TOO_SMALL):
            return (self.without_buffer if status == BUFFER_TOO_SMALL else set()) | ({self.with_refusal[name]} & all_of if name in self.with_refusal else set())
        if status == REFUSED and name != 'ndef_fields':
            return {'refusal'} if 'refusal' in all_of else all_of - buffers
        if status == OK and 'refusal' in all_of and name not in self.with_refusal and self.is_refusal_kept:
            return all_of - {'refusal'}
        return all_of


def needed(library, name, arguments, written, memory, status):
    """What is wrong with what a call says of sizes: with NDEF_BUFFER_TOO_SMALL the size that is needed, else that nothing after what it wrote has changed."""
    buffer = next((one for one in library.calls[name]['parameters'] if one['role'] == 'buffer'), None)
    if buffer is None or not (written['count'] if 'count' in memory else status in (OK, BUFFER_TOO_SMALL)):
        return
    size, count = library.size(buffer['type']), int.from_bytes(memory['count'].raw[:8] if 'count' in memory else memory['out'].raw[8:12], 'little')
    if status == BUFFER_TOO_SMALL and count <= arguments['capacity']:
        yield 'the size that is needed is there'
    if status != BUFFER_TOO_SMALL and (count > arguments['capacity'] or written[buffer['name']] > count * size):
        yield 'more is written than *count says'


def wrong_of(library, promises, name, dice, seen):
    """What is wrong with one call with random arguments."""
    call = library.calls[name]
    statuses, arguments, written, memory = library.made(name, dice)
    (status,) = statuses if len(statuses) == 1 else (None,)
    if status is None or status >= len(STATUSES) or STATUSES[status] not in call['answers']:
        yield f'{name} answers {sorted(statuses)}'
        return
    seen[name, status] += 1
    changed = {at for at, end in written.items() if end}
    if changed - promises.may_write(call, status):
        yield f'{name}: with {STATUSES[status]} it has written {sorted(changed - promises.may_write(call, status))}'
    if status == BUFFER_TOO_SMALL and changed != promises.may_write(call, status):
        yield f'{name}: with NDEF_BUFFER_TOO_SMALL it has written {sorted(changed)}'
    of_refusal = next((one['name'] for one in call['parameters'] if one['type'] == 'ndef_checked *'), None)
    if status == REFUSED and of_refusal and int.from_bytes(memory[of_refusal].raw[8:12], 'little') != int(promises.refused_records[1]):
        yield f'{name}: refused, and records is {memory[of_refusal].raw[8:12].hex()}'
    if (status == MORE) and name not in (promises.of_more or ()):
        yield f'{name} answers NDEF_MORE'
    yield from (f'{name}: {one}' for one in needed(library, name, arguments, written, memory, status))


# Sentences of the header that promise what a call writes or leaves, each looked at above.
LOOKED_AT = (
    'With NDEF_BAD_ARGUMENT and NDEF_END the call has written nothing (but ndef_begin has written its checker);',
    'with NDEF_BUFFER_TOO_SMALL it has written *count alone.',
    'Where the array is too small or there is no field, ndef_fields, ndef_field_at and ndef_next_field have written *refusal as well, and ndef_items, ndef_items_within and ndef_handover_items, which have no count, *out.',
    'the items are unchanged.',
    'those after them are unchanged.',
    'Where the buffer is too small, the answer is NDEF_BUFFER_TOO_SMALL and *count has the size that is needed:',
    'the buffer is too small, and unchanged;',
    '*count has the size that is needed',
    'the bytes so far begin a message, and more must follow (ndef_feed alone)',
    'if refused, 0',
    'After these two the buffer and *count are unchanged.',
    'With NDEF_OK it leaves `refusal` unchanged.',
    'refusal->place and refusal->reason say where in the payload and why, refusal->records is 0, and nothing else is written.',
    'Where the array is too small, the answer is NDEF_BUFFER_TOO_SMALL, *count has the size that is needed, and the array is unchanged:',
    'Elements after *count are unchanged.',
    '*count has the size that is needed, *refusal says the rest, and the array is unchanged.',
    'After either, `out` is unchanged.',
    '`out` is unchanged.',
    'After either, the field is unchanged.',
    'Bytes of the buffer after it are unchanged.',
    'the buffer and `builder` are unchanged.',
)
PROMISING = re.compile(r'unchanged|(?:has|have) written|nothing else|leaves|\balone\)|if refused, \d|size that is needed')


def sentences():
    """The sentences of the header's comments that promise what a call writes or leaves."""
    parts = itertools.chain.from_iterable(re.split(r'(?<=[.;:]) ', comment.strip()) for comment in COMMENTS)
    return {part for part in parts if PROMISING.search(part)}


def main(path, interface, tries='2000'):
    library, promises, seen, wrong = Library(path, interface), Promises(), collections.Counter(), collections.defaultdict(int)
    said = sentences()
    count('each promise of the header is looked at', said <= set(LOOKED_AT), *sorted(said - set(LOOKED_AT)))
    count('the header has each promise', set(LOOKED_AT) <= said, *sorted(set(LOOKED_AT) - said))
    of_more = {name for name, call in library.calls.items() if 'NDEF_MORE' in call['answers']}
    count('the header names the call that answers NDEF_MORE', promises.of_more == of_more, f'{promises.of_more}, not {of_more}')
    for name in library.calls:
        dice = random.Random(name)
        for _ in range(int(tries)):
            for one in wrong_of(library, promises, name, dice, seen):
                wrong[one] += 1
    count('each call writes what the header says, with each status', not wrong, *(f'{number} times: {one}' for one, number in list(wrong.items())[:20]))
    unseen = [f'{name} {status}' for name, call in library.calls.items() for status in call['answers'] if not seen[name, STATUSES.index(status)]]
    count('each call answers with each status that it has', not unseen, *unseen)
    finish()


main(*sys.argv[1:])
