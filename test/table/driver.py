"""driver.py TABLE: makes each call of the table through the public interface of the Python module, and prints a line for each row.

What is given is overwritten before an answer is read, what is answered is changed and read again, and three threads make all calls again
in another order: nothing may be another answer then."""
import io
import json
import pickle
import random
import re
import sys
import threading

import simbegyor_ndef as ndef
from simbegyor_ndef import handover, layout

NOT = {
    'reason': 'an error has the sentence',
    'which': 'the error is of the whole record',
    'profile': 'message_decoder reads by the strict profile, as ndeflib has no other',
    'limits': 'only MAX_PAYLOAD_SIZE can be set, as in ndeflib',
    'form': 'message_encoder writes the shortest spelling alone',
    'spelled': 'a type without / or : has no spelling, as in ndeflib',
    'empty': 'no octets are no message and no refusal, and an empty record has no id and payload, as in ndeflib',
    'links': 'a program compares names',
    'title': 'titles are a dict by their languages',
    'icons': 'icons are those of the types image/.. and video/..',
    'kind': 'the class of a record says it',
    'written': 'what was read of a payload is written again',
    'order': 'a poster is written in the order in which its parts are set',
    'number': 'the data of an error of the reasons 1 to 3 are a number',
    'place': 'the place counts from the message',
    'of_length': 'it is in the place of the refusal in the message',
    'format': 'the type of a carrier is spelled as that of a record',
    'made': 'a record that has no octets is not made', 'opaque': 'there is no option for it', 'media': 'the parts of a payload of a refused poster are no attribute',
}
POWERS, ACTIONS = ('inactive', 'active', 'activating', 'unknown'), ('exec', 'save', 'edit')
PREFIXES = {1: 'urn:nfc:wkt:', 4: 'urn:nfc:ext:'}
USUAL = {'payload': 1048576, 'records': 1024, 'chunks': 4096}
GIVEN = threading.local()


def hexed(digits):
    """Octets to be given: bytes, or a bytearray or a view within one, which is overwritten later."""
    octets = bytearray.fromhex(digits)
    kind = GIVEN.kind % 3
    if kind == 0:
        return bytes(octets)
    if kind == 1:
        GIVEN.octets.append(octets)
        return octets
    GIVEN.octets.append(bytearray(b'\xd1' + octets + b'\xd1'))
    return memoryview(GIVEN.octets[-1])[1:-1]


def plainly(digits):
    """The same, as a bytearray where a view isn't taken."""
    octets = hexed(digits)
    return bytearray(octets) if isinstance(octets, memoryview) else octets


def spoil():
    """Overwrites what was given."""
    for octets in GIVEN.octets:
        octets[:] = b'\xaa' * len(octets)
    GIVEN.octets.clear()


class Not(Exception):
    pass


def latin(text):
    return text.encode('latin-1').hex()


def utf8(text):
    return text.encode('utf-8', 'surrogateescape').hex()


def parts_of(spelled):
    for tnf, prefix in PREFIXES.items():
        if spelled.startswith(prefix):
            return tnf, latin(spelled[len(prefix):])
    if spelled in ('', 'unknown'):
        return 5 if spelled else 0, ''
    head, slash, _ = spelled.partition('/')
    return 2 if slash and ':' not in head else 3 if ':' in spelled else '-spelled', latin(spelled)


def spelled_of(tnf, kind, why='spelled'):
    text = bytes.fromhex(kind).decode('latin-1')
    spelled = PREFIXES.get(tnf, '') + text if tnf in (1, 2, 3, 4) else {0: '', 5: 'unknown', 6: 'unchanged', 7: 'reserved'}[tnf]
    if tnf in (2, 3) and kind and parts_of(spelled) != (tnf, kind) or tnf in (0, 5, 6, 7) and kind or text in ('', 'unknown') and tnf in (2, 3):
        raise Not(why)
    return spelled


def name_of(octets):
    return bytes.fromhex(octets).decode('latin-1')


# ---- values

def of_error(error):
    if error is None:
        return None
    is_number = isinstance(error.error_data, int)
    return [error.error_reason, '-number' if is_number else error.error_data.hex(), error.error_data if is_number else None]


def of_carriers(record):
    return [[POWERS.index(power), latin(one), list(map(latin, others))] for power, one, others in record.alternative_carriers]


def value(record):
    first = value_once(record)
    if isinstance(record, ndef.SmartposterRecord):
        for listed in (record.records, record.title_records, record.titles, record.icons):
            listed.clear()
    elif isinstance(record, (ndef.HandoverRequestRecord, ndef.HandoverSelectRecord)):
        for carrier in record.alternative_carriers:
            carrier.auxiliary_data_reference.append('more')
        record.alternative_carriers.clear(), record.records.clear()
    assert value_once(record) == first, 'an answer that was changed changes the record'
    return first


def value_once(record):
    if record.refusal:
        return {'refused': [record.refusal.place, record.refusal.reason]}
    if isinstance(record, ndef.TextRecord):
        return {'kind': 'text', 'language': utf8(record.language), 'text': utf8(record.text), 'utf16': record.encoding == 'UTF-16'}
    if isinstance(record, ndef.UriRecord):
        return {'kind': 'uri', 'uri': utf8(record.iri)}
    if isinstance(record, ndef.SmartposterRecord):
        icons = [one for one in record.records if type(one) is ndef.Record and parts_of(one.type)[0] in (2, '-spelled')]
        shown = [[latin(one.type), one.data.hex()] for one in icons if one.type.startswith(('image/', 'video/'))]
        assert record.icons == {name_of(kind): bytes.fromhex(data) for kind, data in shown}
        titles = [[utf8(one.language), utf8(one.text), one.encoding == 'UTF-16'] for one in record.title_records]
        assert [*record.titles.items()] == [*{bytes.fromhex(l).decode(): bytes.fromhex(t).decode() for l, t, _ in titles}.items()]
        action = record.action
        return {'kind': 'poster', 'uri': utf8(record.resource.iri), 'titles': titles, 'action': ACTIONS.index(action) if isinstance(action, str) else action,
                'size': record.resource_size, 'media': None if record.resource_type is None else utf8(record.resource_type),
                'icons': shown if len(shown) == len(icons) else '-icons'}
    if isinstance(record, ndef.HandoverRequestRecord):
        return {'kind': 'request', 'version': list(record.version_info), 'carriers': of_carriers(record), 'collision': record.collision_resolution_number}
    if isinstance(record, ndef.HandoverSelectRecord):
        return {'kind': 'select', 'version': list(record.version_info), 'carriers': of_carriers(record), 'error': of_error(record.error)}
    if isinstance(record, ndef.HandoverCarrierRecord):
        form, kind = parts_of(record.carrier_type)
        return {'kind': 'carrier', 'format': '-format', 'type': kind if form in (1, 2, 3, 4) and not record.carrier_type.startswith(('unknown', 'unchanged', 'reserved')) else '-format', 'data': record.carrier_data.hex()}
    return None


def made(given):
    kind, text = given['kind'], lambda name: bytes.fromhex(given[name]).decode()
    if kind == 'text':
        return ndef.TextRecord(text('text'), text('language'), 'UTF-16' if given['utf16'] else 'UTF-8')
    if kind == 'uri':
        return ndef.UriRecord(text('uri'))
    if kind == 'poster':
        record = ndef.SmartposterRecord(text('uri'), None, given['action'], {name_of(m): plainly(d) for m, d in given['icons']}, given['size'],
                                        None if given['media'] is None else text('media'))
        for language, title, utf16 in given['titles']:
            record.set_title(bytes.fromhex(title).decode(), bytes.fromhex(language).decode(), 'UTF-16' if utf16 else 'UTF-8')
        return record
    if kind == 'carrier':
        return ndef.HandoverCarrierRecord(spelled_of(given['format'], given['type'], 'format') if given['format'] in (1, 2, 3, 4) and given['type'] else missing('format'), plainly(given['data']))
    carriers, version = [(POWERS[p] if p < 4 else 'none', name_of(r), *map(name_of, a)) for p, r, a in given['carriers']], '%d.%d' % tuple(given['version'])
    if kind == 'request':
        return ndef.HandoverRequestRecord(version, given['collision'], *carriers)
    reason, data, number = given['error'] or (None, '', None)
    return ndef.HandoverSelectRecord(version, reason is not None and (reason, plainly(data) if number is None else number) or None, *carriers)


def missing(why):
    raise Not(why)


# ---- operations

def strict(row):
    return missing('profile') if row.get('profile') else hexed(row['bytes'])


def records_of(data, opaque):
    raw, known = list(ndef.message_decoder(data, known_types={})), list(ndef.message_decoder(data, 'relax' if opaque else 'strict'))
    spoil()
    assert [one.name for one in raw] == [one.name for one in known]
    # Types of two type name formats may be spelled alike: what is written has the number.
    formats = [b''.join(ndef.message_encoder([one], unchecked=True))[0] & 7 for one in raw]
    return [[tnf, parts_of(one.type)[1], latin(one.name), one.data.hex(), '-kind', value(typed)] for tnf, one, typed in zip(formats, raw, known)]


def error_of(error):
    return error.place, error.reason, error.number, error.sentence, error.hint, error.found_hint, str(error)


def decode(row):
    data = strict(row)
    if not data:
        raise Not('empty')
    checked = None if row.get('opaque') else ndef.Checker().feed(data)
    (among,) = ndef.decode_many([data])
    if not row.get('opaque'):
        try:
            assert list(ndef.message_decoder(data)) == among, 'decode_many'
        except ndef.DecodeError as error:
            assert all(error_of(error) == error_of(one) for one in (among, pickle.loads(pickle.dumps(error)), pickle.loads(pickle.dumps(among)))), 'an error'
    records = list(ndef.message_decoder(data, 'relax' if row.get('opaque') else 'strict', whole=True)) and records_of(data, row.get('opaque'))
    return {'length': checked.length if checked else '-opaque', 'records': records}


def feed(row):
    if row.get('opaque'):
        raise Not('opaque')
    checker, steps = ndef.Checker(row.get('profile', 'strict')), []
    for part in row['parts']:
        try:
            steps.append(['whole' if checker.feed(hexed(part)) else 'more', checker.place])
        except ndef.DecodeError as error:
            steps.append(['refused', error.place, error.reason])
    return {'fed': steps}


class Failing(Exception):
    """What a source raises."""


class Source(io.RawIOBase):
    def __init__(self, parts, fails):
        self.fails, self.parts = fails, [part for part in map(bytes.fromhex, parts) if part]

    def readable(self):
        return True

    def read(self, size=-1):
        if self.fails and not self.parts:
            raise Failing
        part = self.parts.pop(0) if self.parts else b''
        if 0 <= size < len(part):
            self.parts.insert(0, part[size:])
        return part if size < 0 else part[:size]

    def readinto(self, buffer):
        part = self.read(len(buffer))
        buffer[:len(part)] = part
        return len(part)


def source_of(row):
    """A stream that can neither peek nor seek, one that can peek, or one that can seek, after other octets."""
    source = Source(row['parts'], row.get('fails'))
    if GIVEN.kind % 3 == 1:
        return io.BufferedReader(source, 16)
    if GIVEN.kind % 3 == 2 and not row.get('fails'):
        source = io.BytesIO(b'\xd1\xd1' + bytes.fromhex(''.join(row['parts'])))
        source.seek(2)
    return source


def stream(row):
    source, messages = source_of(row), []
    if row.get('profile'):
        raise Not('profile')
    while True:
        try:
            records = list(ndef.message_decoder(source, known_types={} if row.get('opaque') else None))
        except ndef.DecodeError as error:
            return {'messages': messages, 'end': {'place': error.place, 'in_stream': '-place', 'reason': error.reason}}
        except Failing:
            return {'messages': messages, 'end': 'source'}
        if not records:
            return {'messages': messages, 'end': None}
        messages.append([[*parts_of(one.type), latin(one.name), one.data.hex() if type(one) is ndef.Record else '-order'] for one in records])


def fields(row):
    data = hexed(row['bytes']) or missing('empty')
    if row.get('opaque'):
        raise Not('opaque')
    try:
        found, refused = ndef.fields(data, row.get('profile', 'strict')), None
    except ndef.DecodeError as error:
        found, refused = error.fields, [error.place, error.reason]
    octets = bytes(data)
    spoil()
    assert all(one.octets == octets[one.at:one.at + one.length] for one in found)
    return {'fields': [[one.at, one.length, one.depth, one.name] for one in found], 'refused': refused}


def found_text(text, given):
    part = re.search(r'read `octets\[([\d:]+)\]`', text)
    return [text.partition(':')[0], [min(int(one), given) for one in part[1].split(':') if one] if part else []]


def refusal(row):
    data, profile = hexed(row['bytes']) or missing('empty'), row.get('profile', 'strict')
    if row.get('opaque'):
        raise Not('opaque')
    if not ndef.Record.MAX_PAYLOAD_SIZE:
        raise Not('limits')
    found = ndef.find_hint(data, profile)
    why, hint = ndef.why(data, profile), ndef.hint(data, profile)
    if profile == 'strict' and why:
        try:
            list(ndef.message_decoder(data))
        except ndef.DecodeError as error:
            copy = pickle.loads(pickle.dumps(error))
            spoil()
            assert all((one.sentence, one.hint, one.found_hint) == (why, hint, found) for one in (error, copy)), 'what an error says'
    return {'why': why, 'hint': hint, 'found': found and [int(found.kind), found.place, found.length], 'text': found and found_text(found.text, len(data))}


def warnings(row):
    data = hexed(row['bytes'])
    found = [ndef.field_warning(one.name, one.octets) for one in ndef.fields(data)]
    count = len(list(ndef.message_decoder(data, known_types={}))) + 1
    return {'fields': [[i, said] for i, said in enumerate(found) if said],
            'records': [[i, said] for i, said in ((i, ndef.record_warning(data, i)) for i in range(count)) if said]}


def read_single(row):
    """The record of a type and a payload, read in a message of its own."""
    if row.get('profile'):
        raise Not('profile')
    octets = b''.join(ndef.message_encoder([ndef.Record('urn:nfc:wkt:' + name_of(row['type']), '', plainly(row['payload']))], unchecked=True))
    (record,) = ndef.message_decoder(octets, errors='relax')
    spoil()
    return record


def value_of(row):
    shown = value(read_single(row))
    return shown if shown and 'refused' in shown else {'value': shown}


def value_within(record):
    if isinstance(record, ndef.smartposter.ActionRecord):
        return {'kind': 'action', 'number': ACTIONS.index(record.action) if isinstance(record.action, str) else record.action}
    if isinstance(record, ndef.smartposter.SizeRecord):
        return {'kind': 'size', 'number': record.resource_size}
    if isinstance(record, ndef.smartposter.TypeRecord):
        return {'kind': 'media', 'media': utf8(record.resource_type)}
    if isinstance(record, handover.CollisionResolutionRecord):
        return {'kind': 'collision', 'number': record.random_number}
    if isinstance(record, handover.AlternativeCarrierRecord):
        others = list(map(latin, record.auxiliary_data_reference))
        return {'kind': 'alternative', 'alternative': [POWERS.index(record.carrier_power_state), latin(record.carrier_data_reference), others]}
    if isinstance(record, handover.ErrorRecord):
        return {'kind': 'error', 'error': of_error(record.error)}
    return value(record)


def within(row):
    record = read_single(row)
    shown = value(record)
    if shown and 'refused' in shown:
        return shown
    if not hasattr(record, 'records'):
        return {'within': None}
    read = lambda: [[*parts_of(one.type), latin(one.name), one.data.hex() if type(one) is ndef.Record else '-written', '-kind',  # noqa: E731
                     value_within(one)] for one in record.records]
    answer = read()
    for one in record.records:
        if hasattr(one, 'auxiliary_data_reference'):
            list(one.auxiliary_data_reference).append('more')
    record.records.clear()
    assert read() == answer, 'an answer that was changed changes the record'
    return {'within': answer}


def plain(tnf, kind, name, payload):
    if tnf == 0 and (name or payload):
        raise Not('empty')
    return ndef.Record(spelled_of(tnf, kind), name_of(name), plainly(payload))


def encode(row, **how):
    if row.get('form'):
        raise Not('form')
    if not row['records']:
        raise Not('empty')
    records = [plain(*one) for one in row['records']]
    spoil()
    parts = list(ndef.message_encoder(records, unchecked=row.get('unchecked', False), **how))
    return {'parts': [part.hex() for part in parts]} if how else {'bytes': b''.join(parts).hex()}


def line(row):
    try:
        list(ndef.message_decoder(hexed(row['bytes']))) if 'bytes' in row else list(ndef.message_encoder([plain(*one) for one in row['records']]))
    except (ndef.DecodeError, ndef.EncodeError) as error:
        return {'line': str(error)}
    except ValueError:
        raise Not('made') from None


def parts(row):
    return encode(row, size=row['size'])


def record_parts(row):
    tnf, kind, name = row['record']
    record = ndef.StreamedRecord(spelled_of(tnf, kind), name_of(name), iter(map(plainly, row['parts'])), row['length'])
    return {'bytes': b''.join(ndef.message_encoder([record], unchecked=True, size=16)).hex()}


def normalize(row):
    if row.get('opaque'):
        raise Not('opaque')
    list(ndef.message_decoder(strict(row)))
    return {'bytes': b''.join(ndef.message_encoder(list(ndef.message_decoder(strict(row), known_types={})))).hex()}


def make(row):
    record = made(row['value'])
    spoil()
    payload = bytes(record.data)
    (again,) = ndef.message_decoder(b''.join(ndef.message_encoder([record], unchecked=True)))
    shown = value(again)
    assert shown == value(record)
    return {'payload': '-order' if shown['kind'] == 'poster' else payload.hex(), 'value': shown}


def layout_(row):
    forms = {'octets': layout.octets, 'within': layout.within, 'counted': layout.counted, 'utf8': layout.utf8, 'rest': layout.rest}

    class Own(ndef.record.GlobalRecord):
        _type, _layout = 'urn:nfc:ext:a:b', tuple(forms[form](*numbers) for form, *numbers in row['fields'])

        @classmethod
        def _decode_payload(cls, octets, errors):
            return ndef.Record(cls._type, '', octets)
    octets = b''.join(ndef.message_encoder([ndef.Record('urn:nfc:ext:a:b', '', plainly(row['payload']))]))
    (record,) = ndef.message_decoder(octets, 'relax', {'urn:nfc:ext:a:b': Own})
    return {'refused': [record.refusal.place, record.refusal.reason], 'of_length': '-of_length'} if record.refusal else {'fits': True}


OPERATIONS = {'decode': decode, 'feed': feed, 'stream': stream, 'fields': fields, 'refusal': refusal, 'warnings': warnings, 'value_of': value_of, 'within': within,
              'encode': encode, 'line': line, 'parts': parts, 'record_parts': record_parts, 'normalize': normalize, 'make': make, 'layout': layout_,
              'links': lambda row: missing('links'), 'title': lambda row: missing('title'), 'reason': lambda row: missing('reason'), 'check': lambda row: missing('limits'),
              'decode_all': lambda row: missing('empty')}


def named(text):
    """The argument that an error names."""
    names = {'the version': 'version', 'an action': 'action', 'an alternative carrier': 'carriers', 'no error': 'error', 'a power': 'carriers', 'a number that': 'collision'}
    return next((name for words, name in names.items() if text.startswith(words)), '-which')


def answer(row):
    limits = {**USUAL, **(row.get('limits') or {})}
    GIVEN.octets, GIVEN.kind = [], len(row['id']) + ord(row['id'][-1])
    try:
        if {**limits, 'payload': 0} != {**USUAL, 'payload': 0}:
            raise Not('limits')
        if ndef.Record.MAX_PAYLOAD_SIZE != limits['payload']:
            ndef.Record.MAX_PAYLOAD_SIZE = limits['payload']
        return OPERATIONS[row['op']](row)
    except Not as why:
        return {'not': why.args[0]}
    except ndef.DecodeError as error:
        return {'refused': [error.place, error.reason]}
    except ndef.EncodeError as error:
        if error.at is None and error.reason != 'BadArgument':
            return {'not': 'limits'}
        if error.at is None:
            return {'bad': '-which' if row['op'] == 'make' else True}
        return {'refused': {'record': error.record, 'place': error.at, 'reason': error.reason, 'sentence': error.what}}
    except (ValueError, NotImplementedError) as error:
        return {'bad': named(str(error)) if row['op'] == 'make' else True}
    except Exception as error:
        return {'failed': repr(error)}


def again(rows, answers, seed, others):
    """Makes the calls again in another order, and adds the rows that are answered otherwise."""
    for index in random.Random(seed).sample(range(len(rows)), len(rows)):
        if 'limits' not in rows[index] and answer(rows[index]) != answers[index]:
            others.add(index)


def main():
    rows = [json.loads(line) for line in open(sys.argv[1], encoding='utf-8')]
    answers = [answer(row) for row in rows]
    ndef.Record.MAX_PAYLOAD_SIZE = USUAL['payload']
    others, interval = set(), sys.getswitchinterval()
    sys.setswitchinterval(1e-5)
    threads = [threading.Thread(target=again, args=(rows, answers, seed, others)) for seed in range(3)]
    for thread in threads:
        thread.start()
    for thread in threads:
        thread.join()
    sys.setswitchinterval(interval)
    print(json.dumps({'language': 'Python', 'not': NOT}))
    for index, row in enumerate(rows):
        print(json.dumps({'id': row['id'], 'answer': {'failed': 'another answer in threads'} if index in others else answers[index]}))


main()
