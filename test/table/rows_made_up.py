"""The rows that are made up: of messages and values of chance, and at the bounds of what is read and written."""
import made_up
from made_up import (FINE_BAD, MAKERS, R, a_message, a_record, changed, cut, nested_extra, octets)
from oracle import FINE, Bad

READING = ('check', 'decode', 'fields', 'refusal')


def limits(**others):
    return {'payload': 1048576, 'records': 1024, 'chunks': 4096, **others}


def profile():
    """The strict profile, or now and then the standard one."""
    return R.choice(({}, {}, {'profile': 'standard'}))


def encoded(records, **form):
    return made_up.O.encode({'records': records, 'unchecked': True, 'form': form or None})['bytes']


def some_messages():
    messages = []
    while len(messages) < 700:
        if len(messages) % 3 != 2:
            messages.append(a_message()[0])
            continue
        kind, payload = nested_extra(len(messages) // 3)
        extra = [[2, b'a/b'.hex(), '30', '01'], [4, b'a:b'.hex(), '31', '02']][:R.randrange(3)]
        records = [*extra[1:], [1, kind.encode().hex(), R.choice(('', '37')), payload], *extra[:1]]
        messages.append(encoded(records, **({'chunk': 5} if R.random() < .1 else {})))
    return messages


def reading(table, messages, wrong):
    for data in messages[:450] + wrong[:350]:
        table.add('made', op='decode', bytes=data)
    for data in (messages + wrong)[::7]:
        table.add('made', op='decode', bytes=data, profile='standard')
        table.add('made', op='decode', bytes=data, opaque=True)
    for data in wrong[:60] + messages[:60]:
        table.add('made', op='decode_all', bytes=data + R.choice(('', '', '00', 'd00000')))
        some = {'payload': R.choice((1, 20, 100, 4294967295)), 'records': R.choice((1, 2, 65535)), 'chunks': R.choice((1, 3, 65535))}
        table.add('made', op='check', bytes=data + R.choice(('', '00')), limits=some)
    for data in messages[200:330] + wrong[200:450]:
        table.add('made', op='fields', bytes=data, **profile())
    for data in messages[::3] + messages[2:500:3]:
        table.add('made', op='warnings', bytes=data)
    for data in messages[50:230]:
        table.add('made', op='normalize', bytes=data)


def read_by(table, data, **options):
    """Each operation that reads a message and has options."""
    for op in READING:
        table.add('made', op=op, bytes=data, **options)
    table.add('made', op='feed', parts=[data], **options)


def bounds_of_limits(table):
    """No such limits; a payload of just the limit and of one more; the profile and limits of one's own together."""
    for wrong in ({'payload': 0}, {'records': 0}, {'chunks': 0}, {'records': 65536}, {'chunks': 65536}):
        read_by(table, 'd00000', limits=limits(**wrong))
    for size, data in ((3, '010203'), (3, '01020304'), (1, '01'), (1, '0102'), (4294967295, '01')):
        table.add('made', op='encode', records=[[5, '', '', data]], limits=limits(payload=size))
        read_by(table, 'd500%02x' % (len(data) // 2) + data, limits=limits(payload=size))
    for some, data in (({'records': 1}, '9500000102'), ({'chunks': 1}, 'b500010156000102'), ({'records': 1, 'chunks': 2}, 'b50001015600010255')):
        read_by(table, data, limits=limits(**some))
    for data in ('d101015524', 'd70000', 'd1010154ff', 'd102055370d101015524', '9500015655000102'):
        for some in ({'payload': 1048575}, {'records': 1}, {'chunks': 1}):
            read_by(table, data, profile='standard', limits=limits(**some))


def options_together(table, messages, wrong):
    """Each operation with each profile, opaque and not, with the usual limits and with others."""
    for data in messages[3:9] + wrong[3:9] + ['d101015524', 'd1010154ff', 'd70000']:
        for options in ({}, {'profile': 'standard'}, {'opaque': True}, {'profile': 'standard', 'opaque': True}):
            for some in ({}, {'limits': limits(records=65535, chunks=65535, payload=4294967295)}, {'limits': limits(records=1)}):
                read_by(table, data, **options, **some)
                table.add('made', op='decode_all', bytes=data, **options, **some)
                table.add('made', op='stream', parts=[data, data], **options, **some)
                table.add('made', op='normalize', bytes=data, **options, **some)


def large_ones(table):
    """More than any buffer that a language keeps, and more records, chunks and bytes than the usual limits allow."""
    many = encoded([[1, '54', '', '02656e%02x' % (65 + number % 26)] for number in range(300)])
    large = encoded([[2, '612f62', '30', '5a' * 70000]])
    for data in (many, large, many[:-2], large[:-2]):
        for op in (*READING, 'normalize'):
            table.add('made', op=op, bytes=data)
        table.add('made', op='feed', parts=cut(data))
        table.add('made', op='stream', parts=cut(data) + ['d00000'])
    more = encoded([[5, '', '%02x' % (number % 256), ''] for number in range(1500)])
    chunks = encoded([[5, '', '', '01' * 4200]], chunk=1)
    for data, some in ((more, {'records': 1500}), (more, {'records': 1499}), (more, {}), (chunks, {'chunks': 4200}), (chunks, {'chunks': 4199}), (chunks, {})):
        options = {'limits': limits(**some)} if some else {}
        for op in (*READING, 'normalize'):
            table.add('made', op=op, bytes=data, **options)
        table.add('made', op='feed', parts=[data[:2000], '', data[2000:]], **options)
        table.add('made', op='stream', parts=cut(data), **options)
    records = [[5, '', '%02x' % (number % 256), ''] for number in range(1025)]
    for options in ({}, {'limits': limits(records=1025)}):
        table.add('made', op='encode', records=records, **options)
        table.add('made', op='parts', records=records, size=4096, **options)


def feeding(table, messages, wrong):
    for data in messages[100:250] + wrong[100:350]:
        table.add('made', op='feed', parts=cut(data), **profile())
    for data in messages[20:60] + wrong[20:40]:  # nothing after each part
        table.add('made', op='feed', parts=[part for one in cut(data) for part in (one, '', '')], **profile())
    for _ in range(150):
        data = ''.join(R.choice(messages) for _ in range(R.randint(0, 3))) + R.choice(('', '', R.choice(wrong), 'd1', '91010854'))
        table.add('made', op='stream', parts=cut(data, 8), **({'fails': True} if R.random() < .4 else {}))


def of_suite(table, taken):
    """Fields and refusals of cases of the suite."""
    for row, _ in R.sample(taken, 250):
        if row['bytes'] and len(row['bytes']) < 2000 and not row.get('opaque') and not row.get('limits'):
            table.add('case', op='fields', **row)
            table.add('case', op='refusal', **row)


def refusals(table, messages, wrong, hints):
    for op in ('fields', 'refusal'):
        table.add('made', op=op, bytes='d00000', opaque=True)
        table.add('made', op=op, bytes='', profile='standard')
    for data in ('', 'd10101557a', 'd1010154ff'):
        table.add('made', op='refusal', bytes=data, opaque=True)
    version, since = table.oracle.l.version(), 0
    for line in hints.read_text().splitlines():
        if line.startswith('# since '):
            major, minor = map(int, line[len('# since '):].split('.'))
            since = major << 16 | minor << 8
        elif line.strip() and line[0] != '#':
            kind, at, length, data = line.split()
            answer = table.add('hints', op='refusal', bytes='' if data == '-' else data)
            if answer and kind != '0' and since <= version:
                assert answer['found'] == [int(kind), int(at), int(length)], line
                table.counted['case'] += 1
            since = 0
    for data in wrong[:250]:
        table.add('made', op='refusal', bytes=data, **profile())
    for data in messages[:30]:
        length = len(data) // 2
        for around in ('000003' + ('%02x' if length < 255 else 'ff%04x') % length + data + 'fe', '%04x' % length + data, 'ffff' + data):
            table.add('made', op='refusal', bytes=around)


def linking(table, messages):
    """Links of each handover; of one that is none, in a message whose payloads weren't looked into; and of what is no handover."""
    for data in messages:
        records = made_up.O.answer({'op': 'decode', 'bytes': data}).get('records', [])
        for index, record in enumerate(records):
            if record[4] in (4, 5):
                table.add('made', op='links', bytes=data, index=index)
        if records and R.random() < .02:
            table.add('made', op='links', bytes=data, index=R.choice((0, len(records))))
    for data in messages[2:20:3]:
        table.add('made', op='links', bytes=data, index=-1)
        table.add('made', op='links', bytes=data, index=99)
    for kind, payload in (('4873', ''), ('4873', '22'), ('4872', '12'), ('4873', '12d1020361630101'), ('4873', '12d10204616301013000'), ('4872', '12d10202637212')):
        table.add('made', op='links', bytes=encoded([[1, kind, '', payload], [2, '612f62', '30', '']]), opaque=True, index=0)
    # Two ids that are one where they are spelled in numbers, folded, cut or decoded; the carrier refers to the other.
    for one, other in (('0117', '0c03'), ('61', '41'), ('61', '6162'), ('61', '6100'), ('e9', 'c3a9'), ('ff', 'fe')):
        carrier = encoded([[1, '6163', '', f'01{len(other) // 2:02x}{other}00']])
        table.add('made', op='links', bytes=encoded([[1, '4873', '', '12' + carrier], [2, '612f62', one, ''], [2, '612f62', other, '']]), index=0)
    # Of many records with one id the first.
    carriers = encoded([[1, '6163', '', f'0101{name}00'] for name in ('32', '30', '33', '31')])
    many = [[2, '612f62', '3%d' % (number * number % 7 % 4), ''] for number in range(90)]
    table.add('made', op='links', bytes=encoded([[1, '4873', '', '12' + carriers], *many]), index=0)


# Octets of a text or a URI, and which of them is refused, None where none is: the bounds of the table of RFC 3629, 4.
SEQUENCES = [(octets, None) for octets in (b'\xc2\x80', b'\xdf\xbf', b'\xe0\xa0\x80', b'\xec\x80\x80', b'\xed\x9f\xbf', b'\xee\x80\x80', b'\xef\xbf\xbf',
             b'\xf0\x90\x80\x80', b'\xf3\xbf\xbf\xbf', b'\xf4\x8f\xbf\xbf')]
SEQUENCES += [(octets, 0) for octets in (b'\xff', b'\x80', b'\xbf', b'\xc0\x80', b'\xc1\xbf', b'\xf5\x80\x80\x80')]
SEQUENCES += [(octets, 1) for octets in (b'\xc2a', b'\xc2\xc2', b'\xe0\x9f\xbf', b'\xed\xa0\x80', b'\xf0\x8f\xbf\xbf', b'\xf4\x90\x80\x80')]
SEQUENCES += [(b'\xe1\x80a', 2), (b'\xe1\x80\xc0', 2), (b'\xf1\x80aa', 2), (b'\xf1\x80\x80a', 3), (b'\xf1\x80\x80\xc0', 3)]
# The same of texts in UTF-16 (RFC 2781, 2.1): of a big-endian unit the first octet, of a little-endian one the second.
UNITS = (('00410042', None), ('d800dc000041', None), ('feffd800dc000041', None), ('fffe00d800dc4100', None), ('dc0000410042', 0), ('0041df000042', 2),
         ('d80000410042', 2), ('d800d8000042', 2), ('feffdc0000410042', 2), ('feffd80000410042', 4), ('fffe00dc41004200', 3), ('fffe00d841004200', 5),
         ('fffe00d800d800dc', 5), ('fffed8dc00004200', 3), ('fffe410000dc4200', 5))


def refused_at(table, place, reason, **row):
    """A row that is refused at a place for a reason, or at none."""
    answer = table.add('made', **row)
    assert answer is None or answer.get('refused') == (None if place is None else [place, reason]), (row, answer)


def encodings(table):
    """Octets that are UTF-8, and others, at each place of texts and URIs of each length; UTF-16; languages that aren't ASCII."""
    for kind, front in (('54', b'\x02en'), ('55', b'\x04')):
        for length in (*range(8, 36), 63, 64, 65, 80, 1000, 16384, 16385):
            for at in sorted({*range(4), 7, 8, 15, 16, 17, length // 2, length - 4} & {*range(length - 3)}):
                octets, bad = SEQUENCES[(length + at) % len(SEQUENCES)]
                payload = front + b'a' * at + octets + b'a' * (length - at - len(octets))
                refused_at(table, bad if bad is None else len(front) + at + bad, 'Utf8', op='value_of', type=kind, payload=payload.hex())
        for octets, bad in SEQUENCES:
            refused_at(table, bad if bad is None else len(front) + 20 + bad, 'Utf8', op='value_of', type=kind, payload=(front + b'a' * 20 + octets + b'aaa').hex())
    for units, bad in UNITS:
        refused_at(table, bad if bad is None else 3 + bad, 'Utf16', op='value_of', type='54', payload='82656e' + units)
    for length in (1, 2, 5, 8, 16, 17, 63):
        for at in {0, length // 2, length - 1}:
            payload = bytes([length]) + b'a' * at + b'\xc3' + b'a' * (length - at + 3)
            refused_at(table, 1 + at, 'Language', op='value_of', type='54', payload=payload.hex())


WITHOUT_SPELLING = ([1, '', '', ''], [5, '61', '', ''], [0, '', '30', ''], [0, '61', '', ''], [6, '', '', ''], [7, '', '', ''], [2, '61' * 256, '', ''],
                    [2, '612f', '30' * 256, ''], [2, '2f' * 255, '30' * 255, '01' * 256], [0, '', '', '01'])


def encoding(table):
    for _ in range(350):
        records = [a_record() for _ in range(R.choice((1, 1, 2, 3)))]
        how = R.choice(({}, {}, {'form': {'long': True}}, {'form': {'chunk': R.choice((1, 3, 255, 256))}}))
        if R.random() < .3 and records[-1][0] != 0:
            records[-1][3] = R.choice(('', 'ff', '40', '0240', '24' * 3, '10', '01', '12', '22'))
        table.add('made', op='encode', records=records, **({} if any(record[0] == 0 for record in records) else how))
    for record in WITHOUT_SPELLING:
        table.add('made', op='encode', records=[record])
        table.add('made', op='encode', records=[[5, '', '', '']] * 2 + [record])
    table.add('made', op='encode', records=[])
    for some in ({'records': 2}, {'payload': 3}, {'records': 0}):
        for records in ([[5, '', '', '0102']] * 3, [[5, '', '', ''], [5, '', '', '01020304']], [[5, '', '', '']]):
            table.add('made', op='encode', records=records, limits=limits(**some))


def in_parts(table):
    for some in ({'records': 1}, {'records': 2}, {'payload': 2}, {'payload': 3}, {'records': 0}):
        for size in (1, 100):
            table.add('made', op='parts', records=[[5, '', '', '010203'], [5, '', '', '01']], size=size, limits=limits(**some))
    for _ in range(120):
        records = [a_record() for _ in range(R.choice((1, 2, 3)))]
        if R.random() < .25 and records[-1][0] == 1:
            records[-1][3] = R.choice(('ff', '40', '24'))
        table.add('made', op='parts', records=records, size=R.choice((1, 2, 7, 16, 64)))
    for _ in range(60):
        record = R.choice(([2, '612f62', '30'], [5, '', ''], [4, '613a62', '']))
        payload = octets(0, 700 if R.random() < .2 else 30).hex()
        length = len(payload) // 2 + R.choice((0, 0, 0, 1, -1 if payload else 0))
        table.add('made', op='record_parts', record=record, parts=cut(payload), length=length)


def making(table):
    for long in ('61' * 63, '61' * 64, '61' * 127, '61' * 128, '61' * 255, '61' * 256, 'c3a9' * 40):
        table.add('made', op='make', value={'kind': 'text', 'language': '6465', 'text': long, 'utf16': False})
        table.add('made', op='make', value={'kind': 'uri', 'uri': long})
    for kind, fine in FINE.items():  # one member after the other is bad
        for member in fine:
            for one in FINE_BAD.get(member, ()):
                table.add('made', op='make', value={'kind': kind, **fine, member: one})
    for number in (0, 1, 15):
        for kind in ('request', 'select'):
            table.add('made', op='make', value={'kind': kind, **FINE[kind], 'version': [1, number], 'carriers': [[3, '30', []]]})
    for text, utf16 in (('ff', False), ('c3', True)):
        table.add('made', op='make', value={'kind': 'text', 'language': '', 'text': text, 'utf16': utf16})
    table.add('made', op='make', value={'kind': 'uri', 'uri': '61ff'})
    for _, make in MAKERS:
        for bad in (False,) * 70 + (True,) * 25:
            table.add('made', op='make', value=make(bad))


def payload_of(value):
    """What is written of a value, now and then with changes; None where nothing is."""
    try:
        payload = getattr(made_up.O, 'write_' + value['kind'])(value).hex()
    except Bad:
        return None
    return payload if R.random() < .4 or not payload else changed(payload)


def values(table):
    for kind, make in MAKERS:
        for _ in range(60):
            payload = payload_of(make())
            if payload is not None:
                table.add('made', op='value_of', type=kind.encode().hex(), payload=payload, **profile())
    for index in range(240):
        kind, payload = nested_extra(index)
        for op in ('value_of', 'within'):
            table.add('made', op=op, type=kind.encode().hex(), payload=payload)
        if kind == 'Sp':
            table.add('made', op='title', payload=payload, language=R.choice((b'en', b'EN', b'de', b'x', b'')).hex())
    for language in ('EN', '', 'é', 'en\0', 'x' * 64, 'x' * 300):  # and such as no text has
        table.add('made', op='title', payload=encoded([[1, '55', '', '0161'], [1, '54', '', '02656e41'], [1, '54', '', '0042']]), language=language.encode().hex())


def layouts(table):
    for _ in range(60):
        fields = [R.choice((['octets', R.randrange(3)], ['within', R.randrange(4), R.randrange(256)], ['counted'])) for _ in range(R.randint(0, 3))]
        fields += R.choice(([], [['utf8']], [['rest']]))
        if R.random() < .1:
            fields = R.choice(([['utf8'], ['rest']], [['within', 0, 256]], [['within', 3, 2]]))
        payload = R.choice(('', '01', '0201ff', octets(0, 6).hex(), 'c3a9', '00ff'))
        table.add('made', op='layout', fields=fields, payload=payload)


def add(table, taken, hints):
    """Adds a round of rows."""
    messages = some_messages()
    wrong = [changed(R.choice(messages)) for _ in range(700)]
    for number in table.oracle.reasons:
        table.add('made', op='reason', number=number)
    reading(table, messages, wrong)
    bounds_of_limits(table)
    options_together(table, messages, wrong)
    large_ones(table)
    feeding(table, messages, wrong)
    of_suite(table, taken)
    refusals(table, messages, wrong, hints)
    linking(table, messages)
    encodings(table)
    encoding(table)
    in_parts(table)
    making(table)
    values(table)
    layouts(table)
