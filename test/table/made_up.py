"""Values, records and messages of chance, by one generator of random numbers."""
import random

import plain_values
from oracle import Bad

R = random.Random()
O = None  # the oracle, which make_table.py gives

def octets(least, most):
    return bytes(R.choice((R.randrange(256), R.choice(b'aZ0/:.- \x00\xff'))) for _ in range(R.randint(least, most)))


def text(most=12):
    return ''.join(R.choice('abcXYZ 019é→𝄞\ufeff\x00/:.?#%') for _ in range(R.choice((0, 1, 3, R.randint(0, most)))))


def name(most=6):
    return R.choice((b'', b'0', b'1', b'b', b'\xe9', octets(1, most), b'a' * R.choice((1, 255))) if R.random() < .4 else (b'0', b'1', b'w', b'b'))


LANGUAGES = ('en', 'EN', 'de', 'fr-CA', '', 'x' * 63, 'en-US')


def a_text(bad=False):
    language, said = R.choice(LANGUAGES), text()
    one = {'kind': 'text', 'language': language.encode().hex(), 'text': said.encode().hex(), 'utf16': R.random() < .4}
    if bad and R.random() < .3:
        one['language'] = R.choice((('x' * 64).encode(), 'é'.encode(), b'x' * 200)).hex()
    return one


PREFIXES = plain_values.PREFIXES


def a_uri(bad=False):
    return {'kind': 'uri', 'uri': (R.choice(PREFIXES + ('http', 'HTTP://www.', 'urn:ep', 'a:')) + text()).encode().hex()}


def a_poster(bad=False):
    chosen, titles = R.sample(LANGUAGES, R.randint(0, 3)), []
    for language in chosen:
        titles.append([language.encode().hex(), text().encode().hex(), R.random() < .3])
    value = {'kind': 'poster', 'uri': a_uri()['uri'], 'titles': titles, 'action': R.choice((None, 0, 1, 2, 3, 255)),
             'size': R.choice((None, 0, 1, 255, 256, 65536, 4294967295)), 'media': R.choice((None, '', b'text/html'.hex(), 'é/x'.encode().hex())),
             'icons': [[m.hex(), octets(0, 300 if R.random() < .1 else 9).hex()] for m in R.sample((b'image/png', b'video/mp4', b'image/gif'), R.randint(0, 2))]}
    return {**value, **(R.choice(BAD_IN_POSTERS) if bad else {})}


BAD_IN_POSTERS = [{'titles': [[('x' * 64).encode().hex(), '', False]]}, {'icons': [[('image/' + 'x' * 250).encode().hex(), '']]},
                  {'titles': [['c3a9', '', False]]}, {'action': 256}, {'media': 'ff'}, {}]


def carriers(bad=False):
    some = [[R.randrange(4), name().hex(), [name().hex() for _ in range(R.choice((0, 0, 1, 2)))]] for _ in range(R.choice((0, 1, 1, 2, 3)))]
    if bad and some:
        R.choice(some)[1:] = R.choice(([(b'r' * 256).hex(), []], ['30', ['31'] * 256], ['30', [(b'r' * 256).hex()]]))
    elif some and R.random() < .05:
        some[0][2] = ['31'] * 255
    return some


def a_request(bad=False):
    return {'kind': 'request', 'version': [1, R.choice((0, 2, 3, 15))] if not bad or R.random() < .5 else R.choice(([1, 16], [1, 255], [2, 0])),
            'collision': R.choice((0, 1, 255, 256, 4660, 65535)), 'carriers': carriers(bad)}


def an_error(bad=False):
    reason = R.choice((0, 1, 2, 3, 4, 255))
    number = {1: (1, 255), 2: (4, 4294967295), 3: (1, 255)}.get(reason)
    if number is None:
        return [reason, octets(0, 5).hex(), None]
    value = R.choice((0, 1, 127, number[1]))
    return [reason, octets(2, 3).hex() if bad else value.to_bytes(number[0], 'big').hex(), None if bad else value]


def a_select(bad=False):
    return {**{k: v for k, v in a_request(bad).items() if k != 'collision'}, 'kind': 'select', 'error': R.choice((None, an_error(bad)))}


def a_carrier(bad=False):
    kind = R.choice((b'a/b', b'application/vnd.bluetooth.ep.oob', b'\xff', b'', b'x' * 255))
    value = {'kind': 'carrier', 'format': R.choice((1, 2, 3, 4, R.randrange(8))), 'type': kind.hex(), 'data': octets(0, 9).hex()}
    if bad:
        value.update(R.choice(({'format': 8}, {'type': (b'x' * 256).hex()}, {'format': 255})))
    return value


MAKERS = (('T', a_text), ('U', a_uri), ('Sp', a_poster), ('Hr', a_request), ('Hs', a_select), ('Hc', a_carrier))


def typed_record():
    """A record of a type that the standards define."""
    while True:
        kind, make = R.choice(MAKERS)
        value = make()
        try:
            payload = getattr(O, 'write_' + value['kind'])(value)
        except Bad:
            continue
        return [1, kind.encode().hex(), R.choice(('', '30', '31', name().hex())), payload.hex()]


OTHERS = ((0, b''), (1, b'x'), (2, b'text/plain'), (2, b'a/b'), (3, b'urn:a'), (4, b'example.com:x'), (5, b''), (2, b'\xe9/x'), (1, b'act'))


def a_record():
    """The parts of a record, mostly such as are accepted."""
    if R.random() < .7:
        return typed_record()
    tnf, kind = R.choice(OTHERS)
    if tnf == 0:
        return [0, '', '', '']
    return [tnf, kind.hex(), R.choice(('', '30', name().hex())), octets(0, R.choice((3, 20, 300))).hex()]


def a_message(chunks=.2):
    form = {'chunk': R.choice((1, 2, 7))} if R.random() < chunks else {'long': True} if R.random() < .1 else None
    records = [a_record() for _ in range(R.choice((1, 1, 2, 3, 4)))]
    if form and form.get('chunk') and any(r[0] == 0 for r in records):
        form = None
    return O.encode({'records': records, 'form': form, 'unchecked': True})['bytes'], records


def local(kind, *payloads, name=''):
    """Records of a local type."""
    return [[1, kind.encode().hex(), name, payload] for payload in payloads]


IN_POSTERS = [*local('U', '0161'), *local('T', '02656e41', '02656e42', '82656efeff0041', '02646542', '826465'), *local('act', '01', '02'),
              *local('s', '00000001', '00000002'), *local('t', b'a/b'.hex(), '612f'), [2, b'image/png'.hex(), '', '01'], [2, b'video/x'.hex(), '', '02'],
              [2, b'text/x'.hex(), '', '03'], *local('x', '00', name='39'), [4, b'a:b'.hex(), '', '']]
ALTERNATIVES = [*local('ac', '01013000', '020131010132'), *local('ac', '05013000ff', name='37'), *local('x', 'aa')]
ERRORS, COLLISIONS = local('err', '0105', '0200000007', '07aabb', '03ff', '00'), local('cr', '1234', '0001')


def poster_payload():
    """A poster with other records, repeated ones and late ones among those that are known."""
    records = R.sample(IN_POSTERS, R.randint(1, 7))
    if R.random() < .9:
        records = [record for record in records if record[1] != '55'] + IN_POSTERS[:1]
    R.shuffle(records)
    return O.encode({'records': records, 'unchecked': True})['bytes']


def nested_extra(index):
    """The type and the payload of a poster or a handover of which the builders of values make none."""
    if index % 3 == 0:
        return 'Sp', poster_payload()
    if index % 3 == 1:
        records, kind = COLLISIONS[:1] + R.sample(ALTERNATIVES + COLLISIONS[1:], R.randint(0, 4)), 'Hr'
    else:
        records, kind = R.sample(ALTERNATIVES + ERRORS, R.randint(1, 5)), 'Hs'
    return kind, '%02x' % (16 + R.randrange(16)) + O.encode({'records': records, 'unchecked': True})['bytes']


def changed(data):
    octet = bytearray(bytes.fromhex(data))
    for _ in range(R.choice((1, 1, 2))):
        what = R.randrange(4)
        at = R.randrange(len(octet))
        if what == 0:
            octet[at] ^= 1 << R.randrange(8)
        elif what == 1:
            del octet[R.randrange(len(octet)):]
        elif what == 2:
            octet[at] = R.choice((0, 0x24, 0xff, 0x80, 0x40))
        elif what == 3:
            octet[at:at] = bytes([R.randrange(256)])
        if not octet:
            break
    return bytes(octet).hex()


def cut(data, most=5):
    octet = bytes.fromhex(data)
    places = sorted(R.randint(0, len(octet)) for _ in range(R.randint(0, most)))
    return [octet[a:b].hex() for a, b in zip([0, *places], [*places, len(octet)])]


LONG = (b'x' * 256).hex()
# Of each member of a value what can't be written.
FINE_BAD = {'language': ('c3a9', (b'x' * 64).hex()), 'text': ('ff', 'eda080'), 'uri': ('ff', 'c3'), 'format': (8, 255), 'type': (LONG,),
            'titles': ([['c3a9', '', False]], [['', 'ff', False]], [['', 'ff', True]]), 'icons': ([['', '']], [[LONG, '']]), 'media': ('ff',),
            'action': (256,), 'version': ([1, 16], [1, 255], [2, 2]), 'collision': (65536,),
            'error': ([1, '', None], [2, '0102', None], [3, '010203', None]),
            'carriers': ([[4, '30', []]], [[0, LONG, []]], [[0, '30', [LONG]]], [[0, '30', ['31'] * 256]])}
