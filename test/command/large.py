"""Rows of large messages: runs the programs whose paths are given, `ndef` and `ndef-make`, and compares what they print with
what NDEF 1.0, RTD Smart Poster 1.0 and Connection Handover 1.2 say of these records. The last line is 'N passed, M failed'."""
import pathlib
import subprocess
import sys

sys.path.insert(0, str(pathlib.Path(__file__).resolve().parents[1]))
import harness  # noqa: E402

NDEF, MAKE = sys.argv[1:]
WELL_KNOWN, EXTERNAL = 1, 4


def row(name, program, words, given, wanted):
    """The program prints what is wanted, ends with 0 and says nothing on standard error."""
    run = subprocess.run([program, *words], input=given, capture_output=True)
    harness.count(name, (run.returncode, run.stdout, run.stderr) == (0, wanted, b''),
                  'status %d, printed %r, complained %r' % (run.returncode, run.stdout[:500], run.stderr[:500]))


def piece(flags, tnf, kind, name, payload):
    """A piece: the message's flags and the chunk flag are the upper three bits of its first octet."""
    short, named = len(payload) < 256, name is not None
    head = bytes([flags << 5 | short << 4 | named << 3 | tnf, len(kind)]) + len(payload).to_bytes(1 if short else 4, 'big')
    return head + (bytes([len(name)]) if named else b'') + kind + (name or b'') + payload


def message(records):
    """Records of a type name format, a type, an id or None, and a payload, in their canonical spelling."""
    last = len(records) - 1
    return b''.join(piece((at == 0) << 2 | (at == last) << 1, *record) for at, record in enumerate(records))


def in_pieces(records, size):
    """The same with payloads in pieces of so many octets."""
    octets, last = b'', len(records) - 1
    for at, (tnf, kind, name, payload) in enumerate(records):
        parts = [payload[from_:from_ + size] for from_ in range(0, len(payload), size)] or [b'']
        for number, part in enumerate(parts):
            ends = number == len(parts) - 1
            flags = (at == 0 and number == 0) << 2 | (at == last and ends) << 1 | (not ends)
            octets += piece(flags, tnf, kind, name, part) if number == 0 else piece(flags, 6, b'', None, part)
    return octets


def lines(octets, records, *shown):
    """What `show` prints of a message with these lines."""
    return ('\n'.join(['message 1 at 0: records %d, bytes %d' % (records, len(octets)), *shown]) + '\n').encode()


def front(number, tnf, kind, name, payload):
    """How the line of a record begins."""
    return ' %d tnf %d type "%s" id "%s" payload %d' % (number, tnf, kind, name, payload)


def many_records():
    """2000 records with ids of 40 octets and payloads of 0 to 300."""
    names = [bytes(97 + (at + place) % 26 for place in range(40)) for at in range(2000)]
    records = [(EXTERNAL, b'x:y', name, bytes((at + place) % 256 for place in range(at % 301))) for at, name in enumerate(names)]
    octets = message(records)
    shown = [front(at + 1, EXTERNAL, 'x:y', name.decode(), at % 301) + ' other' for at, name in enumerate(names)]
    for program in ([], ['--hex']):
        given = octets.hex().encode() if program else octets
        row('ndef: 2000 records are shown' + ' of hexadecimal text' * len(program), NDEF, ['show', '--records', '2000', *program], given,
            lines(octets, 2000, *shown))
        row('ndef: 2000 records are written again' + ' in hexadecimal text' * len(program), NDEF, ['encode', '--records', '2000', *program],
            given, given + b'\n' if program else given)
        row('ndef: 2000 records are checked' + ' in hexadecimal text' * len(program), NDEF, ['check', '--records', '2000', *program], given,
            lines(octets, 2000))
    row('ndef: 2000 records are written in pieces', NDEF, ['encode', '--records', '2000', '--chunk', '255'], octets, in_pieces(records, 255))
    row('ndef: 2000 records in small pieces are read', NDEF, ['encode', '--records', '2000'], in_pieces(records, 2), octets)


def many_parts():
    """20 URIs, by words."""
    words = ' --and '.join('uri tel:%d' % number for number in range(20)).split(' ')
    row('ndef-make: 20 parts', MAKE, words, b'', message([(WELL_KNOWN, b'U', None, b'\5%d' % number) for number in range(20)]))


def text(language, words):
    return WELL_KNOWN, b'T', None, bytes([len(language)]) + language + words


def poster(titles):
    """A smart poster with the URI a and titles."""
    return message([(WELL_KNOWN, b'U', None, b'\0a'), *(text(b'l%d' % at, b'title %d' % at) for at in range(titles))])


def posters():
    """A poster of 20 titles, and one of 1500."""
    words = ['poster', 'a']
    for at in range(20):
        words += ['--title', 'l%d=title %d' % (at, at)]
    row('ndef-make: a poster of 20 titles', MAKE, words, b'', message([(WELL_KNOWN, b'Sp', None, poster(20))]))
    for titles in (20, 1500):
        octets = message([(WELL_KNOWN, b'Sp', None, poster(titles))])
        shown = front(1, WELL_KNOWN, 'Sp', '', len(poster(titles))) + ' poster records %d uri "a" titles %d action none size none media none'
        row('ndef: a poster of %d titles' % titles, NDEF, ['show', '--records', '2000'], octets, lines(octets, 1, shown % (titles + 1, titles)))


def select():
    """A select of 300 alternative carriers, each with a record."""
    names = [b'c%d' % at for at in range(300)]
    carriers = message([(WELL_KNOWN, b'ac', None, bytes([at % 4, len(name)]) + name + b'\0') for at, name in enumerate(names)])
    payload = b'\x13' + carriers
    octets = message([(WELL_KNOWN, b'Hs', None, payload), *((EXTERNAL, b'x:y', name, b'') for name in names)])
    powers = ['inactive', 'active', 'activating', 'unknown']
    shown = [front(1, WELL_KNOWN, 'Hs', '', len(payload)) + ' select version 1.3 carriers 300']
    shown += [front(at + 2, EXTERNAL, 'x:y', name.decode(), 0) + ' other' for at, name in enumerate(names)]
    shown += [' carrier %d power %s reference "%s" record %d' % (at + 1, powers[at % 4], name.decode(), at + 2) for at, name in enumerate(names)]
    row('ndef: a select of 300 carriers', NDEF, ['show'], octets, lines(octets, 301, *shown))


many_records()
many_parts()
posters()
select()
harness.finish()
