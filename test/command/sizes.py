"""Rows of ndef-make by size: runs the program whose path is given on payloads, texts, names and lists of many lengths, about
powers of two among them, and compares what it writes with what NDEF 1.0, RTD Text 1.0, RTD URI 1.0, RTD Smart Poster 1.0 and
Connection Handover 1.2 say. The last line is 'N passed, M failed'."""
import subprocess
import sys

MAKE, = sys.argv[1:]
WELL_KNOWN, MEDIA = 1, 2
USAGE = b'usage: '
counts = {True: 0, False: 0}

# Lengths about powers of two and about a hundred.
LENGTHS = sorted({0, 10, 100, 101, 200, 300, 1000, 2000} | {2 ** power + more for power in range(11) for more in (-1, 0, 1)})
LARGE = LENGTHS + sorted({2 ** power + more for power in range(12, 20) for more in (-1, 0, 1)}) + [1048575, 1048576]


def row(name, words, given, wanted, status=0, complaint=b''):
    """The program prints what is wanted, ends with this status and complains so, or begins its complaint so."""
    run = subprocess.run([MAKE, *words], input=given, capture_output=True)
    complained = run.stderr.startswith(USAGE) if complaint == USAGE else run.stderr == complaint
    passed = (run.returncode, run.stdout, complained) == (status, wanted, True)
    counts[passed] += 1
    if not passed:
        print('FAILED: %s: status %d, printed %r, complained %r' % (name, run.returncode, run.stdout[:200], run.stderr[:200]))


def piece(flags, tnf, kind, name, payload):
    """A record in one piece: the message's flags are the upper two bits of its first octet."""
    short, named = len(payload) < 256, name != b''
    head = bytes([flags << 6 | short << 4 | named << 3 | tnf, len(kind)]) + len(payload).to_bytes(1 if short else 4, 'big')
    return head + (bytes([len(name)]) if named else b'') + kind + name + payload


def message(records):
    """Records of a type name format, a type, an id and a payload, in their canonical spelling."""
    last = len(records) - 1
    return b''.join(piece((at == 0) << 1 | (at == last), *record) for at, record in enumerate(records))


def payloads():
    for size in LARGE:
        octets = bytes(place * 7 % 256 for place in range(size))
        if size < 1048576:
            row('a carrier of %d' % size, ['carrier', '--format', '2', '--type', 'a/b'], octets,
                message([(WELL_KNOWN, b'Hc', b'', b'\x02\x03a/b' + octets)]))
        row('a payload of %d' % size, ['record', '--tnf', '2', '--type', 'a/b'], octets, message([(MEDIA, b'a/b', b'', octets)]))
        # A message of so many bytes, and the digits of one: nine of them come before the payload.
        if size > 300:
            whole = message([(MEDIA, b'a/b', b'', octets[9:])])
            row('a message of %d' % size, ['record', '--tnf', '2', '--type', 'a/b'], octets[9:], whole)
            row('its digits', ['record', '--hex', '--tnf', '2', '--type', 'a/b'], octets[9:], whole.hex().encode() + b'\n')


def words():
    for size in LENGTHS + [65535, 65536, 100000]:
        word = 'a' * size
        row('a text of %d' % size, ['text', word], b'', message([(WELL_KNOWN, b'T', b'', b'\x02en' + word.encode())]))
        row('a text in UTF-16 of %d' % size, ['text', '--utf16', word], b'',
            message([(WELL_KNOWN, b'T', b'', b'\x82en\xfe\xff' + word.encode('utf-16-be'))]))
        row('a URI of %d' % size, ['uri', word], b'', message([(WELL_KNOWN, b'U', b'', b'\0' + word.encode())]))
        inner = message([(WELL_KNOWN, b'U', b'', b'\0a'), (WELL_KNOWN, b't', b'', word.encode())])
        row('a media type of %d' % size, ['poster', 'a', '--media', word], b'', message([(WELL_KNOWN, b'Sp', b'', inner)]))
        row('error data of %d' % size, ['handover', 'select', '--error', '4:' + '00' * (size // 2)], b'',
            message([(WELL_KNOWN, b'Hs', b'', b'\x12' + message([(WELL_KNOWN, b'err', b'', b'\x04' + bytes(size // 2))]))]))
        row('a bad digit after %d' % size, ['handover', 'select', '--error', '4:' + '0' * size + 'zz'], b'', b'', 2, USAGE)


def names():
    for size in (length for length in LENGTHS if length < 256):
        name = 'a' * size
        row('an id of %d' % size, ['record', '--tnf', '2', '--type', 'a/b', '--id', name], b'',
            message([(MEDIA, b'a/b', name.encode(), b'')]))
        if size:
            row('a type of %d' % size, ['record', '--tnf', '2', '--type', name], b'', message([(MEDIA, name.encode(), b'', b'')]))
            inner = message([(WELL_KNOWN, b'ac', b'', b'\x01' + bytes([size]) + name.encode() + b'\0')])
            row('a reference of %d' % size, ['handover', 'select', '--carrier', 'active=' + name, '--and', 'record', '--tnf', '5',
                '--id', name], b'', message([(WELL_KNOWN, b'Hs', b'', b'\x12' + inner), (5, b'', name.encode(), b'')]))
        row('a missing reference of %d' % size, ['handover', 'select', '--carrier', 'active=' + name], b'', b'', 1,
            b'refused: no record has the id "' + name.encode() + b'"\n')
    name = '\x1b[31m"\\\n' + '\x7f' * 200
    row('a missing reference of control bytes', ['handover', 'select', '--carrier', 'active=' + name], b'', b'', 1,
        b'refused: no record has the id "\\x1b[31m\\x22\\x5c\\x0a' + b'\\x7f' * 200 + b'"\n')
    row('a missing reference of 256', ['handover', 'select', '--carrier', 'active=' + 'a' * 256], b'', b'', 1,
        b'refused: a type or an id of more than 255 bytes\n')


def lists():
    for size in LENGTHS:
        if size == 0:
            continue
        row('%d records' % size, (['uri', 'a', '--and'] * size)[:-1], b'', message([(WELL_KNOWN, b'U', b'', b'\0a')] * size))
        titles = [(WELL_KNOWN, b'U', b'', b'\0a')] + [(WELL_KNOWN, b'T', b'', b'\x02ena')] * size
        row('%d titles' % size, ['poster', 'a', '--unchecked', *['--title', 'en=a'] * size], b'',
            message([(WELL_KNOWN, b'Sp', b'', message(titles))]))
        carrier = (WELL_KNOWN, b'ac', b'', b'\x01\x01a\0')
        row('%d carriers' % size, ['handover', 'select', *['--carrier', 'active=a'] * size, '--and', 'record', '--tnf', '5', '--id',
            'a'], b'', message([(WELL_KNOWN, b'Hs', b'', b'\x12' + message([carrier] * size)), (5, b'', b'a', b'')]))
        row('a missing reference of %d carriers' % size, ['handover', 'select', *['--carrier', 'active=a'] * size, '--carrier',
            'active=b', '--and', 'record', '--tnf', '5', '--id', 'a'], b'', b'', 1, b'refused: no record has the id "b"\n')
        row('an unknown word after %d' % size, ['nothing', *['a'] * size], b'', b'', 2, USAGE)
        row('an unknown option after %d' % size, ['uri', 'a', *['--hex'] * size, '--nothing'], b'', b'', 2, USAGE)
        if size < 256:
            auxiliary = b'\x01\x01a' + bytes([size]) + b'\x01a' * size
            row('%d auxiliary references' % size, ['handover', 'select', '--carrier', 'active=a' + ',a' * size, '--and', 'record',
                '--tnf', '5', '--id', 'a'], b'', message([(WELL_KNOWN, b'Hs', b'',
                b'\x12' + message([(WELL_KNOWN, b'ac', b'', auxiliary)])), (5, b'', b'a', b'')]))


def faults():
    """Which fault is told where there are several: records are made one after another, and the first ends the run."""
    long = 'a' * 64
    row('a refusal before words', ['text', '--language', long, 'a', '--and', 'handover', 'select', '--error', '1:zz'], b'', b'', 1,
        b'refused: a language code of more than 63 bytes\n')
    row('words before a refusal', ['handover', 'select', '--error', '1:zz', '--and', 'text', '--language', long, 'a'], b'', b'', 2,
        USAGE)
    row('an unknown option after a refusal', ['text', '--language', long, 'a', '--and', 'uri'], b'', b'', 2, USAGE)
    # The text `--and` separates records. From standard input it is a payload as any other.
    row('the text --and', ['text', '--', '--and'], b'', b'', 2, USAGE)
    row('the text --and from standard input', ['record', '--tnf', '1', '--type', 'T'], b'\x02en--and',
        message([(WELL_KNOWN, b'T', b'', b'\x02en--and')]))
    row('a carrier without an id', ['handover', 'select', '--carrier', 'active='], b'', b'', 1,
        b'refused: no record has the id ""\n')
    for name, words in ('a text', [b'text', b'c\xff']), ('a URI', [b'uri', b'\xff']), ('an option', [b'--\xff']):
        word = ''.join(chr(octet) if octet < 128 else '\\x%02x' % octet for octet in words[-1])
        row('%s that is not UTF-8' % name, words, b'', b'', 2, ('usage: the word "%s" is not UTF-8\n' % word).encode())


for rows in payloads, words, names, lists, faults:
    rows()
print('%d passed, %d failed' % (counts[True], counts[False]))
sys.exit(counts[False] > 0)
