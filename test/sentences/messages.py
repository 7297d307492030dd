"""Random messages of every kind, and damage. In about half of the messages one length, number or text that is written is another than it should be; bytes
are changed besides. So all kinds of refusals come often."""
import base64

LANGUAGES = (b'', b'en', b'de', b'en-US', b'x' * 40)
TEXTS = ('', 'a', 'Hello', 'Gr\u00fc\u00dfe', '\u20ac 5', '\U0001f600', 'a\U0001f600b', 'x' * 70)
URIS = (b'', b'a', b'example.com', '\u00fc.de'.encode(), b'x' * 60)
TYPES = (b'a', b'T', b'text/plain', b'Gc', b'x' * 20)
# Type 2 Tag: the Lock Control TLV of an NTAG213, its capability container, and the 12 bytes of its UID and locks.
LOCK_CONTROL, CONTAINER, UID = bytes.fromhex('0103a00c34'), bytes.fromhex('e1101200'), bytes.fromhex('045ac117923b6d8044480000')
# Type 3 Tag: the attribute information block up to the length of the message.
ATTRIBUTES = bytes.fromhex('10040100 0d 00000000 00 01')


class Maker:
    """Makes messages by random numbers."""

    def __init__(self, random):
        self.random, self.chance, self.pick = random, random.random, random.choice
        self.left = 0

    def number(self, value):
        """A number as it should be, or once in a message another one near it."""
        if self.left is None:
            return value
        self.left -= 1
        if self.left >= 0:
            return value
        self.left = None
        return max(0, value + self.pick((-8, -3, -2, -1, -1, 1, 1, 2, 3, 8, 200, -value)))

    def octet(self, value):
        return bytes([min(self.number(value), 255)])

    def chunk(self, flags, tnf, name, payload, ident=None):
        """A chunk, most of them in the short form."""
        is_short = len(payload) < 250 and self.chance() < 0.85
        head = bytes([flags | tnf | (0x10 if is_short else 0) | (0 if ident is None else 8)]) + self.octet(len(name))
        size = self.number(len(payload))
        head += bytes([min(size, 255)]) if is_short else size.to_bytes(4, 'big')
        return head + (b'' if ident is None else self.octet(len(ident))) + name + (ident or b'') + payload

    def record(self, first, last, tnf, name, payload, ident=None):
        """A record within a message, in one chunk or several."""
        flags = (0x80 if first else 0) | (0x40 if last else 0)
        if tnf and self.chance() < 0.15:
            cuts = sorted(self.random.randrange(len(payload) + 1) for _ in range(self.pick((1, 1, 2, 3))))
            parts = [payload[low:high] for low, high in zip([0, *cuts], [*cuts, len(payload)])]
            middle = [self.chunk(0x20, 6, b'', part, b'' if self.chance() < 0.05 else None) for part in parts[1:-1]]
            return b''.join([self.chunk(flags & 0x80 | 0x20, tnf, name, parts[0], ident), *middle, self.chunk(flags & 0x40, 6, b'', parts[-1])])
        return self.chunk(flags, tnf, name, payload, ident)

    def ident(self):
        return self.pick((b'', b'0', b'id')) if self.chance() < 0.2 else None

    # ---- payloads

    def text(self):
        language, words = self.pick(LANGUAGES), self.pick(TEXTS)
        wide = self.chance() < 0.5
        if wide:
            mark, order = self.pick(((b'', 'be'), (b'\xfe\xff', 'be'), (b'\xff\xfe', 'le'), (b'', 'le')))
            written = mark + words.encode(f'utf-16-{order}')
        else:
            written = words.encode()
        if self.chance() < 0.15:
            written = written[:self.random.randrange(len(written) + 1)]
        return bytes([min(self.number(len(language)), 63) | (0x80 if wide else 0)]) + language + written

    def uri(self):
        written = self.pick(URIS)
        if self.chance() < 0.05:
            return b'http://a.b/'
        return self.octet(self.random.randrange(0x24)) + written[:self.random.randrange(len(written) + 1)]

    def carrier(self):
        name = self.pick(TYPES)
        return bytes([self.random.randrange(8)]) + self.octet(len(name)) + name + bytes(self.random.randrange(4))

    def alternative(self):
        reference, others = self.pick((b'0', b'', b'ref')), [self.pick((b'1', b'', b'aux')) for _ in range(self.pick((0, 0, 0, 1, 1, 2, 3)))]
        written = bytes([self.random.randrange(4)]) + self.octet(len(reference)) + reference
        if self.chance() < 0.08:
            return self.pick((written, written + self.pick((b'\1', b'\3')), written[:self.random.randrange(3)]))
        written += self.octet(len(others))
        return written + b''.join(self.octet(len(other)) + other for other in others) + bytes(self.pick((0, 0, 0, 2)))

    def error(self):
        reason = self.pick((1, 2, 3, 1, 2, 3, 4, 0))
        if self.chance() < 0.2:
            return self.pick((b'', bytes([reason]) + bytes(self.random.randrange(6))))
        return bytes([reason]) + bytes(self.number({1: 1, 2: 4, 3: 1}.get(reason, self.random.randrange(4))) % 16)

    # ---- messages within payloads

    def inner(self, rows):
        """A message within a payload, of these types and payloads."""
        last = len(rows) - 1
        flags = [(0x80 if at == 0 else 0) | (0x40 if at == last else 0) for at in range(len(rows))]
        if self.chance() < 0.06:
            flags[self.random.randrange(len(rows))] ^= self.pick((0x80, 0x40, 0x40, 0x20))
        return b''.join(self.chunk(flag, self.other_format(tnf), name, payload, self.ident()) for flag, (tnf, name, payload) in zip(flags, rows))

    def other_format(self, tnf):
        return self.random.randrange(8) if self.chance() < 0.01 else tnf

    def other(self):
        return self.pick(((0, b'', b''), (5, b'', b'abc'), (2, b'a/b', b'xyz'), (4, b'e', b''), (1, b'Zz', b'q'), (1, b'', b'')))

    def poster(self):
        rows = [(1, b'U', self.uri())] if self.chance() < 0.85 else []
        for _ in range(self.pick((0, 0, 1, 1, 2, 3))):
            rows.append(self.pick((lambda: (1, b'T', self.text()), lambda: (1, b'act', bytes(self.number(1) % 8)),
                                   lambda: (1, b's', bytes(self.number(4) % 16)), lambda: (1, b't', self.pick(TEXTS).encode()), self.other))())
        if self.chance() < 0.08:
            rows.append((1, b'U', self.uri()))
        if self.chance() < 0.05:
            rows += [(1, b'T', b'\2ena'), (1, b'T', b'\2ENb')]
        self.random.shuffle(rows)
        return self.inner(rows) if rows else b''

    def request(self):
        rows = [(1, b'cr', bytes(self.number(2) % 16))]
        for _ in range(self.pick((0, 1, 1, 2))):
            rows.append(self.pick((lambda: (1, b'ac', self.alternative()), lambda: (1, b'cr', bytes(self.number(2) % 16)), self.other))())
        if self.chance() < 0.12:
            self.random.shuffle(rows)
        if self.chance() < 0.05:
            rows[0] = self.pick((lambda: (1, b'ac', self.alternative()), self.other, lambda: (1, b'cs', b'ab')))()
        return self.version() + self.inner(rows)

    def select(self):
        rows = []
        for _ in range(self.pick((0, 1, 1, 2))):
            rows.append(self.pick((lambda: (1, b'ac', self.alternative()), lambda: (1, b'err', self.error()), self.other))())
        return self.version() + (self.inner(rows) if rows else b'')

    def version(self):
        return bytes([self.pick((0x12, 0x10, 0x13, 0x12, 0x12))])

    # ---- messages

    def row(self):
        """A type name format, a type and a payload."""
        kind = self.pick('TTUSSSRRRHHCCOOE')
        if kind == 'T':
            return 1, b'T', self.text()
        if kind == 'U':
            return 1, b'U', self.uri()
        if kind == 'S':
            return 1, b'Sp', self.poster()
        if kind == 'R':
            return 1, b'Hr', self.request()
        if kind == 'H':
            return 1, b'Hs', self.select()
        if kind == 'C':
            return 1, b'Hc', self.carrier()
        return (0, b'', b'') if kind == 'E' else self.other()

    def message(self):
        """A message, with a wrong number in it or none."""
        self.left = self.random.randrange(18) if self.chance() < 0.55 else None
        count = self.pick((1, 1, 1, 2, 3))
        return b''.join(self.record(at == 0, at == count - 1, *self.row(), self.ident()) for at in range(count))

    def spelled(self, octets):
        """The message as a text that spells it, by one program or another."""
        rows = [octets[at:at + 16] for at in range(0, len(octets), 16)]
        pages = [octets[at:at + 4] for at in range(0, len(octets), 4)]
        form = self.random.randrange(9)
        if form == 0:
            return octets.hex(self.pick((' ', '\n'))).encode()
        if form == 1:
            return octets.hex().upper().encode() + b'\n'
        if form == 2:
            return ''.join(f'{16 * at:08x}: {row.hex(" ", -2)}  {".." * len(row)}\n' for at, row in enumerate(rows)).encode()
        if form == 3:
            return ''.join(f'{16 * at:08x}  {row.hex(" ")}  |{"." * len(row)}|\n' for at, row in enumerate(rows)).encode()
        if form == 4:
            return ''.join(f'{16 * at:07o} {row.hex(" ")}\n' for at, row in enumerate(rows)).encode()
        if form == 8:
            return '\n'.join([f' {rows[0].hex(" ")}', '*', *(f' {row.hex(" ")}' for row in rows[1:]), '']).encode()
        if form == 5:
            return ('Filetype: Flipper NFC device\nVersion: 4\n' + ''.join(f'Page {at}: {page.hex(" ")}\n' for at, page in enumerate(pages))).encode()
        if form == 6:
            return ('[usb] pm3 --> hf mfu dump\n' + ''.join(f'[=] {at:3} | {page.hex(" ")} | 0\n' for at, page in enumerate(pages))).encode()
        return base64.b64encode(octets) + b'\n'

    def wrapped(self, octets):
        """The message as a tag or its file holds it: in a TLV, after its length, or in the memory of a tag."""
        size = len(octets)
        length = bytes([size]) if size < 255 else b'\xff' + size.to_bytes(2, 'big')
        block = b'\x03' + length + octets + b'\xfe'
        before = self.pick((b'', b'', bytes(2), LOCK_CONTROL, CONTAINER, UID + CONTAINER, UID + CONTAINER + LOCK_CONTROL))
        attributes = ATTRIBUTES + size.to_bytes(3, 'big')
        attributes += sum(attributes).to_bytes(2, 'big')
        return self.pick((before + block, before + block, before + b'\x03\0\xfe', size.to_bytes(2, 'big') + octets, attributes + octets,
                          b'\0' + octets, b'\xfe' + octets, self.spelled(octets), self.spelled(octets), self.spelled(octets)))

    def damaged(self, octets):
        """The message with bytes changed, left out or put in; or as it is."""
        if self.chance() < 0.08:
            octets = self.wrapped(octets)
        given = bytearray(octets)
        for _ in range(self.pick((0, 1, 1, 1, 2))):
            if not given:
                break
            at, how = self.random.randrange(len(given)), self.random.randrange(12)
            if self.chance() < 0.5:
                at = min(at, self.random.randrange(12))
            if how < 3:
                given[at] ^= 1 << self.random.randrange(8)
            elif how < 6:
                given[at] = (given[at] + self.pick((-4, -2, -1, 1, 2, 5))) % 256
            elif how < 7:
                given[at] = self.random.randrange(256)
            elif how < 10:
                del given[at:]
            elif how < 11:
                del given[at]
            else:
                given.insert(at, given[at])
        return bytes(given)
