"""Octets of strangers: the inputs of the fuzzer, and random messages with all types of payloads. Some have octets changed, put in or
cut off."""
import random

from cases import TOP, values

# Within a payload a record in chunks is refused.
INNER = 100 * (1,) + (2,)
KINDS = (b'T', b'U', b'Sp', b'Hr', b'Hs', b'Hc')


def corpus():
    """The messages of the fuzzer's inputs, after the two octets that choose how they are read."""
    return [bytes.fromhex(line)[2:] for line in (TOP / 'test/fuzz/corpus.txt').read_text().split()]


class Wild:
    """Random messages."""

    def __init__(self, seed):
        self.chance = random.Random(seed)
        self.payloads = {kind: [value.payload for value in values(kind.decode()) if value.words] for kind in (*KINDS, b'ac', b'err')}

    def head(self, flags, tnf, size):
        """The first octet of a chunk and what else is written before its type; the length in one octet or in four."""
        short = size < 256 and self.chance.random() < 0.9
        return flags | tnf | 0x10 * short, bytes([size]) if short else size.to_bytes(4, 'big')

    def record(self, tnf, kind, name, payload, flags, chunks=1):
        """The octets of a record in chunks. The flags say whether it begins and whether it ends the message."""
        chance, octets = self.chance, b''
        cuts = [0] + sorted(chance.randrange(len(payload) + 1) for _ in range(chunks - 1)) + [len(payload)]
        for chunk in range(chunks):
            part, is_first, is_last = payload[cuts[chunk]:cuts[chunk + 1]], chunk == 0, chunk == chunks - 1
            has_name = is_first and (name != b'' or chance.random() < 0.1)
            marks = (flags & 0x80) * is_first | (flags & 0x40) * is_last | 0x20 * (not is_last) | 8 * has_name
            first, size = self.head(marks, tnf if is_first else 6, len(part))
            octets += bytes([first, len(kind) if is_first else 0]) + size + bytes([len(name)]) * has_name
            octets += (kind + name if is_first else b'') + part
        return octets

    def message(self, records, chunks=(1, 1, 1, 1, 2, 3, 4)):
        """The octets of these records, each in as many chunks as one of these numbers says; an empty record in one."""
        last, chance = len(records) - 1, self.chance
        return b''.join(self.record(*record, 0x80 * (at == 0) | 0x40 * (at == last), chance.choice(chunks) if record[0] else 1)
                        for at, record in enumerate(records))

    def text(self):
        return self.chance.choice(self.payloads[b'T'])

    def other(self):
        """A record of which the library knows nothing: type name format, type, name and payload."""
        chance = self.chance
        tnf, kind = chance.choice(((0, b''), (1, b'x'), (2, b'text/plain'), (3, b'a:b'), (4, b'a.b:c\xe9'), (4, b'T'), (5, b'')))
        return tnf, kind, *((b'', b'') if tnf == 0 else (self.name(), chance.randbytes(chance.choice((0, 1, 20, 255, 256)))))

    def name(self):
        return self.chance.choice((b'', b'', b'0', b'1', b'n\xe9'))

    def in_poster(self):
        """A record within a poster other than its URI."""
        chance = self.chance
        action, size = bytes([chance.choice((0, 1, 2, 3, 255))]), chance.randbytes(4)
        media, icon = chance.choice((b'image/png', b'video/mp4', b'image/gif', b'text/plain')), chance.randbytes(9)
        return chance.choice(((1, b'T', self.name(), self.text()), (1, b'T', b'', self.text()), (1, b'act', b'', action), (1, b's', b'', size),
                              (1, b't', b'', chance.choice((b'text/html', b'', b'\xff'))), (2, media, self.name(), icon), self.other()))

    def in_handover(self, is_request):
        """The records within a handover."""
        chance = self.chance
        first = [(1, b'cr', b'', chance.randbytes(2))] if is_request else []
        parts = [(1, b'ac', self.name(), chance.choice(self.payloads[b'ac'])) for _ in range(chance.randrange(3))]
        error = [(1, b'err', b'', chance.choice(self.payloads[b'err']))] if not is_request and chance.random() < 0.3 else []
        return first + parts + [self.other() for _ in range(chance.choice((0, 0, 1)))] + error

    def payload(self, kind):
        chance = self.chance
        if chance.random() < 0.3 or kind in (b'T', b'U', b'Hc'):
            return chance.choice(self.payloads[kind])
        if kind == b'Sp':
            parts = [(1, b'U', b'', chance.choice(self.payloads[b'U']))] + [self.in_poster() for _ in range(chance.randrange(5))]
            chance.shuffle(parts)
            return self.message(parts, INNER)
        return bytes([chance.choice((0x10, 0x12, 0x13, 0x1f))]) + self.message(self.in_handover(kind == b'Hr'), INNER)

    def changed(self, octets):
        """The octets, of which half have something changed, with what follows them."""
        chance, octets = self.chance, bytearray(octets)
        at, change = chance.randrange(len(octets)), chance.randrange(8)
        if change == 0:
            octets[at] = chance.randrange(256)
        elif change == 1:
            octets[at] ^= 1 << chance.randrange(8)
        elif change == 2:
            del octets[at:]
        elif change == 3:
            octets[at:at + chance.randrange(2)] = chance.randbytes(chance.randrange(3))
        return bytes(octets) + chance.choice((b'', b'', b'\xff', b'\xd0\0\0'))

    def messages(self, count):
        """So many messages, each five times with other changes."""
        chance = self.chance
        for number in range(count):
            if number % 5 == 0:
                kinds = [chance.choice(KINDS) if chance.random() < 0.7 else None for _ in range(chance.randint(1, 3))]
                octets = self.message([(1, kind, self.name(), self.payload(kind)) if kind else self.other() for kind in kinds])
            yield self.changed(octets)
