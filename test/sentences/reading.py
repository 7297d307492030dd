"""A reader of messages that is written from the documents alone: docs/FORMAT.md, and the standards that it names. It says of bytes whether a message
begins with them, and if not, where and for which reason they are refused.

A coroutine reads a payload octet by octet. Before each octet it yields how many octets may still follow, as ranges: (least, most, step). It raises Wrong
where an octet is one that may not stand there, whatever follows."""
import typing

MANY = 1 << 62
ANY = [(0, MANY, 1)]
NONE = [(0, 0, 1)]
GREATEST = (1 << 32) - 1
# Reasons of docs/FORMAT.md.
RESERVED_TNF, BEGIN_MISSING, BEGIN_AGAIN, UNCHANGED_OUTSIDE, CHANGED_INSIDE, ID_INSIDE, CHUNK_AT_END, CHUNK_OF_EMPTY, TOO_MANY_PIECES = range(1, 10)
TOO_MANY_RECORDS, TYPE_NOT_EMPTY, TYPE_EMPTY, EMPTY_NOT_EMPTY, PAYLOAD_TOO_LARGE, TEXT_BIT, LANGUAGE, UTF8, UTF16, URI_CODE = range(10, 20)
URI_MISSING, URI_AGAIN, VERSION, DOES_NOT_FIT, END_OF_INPUT, COLLISION_MISSING = range(20, 26)


class Limits(typing.NamedTuple):
    """The limits of a reader, and its profile."""
    payload: int = 1048576
    records: int = 1024
    pieces: int = 4096
    standard: bool = False


class Wrong(Exception):
    """An octet that is refused, and the reason."""


def more(ranges, count):
    """The ranges with this number of octets more."""
    return [(least + count, most + count, step) for least, most, step in ranges]


def meets(ranges, least, most):
    """Whether a number from the least to the most is in one of the ranges."""
    for low, high, step in ranges:
        first = low if low >= least else low + -(-(least - low) // step) * step
        if first <= min(high, most):
            return True
    return False


# ---- payloads without a message in them

def octets():
    """Any octets."""
    while True:
        yield ANY


def counted(count):
    """This number of octets, whatever they are."""
    for left in range(count, 0, -1):
        yield [(left, left, 1)]


# RFC 3629, section 4: the first octets of characters, the range of the second, and how many follow.
SECOND = {0xe0: (0xa0, 0xbf), 0xed: (0x80, 0x9f), 0xf0: (0x90, 0xbf), 0xf4: (0x80, 0x8f)}


def following(first):
    """How many octets follow the first one of a character; None where none begins so."""
    if first < 0x80:
        return 0
    return 1 if 0xc2 <= first <= 0xdf else 2 if 0xe0 <= first <= 0xef else 3 if 0xf0 <= first <= 0xf4 else None


def utf8():
    """A text in UTF-8."""
    while True:
        first = yield ANY
        count = following(first)
        if count is None:
            raise Wrong(UTF8)
        low, high = SECOND.get(first, (0x80, 0xbf))
        for left in range(count, 0, -1):
            octet = yield [(left, MANY, 1)]
            if not low <= octet <= high:
                raise Wrong(UTF8)
            low, high = 0x80, 0xbf


def utf16():
    """A text in UTF-16: with a mark of either order, or big-endian (RFC 2781)."""
    first = yield [(0, MANY, 2)]
    little, halves = False, [first]
    if 0xdc <= first <= 0xdf:
        raise Wrong(UTF16)
    second = yield [(3 if 0xd8 <= first <= 0xdb else 1, MANY, 2)]
    if (first, second) in ((0xfe, 0xff), (0xff, 0xfe)):
        little, halves = first == 0xff, []
    else:
        halves.append(second)
    high = bool(halves) and 0xd8 <= first <= 0xdb
    while True:
        high = yield from unit(little, high)


def unit(little, high):
    """A unit of UTF-16, after the first half of a pair or not; gives whether it is such a half."""
    first = yield [(2 if high else 0, MANY, 2)]
    if not little:
        check_half(first, high)
        begins = 0xd8 <= first <= 0xdb
        yield [(3 if begins else 1, MANY, 2)]
        return begins
    last = yield [(1, MANY, 2)]
    check_half(last, high)
    return 0xd8 <= last <= 0xdb


def check_half(octet, high):
    """The more significant octet of a unit: that of the second half of a pair follows a first half, and nothing else does."""
    if (0xdc <= octet <= 0xdf) != high:
        raise Wrong(UTF16)


def text(standard):
    """RTD Text 1.0."""
    status = yield [(1, MANY, 1)]
    if status & 0x40:
        raise Wrong(TEXT_BIT)
    step = 2 if status & 0x80 else 1
    for left in range(status & 0x3f, 0, -1):
        octet = yield [(left, MANY, step)]
        if octet > 0x7f:
            raise Wrong(LANGUAGE)
    yield from utf16() if status & 0x80 else utf8()


def uri(standard):
    """RTD URI 1.0."""
    code = yield [(1, MANY, 1)]
    if code > 0x23 and not standard:
        raise Wrong(URI_CODE)
    yield from utf8()


def carrier(standard):
    """Connection Handover 1.2, Handover Carrier record."""
    yield [(2, MANY, 1)]
    length = yield [(1, MANY, 1)]
    for left in range(length, 0, -1):
        yield [(left, MANY, 1)]
    yield from octets()


def alternative(standard):
    """Connection Handover 1.2, Alternative Carrier record: lengths that aren't there yet may be 0."""
    yield [(3, MANY, 1)]
    length = yield [(2, MANY, 1)]
    for left in range(length, 0, -1):
        yield [(left + 1, MANY, 1)]
    count = yield [(1, MANY, 1)]
    for after in range(count, 0, -1):
        length = yield [(after, MANY, 1)]
        for left in range(length, 0, -1):
            yield [(left + after - 1, MANY, 1)]
    yield from octets()


def error(standard):
    """Connection Handover 1.2, Error record."""
    reason = yield [(1, MANY, 1)]
    if reason in (1, 2, 3):
        yield from counted({1: 1, 2: 4, 3: 1}[reason])
    else:
        yield from octets()


# The payloads of well-known types, by the message in which they stand: '' is the message itself.
LEAVES = {
    '': {b'T': text, b'U': uri, b'Hc': carrier},
    'Sp': {b'T': text, b'U': uri, b'act': lambda standard: counted(1), b's': lambda standard: counted(4), b't': lambda standard: utf8()},
    'Hr': {b'cr': lambda standard: counted(2), b'ac': alternative},
    'Hs': {b'ac': alternative, b'err': error},
}
NESTS = {b'Sp': 'Sp', b'Hr': 'Hr', b'Hs': 'Hs'}


def payload_of(table, tnf, name, limits):
    """What reads a payload of this type."""
    if tnf == 1 and table == '' and name in NESTS:
        return nest(NESTS[name], limits)
    return LEAVES[table].get(name, lambda standard: octets())(limits.standard) if tnf == 1 else octets()


def begun(reader):
    """A reader that has begun, and the ranges that it yields."""
    return reader, next(reader, NONE)


def after(reader, octet):
    """The ranges after an octet; what reads nothing more ends there."""
    try:
        return reader.send(octet)
    except StopIteration:
        return NONE


# ---- messages within payloads

def nest(table, limits):
    """A message within a payload, after the version of a handover."""
    least = {'Sp': 5, 'Hr': 7, 'Hs': 3}[table]
    most = 266 if table == 'Hr' and limits.records == 1 else MANY
    if table != 'Sp':
        version = yield [(1 + least, 1 + most, 1), *([(1, 1, 1)] if table == 'Hs' else [])]
        if version >> 4 != 1:
            raise Wrong(VERSION)
        header = yield [(least, most, 1), *(NONE if table == 'Hs' else [])]
    else:
        header = yield [(least, most, 1)]
    number, has_uri = 1, False
    while True:
        is_uri = yield from Inner(table, limits, number, has_uri, header).read()
        if header & 0x40:
            return
        has_uri, number = has_uri or is_uri, number + 1
        header = yield [(3 if has_uri or table != 'Sp' else 5, MANY, 1)]


class Inner:
    """A record of a message within a payload."""

    def __init__(self, table, limits, number, has_uri, header):
        self.table, self.limits, self.number, self.has_uri, self.header = table, limits, number, has_uri, header
        self.tnf, self.last = header & 7, header & 0x40 != 0
        self.wants_uri = table == 'Sp' and not has_uri
        self.is_collision = table == 'Hr' and number == 1
        # Whether it may be the URI of a poster, or something else.
        self.may_be_uri, self.may_be_other = table == 'Sp' and not has_uri and self.tnf == 1, not (self.wants_uri and self.last)

    def check_header(self):
        tnf, header = self.tnf, self.header
        rows = ((RESERVED_TNF, tnf == 7 and not self.limits.standard), (BEGIN_MISSING, self.number == 1 and not header & 0x80),
                (BEGIN_AGAIN, self.number > 1 and header & 0x80), (UNCHANGED_OUTSIDE, tnf == 6), (CHUNK_AT_END, header & 0x20 and self.last),
                (CHUNK_OF_EMPTY, header & 0x20 and tnf == 0), (TOO_MANY_PIECES, header & 0x20),
                (TOO_MANY_RECORDS, not self.last and self.number == self.limits.records), (URI_MISSING, not self.may_be_uri and not self.may_be_other),
                (COLLISION_MISSING, self.is_collision and tnf != 1))
        for reason, holds in rows:
            if holds:
                raise Wrong(reason)

    def check_type_length(self, length):
        tnf = self.tnf
        self.may_be_uri = self.may_be_uri and length == 1
        rows = ((TYPE_NOT_EMPTY, tnf > 4 and length), (TYPE_EMPTY, 0 < tnf < 5 and not length), (EMPTY_NOT_EMPTY, tnf == 0 and length),
                (URI_MISSING, not self.may_be_uri and not self.may_be_other), (COLLISION_MISSING, self.is_collision and length != 2))
        for reason, holds in rows:
            if holds:
                raise Wrong(reason)

    def follows(self, is_uri):
        """How many octets may follow this record."""
        if self.last:
            return 0, 0
        most = GREATEST
        return (3 if is_uri or not self.wants_uri else 5), most

    def ranges(self, types, payloads, ids, left):
        """How many octets may follow, where these are the least and the most octets of each part, and that many of the head are left."""
        found = []
        for is_uri in (True, False):
            if not (self.may_be_uri if is_uri else self.may_be_other):
                continue
            name, content = types, payloads
            if is_uri:
                name, content = (1, 1), (max(1, payloads[0]), payloads[1])
            elif self.is_collision:
                content = (max(2, payloads[0]), min(2, payloads[1]))
            if name[0] > name[1] or content[0] > content[1]:
                continue
            beyond = self.follows(is_uri)
            parts = (name, content, ids, beyond)
            found.append((left + sum(part[0] for part in parts), left + sum(part[1] for part in parts), 1))
        return found

    def read(self):
        """Reads the record after its header; gives whether it is a URI."""
        self.check_header()
        header, tnf = self.header, self.tnf
        width = 1 if header & 0x10 else 4
        most = 256 ** width - 1 if tnf else 0
        has_id = header & 8 != 0
        ids = (0, 255 if has_id and tnf else 0)
        types = (2, 2) if self.is_collision else (1, 255) if 0 < tnf < 5 else (0, 0)
        length = yield self.ranges(types, (0, most), ids, 1 + width + has_id)
        self.check_type_length(length)
        types, size = (length, length), 0
        for left in range(width, 0, -1):
            spread = 256 ** left - 1 if tnf else 0
            octet = yield self.ranges(types, (size, size + spread), ids, left + has_id)
            if tnf == 0 and octet:
                raise Wrong(EMPTY_NOT_EMPTY)
            size += octet * 256 ** (left - 1)
        id_length = 0
        if has_id:
            id_length = yield self.ranges(types, (size, size), ids, 1)
            if tnf == 0 and id_length:
                raise Wrong(EMPTY_NOT_EMPTY)
        return (yield from self.read_parts(length, id_length, size))

    def read_parts(self, length, id_length, size):
        name = b''
        for left in range(length, 0, -1):
            octet = yield self.ranges((left, left), (size, size), (id_length, id_length), 0)
            name += bytes([octet])
            self.check_type(name, length)
        is_uri = self.tnf == 1 and name == b'U' and self.table == 'Sp'
        beyond = [(*self.follows(is_uri), 1)]
        reader, wanted = begun(payload_of(self.table, self.tnf, name, self.limits))
        for left in range(id_length, 0, -1):
            yield more(beyond, left + size) if meets(wanted, size, size) else []
        for left in range(size, 0, -1):
            octet = yield more(beyond, left) if meets(wanted, left, left) else []
            wanted = after(reader, octet)
        if not meets(wanted, 0, 0):
            yield []
        return is_uri

    def check_type(self, name, length):
        if self.table == 'Sp' and self.tnf == 1 and length == 1:
            if name == b'U' and self.has_uri:
                raise Wrong(URI_AGAIN)
            self.may_be_other, self.may_be_uri = name != b'U' and self.may_be_other, name == b'U' and self.may_be_uri
            if not self.may_be_other and not self.may_be_uri:
                raise Wrong(URI_MISSING)
        if self.is_collision and not b'cr'.startswith(name):
            raise Wrong(COLLISION_MISSING)


# ---- messages

class Ended(Exception):
    """The input has ended."""


class Reader:
    """Reads a message from the front of bytes."""

    def __init__(self, given, limits):
        self.given, self.limits, self.at = given, limits, 0

    def take(self):
        if self.at == len(self.given):
            raise Ended
        self.at += 1
        return self.given[self.at - 1]

    def read(self):
        """The length of the message, and 0; or the offset of the refused byte, and the reason."""
        try:
            number = 1
            while not self.record(number):
                number += 1
            return self.at, 0
        except Ended:
            return self.at, END_OF_INPUT
        except Wrong as wrong:
            return self.at - 1, wrong.args[0]

    def record(self, number):
        """Reads a record; gives whether it is the last of the message."""
        joined, nth, reader, wanted, chunked = 0, 1, None, ANY, True
        while chunked:
            header = self.header(number, nth)
            chunked, tnf = header & 0x20 != 0, header & 7
            allowed = self.limits.payload - joined
            if nth > 1:
                self.need(wanted, 0, allowed if chunked else min(allowed, 255 if header & 0x10 else GREATEST))
            length, size, id_length = self.lengths(header, tnf, allowed, wanted)
            name = bytes(self.take() for _ in range(length))
            if nth == 1:
                reader, wanted = begun(payload_of('', tnf, name, self.limits))
                self.need(wanted, size, allowed if chunked else size)
            for _ in range(id_length):
                self.take()
            for left in range(size, 0, -1):
                wanted = after(reader, self.take())
                self.need(wanted, left - 1, allowed - size + left - 1 if chunked else left - 1)
            joined, nth = joined + size, nth + 1
        return header & 0x40 != 0

    def need(self, wanted, least, most):
        """Refuses the last octet where no payload goes on for that number of octets."""
        if not meets(wanted, least, most):
            raise Wrong(DOES_NOT_FIT)

    def header(self, number, nth):
        header = self.take()
        tnf, chunked, last, inside = header & 7, header & 0x20, header & 0x40, nth > 1
        is_first = number == 1 and not inside
        rows = ((RESERVED_TNF, tnf == 7 and not self.limits.standard), (BEGIN_MISSING, is_first and not header & 0x80),
                (BEGIN_AGAIN, not is_first and header & 0x80), (UNCHANGED_OUTSIDE, not inside and tnf == 6), (CHANGED_INSIDE, inside and tnf != 6),
                (ID_INSIDE, inside and header & 8), (CHUNK_AT_END, chunked and last), (CHUNK_OF_EMPTY, not inside and chunked and tnf == 0),
                (TOO_MANY_PIECES, chunked and nth == self.limits.pieces),
                (TOO_MANY_RECORDS, not chunked and not last and number == self.limits.records))
        for reason, holds in rows:
            if holds:
                raise Wrong(reason)
        return header

    def lengths(self, header, tnf, allowed, wanted):
        """The lengths of the type, the payload and the id of a chunk."""
        length = self.take()
        rows = ((TYPE_NOT_EMPTY, tnf > 4 and length), (TYPE_EMPTY, 0 < tnf < 5 and not length), (EMPTY_NOT_EMPTY, tnf == 0 and length))
        for reason, holds in rows:
            if holds:
                raise Wrong(reason)
        size, chunked = 0, header & 0x20
        for left in range(1 if header & 0x10 else 4, 0, -1):
            octet = self.take()
            if tnf == 0 and octet:
                raise Wrong(EMPTY_NOT_EMPTY)
            size += octet * 256 ** (left - 1)
            if size > allowed:
                raise Wrong(PAYLOAD_TOO_LARGE)
            if tnf == 6:
                self.need(wanted, size, allowed if chunked else min(allowed, size + 256 ** (left - 1) - 1))
        id_length = self.take() if header & 8 else 0
        if tnf == 0 and id_length:
            raise Wrong(EMPTY_NOT_EMPTY)
        return length, size, id_length
