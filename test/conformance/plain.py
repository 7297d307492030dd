"""A plain reader of NDEF messages, written for the tests of the suite. It reads whole bytes and says how long the message
is, or None. Each rule of docs/FORMAT.md can be taken from it: then it doesn't refuse what the rule refuses, or refuses what
the rule accepts."""
import collections
import re
import unicodedata

Limits = collections.namedtuple('Limits', 'payload records pieces')
Record = collections.namedtuple('Record', 'format type id payload')
USUAL = Limits(1048576, 1024, 4096)
WELL_KNOWN = 1
# What a nested message checks, by the type of the record that holds it.
NESTED = {b'Sp': (b'U', b'T', b'act', b's', b't'), b'Hr': (b'cr', b'ac'), b'Hs': (b'ac', b'err')}


class Wrong(Exception):
    """The bytes are no message."""


class Reader:
    def __init__(self, language='typed', profile='strict', limits=USUAL, without=None):
        self.language, self.strict, self.limits, self.without = language, profile == 'strict', limits, without

    # ---- rules

    def refuse(self, rule, holds):
        """Refuses where this holds, unless the rule is taken away."""
        if holds and rule != self.without:
            raise Wrong(rule)

    def lacks(self, rule, holds=True):
        """Refuses where this holds and the rule, which accepts it, is taken away."""
        if holds and rule == self.without:
            raise Wrong(rule)

    # ---- messages

    def length(self, data):
        """The length of the message with which the bytes begin, or None."""
        try:
            if not data:
                self.refuse('some', True)
                return 0
            records, end = self.message(data, None)
            self.places(records)
            for index, record in enumerate(records):
                self.record_payload(record, index)
            return end
        except Wrong:
            return None

    def message(self, data, outer):
        """The records and the end of the message at the start of the bytes; `outer` is the type of the record around it."""
        records, at, run = [], 0, None
        while True:
            if at >= len(data):
                self.refuse('head', True)
                return records, len(data)
            piece, begin = self.piece(data, at), at == 0
            flags, at = piece.pop('flags'), piece.pop('end')
            self.flags(flags, begin, run, piece, outer, len(records))
            chunked, last = flags & 0x20, flags & 0x40
            self.shape(flags & 7, piece, run)
            if run is None:
                run = dict(piece, format=5 if flags & 7 == 7 else flags & 7, pieces=1)
            else:
                run = dict(run, payload=run['payload'] + piece['payload'], pieces=run['pieces'] + 1)
            self.refuse('limits', not outer and len(run['payload']) > self.limits.payload)
            if not chunked or last:
                records.append(Record(run['format'], run['type'], run['id'] or b'', run['payload']))
                run = None
            if self.is_end(last, data, at, outer):
                return records, at

    def is_end(self, last, data, at, outer):
        """Whether the message ends here: a reader without ME ends where the bytes end."""
        if self.without == 'end' and not outer:
            return at >= len(data)
        return last

    def piece(self, data, at):
        """The fields of one physical record, and where it ends."""
        flags, kind_length = self.octets(data, at, 2)
        at += 2
        width = 1 if flags & 0x10 else 4
        length = int.from_bytes(self.octets(data, at, width), 'big')
        self.lacks('form', width == 4 and length < 256)
        at += width
        id_length = None
        if flags & 8:
            id_length, at = self.octets(data, at, 1)[0], at + 1
            self.lacks('id-empty', id_length == 0)
        parts = []
        for count in (kind_length, id_length or 0, length):
            parts.append(self.octets(data, at, count))
            at += count
        return {'flags': flags, 'type': parts[0], 'id': None if id_length is None else parts[1], 'payload': parts[2], 'end': at}

    def octets(self, data, at, count):
        self.refuse('head', at + count > len(data))
        return data[at:at + count].ljust(min(count, 4), b'\0')

    def flags(self, flags, begin, run, piece, outer, records):
        """The rules on a header octet."""
        number, chunked, last = flags & 7, flags & 0x20, flags & 0x40
        self.refuse('format-7-refused', number == 7 and self.strict)
        self.lacks('format-7-read', number == 7 and not self.strict)
        self.refuse('begin', bool(flags & 0x80) != begin)
        self.refuse('unchanged', run is None and number == 6)
        self.refuse('chunk-format', run is not None and number != 6)
        self.refuse('chunk-id', run is not None and piece['id'] is not None)
        self.refuse('chunk-end', chunked and last)
        self.refuse('chunk-of-empty', run is None and chunked and number == 0)
        self.lacks('chunk-of-unknown', run is None and chunked and number == 5)
        self.lacks('chunks', chunked and not outer)
        self.refuse('nested-chunk', chunked and outer)
        pieces = 1 if run is None else run['pieces'] + 1
        self.refuse('limits', chunked and not outer and pieces >= self.limits.pieces)
        self.refuse('limits', not chunked and not last and records + 1 >= self.limits.records)

    def shape(self, number, piece, run):
        """The rules on which parts a record of a type name format has."""
        kind, name, payload = piece['type'], piece['id'], piece['payload']
        self.refuse('unknown', number == 5 and kind)
        self.refuse('chunk-type' if run is not None else 'unchanged', number == 6 and kind)
        self.refuse('format-7-type', number == 7 and kind)
        self.refuse('type-there', 1 <= number <= 4 and not kind)
        self.refuse('empty', number == 0 and (kind or name or payload))
        self.lacks('type-any', any(octet <= 0x20 or octet > 0x7e for octet in kind) or number == 2 and b'/' not in kind)
        self.lacks('id-any', any(octet <= 0x20 or octet > 0x7e for octet in name or b''))

    def places(self, records):
        """What the standards say of records beside one another, which isn't checked."""
        ids = [record.id for record in records if record.id]
        self.lacks('id-any', len(set(ids)) < len(ids))
        for index, record in enumerate(records):
            if record.format == WELL_KNOWN and record.type in (b'Hr', b'Hs') and self.language == 'typed':
                self.lacks('handover-place', index > 0)

    # ---- payloads

    def named(self, record, types):
        """The type of the list that the record has, or None."""
        if record.format != WELL_KNOWN and self.without != 'type-exact':
            return None
        for name in types:
            if record.type == name or self.without == 'type-exact' and record.type.lower() == name.lower():
                return name
        return None

    def record_payload(self, record, index):
        """The rules on the payload of a record of a message."""
        if self.language == 'opaque':
            return
        if self.language == 'leaf':
            name = self.named(record, (b'T', b'U', b'act', b's', b't', b'cr', b'ac', b'err', b'Hc'))
        else:
            name = self.named(record, (b'T', b'U', b'Sp', b'Hr', b'Hs', b'Hc'))
        self.lacks('type-other', record.format == WELL_KNOWN and name is None)
        self.lacks('handover-other', record.format == WELL_KNOWN and record.type in (b'Hm', b'Hi'))
        try:
            self.payload(name, record.payload)
        except Wrong:
            if self.without != 'whole-refused' or name != b'U':
                raise

    def payload(self, name, payload):
        """The rules on a payload of a type."""
        leaves = {b'T': self.text, b'U': self.uri, b'act': self.action, b's': self.size, b't': self.media, b'cr': self.collision,
                  b'ac': self.alternative, b'err': self.error, b'Hc': self.carrier}
        if name in leaves:
            leaves[name](payload)
        elif name == b'Sp':
            self.poster(payload)
        elif name is not None:
            self.handover(name, payload)

    def utf8(self, rule, octets):
        if rule == self.without:
            return octets.decode('utf-8', 'replace')
        try:
            return octets.decode('utf-8')
        except UnicodeDecodeError:
            raise Wrong(rule)

    def utf16(self, octets):
        """A text in UTF-16, in the order of its mark."""
        order = 'utf-16-be'
        if octets[:2] == b'\xff\xfe' and self.without != 'text-mark':
            octets, order = octets[2:], 'utf-16-le'
        elif octets[:2] == b'\xfe\xff':
            octets = octets[2:]
        elif self.without == 'text-unmarked':
            order = 'utf-16-le'
        try:
            return octets.decode(order)
        except UnicodeDecodeError:
            self.refuse('text-utf-16', True)
            return octets.decode(order, 'replace')

    def text(self, payload):
        self.refuse('text-status', not payload)
        status = payload[0] if payload else 0
        language, text = payload[1:1 + (status & 63)], payload[1 + (status & 63):]
        self.refuse('text-bit', status & 64)
        self.refuse('text-status', len(language) < status & 63)
        self.refuse('language-ascii', any(octet > 127 for octet in language))
        self.lacks('language-empty', not language)
        tag = rb'[A-Za-z]{1,8}(-[A-Za-z0-9]{1,8})*'
        self.lacks('language-any', language and not re.fullmatch(tag, language))
        text = self.utf16(text) if status & 128 else self.utf8('text-utf-8', text)
        self.lacks('text-first-mark', not status & 128 and text.startswith('\ufeff'))
        self.lacks('text-control', any(unicodedata.category(one) == 'Cc' for one in text))

    def uri(self, payload):
        self.refuse('uri-code', not payload)
        code = payload[0] if payload else 0
        self.refuse('uri-code-refused', code > 0x23 and self.strict)
        self.lacks('uri-code-read', code > 0x23 and not self.strict)
        self.lacks('uri-prefix', 0x1e <= code <= 0x23)
        rest = self.utf8('uri-utf-8', payload[1:])
        self.lacks('uri-control', any(one < ' ' for one in rest))
        self.lacks('uri-any', code == 0 and not re.match(r'[A-Za-z][A-Za-z0-9+.-]*:', rest))

    # ---- smart posters

    def action(self, payload):
        self.refuse('poster-action', len(payload) != 1)
        self.lacks('poster-action-any', payload[:1] > b'\2')

    def size(self, payload):
        self.refuse('poster-size', len(payload) != 4)

    def media(self, payload):
        self.utf8('poster-records', payload)

    def nested(self, name, payload, rule):
        """The records of a message in a payload, with nothing after it."""
        try:
            records, end = self.message(payload, name)
        except Wrong as wrong:
            # A reader without the rule leaves a message that isn't one alone.
            if self.without == rule and wrong.args[0] not in ('nested-chunk', 'limits', 'format-7-refused'):
                return None
            raise
        self.refuse(rule, end != len(payload))
        languages = []
        for record in records:
            kind = self.named(record, NESTED[name])
            languages.append(record.payload[1:1 + (record.payload[0] & 63)] if kind == b'T' and record.payload else None)
            self.lacks('poster-title-repeated', languages[-1] is not None and languages[-1] in languages[:-1])
            if kind and not (self.without == 'poster-records' and kind in (b'T', b'U')):
                self.payload(kind, record.payload)
            if self.without == 'nested-nested' and record.format == WELL_KNOWN and record.type in NESTED:
                self.payload(record.type, record.payload)
        return [self.named(record, NESTED[name]) for record in records]

    def poster(self, payload):
        kinds = self.nested(b'Sp', payload, 'poster-message')
        if kinds is None:
            return
        self.refuse('poster-uri', b'U' not in kinds)
        self.refuse('poster-one-uri', kinds.count(b'U') > 1)
        self.lacks('poster-repeated', any(kinds.count(kind) > 1 for kind in (b'act', b's', b't')))

    # ---- handovers

    def handover(self, name, payload):
        self.refuse('handover-message', not payload)
        self.refuse('version', payload[:1] and payload[0] >> 4 != 1)
        if name == b'Hs' and len(payload) <= 1:
            self.lacks('select-alone')
            return
        kinds = self.nested(name, payload[1:], 'handover-message')
        if kinds is None:
            return
        if name == b'Hr':
            self.refuse('collision-first', kinds[0] != b'cr')
            self.lacks('request-any', kinds.count(b'cr') > 1 or b'ac' not in kinds)
        else:
            order = [kind for kind in kinds if kind in (b'ac', b'err')]
            self.lacks('select-any', order != sorted(order) or order.count(b'err') > 1 or not order)

    def collision(self, payload):
        self.refuse('collision', len(payload) != 2)

    def reference(self, payload, at):
        """Where a reference after its length ends."""
        self.refuse('alternative', at >= len(payload) or at + 1 + payload[at] > len(payload))
        return at + 1 + payload[at] if at < len(payload) else at

    def alternative(self, payload):
        self.refuse('alternative', len(payload) < 3)
        if len(payload) < 3:
            return
        self.lacks('reserved-bits', payload[0] > 3)
        at = self.reference(payload, 1)
        self.refuse('alternative', at >= len(payload))
        count, at = (payload[at] if at < len(payload) else 0), at + 1
        for _ in range(count):
            at = self.reference(payload, at)
        self.lacks('alternative-rest', at < len(payload))

    def error(self, payload):
        self.refuse('error', not payload)
        wanted = {1: 2, 2: 5, 3: 2}.get(payload[0] if payload else None)
        self.refuse('error', wanted is not None and len(payload) != wanted)
        self.lacks('error-any', payload and wanted is None)

    def carrier(self, payload):
        self.refuse('carrier', len(payload) < 2 or len(payload) < 2 + payload[1])
        self.lacks('reserved-bits', payload[:1] and payload[0] > 7)
        self.lacks('carrier-any', payload[:1] and payload[0] & 7 not in (1, 2, 3, 4))
