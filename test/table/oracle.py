"""The answer of each operation of the table, by the calls of the proved library for C."""
import ctypes as c
import re

from library import Library, ref

STANDARD, OPAQUE = 1, 2
FIRST, LAST, LONG = 1, 2, 4
KINDS = {'T': 1, 'U': 2, 'Sp': 3, 'Hr': 4, 'Hs': 5, 'Hc': 6}
NAMES = {1: 'text', 2: 'uri', 3: 'poster', 4: 'request', 5: 'select', 6: 'carrier'}


# Of each kind a value that can be written.
FINE = {'text': {'language': '', 'text': '', 'utf16': False}, 'uri': {'uri': ''}, 'carrier': {'format': 1, 'type': '61', 'data': ''},
        'poster': {'uri': '', 'titles': [], 'action': None, 'size': None, 'media': None, 'icons': []},
        'request': {'version': [1, 2], 'collision': 0, 'carriers': []}, 'select': {'version': [1, 2], 'carriers': [], 'error': None}}


class Refused(Exception):
    pass


class Bad(Exception):
    pass


class Oracle:
    def __init__(self, path, interface):
        self.l = Library(path, interface)
        self.reasons = self.l.names['ndef_reason']

    # ---- helpers
    def limits(self, row):
        limits = self.l.new('limits')
        self.l.default_limits(ref(limits))
        for name, value in (row.get('limits') or {}).items():
            setattr(limits, name, value)
        limits.flags = STANDARD * (row.get('profile') == 'standard') | OPAQUE * bool(row.get('opaque'))
        return limits

    def refused(self, why):
        return [why.place, self.reasons[why.reason]]

    def read(self, call, payload, kind, *flags):
        out, why = self.l.new(kind), self.l.new('checked')
        status = call(payload, len(payload), *flags, ref(out), ref(why))
        if status:
            raise Refused(self.refused(why)) if status == 1 else Bad()
        return out

    def records(self, data, within=0):
        found, record = [], self.l.new('record')
        while not record.last:
            assert self.l.record_at(data, len(data), record.end, ref(record)) == 0
            _, payload = self.l.filled(self.l.payload, data, len(data), record.at)
            found.append((record.tnf, data[record.type_at:record.type_at + record.type_length],
                          data[record.id_at:record.id_at + record.id_length], payload, self.l.kind(data, len(data), ref(record), within)))
        return found

    # ---- values
    def value(self, kind, payload, flags):
        name = NAMES.get(kind)
        return name and dict(kind=name, **getattr(self, 'of_' + name)(payload, flags))

    def of_text(self, payload, _):
        parts = self.read(self.l.text, payload, 'text_parts')
        why = self.l.new('checked')
        status, text = self.l.filled(self.l.text_in_utf8, payload, len(payload), after=(ref(why),))
        if status == 1:
            raise Refused(self.refused(why))
        return {'language': payload[parts.language_at:parts.language_at + parts.language_length].hex(), 'text': text.hex(), 'utf16': bool(parts.utf16)}

    def of_uri(self, payload, flags):
        why = self.l.new('checked')
        status, uri = self.l.filled(self.l.uri, payload, len(payload), flags, after=(ref(why),))
        if status:
            raise Refused(self.refused(why))
        return {'uri': uri.hex()}

    def of_poster(self, payload, flags):
        parts = self.read(self.l.poster, payload, 'poster_parts', flags)
        uri = self.of_uri(payload[parts.uri_at:parts.uri_at + parts.uri_length], flags)['uri']
        titles = [self.of_text(one[3], 0) for one in self.records(payload, 3) if one[4] == 1]
        media, cut = self.l.new('part'), lambda part: payload[part.at:part.at + part.length].hex()
        has = self.l.poster_media_type(payload, len(payload), ref(media)) == 0
        _, icons = self.l.listed(self.l.poster_icons, 'icon', payload, len(payload))
        return {'uri': uri, 'titles': [[t['language'], t['text'], t['utf16']] for t in titles], 'action': parts.action if parts.has_action else None,
                'size': parts.size if parts.has_size else None, 'media': cut(media) if has else None,
                'icons': [[cut(icon.media_type), cut(icon.data)] for icon in icons]}

    def alternative(self, payload):
        parts = self.read(self.l.alternative, payload, 'alternative_parts')
        _, references = self.l.listed(self.l.references, 'part', payload, len(payload))
        first, *others = [payload[one.at:one.at + one.length].hex() for one in references]
        return [parts.power, first, others]

    def error(self, payload):
        parts = self.read(self.l.error, payload, 'error_parts')
        return [parts.reason, payload[parts.data_at:parts.data_at + parts.data_length].hex(), parts.number if parts.has_number else None]

    def handover(self, parts, payload, kind):
        within = self.records(payload[1:], kind) if len(payload) > 1 else []
        errors = [self.error(one[3]) for one in within if one[4] == 12]
        return {'version': [parts.major, parts.minor], 'carriers': [self.alternative(one[3]) for one in within if one[4] == 10]}, (errors or [None])[0]

    def of_request(self, payload, flags):
        parts = self.read(self.l.request, payload, 'request_parts', flags)
        return {**self.handover(parts, payload, 4)[0], 'collision': parts.collision}

    def of_select(self, payload, flags):
        value, error = self.handover(self.read(self.l.select, payload, 'select_parts', flags), payload, 5)
        return {**value, 'error': error}

    def of_carrier(self, payload, _):
        parts = self.read(self.l.carrier, payload, 'carrier_parts')
        return {'format': parts.format, 'type': payload[parts.type_at:parts.type_at + parts.type_length].hex(),
                'data': payload[parts.data_at:parts.data_at + parts.data_length].hex()}

    # ---- operations that read
    def within(self, row):
        """The records within a poster or handover, with their values; None of a payload that holds none."""
        kind, payload = self.kind_of(row), bytes.fromhex(row['payload'])
        flags = STANDARD * (row.get('profile') == 'standard')
        self.value(kind, payload, flags)  # raises Refused where the payload is
        if kind not in (3, 4, 5):
            return {'within': None}
        inner = self.records(payload[kind != 3:], kind) if len(payload) > (kind != 3) else []
        return {'within': [[tnf, *(part.hex() for part in parts), number, self.value_within(number, parts[2], flags)]
                           for tnf, *parts, number in inner]}

    def value_within(self, kind, payload, flags):
        if kind in NAMES:
            return self.value(kind, payload, flags)
        if kind == 9:
            return {'kind': 'media', 'media': payload.hex()}
        if kind in (7, 8, 11):
            return {'kind': {7: 'action', 8: 'size', 11: 'collision'}[kind], 'number': int.from_bytes(payload, 'big')}
        if kind == 10:
            return {'kind': 'alternative', 'alternative': self.alternative(payload)}
        return {'kind': 'error', 'error': self.error(payload)} if kind == 12 else None

    def checked(self, row):
        data, out = bytes.fromhex(row['bytes']), self.l.new('checked')
        status = self.l.check(data, len(data), ref(self.limits(row)), ref(out))
        if status:
            raise Refused(self.refused(out)) if status == 1 else Bad()
        return data, out

    def check(self, row):
        _, out = self.checked(row)
        return {'length': out.place, 'records': out.records}

    def decode(self, row):
        data, out = self.checked(row)
        flags, records = STANDARD * (row.get('profile') == 'standard'), []
        for tnf, kind, name, payload, number in self.records(data[:out.place]):
            try:
                value = self.value(number, payload, flags)
            except Refused as refused:  # of opaque reading alone
                value = {'refused': refused.args[0]}
            records.append([tnf, kind.hex(), name.hex(), payload.hex(), number, value])
        return {'length': out.place, 'records': records}

    def decode_all(self, row):
        answer = self.decode(row)
        return {'trailing': answer['length']} if answer['length'] < len(row['bytes']) // 2 else answer

    def feed(self, row):
        state, out, steps = self.l.new('checker'), self.l.new('checked'), []
        if self.l.begin(ref(self.limits(row)), ref(state)):
            raise Bad()
        for part in map(bytes.fromhex, row['parts']):
            status = self.l.feed(ref(state), part, len(part), ref(out))
            steps.append(['refused', *self.refused(out)] if status == 1 else [{0: 'whole', 5: 'more'}[status], out.place])
        return {'fed': steps}

    def stream(self, row):
        data, at, messages = bytes.fromhex(''.join(row['parts'])), 0, []
        while at < len(data):
            one = {**row, 'bytes': data[at:].hex()}
            try:
                answer = self.decode(one)
            except Refused as refused:
                place, reason = refused.args[0]
                if row.get('fails') and reason == 'EndOfInput':
                    return {'messages': messages, 'end': 'source'}
                return {'messages': messages, 'end': {'place': place, 'in_stream': at + place, 'reason': reason}}
            messages.append([record[:4] for record in answer['records']])
            at += answer['length']
        return {'messages': messages, 'end': 'source' if row.get('fails') else None}

    def fields_of(self, data, limits):
        why = self.l.new('checked')
        status, fields = self.l.listed(self.l.fields, 'field', data, len(data), ref(limits), after=(ref(why),))
        if status == 3:
            raise Bad()
        return fields, self.refused(why) if status == 1 else None

    def fields(self, row):
        fields, refused = self.fields_of(bytes.fromhex(row['bytes']), self.limits(row))
        return {'fields': [[f.at, f.length, f.depth, self.l.names['ndef_field_names'][f.name]] for f in fields], 'refused': refused}

    def said(self, call, *given):
        status, said = self.l.filled(call, *given)
        if status == 3:
            raise Bad()
        return said.decode() if status == 0 else None

    def said_or_bad(self, *given):
        try:
            return self.said(*given)
        except Bad:
            return {'bad': True}

    def refusal(self, row):
        data, limits, found = bytes.fromhex(row['bytes']), self.limits(row), self.l.new('found')
        why, hint = (self.said_or_bad(call, data, len(data), ref(limits)) for call in (self.l.refusal_message, self.l.hint))
        status = self.l.find_hint(data, len(data), ref(limits), ref(found))
        has = status == 0
        if status == 3:
            return {'why': why, 'hint': hint, 'found': {'bad': True}, 'text': None}
        return {'why': why, 'hint': hint, 'found': [found.hint, found.at, found.length] if has else None, 'text': has and self.text_of(found, len(data)) or None}

    # The words that the sentence for a found hint has in each language: what stands before its colon, and the numbers after it.
    AROUND = {1: 'in an NDEF TLV of a tag', 2: 'after the attribute block of a Type 3 Tag', 3: 'after its length, as in a file of a Type 4 Tag'}
    TEXTS = {5: 'FE (hexadecimal) ends the TLV blocks of a tag.',
             6: 'These are hexadecimal digits, not the bytes that they spell', 7: 'This is a dump by xxd, not the bytes that it spells',
             8: 'This is a dump by hexdump, not the bytes that it spells', 9: 'This dump by od or hexdump may show numbers of two bytes, not bytes',
             10: 'This is a file of a Flipper, not the bytes', 11: 'This is what a Proxmark prints, not the bytes',
             12: 'This may be base64, not the bytes that it spells', 13: '68 (hexadecimal) is the letter h', 14: 'The standard profile reads this',
             16: 'This Type 3 Tag is being written', 17: 'This is a dump by od, not the bytes that it spells'}

    def text_of(self, found, given):
        if found.hint in self.AROUND and not found.length:
            return ['This tag is empty', []]
        if found.hint in self.AROUND:
            return [f'A message of length {found.length} may begin at byte {found.at}, {self.AROUND[found.hint]}',
                    [min(found.at, given), min(found.at + found.length, given)]]
        if found.hint == 4:
            return [f'The bytes may begin with what surrounds a message on a tag; a message begins at byte {found.at}', [found.at]]
        if found.hint == 15:
            return [f'A message may begin at byte {found.at}, in an NDEF TLV of a tag, but reserved areas may lie before its end', []]
        return [self.TEXTS[found.hint], []]

    def warnings(self, row):
        data, out = self.checked(row)
        fields, _ = self.fields_of(data, self.limits(row))
        of_fields = [[i, self.said(self.l.field_warning, f.name, data[f.at:f.at + f.length], f.length)] for i, f in enumerate(fields)]
        of_records = [[i, self.said(self.l.record_warning, data, len(data), i)] for i in range(out.records + 1)]
        return {key: [one for one in listed if one[1]] for key, listed in (('fields', of_fields), ('records', of_records))}

    def links(self, row):
        data, _ = self.checked(row)
        records = self.records(data)
        if not 0 <= row['index'] < len(records) or records[row['index']][4] not in (4, 5):
            raise Bad()
        payload = records[row['index']][3]
        status, links = self.l.listed(self.l.links, 'link', data, len(data), payload, len(payload))
        if status == 3:
            raise Bad()
        return {'links': [[*self.alternative(payload[k.carrier_at:k.carrier_at + k.carrier_length]), k.record_index if k.has_record else None] for k in links]}

    def kind_of(self, row):
        record = self.l.new('record', tnf=1, type_length=len(row['type']) // 2)
        return self.l.kind(bytes.fromhex(row['type']), record.type_length, ref(record), 0)

    def value_of(self, row):
        return {'value': self.value(self.kind_of(row), bytes.fromhex(row['payload']), STANDARD * (row.get('profile') == 'standard'))}

    def layout(self, row):
        forms = {'octets': 1, 'within': 2, 'counted': 3, 'utf8': 4, 'rest': 5}
        fields = (self.l.types['ndef_layout_field'] * len(row['fields']))()
        for field, (form, *numbers) in zip(fields, row['fields']):
            field.form, field.least, field.most = forms[form], *(numbers + [0, 0])[:2]
        out, payload = self.l.new('laid_out'), bytes.fromhex(row['payload'])
        status = self.l.check_layout(payload, len(payload), fields, len(fields), ref(out))
        if status == 3:
            raise Bad()
        return {'fits': True} if status == 0 else {'refused': [out.place, self.reasons[out.reason]], 'of_length': bool(out.length_fits)}

    def reason(self, row):
        return {'name': self.said(self.l.reason_name, row['number']), 'sentence': self.said(self.l.reason_sentence, row['number'])}

    def title(self, row):
        data, parts, language = bytes.fromhex(row['payload']), self.l.new('text_parts'), bytes.fromhex(row['language'])
        self.read(self.l.poster, data, 'poster_parts', 0)
        status = self.l.title(data, len(data), language, len(language), ref(parts))
        titles = [self.of_text(one[3], 0) for one in self.records(data, 3) if one[4] == 1]
        found = next(([t['language'], t['text'], t['utf16']] for t in titles if bytes.fromhex(t['language']).lower() == language.lower()), None)
        assert status == (4 if found is None else 0)
        return {'title': found}

    # ---- operations that write
    def write_record(self, record, flags, chunk=0):
        tnf, kind, name, payload = record[0], *map(bytes.fromhex, record[1:4])
        how = self.l.new('writing', tnf=tnf, flags=flags, chunk=chunk)
        status, octets = self.l.filled(self.l.write_record, kind, len(kind), name, len(name), payload, len(payload), ref(how))
        if status:
            raise Bad()
        return octets

    def encode(self, row):
        last, form = len(row['records']) - 1, row.get('form') or {}
        if last < 0:
            raise Bad()
        written = [self.write_record(record, FIRST * (i == 0) | LAST * (i == last) | LONG * bool(form.get('long')), form.get('chunk', 0))
                   for i, record in enumerate(row['records'])]
        data = b''.join(written)
        if row.get('unchecked'):
            return {'bytes': data.hex()}
        try:
            self.checked({**row, 'bytes': data.hex()})
        except Refused as refused:
            (place, reason), record = refused.args[0], 0
            while record < last and place >= len(written[record]):
                place, record = place - len(written[record]), record + 1
            plain = {**row, 'opaque': False, 'bytes': data.hex()}
            return {'refused': {'record': record, 'place': place, 'reason': reason, 'sentence': self.refusal(plain)['why']}}
        return {'bytes': data.hex()}

    def line(self, row):
        """What is printed of bytes that are refused, or of records that aren't written."""
        try:
            refused = (self.encode if 'records' in row else self.checked)(row)['refused']
        except Refused as why:
            refused = dict(zip(('place', 'reason'), why.args[0]))
        except Bad:
            return {'line': 'record %d: BadArgument: %s' % self.wrong(row['records'])}
        number = next(n for n, name in self.reasons.items() if name == refused['reason'])
        line = 'refused at %d: %s: %s' % (refused['place'], refused['reason'], self.said(self.l.reason_sentence, number))
        return {'line': f"record {refused['record']}: {line}" if 'record' in refused else line}

    def wrong(self, records):
        """The first record that isn't written, and which part of it is wrong: that with another of which it is."""
        others = (2, '', 'id'), (3, '', 'payload'), (1, '', 'type'), (1, '78', 'type'), (0, 1, 'format'), (0, 5, 'format')
        index = next(at for at, record in enumerate(records) if not self.is_written(record))
        record = records[index]
        fine = (name for at, other, name in others if self.is_written([*record[:at], other, *record[at + 1:]]))
        return index, next(fine, 'several')

    def is_written(self, record):
        try:
            return bool(self.write_record(record, 0))
        except Bad:
            return False

    def parts(self, row):
        answer = self.encode(row)
        if 'refused' in answer:  # what is wanted in the record alone, where that is refused for the same reason
            refused = answer['refused']
            single = self.encode({'op': 'encode', 'records': [row['records'][refused['record']]]}).get('refused')
            number = next(n for n, name in self.reasons.items() if name == refused['reason'])
            sentence = single['sentence'] if single and single['reason'] == refused['reason'] else self.said(self.l.reason_sentence, number)
            return {'refused': {**refused, 'sentence': sentence}}
        data, size = answer['bytes'], 2 * row['size']
        return {'parts': [data[at:at + size] for at in range(0, len(data), size)]}

    def record_parts(self, row):
        joined = ''.join(row['parts'])
        if len(joined) != 2 * row['length']:
            raise Bad()
        return self.encode({'records': [[*row['record'], joined]], 'unchecked': True})

    def normalize(self, row):
        data, out = self.checked(row)
        status, octets = self.l.filled(self.l.normalize, data[:out.place], out.place, 0)
        if status:
            raise Bad()
        return {'bytes': octets.hex()}

    def make(self, row):
        kind = row['value']['kind']
        payload = getattr(self, 'write_' + kind)(row['value'])
        return {'payload': payload.hex(), 'value': self.value(next(n for n, k in NAMES.items() if k == kind), payload, 0)}

    def written(self, call, *given):
        status, octets = self.l.filled(call, *given)
        if status:
            raise Bad()
        return octets

    def write_text(self, value):
        language, text = bytes.fromhex(value['language']), bytes.fromhex(value['text'])
        return self.written(self.l.write_text, language, len(language), text, len(text), int(value['utf16']))

    def write_uri(self, value):
        uri = bytes.fromhex(value['uri'])
        return self.written(self.l.write_uri, uri, len(uri))

    def write_carrier(self, value):
        kind, data = bytes.fromhex(value['type']), bytes.fromhex(value['data'])
        return self.written(self.l.write_carrier, value['format'], kind, len(kind), data, len(data))

    def arena(self):
        arena = bytearray()

        def put(text):
            octets = bytes.fromhex(text)
            part = self.l.new('part', at=len(arena), length=len(octets))
            arena.extend(octets)
            return part
        return arena, put

    def write_poster(self, value):
        arena, put = self.arena()
        how = self.l.new('poster_writing', uri=put(value['uri']))
        for name in ('action', 'size'):
            if value[name] is not None:
                setattr(how, name, value[name]), setattr(how, 'has_' + name, 1)
        if value['media'] is not None:
            how.has_media_type, how.media_type = 1, put(value['media'])
        titles = (self.l.types['ndef_title_writing'] * len(value['titles']))(*((put(l), put(t), int(u)) for l, t, u in value['titles']))
        icons = (self.l.types['ndef_icon_writing'] * len(value['icons']))(*((put(m), put(d)) for m, d in value['icons']))
        return self.written(self.l.write_poster, bytes(arena), len(arena), ref(how), titles, len(titles), icons, len(icons))

    def laid(self, value, put):
        references, alternatives = [], []
        for power, first, others in value['carriers']:
            alternatives.append((len(references), 1 + len(others), power))
            references += [put(one) for one in (first, *others)]
        return ((self.l.types['ndef_part'] * len(references))(*references), len(references),
                (self.l.types['ndef_alternative_writing'] * len(alternatives))(*alternatives), len(alternatives))

    def write_request(self, value):
        if value['version'][0] != 1:
            raise Bad()
        arena, put = self.arena()
        laid = self.laid(value, put)
        return self.written(self.l.write_request, value['version'][1], value['collision'], bytes(arena), len(arena), *laid)

    def write_select(self, value):
        if value['version'][0] != 1:
            raise Bad()
        arena, put = self.arena()
        laid, how = self.laid(value, put), self.l.new('select_writing', minor=value['version'][1])
        if value['error']:
            how.has_error, how.reason, how.data = 1, value['error'][0], put(value['error'][1])
        return self.written(self.l.write_select, ref(how), bytes(arena), len(arena), *laid)

    def which(self, value):
        """The members of a value that can't be written beside others that can."""
        bad = []
        for member in FINE[value['kind']]:
            try:
                getattr(self, 'write_' + value['kind'])({**FINE[value['kind']], member: value[member]})
            except Bad:
                bad.append(member)
        return bad

    # ---- the answer of a row
    def answer(self, row):
        try:
            if row['op'] == 'make' and self.which(row['value']):
                return {'bad': self.which(row['value'])}
            return getattr(self, row['op'])(row)
        except Refused as refused:
            return {'refused': refused.args[0]}
        except Bad:
            return {'bad': True}
