"""The plain reader's values: what payloads stand for, what is written, and which records a handover names. As in plain.py each
rule can be taken away."""
import plain

PREFIXES = ('', 'http://www.', 'https://www.', 'http://', 'https://', 'tel:', 'mailto:', 'ftp://anonymous:anonymous@', 'ftp://ftp.',
            'ftps://', 'sftp://', 'smb://', 'nfs://', 'ftp://', 'dav://', 'news:', 'telnet://', 'imap:', 'rtsp://', 'urn:', 'pop:',
            'sip:', 'sips:', 'tftp:', 'btspp://', 'btl2cap://', 'btgoep://', 'tcpobex://', 'irdaobex://', 'file://', 'urn:epc:id:',
            'urn:epc:tag:', 'urn:epc:pat:', 'urn:epc:raw:', 'urn:epc:', 'urn:nfc:')
UNLIMITED = plain.Limits(2 ** 32 - 1, 65535, 65535)


def hexadecimal(octets):
    return octets.hex().upper() or '-'


def listed(items):
    return ','.join(map(hexadecimal, items)) or 'none'


def spelled(records, form='short', chunk=None, without=None):
    """The bytes of records: the canonical spelling, the long form, or in chunks."""
    octets = b''
    for index, record in enumerate(records):
        size = chunk or max(len(record.payload), 1)
        parts = [record.payload[at:at + size] for at in range(0, len(record.payload), size)] or [b'']
        for number, part in enumerate(parts):
            first, last = number == 0, number + 1 == len(parts)
            # A writer without the canonical form writes each length in four octets.
            short = form == 'short' and len(part) < 256 and without != 'canonical'
            begins, ends = first and index == 0, last and index + 1 == len(records)
            kind, name = (record.type, record.id) if first else (b'', b'')
            octets += bytes([128 * begins + 64 * ends + 32 * (not last) + 16 * short + 8 * bool(name) + (record.format if first else 6)])
            octets += bytes([len(kind)]) + len(part).to_bytes(1 if short else 4, 'big') + (bytes([len(name)]) if name else b'')
            octets += kind + name + part
    return octets


class Values:
    """The values of payloads in a profile."""

    def __init__(self, profile='strict', without=None):
        self.profile, self.without = profile, without
        self.reader = plain.Reader('typed', profile, UNLIMITED, without)

    def value(self, kind, payload):
        """The value of a payload in the words of typed.txt and what is written for it, or None where it is refused."""
        of = {'T': self.text, 'U': self.uri, 'Sp': self.poster, 'ac': self.alternative, 'err': self.error, 'Hc': self.carrier,
              'Hr': self.request, 'Hs': self.select}[kind]
        try:
            self.reader.payload(kind.encode(), payload)
            return of(payload)
        except (plain.Wrong, IndexError):
            return None

    def words_of_text(self, payload):
        language, octets = payload[1:1 + (payload[0] & 63)], payload[1 + (payload[0] & 63):]
        text = self.reader.utf16(octets) if payload[0] & 128 else octets.decode()
        if self.without == 'text-first-mark':
            text = text.removeprefix('\ufeff')
        return language, text

    def text(self, payload):
        language, text = self.words_of_text(payload)
        wide = payload[0] & 128
        order = 'utf-16-le' if self.without == 'text-written' else 'utf-16-be'
        octets = ('\ufeff' + text).encode(order) if wide else text.encode()
        words = f'encoding={"utf-16" if wide else "utf-8"} language={hexadecimal(language)} text={hexadecimal(text.encode())}'
        return words, bytes([wide + len(language)]) + language + octets

    def whole_uri(self, payload):
        code = payload[0] if payload[0] < len(PREFIXES) else 0
        if self.without == 'uri-prefix':
            code = 0
        return PREFIXES[code] + payload[1:].decode()

    def uri(self, payload):
        uri = self.whole_uri(payload)
        fitting = [(len(prefix), code) for code, prefix in enumerate(PREFIXES) if uri.startswith(prefix)]
        # A writer without the rule takes the first prefix that fits.
        length, code = max(fitting) if self.without != 'uri-written' else (fitting[1:] or fitting)[0]
        return f'uri={hexadecimal(uri.encode())}', bytes([code]) + uri[length:].encode()

    def records(self, octets):
        return self.reader.message(octets, b'Sp')[0] if octets else []

    def first(self, records, kind):
        """The payload of the first record of a type."""
        found = [record.payload for record in records if (record.format, record.type) == (1, kind)]
        return found[-1 if self.without == 'poster-repeated' else 0] if found else None

    def poster(self, payload):
        records = self.records(payload)
        uri, titles = self.first(records, b'U'), [record.payload for record in records if (record.format, record.type) == (1, b'T')]
        if uri is None:
            raise plain.Wrong('poster-uri')
        action, size, media = (self.first(records, kind) for kind in (b'act', b's', b't'))
        words = [len(records), hexadecimal(self.whole_uri(uri).encode()), listed(self.words_of_text(title)[1].encode() for title in titles),
                 'none' if action is None else action[0], 'none' if size is None else int.from_bytes(size, 'big'),
                 'none' if media is None else hexadecimal(media)]
        # A reserved code of the URI is written as 0.
        written = [record._replace(payload=b'\0' + uri[1:]) if record.payload is uri and uri[0] > 0x23 else record for record in records]
        names = ('records', 'uri', 'titles', 'action', 'size', 'media')
        return ' '.join(f'{name}={word}' for name, word in zip(names, words)), spelled(written)

    def alternative(self, payload):
        at, references = 1, []
        for _ in range(1 + payload[2 + payload[1]]):
            references.append(payload[at + 1:at + 1 + payload[at]])
            at += 1 + payload[at] + (len(references) == 1)
        power = payload[0] & 3
        words = f'power={power} reference={hexadecimal(references[0])} auxiliary={listed(references[1:])} rest={hexadecimal(payload[at:])}'
        return words, bytes([power]) + payload[1:]

    def error(self, payload):
        return f'reason={payload[0]} data={hexadecimal(payload[1:])}', payload

    def carrier(self, payload):
        end = 2 + payload[1]
        words = f'format={payload[0] & 7} type={hexadecimal(payload[2:end])} data={hexadecimal(payload[end:])}'
        return words, bytes([payload[0] & 7]) + payload[1:]

    def request(self, payload):
        records = self.records(payload[1:])
        number = int.from_bytes(records[0].payload, 'big')
        return f'minor={payload[0] & 15} collision={number} records={len(records)}', payload[:1] + spelled(records)

    def select(self, payload):
        records = self.records(payload[1:])
        return f'minor={payload[0] & 15} records={len(records) or "none"}', payload[:1] + spelled(records)

    def links(self, message):
        """The carriers that the first handover record of a message names, in the words of links.txt."""
        records, _ = self.reader.message(message, None)
        found = [record for record in records if record.format == 1 and record.type in (b'Hr', b'Hs')]
        ids = [record.id for record in records]
        links = []
        for record in self.records(found[-1 if self.without == 'link-first' else 0].payload[1:]) if found else ():
            if (record.format, record.type) == (1, b'ac'):
                reference = record.payload[2:2 + record.payload[1]]
                links.append(f'{record.payload[0] & 3} {hexadecimal(reference)} {self.linked(ids, reference)}')
        return ', '.join(links) or 'none'

    def linked(self, ids, reference):
        """The number of the record with this id, from 1."""
        if self.without == 'link':
            return 'none'
        if reference in ids and (reference or self.without == 'link-none'):
            return ids.index(reference) + 1
        return 'none'
