"""What each sentence states of refused bytes, and whether it is true of them. A Scene is what stands in the bytes up to the refused one, by the layouts
of NDEF 1.0, RTD Text 1.0, RTD URI 1.0, RTD Smart Poster 1.0 and Connection Handover 1.2 alone. What the sentences mean is said in docs/EXPLAIN.md."""
import re

import reading

# The length of each payload of a kind, or its least length (docs/FORMAT.md, Payloads).
FIXED = {'act': 1, 's': 4, 'cr': 2}
LEAST = {'T': 1, 'U': 1, 'Sp': 5, 'Hr': 8, 'Hs': 1, 'Hc': 2, 'ac': 3, 'err': 1}
NOUNS = {'T': 'A text', 'U': 'A URI', 'Sp': 'A smart poster', 'Hr': 'A handover request', 'Hs': 'A handover select', 'Hc': 'A handover carrier',
         'act': 'An action', 's': 'A size', 't': 'A media type', 'ac': 'An alternative carrier', 'cr': 'A collision record', 'err': 'An error'}
ERROR_DATA = {1: 1, 2: 4, 3: 1}
TABLES = {'': ('T', 'U', 'Sp', 'Hr', 'Hs', 'Hc'), 'Sp': ('T', 'U', 'act', 's', 't'), 'Hr': ('cr', 'ac'), 'Hs': ('ac', 'err')}
# The least record of a message is an Empty one.
LEAST_RECORD = 3


class Chunk:
    """A chunk, as far as it has come."""

    def __init__(self, octets, at):
        known = octets[at:]
        self.at, self.header, self.come = at, known[0], len(known)
        self.tnf, self.last, self.chunked, self.has_id = self.header & 7, bool(self.header & 0x40), bool(self.header & 0x20), bool(self.header & 8)
        self.width = 1 if self.header & 0x10 else 4
        self.head = 2 + self.width + self.has_id
        self.type_length = known[1] if self.come > 1 else None
        digits = known[2:2 + self.width]
        self.has_length = len(digits) == self.width
        # The payload length, or the least that its octets so far can spell.
        self.least = int.from_bytes(digits + bytes(self.width - len(digits)), 'big')
        self.payload_length = self.least if self.has_length else None
        self.is_headed = self.come >= self.head
        self.id_length = known[self.head - 1] if self.has_id and self.is_headed else None if self.has_id else 0
        self.end = self.type = self.payload = self.begins = self.size = None
        if self.is_headed:
            named = self.head + self.type_length
            self.begins = named + self.id_length
            self.type = known[self.head:named] if self.come >= named else None
            self.payload = known[self.begins:self.begins + self.payload_length]
            self.size = self.begins + self.payload_length
            self.end = at + self.size if self.come >= self.size else None

    def least_size(self):
        """The least size of a record that begins with these octets."""
        return self.head + (self.type_length if self.type_length is not None else 1 if 0 < self.tnf < 5 else 0) + (self.id_length or 0) + self.least

    def known_size(self):
        """The size of a record that begins with these octets, where it is known: all lengths have come, or it is an Empty one."""
        return self.size if self.is_headed else self.least_size() if self.tnf == 0 else None

    def kind(self, table):
        """The kind of its payload in a message; '' where it is none or isn't known."""
        name = (self.type or b'').decode('latin-1')
        return name if self.tnf == 1 and name in TABLES[table] else ''

    def may_be(self, name):
        """Whether a well-known type of this name may begin with what has come of the type."""
        come = self.type_length is None or self.type_length == len(name)
        return self.tnf == 1 and come and (self.type is None or self.type == name)


def chunks_of(octets):
    """The chunks that follow one another, the last one as far as it has come."""
    found, at = [], 0
    while at is not None and at < len(octets):
        found.append(Chunk(octets, at))
        at = found[-1].end
    return found


class Scene:
    """What stands in the bytes up to the refused one, or to the end of the input."""

    def __init__(self, given, at, reason):
        self.given, self.at, self.reason, self.ends = given, at, reason, at == len(given)
        self.octets = given[:at + 1]
        self.chunks = chunks_of(self.octets)
        self.table, self.inner, self.record, self.total, self.content = '', [], None, None, b''
        if self.chunks:
            self.look()

    def look(self):
        """Finds the record of the refused byte, and that within its payload."""
        first = len(self.chunks) - 1
        while first and self.chunks[first - 1].chunked:
            first -= 1
        own = self.chunks[first:]
        self.record = own[0]
        self.content = b''.join(chunk.payload or b'' for chunk in own)
        # The length of the payload, where it is known: that of its chunks, the last of which has come.
        lengths = [chunk.payload_length for chunk in own]
        self.total = None if own[-1].chunked or None in lengths else sum(lengths)
        kind = self.record.kind('')
        skipped = {'Sp': 0, 'Hr': 1, 'Hs': 1}.get(kind)
        if skipped is not None and len(self.content) > skipped:
            self.table, self.skipped = kind, skipped
            self.inner = chunks_of(self.content[skipped:])
        if self.inner:
            self.chunk = self.inner[-1]
            self.left = None if self.total is None else self.total - skipped - self.chunk.at
        else:
            self.chunk = own[-1]

    def kind(self):
        """The kind of the record with the refused byte."""
        return self.chunk.kind(self.table) if self.inner else self.record.kind('')

    def length(self):
        """The length of its payload, where it is known."""
        return self.chunk.payload_length if self.inner else self.total

    def payload(self):
        """What has come of its payload."""
        return (self.chunk.payload or b'') if self.inner else self.content

    def is_first_of_request(self):
        return self.table == 'Hr' and len(self.inner) == 1


# ---- the sentences that say a number or a name

def fixed(scene, noun, name, there, given):
    return noun == NOUNS.get(name) and scene.kind() == name and FIXED.get(name) == there and scene.length() == given != there


def least(scene, noun, name, at_least, given):
    return noun == NOUNS.get(name) and scene.kind() == name and LEAST.get(name) == at_least and scene.length() == given < at_least


def select(scene, given):
    return scene.kind() == 'Hs' and scene.length() == given and given in (0, 2, 3)


def error(scene, reason, there, given):
    payload = scene.payload()
    return scene.kind() == 'err' and payload[:1] == bytes([reason]) and ERROR_DATA.get(reason) == there and scene.length() - 1 == given != there


def shorter_field(scene, name, size, left):
    payload, length = scene.payload(), scene.length()
    if length is None:
        return False
    if name == 'language code':
        return scene.kind() == 'T' and len(payload) >= 1 and size == payload[0] & 0x3f and left == length - 1 and size > left
    if name == 'auxiliary data reference':
        return scene.kind() == 'ac' and auxiliaries(payload)[-1:] == [(len(payload) - 1, size)] and left == length - len(payload) < size
    kind = {'carrier data reference': 'ac', 'carrier type': 'Hc'}.get(name)
    return kind == scene.kind() and len(payload) >= 2 and size == payload[1] and left == length - 2 and size > left


def auxiliaries(payload):
    """The place of the length of each auxiliary reference that has begun, and that length."""
    found = []
    if len(payload) >= 2 and len(payload) > payload[1] + 2:
        at = payload[1] + 3
        while at < len(payload) and len(found) < payload[payload[1] + 2]:
            found.append((at, payload[at]))
            at += 1 + payload[at]
    return found


def even_text(scene):
    payload, length = scene.payload(), scene.length()
    return scene.kind() == 'T' and payload and payload[0] & 0x80 and length is not None and (length - 1 - (payload[0] & 0x3f)) % 2 == 1


def missing_octets(text, wide):
    """How many octets are missing of the last character of a text at least; 0 where it is whole."""
    if not wide:
        begins = next((at for at in range(len(text) - 1, -1, -1) if text[at] & 0xc0 != 0x80), 0)
        return 1 + (reading.following(text[begins]) or 0) - (len(text) - begins) if text else 0
    little = text[:2] == b'\xff\xfe'
    odd, units = len(text) % 2, [text[at + little] << 8 for at in range(0, len(text) - 1, 2)]
    if odd:
        half = text[-1] if not little else 0
        return 3 if 0xd8 <= half <= 0xdb else 1
    return 2 if units and 0xd800 <= units[-1] <= 0xdb00 else 0


def whole_character(scene):
    payload, length, kind = scene.payload(), scene.length(), scene.kind()
    if length is None or kind not in ('T', 'U', 't') or not payload:
        return False
    skipped = 1 + (payload[0] & 0x3f) if kind == 'T' else 1 if kind == 'U' else 0
    text = payload[skipped:]
    return len(payload) > skipped and missing_octets(text, kind == 'T' and payload[0] & 0x80) > length - len(payload)


def auxiliary_count(scene):
    payload, length = scene.payload(), scene.length()
    return scene.kind() == 'ac' and len(payload) >= 2 and payload[1] == length - 2


def auxiliary(scene, count, at_least, left):
    payload, length = scene.payload(), scene.length()
    if scene.kind() != 'ac' or len(payload) < 2 or len(payload) < payload[1] + 3:
        return False
    place, begun = payload[1] + 2, auxiliaries(payload)
    end = sum(begun[-1]) + 1 if begun else place + 1
    # The byte is the number of references, or the length of one of them.
    is_at = len(payload) == (begun[-1][0] if begun else place) + 1
    return is_at and count == at_least == payload[place] - len(begun) and left == length - end and 0 <= left < count


def shorter_record(scene, at_least, left):
    return bool(scene.inner) and scene.left == left < at_least <= scene.chunk.least_size()


def longer_last(scene, size, left):
    chunk = scene.chunk
    return bool(scene.inner) and chunk.last and chunk.known_size() == size < left == scene.left


def space_for_next(scene, left):
    chunk = scene.chunk
    size = chunk.known_size()
    return bool(scene.inner) and not chunk.last and None not in (size, scene.left) and scene.left - size == left < LEAST_RECORD


def after_shortest(scene, left):
    chunk = scene.chunk
    if not scene.inner or chunk.last or scene.left is None:
        return False
    shortest = max(chunk.least_size(), collision_size(scene)[0] if collision_begins(scene) else 0)
    return scene.left - shortest == left < LEAST_RECORD


def has_no_uri(scene):
    """Whether the byte is in a smart poster in which no URI has come."""
    return scene.table == 'Sp' and not any(other.kind('Sp') == 'U' for other in scene.inner[:-1])


def may_be_last_uri(scene):
    """Whether the record with the byte has to be the URI of a smart poster, and may be one by what has come of its type."""
    return has_no_uri(scene) and scene.chunk.last and scene.chunk.may_be(b'U')


def empty_uri(scene):
    return has_no_uri(scene) and scene.chunk.last and scene.chunk.payload_length == 0


def last_uri(scene, at_least, left):
    chunk = scene.chunk
    least_uri = chunk.head + 1 + (chunk.id_length or 0) + max(1, chunk.least)
    return may_be_last_uri(scene) and scene.left == left < at_least <= least_uri


def uri_to_follow(scene, at_least, left):
    chunk = scene.chunk
    if not has_no_uri(scene) or chunk.last or (chunk.may_be(b'U') and chunk.payload_length != 0):
        return False
    size = chunk.known_size()
    return at_least == LEAST['Sp'] and None not in (size, scene.left) and scene.left - size == left < at_least


def uri_in_poster(scene, count):
    *before, chunk = scene.inner or [None]
    is_without = scene.table == 'Sp' and chunk.last and not chunk.may_be(b'U')
    return is_without and count == len(scene.inner) and not any(other.kind('Sp') == 'U' for other in before)


def one_uri(scene, count):
    *before, chunk = scene.inner or [None]
    return scene.table == 'Sp' and count == len(scene.inner) and chunk.kind('Sp') == 'U' and any(other.kind('Sp') == 'U' for other in before)


def begins_otherwise(scene):
    """Whether the first record of a request can't be a collision record, by what has come of it."""
    if not scene.is_first_of_request():
        return False
    chunk = scene.chunk
    begun = scene.content[scene.skipped:][chunk.head:] if chunk.is_headed and chunk.type_length == 2 else b''
    return chunk.tnf != 1 or (chunk.type_length is not None and chunk.type_length != 2) or not b'cr'.startswith(begun[:2])


def collision_begins(scene):
    return scene.is_first_of_request() and not begins_otherwise(scene)


def collision_length(scene, there, given):
    return collision_begins(scene) and there == 2 and scene.chunk.payload_length == given != 2


def collision_size(scene):
    """The size of a collision record with this head, and whether that is certain; its type and its payload have two octets each."""
    chunk = scene.chunk
    return chunk.head + 4 + (chunk.id_length or 0), chunk.id_length is not None


def shorter_collision(scene, at_least, left):
    return collision_begins(scene) and scene.left == left < at_least <= collision_size(scene)[0]


def last_collision(scene, size, left):
    return collision_begins(scene) and scene.chunk.last and (size, True) == collision_size(scene) and size < left == scene.left


def after_collision(scene, at_least, left):
    if not collision_begins(scene) or scene.chunk.last or scene.left is None:
        return False
    size, is_certain = collision_size(scene)
    return at_least == LEAST_RECORD and is_certain and scene.left - size == left < LEAST_RECORD


# ---- where the input has ended

FIELDS = ('TYPE_LENGTH', 'PAYLOAD_LENGTH', 'ID_LENGTH', 'TYPE', 'ID', 'the payload')


def missing(scene, count, name):
    """Octets of a field are missing: of the first that hasn't come whole."""
    if not scene.ends or not scene.chunks or scene.chunks[-1].end is not None:
        return False
    chunk, at = scene.chunks[-1], 1
    for field in FIELDS:
        size = {'TYPE_LENGTH': 1, 'PAYLOAD_LENGTH': chunk.width, 'ID_LENGTH': int(chunk.has_id), 'TYPE': chunk.type_length, 'ID': chunk.id_length,
                'the payload': chunk.payload_length}[field]
        at += size
        if chunk.come < at:
            return field == name and count == at - chunk.come
    return False


def no_message(scene):
    return not scene.given


def next_record(scene):
    chunks = scene.chunks
    return scene.ends and bool(chunks) and chunks[-1].end is not None and not chunks[-1].chunked and not any(chunk.last for chunk in chunks)


def next_chunk(scene):
    return scene.ends and bool(scene.chunks) and scene.chunks[-1].end is not None and scene.chunks[-1].chunked


# Parts of sentences. A number is a group, and so is the noun or the verb that has a form for one and a form for more.
KIND = r'(An? [\w ]+) \(`(\w+)`\)'
OCTETS = r'(\d+) (octets?)'
GIVEN = r'(\d+) (was|were) given\.'
LEFT = r'(\d+) (is|are) left in the payload\.'
BEGINS = r'A request begins with a collision record \(`cr`\)'
FORM_FOR_ONE, FORM_FOR_MORE = ('octet', 'was', 'is', 'auxiliary reference has'), ('octets', 'were', 'are', 'auxiliary references have')

# Each form of a sentence, and what says whether it is true.
FORMS = [(re.compile(words), is_true) for words, is_true in (
    (rf'{KIND} has {OCTETS}; {GIVEN}', fixed),
    (rf'{KIND} has at least {OCTETS}; {GIVEN}', least),
    (rf'A handover select \(`Hs`\) has 1 octet, or at least 4; {GIVEN}', select),
    (rf'The data of error reason (\d+) has {OCTETS}; {GIVEN}', error),
    (rf'The ([\w ]+) has {OCTETS}; {LEFT}', shorter_field),
    (r'The text in UTF-16 has an odd number of octets\.', even_text),
    (r'The payload ends within a character of the text\.', whole_character),
    (r'The alternative carrier ends before its number of auxiliary references\.', auxiliary_count),
    (rf'(\d+) (auxiliary reference has|auxiliary references have) to follow, of at least {OCTETS}; {LEFT}', auxiliary),
    (rf'This record has at least {OCTETS}; {LEFT}', shorter_record),
    (rf'This record is the last \(ME\) and has {OCTETS}; {LEFT}', longer_last),
    (rf'Another record has to follow \(ME is clear\), of at least 3 octets; {LEFT}', space_for_next),
    (rf'After this record at its shortest another has to follow \(ME is clear\), of at least 3 octets; {LEFT}', after_shortest),
    (rf'The last record \(ME\) of this poster has to be its URI \(`U`\), of at least {OCTETS}; {LEFT}', last_uri),
    (r'The last record \(ME\) of this poster has to be its URI \(`U`\), whose payload is never empty\.', empty_uri),
    (rf'The URI \(`U`\) of this smart poster has to follow \(ME is clear\), in a record of at least {OCTETS}; {LEFT}', uri_to_follow),
    (r'Record (\d+) is the last of this smart poster, and none is a URI \(`U`\)\.', uri_in_poster),
    (r'Record (\d+) is a second URI \(`U`\) in this smart poster\.', one_uri),
    (r'This request must begin with a collision record \(`cr`\); its first record is another\.', begins_otherwise),
    (rf'{BEGINS} of {OCTETS}; {GIVEN}', collision_length),
    (rf'{BEGINS}, here of at least {OCTETS}; {LEFT}', shorter_collision),
    (rf'{BEGINS}, which as the last \(ME\) has {OCTETS}; {LEFT}', last_collision),
    (rf'After its collision record \(`cr`\) another record has to follow \(ME is clear\), of at least {OCTETS}; {LEFT}', after_collision),
    (rf'{OCTETS} of ([\w ]+) (is|are) missing\.', missing),
    (r'A message is missing: the input has no bytes\.', no_message),
    (r'Another record is missing: none of those before has ME set\.', next_record),
    (r'Another chunk of the record is missing: the last one has CF set\.', next_chunk),
)]

# What each reason means, where nothing more is known.
REASONS = {
    1: 'The type name format 7 is reserved.', 2: 'The first record of a message has to have MB set.',
    3: 'MB is set again, though the message has begun.', 4: 'The type name format 6 (unchanged) may only continue a chunked record.',
    5: 'A chunked record goes on with the type name format 6 (unchanged).', 6: 'Only the first chunk of a record may have an id.',
    7: 'The last record of a message (ME) has to end: CF must be clear.', 8: 'An empty record cannot be chunked.',
    9: 'The record has more chunks than the limit or a nested message allows.', 10: 'The message has more records than the limit allows.',
    11: 'This type name format has no type: TYPE_LENGTH has to be 0.', 12: 'This type name format needs a type: TYPE_LENGTH must not be 0.',
    13: 'An empty record has only lengths of 0.', 14: 'The payload is longer than the limit allows.',
    15: 'Bit 6 of the status octet of a text is reserved: it has to be 0.', 16: 'The language code of a text has to be ASCII.',
    17: 'The text is not UTF-8.', 18: 'The text is not UTF-16.', 19: 'The URI identifier codes from 24 to FF (hexadecimal) are reserved.',
    20: 'A smart poster has to have a URI record.', 21: 'A smart poster has only one URI record.',
    22: 'The handover has another major version than 1.', 23: 'Nothing that could follow this byte fits the lengths given so far.',
    25: 'A handover request has to begin with a collision resolution record.',
}
# The reason of which more is always known.
SAID_MORE = {24: 'The input ends within a message.'}
REASON_OF = {sentence: reason for reason, sentence in REASONS.items()}


def forms():
    """The name of each form that has to be met."""
    names = [form.__name__ for _, form in FORMS if form not in (fixed, least, error, shorter_field, missing)]
    names += [f'fixed {NOUNS[kind]} {kind}' for kind in FIXED] + [f'least {NOUNS[kind]} {kind}' for kind in LEAST]
    names += [f'error {reason}' for reason in ERROR_DATA] + [f'missing {field}' for field in FIELDS]
    names += [f'shorter_field {field}' for field in ('language code', 'carrier data reference', 'carrier type', 'auxiliary data reference')]
    return {*names, *(f'reason {reason}' for reason in REASONS), *FORM_FOR_ONE, *FORM_FOR_MORE}


def stated(found):
    """The numbers and names that a sentence states, the words that have a form for one or for more, and whether they have the right one."""
    values, words, last, agrees = [], [], 0, True
    for value in found.groups():
        if value in FORM_FOR_ONE or value in FORM_FOR_MORE:
            words.append(value)
            agrees = agrees and (value in FORM_FOR_ONE) == (last == 1)
        else:
            last = int(value) if value.isdigit() else last
            values.append(last if value.isdigit() else value)
    return values, words, agrees


def judged(sentence, scene):
    """The names of the forms that a sentence has, and whether it is true; no names where it has no known form."""
    reason = REASON_OF.get(sentence)
    if reason is not None:
        return [f'reason {reason}'], scene.reason == reason
    for pattern, is_true in FORMS:
        found = pattern.fullmatch(sentence)
        if found:
            values, words, agrees = stated(found)
            names = [str(value) for value in values[:1] if is_true is error] + [value for value in values if isinstance(value, str)]
            return [' '.join([is_true.__name__, *names]), *words], bool(agrees and is_true(scene, *values))
    return [], False
