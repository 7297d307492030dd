"""What each hint states of refused bytes, and whether it is true of them: by docs/EXPLAIN.md, and by the layouts of the NFC Forum for the memory of tags
(Type 1 to Type 5 Tag). Of the tags that tags.py lays out it is known which bytes are the message: the place and the length of a hint have to give these."""
import base64
import re

import reading

MESSAGE, PASSED, CONTROLS = 3, (0, 1, 2, 0xfd), (1, 2)


def number_at(given, at, size):
    """The number that octets spell; those that aren't there are 0."""
    octets = given[at:at + size]
    return int.from_bytes(octets + bytes(size - len(octets)), 'big')


def blocks(given, at):
    """The TLV blocks from there on, up to an NDEF Message TLV: the tag of each, where its value begins, and its length."""
    while at < len(given):
        tag, is_long = given[at], given[at + 1:at + 2] == b'\xff'
        begins, length = (at + 4, number_at(given, at + 2, 2)) if is_long else (at + 2, number_at(given, at + 1, 1))
        yield tag, begins, length
        if tag not in PASSED:
            return
        at = at + 1 if tag == 0 else begins + length


def message_block(given, at):
    """The first NDEF Message TLV of the blocks from there on: where its value begins, and its length; or None."""
    return next(((begins, length) for tag, begins, length in blocks(given, at) if tag == MESSAGE), None)


def blocks_begin(given):
    """Where the TLV blocks may begin: at once, or after a capability container of four octets or of eight."""
    containers = [at for at in range(20) if given[at:at + 1] in (b'\xe1', b'\xe2')]
    return [0, *(at + size for at in containers for size in (4, 8))]


def attributes(given):
    """The length in the attribute information block of a Type 3 Tag, whose last two octets are the sum of the others; or None."""
    is_block = len(given) >= 16 and given[0] in (0x10, 0x11) and sum(given[:14]) == number_at(given, 14, 2)
    return number_at(given, 11, 3) if is_block else None


def in_block(scene, limits, length, at):
    given = scene.given
    is_block = any(message_block(given, begins) == (at, length) for begins in blocks_begin(given))
    return scene.at == 0 and is_block and given[at] & 0x80


def interrupted(scene, limits, length, at):
    """A control TLV comes before the message, or the memory may be that of a dynamic Type 1 Tag, whose container says that it has more than 120 bytes."""
    given, starts = scene.given, [begins for begins in blocks_begin(scene.given) if message_block(scene.given, begins) == (at, length)]
    has_control = any(tag in CONTROLS and count == 3 for begins in starts for tag, _, count in blocks(given, begins))
    is_dynamic = any(12 <= begins < 16 and given[begins - 2] >= 0x0f for begins in starts)
    return scene.at == 0 and (length == 0 or given[at:at + 1] >= b'\x80') and (has_control or is_dynamic)


def after_attributes(scene, limits, length, at):
    return scene.at == 0 and at == 16 and attributes(scene.given) == length and scene.given[9] == 0


def unfinished(scene, limits):
    return scene.at == 0 and attributes(scene.given) is not None and scene.given[9] != 0


def in_file(scene, limits, length, at):
    given = scene.given
    return scene.at == 0 and at in (2, 4) and 0 < length == number_at(given, 0, at) <= len(given) - at and given[at] & 0x80


def empty_tag(scene, limits):
    found = [message_block(scene.given, begins) for begins in blocks_begin(scene.given)]
    has_length = any(block and block[1] == 0 and block[0] <= len(scene.given) for block in found)
    return scene.at == 0 and (has_length or attributes(scene.given) == 0)


def message_at(scene, limits, at):
    return scene.at == 0 and 1 <= at <= 16 and reading.Reader(scene.given[at:], limits).read()[1] == 0


def terminator(scene, limits):
    return scene.at == 0 and scene.given[:1] == b'\xfe'


def code_left_out(scene, limits):
    return scene.reason == reading.URI_CODE and scene.given[scene.at:scene.at + 1] == b'h'


def standard_profile(scene, limits):
    is_read = reading.Reader(scene.given, limits._replace(standard=True)).read()[1] == 0
    return not limits.standard and scene.reason in (reading.RESERVED_TNF, reading.URI_CODE) and is_read


def is_text(pattern):
    """What says whether refused bytes are a text of this form."""
    return lambda scene, limits: scene.at == 0 and re.match(pattern, scene.given) is not None


def is_digits(scene, limits):
    """Digits, or a list of a program, which is ASCII: an even number of hexadecimal digits, or numbers up to 255."""
    text = scene.given
    for first, last in ((b'{', b'}'), (b'[', b']')):
        if first in text and re.fullmatch(rb'[\t\n\r -~]*', text):
            text = text.split(first, 1)[1].split(last, 1)[0]
            break
    words = re.split(rb'[\t\n\r ,:-]', text)
    digits = b''.join(re.sub(rb'\A0[xX]', b'', word) for word in words)
    is_hex = re.fullmatch(rb'([0-9A-Fa-f]{2})+', digits) is not None
    is_decimal = all(re.fullmatch(rb'[0-9]{0,3}', word) and int(word or b'0') < 256 for word in words) and digits != b''
    return scene.at == 0 and (is_hex or is_decimal)


def is_suppressed(scene, limits):
    """Lines of pairs of digits, or of `*` only, but the first has pairs."""
    pair, stars = rb'[\t\r ,:-]*([0-9A-Fa-f]{2}([\t\r ,:-]+|\Z))', rb'\*[\t\r ,:-]*'
    first, *others = scene.given.split(b'\n')
    is_star = [re.fullmatch(stars, line) is not None for line in others]
    are_lines = all(star or re.fullmatch(rb'[\t\r ,:-]*|(%b)+' % pair, line) for star, line in zip(is_star, others))
    return scene.at == 0 and re.fullmatch(rb'(%b)+' % pair, first) is not None and any(is_star) and are_lines


def is_base64(scene, limits):
    """What Python's reader takes without a surplus, as long as only line feeds separate it; it takes bits that are left over as well."""
    text = scene.given.replace(b'\n', b'')
    try:
        octets = base64.b64decode(text, validate=True)
    except ValueError:
        return False
    return scene.at == 0 and base64.b64encode(octets) == text


# Each hint: its name, its words, and what says whether it is true.
HINTS = [(name, re.compile(words), is_true) for name, words, is_true in (
    ('block', r'A message of length (\d+) may begin at byte (\d+), in an NDEF TLV of a tag\.', in_block),
    ('attributes', r'A message of length (\d+) may begin at byte (\d+), after the attribute block of a Type 3 Tag\.', after_attributes),
    ('file', r'A message of length (\d+) may begin at byte (\d+), after its length, as in a file of a Type 4 Tag\.', in_file),
    ('interrupted', r'A message of length (\d+) may begin at byte (\d+), in an NDEF TLV of a tag, but reserved areas may lie before its end: '
                    r'use a reader that skips them\.', interrupted),
    ('unfinished', r'This Type 3 Tag is being written: its attribute block says that the message is not whole yet\.', unfinished),
    ('empty', r'This tag is empty: it has no bytes for a message\.', empty_tag),
    ('near', r'The bytes may begin with what surrounds a message on a tag; a message begins at byte (\d+)\.', message_at),
    ('terminator', r'FE \(hexadecimal\) ends the TLV blocks of a tag\.', terminator),
    ('code', r'68 \(hexadecimal\) is the letter h: was the identifier code left out\?', code_left_out),
    ('standard', r'The standard profile reads this \(`--profile standard`, in C NDEF_STANDARD\)\.', standard_profile),
    ('digits', r'These are digits, not the bytes that they spell; `--hex` reads them\.', is_digits),
    ('xxd', r'This is a dump by xxd, not the bytes that it spells; `--hex` reads it\.', is_text(rb'[0-9A-Fa-f]{8,}: ')),
    ('hexdump', r'This is a dump by hexdump, not the bytes that it spells; `--hex` reads it\.', is_text(rb'[0-9A-Fa-f]{8,}  .*')),
    ('od', r'This is a dump by od, not the bytes that it spells; `--hex` reads it\.', is_text(rb'0[0-9A-Fa-f]{5,6} ')),
    ('suppressed', r'This is a dump by od with `\*` for repeated lines, whose number it doesn\'t say; `od -v` writes them\.', is_suppressed),
    ('words', r'This is a dump in words, not bytes; `--hex` reads those of `hexdump -C` and `od -tx1`\.', is_text(rb'0[0-9A-Fa-f]{5,6} ')),
    ('flipper', r'This is a file of a Flipper, not the bytes that it spells; `--hex` reads it\.', is_text(rb'Filetype: Flipper')),
    ('proxmark', r'This is what a Proxmark prints, not the bytes; `--hex` reads the digits of its blocks\.', is_text(rb'\[(=|\+|usb)\]')),
    ('base64', r'This may be base64, not the bytes that it spells; `base64 -d` gives them\.', is_base64),
)]


def forms():
    """The name of each hint."""
    return {f'hint {name}' for name, _, _ in HINTS}


def named(hint):
    """The name of a hint, and its numbers."""
    found = ((name, pattern.fullmatch(hint)) for name, pattern, _ in HINTS)
    return next(((name, [int(number) for number in words.groups()]) for name, words in found if words), ('', []))


def is_whole_file(given):
    """Whether the bytes are as long as a file that begins with its length: a hint takes them for one, whatever laid them out."""
    return any(number_at(given, 0, at) == len(given) - at for at in (2, 4))


def fault_on_tag(hint, tag):
    """What is wrong with a hint on a tag of tags.py: it isn't the one that is wanted, the bytes that it names are others than the message, or it says that
    a tag is empty which isn't. None where nothing is. Of bytes that end within the message it names those that there are."""
    name, numbers = named(hint) if hint else (None, [])
    if tag.wanted and name != tag.wanted:
        return f'{name} instead of {tag.wanted}'
    if name in ('block', 'attributes', 'file'):
        length, at = numbers
        cut = tag.given[at:at + length]
        if at > len(tag.given) or cut != tag.message[:len(cut)] or length != len(tag.message):
            return 'the bytes there are others than the message'
    return 'the tag is not empty' if name == 'empty' and tag.message else None


def judged(hint, scene, limits):
    """The name of a hint, and whether it is true; no name where it has no known form."""
    for name, pattern, is_true in HINTS:
        found = pattern.fullmatch(hint)
        if found:
            return f'hint {name}', bool(is_true(scene, limits, *map(int, found.groups())))
    return '', False
