"""The lines of the conformance cases and of the typed values, and the names of the reasons."""
import collections
import pathlib
import re

TOP = pathlib.Path(__file__).resolve().parents[2]


def texts(name):
    """The texts by their numbers, as a list of the header of names has them."""
    header = (TOP / 'include/ndef_names.h').read_text()
    found = re.search(r'#define %s\(X\)((?:.*\\\n)*.*)' % name, header)[1]
    return {int(number): text for number, text in re.findall(r'X\((\d+), \w+, "([^"]+)"\)', found)}


def reasons():
    """The names of the reasons by their numbers."""
    return texts('NDEF_REASONS')


def sentences():
    """What reasons mean by their numbers."""
    return texts('NDEF_SENTENCES')


def lines(name):
    """The lines of a file of cases, each with its columns."""
    for line in (TOP / 'conformance' / name).read_text().splitlines():
        if line.strip() and not line.startswith('#'):
            yield line, [part.strip() for part in line.split('|')]


def cases():
    """Strict cases within the limits for usual tags: the line, whether payloads are looked into, octets, answer, records."""
    for line, parts in [*lines('cases.txt'), *lines('paths.txt')]:
        _, _, _, _, languages, profile, limits, octets, answer, records, *_ = parts + ['', '']
        if profile == 'standard' or limits != 'usual':
            continue
        for word in {'typed', 'opaque'} & set(languages.split()):
            yield line, word == 'typed', octets_of(octets), answer.split(), records


# A line of a typed value. `words` has the parts of the value by their names and `written` the payload that is written for
# it; where the payload is refused both are None, and `refusal` is the place and the number of the reason.
Value = collections.namedtuple('Value', 'line payload refusal words written')


def values(kind):
    """Strict values of the payloads of a type."""
    for line, (_, type_, _, _, profile, payload, expected, *written) in lines('typed.txt'):
        if type_ != kind or profile == 'standard':
            continue
        words = expected.split()
        if words[0] == 'refused':
            yield Value(line, octets_of(payload), (int(words[1]), int(words[2])), None, None)
        else:
            yield Value(line, octets_of(payload), None, dict(word.split('=') for word in words), octets_of(written[0]))


def octets_of(word):
    """The octets of a column or of a part of a value."""
    return b'' if word == '-' else bytes.fromhex(word)
