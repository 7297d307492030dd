"""The dumps of dumps.txt, which says how they are written."""
import pathlib
import re
import sys

sys.path.insert(0, str(pathlib.Path(__file__).resolve().parents[1]))
import harness  # noqa: E402
from harness import TOP  # noqa: E402

TABLE = TOP / 'test/explain/dumps.txt'
PENDING, SINCE = ', pending', '# since '
# No command reads the message of a hint with one of these wordings.
WITHOUT_COMMAND = {'none', 'blank', 'interrupted', 'unfinished', 'terminator', 'suppressed', 'words', 'proxmark'}


def octets_of(words):
    """The octets of a line of them."""
    digits, _, times = words.partition(' * ')
    return bytes.fromhex(digits) * int(times or 1)


class Dump:
    """A dump of the table."""

    def __init__(self, name, what):
        self.name, self.what, self.given, self.is_text, self.lines = name, what, b'', False, {}

    def put(self, key, words):
        """Takes a line of the table."""
        if key == 'bytes':
            self.given += octets_of(words)
        elif key == 'text':
            self.given += words.encode() + b'\n'
            self.is_text = True
        else:
            self.lines[key] = words

    def hint(self, wordings):
        """The line of its hint, or None."""
        name, *numbers = self.lines['hint'].split()
        if name == 'none':
            return None
        values = dict(number.split('=') for number in numbers)
        if 'at' in values:
            values['from'] = int(values['at']) + 1
        return 'hint: ' + re.sub(r'\{(\w+)\}', lambda found: str(values[found[1]]), wordings[name])

    def there(self):
        """How many bytes of its message are there, if it is cut short, or None."""
        values = dict(re.findall(r'(\w+)=(\d+)', self.lines['hint']))
        there = len(self.given) - int(values.get('at', 0))
        return there if there < int(values.get('length', 0)) else None

    def command(self):
        """The command below its hint: what is typed, up to ndef-explain at its end; or None."""
        if self.lines['hint'].split()[0] in WITHOUT_COMMAND or self.there() is not None:
            return None
        typed = self.lines['type']
        return typed if ends_with_program(typed) else f'{typed} | ndef-explain'


def ends_with_program(typed):
    """Whether what is typed ends with ndef-explain."""
    return typed.split(' | ')[-1].startswith('ndef-explain')


def table_of(text, release):
    """The wordings that this release prints, the names of those that are pending or newer, the dumps, and the names of those that are newer."""
    wordings, left, dumps, newer, since = {}, set(), [], set(), ()
    for line in text.splitlines():
        key, _, words = line.partition(':')
        if line.startswith(SINCE):
            since = harness.release_of(line)
            continue
        if key.startswith('wording '):
            name = key[len('wording '):].replace(PENDING, '')
            wordings[name] = words.strip()
            if key.endswith(PENDING) or since > release:
                left.add(name)
        elif key.startswith('dump '):
            dumps.append(Dump(key[len('dump '):], words.strip()))
            if since > release:
                newer.add(dumps[-1].name)
        elif line and not line.startswith('#'):
            dumps[-1].put(key, words[1:])
        since = ()
    return wordings, left, dumps, newer
