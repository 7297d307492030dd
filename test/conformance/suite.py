"""The files of conformance/ and the table of rules in docs/FORMAT.md, read."""
import collections
import pathlib
import re

TOP = pathlib.Path(__file__).resolve().parents[2]
FOLDER = TOP / 'conformance'
CLASSES = ('standard', 'choice', 'narrower', 'wider')
COLUMNS = {
    'cases': 'id name rule class languages profile limits bytes answer records source',
    'typed': 'id type rule class profile payload value written',
    'encoding': 'id name rule class records form chunk bytes',
    'links': 'id name rule class profile bytes links',
}
LINES = {name: collections.namedtuple(name.capitalize(), columns.replace('class', 'class_')) for name, columns in COLUMNS.items()}


def lines(name):
    """The lines of a file, each with its columns by name. A column that isn't there is empty."""
    kind = LINES[name]
    for line in (FOLDER / f'{name}.txt').read_text().splitlines():
        if line.strip() and not line.startswith('#'):
            columns = [column.strip() for column in line.split('|')]
            yield kind(*columns, *[''] * (len(kind._fields) - len(columns)))


def octets(column):
    """The octets of a column: hexadecimal digits with spaces between some, or `-`."""
    return b'' if column == '-' else bytes.fromhex(column)


def profiles(column):
    """The profiles in which an answer is the same."""
    return ('strict', 'standard') if column == 'both' else (column,)


def limits(column, usual):
    """The limits of a column, on a named tuple with the usual ones."""
    words = column.split() if column != 'usual' else []
    return usual._replace(**{name: int(number) for name, number in zip(words[::2], words[1::2])})


def rules():
    """The classes of the rules by their names, as docs/FORMAT.md lists them."""
    found = re.findall(r'^\| `([a-z0-9-]+)` \|.*\| (\w+) \|$', (TOP / 'docs/FORMAT.md').read_text(), re.M)
    return {rule: class_ for rule, class_ in found if class_ in CLASSES}
