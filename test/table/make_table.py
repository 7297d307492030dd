#!/usr/bin/env python3
"""make_table.py LIBRARY INTERFACE FOLDER [ROUNDS]: makes the table of calls, in FOLDER as calls.jsonl and, for languages that have no reader of JSON, as
calls.txt. A row of a case of the suite has the answer of that case, which is that of the standards; the library for C has to give the same.
A row that is made up has the answer of the library, and the plain reader of test/conformance, which is independent of it, has to agree on
lengths and on what is written. Each round after the first makes up as many rows again; they have "more"."""
import collections
import json
import pathlib
import sys

HERE = pathlib.Path(__file__).resolve().parent
TOP = HERE.parents[1]
sys.path.insert(0, str(TOP / 'test/conformance'))
sys.dont_write_bytecode = True
import made_up  # noqa: E402
import plain  # noqa: E402
import plain_values  # noqa: E402
import rows_made_up  # noqa: E402
import rows_of_suite  # noqa: E402
from oracle import Oracle  # noqa: E402

USUAL = {'payload': 1048576, 'records': 1024, 'chunks': 4096}


class Table:
    def __init__(self, oracle):
        self.oracle, self.rows, self.seen, self.numbers = oracle, [], set(), collections.Counter()
        self.counted, self.round = collections.Counter(), 0

    def add(self, rows_of, **row):
        """Adds a row, unless it is there, and gives its answer."""
        key = json.dumps(row, sort_keys=True)
        if key in self.seen:
            return None
        self.seen.add(key)
        self.numbers[row['op']] += 1
        row = {'id': f"{row['op']}-{self.numbers[row['op']]}", 'of': rows_of, **row, 'answer': self.oracle.answer(row)}
        if self.round:
            row['more'] = True
        if row['op'] in ('fields', 'refusal') and row.get('opaque'):  # there payloads are looked into, whatever opaque says
            languages = ('Java', 'Rust', 'JavaScript')[:3 if row['op'] == 'refusal' else 2]
            row['otherwise'] = dict.fromkeys(languages, self.oracle.answer({**row, 'opaque': False}))
        record, bad, _ = row['answer']['line'].partition('BadArgument: ') if row['op'] == 'line' else ('', '', '')
        if bad:  # its error has the index alone
            row['otherwise'] = {'Rust': {'line': record + bad + 'type, id or payload'}}
        if row['op'] in ('check', 'decode') and 'bad' not in row['answer']:
            self.length_is_plain(row)
        if row['op'] == 'encode' and 'bytes' in row['answer']:
            self.bytes_are_plain(row)
        self.rows.append(row)
        return row['answer']

    def length_is_plain(self, row):
        """The plain reader finds the same length."""
        limits = {{'chunks': 'pieces'}.get(name, name): value for name, value in {**USUAL, **(row.get('limits') or {})}.items()}
        reader = plain.Reader('opaque' if row.get('opaque') else 'typed', row.get('profile', 'strict'), plain.Limits(**limits))
        length = reader.length(bytes.fromhex(row['bytes']))
        assert length == row['answer'].get('length'), (row, length)
        self.counted['plain'] += 1

    def bytes_are_plain(self, row):
        """The plain writer writes the same bytes."""
        form = row.get('form') or {}
        records = [plain.Record(tnf, *map(bytes.fromhex, parts)) for tnf, *parts in row['records']]
        written = plain_values.spelled(records, 'long' if form.get('long') else 'short', form.get('chunk') or None)
        assert written.hex() == row['answer']['bytes'], row
        self.counted['plain'] += 1


def flat(value, name=''):
    """A value as words NAME=VALUE: of a list its length, and its items by their numbers; nothing of null and false."""
    if isinstance(value, dict):
        for key, member in value.items():
            yield from flat(member, f'{name}.{key}' if name else key)
    elif isinstance(value, list):
        yield f'{name}={len(value)}'
        for number, member in enumerate(value):
            yield from flat(member, f'{name}.{number}')
    elif value not in (None, False) or isinstance(value, int) and value is not False:
        yield f'{name}={1 if value is True else value}'


def main(library, interface, folder, rounds='1'):
    oracle = Oracle(library, interface)
    made_up.O = oracle
    table = Table(oracle)
    taken = rows_of_suite.add(table, TOP / 'conformance')
    for table.round in range(int(rounds)):
        made_up.R.seed(20261130 + table.round)
        rows_made_up.add(table, taken, TOP / 'test/faces/hints.txt')
    with open(pathlib.Path(folder, 'calls.jsonl'), 'w', encoding='utf-8') as file:
        for row in table.rows:
            file.write(json.dumps(row, separators=(',', ':'), ensure_ascii=False) + '\n')
    with open(pathlib.Path(folder, 'calls.txt'), 'w', encoding='utf-8') as file:
        for row in table.rows:
            file.write('\t'.join(flat({name: value for name, value in row.items() if name not in ('of', 'answer', 'otherwise', 'more')})) + '\n')
    print(len(table.rows), 'rows;', table.counted['case'], 'answers of the suite,', table.counted['plain'], 'beside the plain reader')
    print(dict(table.numbers))


main(*sys.argv[1:])
