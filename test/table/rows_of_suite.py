"""The rows of the conformance suite, with the answers of its cases."""
import json
import pathlib

import made_up
from oracle import KINDS

END_OF_INPUT, USUAL = 24, {'payload': 1048576, 'records': 1024, 'chunks': 4096}


def read(path):
    """The cases of a file, after its first line."""
    return [json.loads(line) for line in path.read_text(encoding='utf-8').splitlines()[1:]]


def lower(records):
    return [[record['tnf'], *(record[name].lower() for name in ('type', 'id', 'payload'))] for record in records]


def by_profile(profile, **row):
    return {**row, **({'profile': profile} if profile == 'standard' else {})}


def message_row(case, profile, language):
    """The row of a case of messages, or None where another one asks the same."""
    if language == 'opaque' and (profile == 'standard' or 'typed' in case['languages'] and made_up.R.random() > .1) or len(case['bytes']) > 6000:
        return None
    limits = {('chunks' if name == 'pieces' else name): value for name, value in case['limits'].items()}
    row = by_profile(profile, bytes=case['bytes'].lower())
    if limits != USUAL:
        row['limits'] = limits
    if language == 'opaque':
        row['opaque'] = True
    return row


def is_of_case(answer, case, reasons):
    """Whether a message is answered as its case says."""
    if case['answer'] == 'accepted':
        return (answer['length'], [record[:4] for record in answer['records']]) == (case['length'], lower(case['records']))
    return answer == {'refused': [case['place'], reasons[case['reason'] if case['answer'] == 'refused' else END_OF_INPUT]]}


def messages(table, path):
    """Rows of messages; gives those that were added, with their answers."""
    taken = []
    for case in read(path):
        for profile in case['profiles']:
            for language in sorted({'typed', 'opaque'} & set(case['languages']), reverse=True):
                row = message_row(case, profile, language)
                answer = row and table.add(case['id'], op='decode', **row)
                if answer:
                    assert is_of_case(answer, case, table.oracle.reasons), (case, answer)
                    table.counted['case'] += 1
                    taken.append((row, answer))
    return taken


def is_of_value(value, expected, kind):
    """Whether a value is what its case says."""
    text = lambda name: value[name].encode().hex()  # noqa: E731
    if kind == 'T':
        return (text('language'), text('text'), value['encoding'] == 'utf-16') == (expected['language'], expected['text'], expected['utf16'])
    if kind == 'U':
        return text('uri') == expected['uri']
    if kind == 'Sp':
        return (text('uri'), value['action'], value['size'], len(value['titles'])) == (expected['uri'], expected['action'], expected['size'], len(expected['titles']))
    if kind == 'Hc':
        return (value['format'], value['type'].lower(), value['data'].lower()) == (expected['format'], expected['type'], expected['data'])
    return value['minor'] == expected['version'][1]


def values(table, path):
    for case in read(path):
        for profile in case['profiles'] if case['type'] in KINDS else ():
            payload = case['payload'].lower()
            answer = table.add(case['id'], **by_profile(profile, op='value_of', type=case['type'].encode().hex(), payload=payload))
            if answer is None:
                continue
            table.counted['case'] += 1
            if case['answer'] == 'refused':
                assert answer == {'refused': [case['place'], table.oracle.reasons[case['reason']]]}, (case, answer)
                continue
            assert is_of_value(case['value'], answer['value'], case['type']), (case, answer)
            table.add(case['id'], **by_profile(profile, op='within', type=case['type'].encode().hex(), payload=payload))
            if case['type'] in ('T', 'U', 'Hc') and case['written'] is not None:
                made = table.add(case['id'], op='make', value=answer['value'])
                assert made is None or made['payload'] == case['written'].lower(), (case, made)


def encodings(table, path):
    for case in read(path):
        form = {name: value for name, value in (('long', case['form'] == 'long'), ('chunk', case['chunk'])) if value}
        answer = table.add(case['id'], op='encode', records=lower(case['records']), unchecked=True, **({'form': form} if form else {}))
        assert answer in (None, {'bytes': case['bytes'].lower()}), case
        table.counted['case'] += 1


def links(table, path):
    for case in read(path):
        for profile in case['profiles']:
            row = by_profile(profile, op='links', bytes=case['bytes'].lower())
            index = next((at for at, record in enumerate(table.oracle.decode(row)['records']) if record[4] in (4, 5)), None)
            answer = index is not None and table.add(case['id'], index=index, **row)
            if answer:  # records are counted from 1 there
                want = [[link['power'], link['reference'].lower(), link['record'] - 1 if link['record'] else None] for link in case['links']]
                assert [[power, first, record] for power, first, _, record in answer['links']] == want, case
                table.counted['case'] += 1


def lines(table, folder, path):
    """What a language prints of bytes that are refused, and of records that aren't written."""
    cases = {case['id']: case['bytes'].lower() for name in ('cases', 'paths') for case in read(folder / f'{name}.jsonl')}
    for of, line in (row.split('\t') for row in path.read_text().splitlines() if row[0] != '#'):
        records = json.loads(of.replace('"256"', json.dumps('61' * 256))) if of[0] == '[' else None
        answer = table.add('refusals.tsv', op='line', **({'records': records} if records else {'bytes': cases[of]}))
        assert answer == {'line': line}, (of, answer)


def add(table, folder):
    """Adds the rows, and gives those of messages with their answers."""
    made_up.R.seed(0)
    taken = messages(table, folder / 'cases.jsonl')
    messages(table, folder / 'paths.jsonl')
    values(table, folder / 'typed.jsonl')
    encodings(table, folder / 'encoding.jsonl')
    links(table, folder / 'links.jsonl')
    lines(table, folder, pathlib.Path(__file__).with_name('refusals.tsv'))
    return taken
