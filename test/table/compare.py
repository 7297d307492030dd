#!/usr/bin/env python3
"""compare.py [--keep] TABLE ANSWERS..: compares the answers of languages with the table. A row that is answered {"not": REASON}, and a part of an
answer that is "-REASON", is left out; the first line of the answers has the reasons, and not.tsv how many of each operation are left out so. One
more is a failure. With --keep the counts are written there. The last line is 'N passed, M failed': each operation of each language is a test."""
import collections
import json
import pathlib
import sys

sys.path.insert(0, str(pathlib.Path(__file__).resolve().parents[1]))
sys.dont_write_bytecode = True
import harness  # noqa: E402

KEPT = pathlib.Path(__file__).with_name('not.tsv')
SHOWN = 3


def is_same(want, got, reasons, left):
    """Whether an answer is the one that is wanted. Of several bad arguments a language may name one."""
    if isinstance(got, str) and got[:1] == '-' and got[1:] in reasons:
        left.append(got[1:])
        return True
    if type(want) is list and type(got) is str and got in want:
        return True
    if type(want) is dict and type(got) is dict:
        return want.keys() == got.keys() and all(is_same(want[name], got[name], reasons, left) for name in want)
    if type(want) is list and type(got) is list:
        return len(want) == len(got) and all(is_same(one, other, reasons, left) for one, other in zip(want, got))
    return type(want) is type(got) and want == got


def read(path):
    """The first line of a file of answers, the answers by the names of their rows, and the lines that are neither."""
    head, answers, others = {}, {}, []
    for at, line in enumerate(pathlib.Path(path).read_text(encoding='utf-8', errors='replace').removesuffix('\n').split('\n')):
        try:
            one = json.loads(line)
            if at == 0:
                head = {'language': one['language'], 'not': one['not']}
            else:
                answers[one['id']] = one['answer']
        except (ValueError, KeyError, TypeError):
            others.append(line)
    return head, answers, others


def compared(rows, path, nots):
    """Counts a test for each operation, and what is left out into `nots`."""
    head, answers, others = read(path)
    language, reasons = head.get('language', path), head.get('not', {})
    harness.count(f'each line of {language} is an answer', not others, *others[:SHOWN], quiet=True)
    right, wrong = collections.Counter(), collections.defaultdict(list)
    for row in rows:
        got, left = answers.get(row['id'], {'failed': 'no answer'}), []
        if isinstance(got, dict) and got.get('not') in reasons:
            left = ['row ' + got['not']]
        elif is_same(row.get('otherwise', {}).get(language, row['answer']), got, reasons, left):
            right[row['op']] += 1
        else:
            wrong[row['op']].append(f"{json.dumps(row)[:700]}\n    {language} answers {json.dumps(got)[:500]}")
        if 'more' not in row:
            nots.update((language, row['op'], why) for why in left)
    for name in sorted({row['op'] for row in rows}):
        harness.count(f'{language}: {name}, {right[name]} rows', not wrong[name], f'{len(wrong[name])} are wrong:', *wrong[name][:SHOWN], quiet=True)
    whole, parts = (sum(count for (of, _, why), count in nots.items() if of == language and (why[:4] == 'row ') == is_row) for is_row in (True, False))
    print(f'{language}: {sum(right.values())} rows are right, {sum(map(len, wrong.values()))} wrong; not in this language: {whole} rows, and {parts} parts of answers')
    return language


def main(words):
    keep, (table, *answers) = words[0] == '--keep', words[words[0] == '--keep':]
    rows = [json.loads(line) for line in open(table, encoding='utf-8')]
    kept = {tuple(parts[:3]): int(parts[3]) for parts in (line.split('\t') for line in KEPT.read_text().splitlines() if line[:1] not in '#')}
    nots = collections.Counter()
    languages = {compared(rows, path, nots) for path in answers}
    if keep:
        nots.update({key: count for key, count in kept.items() if key[0] not in languages})
        head = '# How many rows, and parts of answers, a language leaves out, and why. test/table/run --keep writes them.\n'
        KEPT.write_text(head + ''.join('\t'.join((*key, str(count))) + '\n' for key, count in sorted(nots.items())))
    more = [f'{" ".join(key)}: {count}, {kept.get(key, 0)} are kept' for key, count in sorted(nots.items()) if count > kept.get(key, 0)]
    harness.count('no language leaves out more than is kept in not.tsv', keep or not more, *more)
    harness.finish()


main(sys.argv[1:])
