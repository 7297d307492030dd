#!/usr/bin/env python3
"""report.py KIND NAME LIST WORD..: prints how many lines and branches of a part were reached, by function into the file out/coverage/NAME,
and fails where a branch was never taken that LIST doesn't have. The words of a KIND:

    gcov NOTES SOURCE          a source by gcov's counts
    marks TABLE MARKS          the assembly of the commands, by the marks of test/coverage/instrument.py
    headers FOLDER             the headers of C++, by gcov's counts of all programs in the folder
    python FILE                the module for Python, by what `coverage json` writes
    rust FILE                  the Rust crate but for its proved text, by what `llvm-cov export -format=lcov` writes: lines alone
    javascript FOLDER          the modules of the package for JavaScript, by what node writes with NODE_V8_COVERAGE: blocks

The file out/coverage/NAME.missing has each line that LIST lacks."""
import collections
import json
import pathlib
import re
import sys

import branches

TOP = pathlib.Path(__file__).resolve().parents[2]
# What the crates of the kit are called in the names of functions. No list has their branches.
OF_KIT = re.compile(r'^"?(<|core::|std|std_alloc::|clap|simdutf8|hex|serde|json|smallvec|byteorder|strsim|anstyle|itoa|arrayvec|anyhow|thiserror|regex|memchr|bytes::|os::)')


def of_gcov(notes, source):
    lines = pathlib.Path(source).read_text().splitlines()
    return branches.measured(branches.read_gcov(notes, pathlib.Path(source).name), lines)


def without_hash(name):
    """The name of a function without what the compiler numbers anew."""
    return re.sub(r'#[0-9a-f]{16}', '#', name)


def of_marks(table, marks):
    """The branches of each function by name, and how many of each weren't taken; a list has a number for a function, since the text of
    an instruction says nothing."""
    taken = pathlib.Path(marks).read_bytes()
    pairs, untaken = collections.defaultdict(lambda: [0, 0]), collections.Counter()
    for row, mark in zip(pathlib.Path(table).read_text().splitlines(), taken):
        function = without_hash(row.split('\t')[0])
        pairs[function][0] += mark
        pairs[function][1] += 1
        if not mark and not OF_KIT.match(function):
            untaken[(function,)] += 1
    return {}, pairs, untaken


def merged(source, counts):
    """The figures of a source by its counts: for each line and branch, (line, branch or None), how often it was reached."""
    lines, pairs, untaken = {source.name: [0, 0]}, {source.name: [0, 0]}, collections.Counter()
    texts = source.read_text().splitlines()
    for (number, branch), count in counts.items():
        table = lines if branch is None else pairs
        table[source.name][0] += count > 0
        table[source.name][1] += 1
        if count == 0:
            untaken[source.name, branches.plain(texts[number - 1]), branch or 'line'] += 1
    return lines, pairs if pairs[source.name][1] else {}, untaken


def added(figures_of):
    """The figures of several sources."""
    lines, pairs, untaken = {}, {}, collections.Counter()
    for of_lines, of_pairs, of_untaken in figures_of:
        lines.update(of_lines), pairs.update(of_pairs), untaken.update(of_untaken)
    return lines, pairs, untaken


def of_headers(folder):
    """A line of a template counts for all that are made of it, and so does a branch. The driver of the table has exceptions: a line has more ways
    there, so only its branches of two ways count, and no end of a block."""
    counts = collections.defaultdict(collections.Counter)
    for notes in sorted(pathlib.Path(folder).glob('*.gcda')):
        for file in branches.all_gcov(str(notes)):
            name = pathlib.Path(file['file']).name
            if not re.fullmatch(r'ndef_\w+\.hpp', name):
                continue
            texts = (TOP / 'include' / name).read_text().splitlines()
            for line in file['lines']:
                if notes.stem.endswith('driver'):
                    if texts[line['line_number'] - 1].strip() == '}':
                        continue
                    line['branches'] = branches.without_throws(line['branches'])
                    line['branches'] = line['branches'] if len(line['branches']) == 2 else []
                counts[name][line['line_number'], None] += line['count']
                for outcome, branch in zip(branches.outcomes(texts, line), line['branches']):
                    counts[name][line['line_number'], outcome] += branch['count']
    return added(merged(TOP / 'include' / name, counts[name]) for name in sorted(counts))


def of_python(path):
    figures_of = []
    for name, file in json.loads(pathlib.Path(path).read_text())['files'].items():
        counts = {(line, None): 1 for line in file['executed_lines']} | {(line, None): 0 for line in file['missing_lines']}
        texts = (TOP / 'bindings/python/simbegyor_ndef' / pathlib.Path(name).name).read_text().splitlines()
        for key, count in (('executed_branches', 1), ('missing_branches', 0)):
            counts |= {(start, f'to {branches.plain(texts[end - 1]) if end > 0 else "the end"}'): count for start, end in file[key]}
        figures_of.append(merged(TOP / 'bindings/python/simbegyor_ndef' / pathlib.Path(name).name, counts))
    return added(figures_of)


def of_rust(path):
    counts, name = collections.defaultdict(collections.Counter), ''
    for line in pathlib.Path(path).read_text().splitlines():
        word, _, rest = line.partition(':')
        if word == 'SF':
            name = rest
        elif word == 'DA':
            number, count = rest.split(',')[:2]
            counts[name][int(number), None] += int(count)
    return added(merged(pathlib.Path(name), counts[name]) for name in sorted(counts) if '/rust/src/' in name and '/proved/' not in name)


def letters_reached(text, runs):
    """The letters of a module that some run reached: one is reached where the smallest range around it that the run tells was."""
    reached = set()
    for script in runs:
        ranges = [one for function in script['functions'] for one in function['ranges']]
        counts = [0] * len(text)
        for one in sorted(ranges, key=lambda one: one['startOffset'] - one['endOffset']):
            counts[one['startOffset']:one['endOffset']] = [one['count']] * (one['endOffset'] - one['startOffset'])
        reached |= {at for at, count in enumerate(counts[:len(text)]) if count}
    return reached


def of_module(source, runs):
    """A line of a module is reached where all letters of it are that say something."""
    text, counts, start = source.read_text(), {}, 0
    reached = letters_reached(text, runs)
    for number, line in enumerate(text.splitlines(keepends=True), 1):
        letters = [start + at for at, letter in enumerate(line) if letter.strip() and letter not in '{}();,']
        if letters and not line.strip().startswith('//'):
            counts[number, None] = int(all(at in reached for at in letters))
        start += len(line)
    return merged(source, counts)


def of_javascript(folder):
    scripts = [script for path in pathlib.Path(folder).glob('*.json') for script in json.loads(path.read_text())['result']]
    figures_of = []
    for name in (TOP / 'bindings/web/package.txt').read_text().split():
        if name.endswith('.js'):
            runs = [script for script in scripts if script['url'].endswith(f'/out/web/{name}')]
            if not runs:
                sys.exit(f'no run of {name} was measured')
            figures_of.append(of_module(TOP / 'bindings/web' / name, runs))
    lines, _, untaken = added(figures_of)
    return lines, {}, untaken


def of_own(pairs):
    return {name: pair for name, pair in pairs.items() if not OF_KIT.match(name)}


def figures(name, lines, pairs):
    """The file of all figures."""
    folder = TOP / 'out/coverage'
    folder.mkdir(parents=True, exist_ok=True)
    rows = [(f'lines {branches.percent(lines[part])}' if part in lines else '', f'branches {branches.percent(pairs[part])}' if part in pairs else '')
            for part in sorted({**lines, **pairs})]
    rows = [f'{part}: {", ".join(filter(None, row))}\n' for part, row in zip(sorted({**lines, **pairs}), rows)]
    (folder / name).write_text(''.join(rows))


KINDS = {'gcov': of_gcov, 'marks': of_marks, 'headers': of_headers, 'python': of_python, 'rust': of_rust, 'javascript': of_javascript}


def main(kind, name, listing, *words):
    lines, pairs, untaken = KINDS[kind](*words)
    listed, _ = branches.read_list(pathlib.Path(listing).read_text())
    figures(name, lines, pairs)
    more, less = branches.more_than_listed(untaken, listed), branches.less_than_listed(untaken, listed)
    if lines:
        print(f'{name}: lines {branches.percent(branches.sums(lines))}')
    if pairs:
        print(f'{name}: branches {branches.percent(branches.sums(of_own(pairs)))}')
    if branches.excluded:
        print(f'{name}: {sum(branches.excluded.values())} more lead to nd_stop(), which the proofs say is never reached')
    print(f'{name}: {sum(untaken.values())} never taken, {sum(listed.values())} listed')
    if len(of_own(pairs)) < len(pairs):
        print(f'{name}: with the code of the kit: branches {branches.percent(branches.sums(pairs))}')
    missing = TOP / 'out/coverage' / f'{name}.missing'
    missing.write_text(''.join(f'{line}\n' for line in more))
    for line in less[:5]:
        print(f'taken now: {line}')
    for line in more[:20]:
        print(f'never taken: {line}')
    if more:
        sys.exit(f'{name}: {len(more)} lines of {missing} are not in {pathlib.Path(listing).name}')


if len(sys.argv) < 5:
    sys.exit(__doc__)
main(*sys.argv[1:])
