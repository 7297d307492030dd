#!/usr/bin/env python3
"""The tables of docs/PERFORMANCE.md, of what bench/run measured:

    bench/tables.py RESULTS.json            prints them
    bench/tables.py RESULTS.json PAGE.md    writes each into the page, between the lines <!-- bench NAME --> and <!-- end -->
"""
import json
import pathlib
import re
import sys

WORKLOADS = {'hello': ('the text "Hello"', 12), 'umlauts': ('the text "Grüße"', 14), 'uri': ('a URI', 16), 'poster': ('a poster', 40),
             'records-1000': ('1000 short records', 17000), 'opaque-1M': ('one opaque record', 1000009), 'ascii-1M': ('one text, ASCII', 1000010),
             'wide-1M': ('one text, not ASCII', 1000000), 'chunks-4000': ('4000 chunks', 972003)}
FACES = {'c': 'C, check and walk', 'cpp': 'C++', 'rust': 'Rust', 'go': 'Go', 'java': 'Java', 'javascript': 'JavaScript', 'python': 'Python'}
READ = ('hello', 'uri', 'poster', 'records-1000', 'ascii-1M', 'wide-1M')
NONE = ''
UNMEASURED = 'Not measured.'


def shown(nanoseconds):
    """A time with three digits or fewer."""
    if nanoseconds is None:
        return NONE
    for unit, least in (('ms', 1e6), ('us', 1e3)):
        if nanoseconds >= least:
            value = nanoseconds / least
            return '%s %s' % (('%.1f' if value < 10 else '%.0f') % value, unit)
    return '%.0f ns' % nanoseconds


def ratio(ours, theirs):
    if ours is None or not theirs:
        return NONE
    return ('%.2f' if ours / theirs >= 0.01 else '%.1g') % (ours / theirs)


def table(head, rows):
    """A table, without the columns that are empty; or a line that says that nothing was measured."""
    if not any(cell != NONE for row in rows for cell in row[1:]):
        return UNMEASURED
    kept = [at for at in range(len(head)) if any(row[at] != NONE for row in rows)]
    lines = [[head[at] for at in kept], ['---'] * len(kept)] + [[row[at] for at in kept] for row in rows]
    return '\n'.join('| ' + ' | '.join(cells) + ' |' for cells in lines).replace('| --- | ', '|---|').replace('|--- | ', '|---|').replace('--- |', '---|')


class Results:
    """What was measured, by program and 'CALL NAME'."""

    def __init__(self, results):
        self.all = results

    def time(self, program, call, name):
        return self.all['times'].get(program, {}).get(call + ' ' + name)

    def files(self):
        rows = []
        for name, (spoken, count) in WORKLOADS.items():
            gcc, clang, hand = self.time('c_gcc', 'check', name), self.time('c_clang', 'check', name), self.time('c_gcc', 'hand-check', name)
            rows.append([spoken, str(count), shown(gcc), shown(clang), shown(self.time('c', 'check', name)), shown(self.time('rust', 'read', name)),
                         shown(hand), ratio(gcc, hand)])
        return table(['`ndef_check` of', 'bytes', '`ndef.c` by gcc', 'by clang', '`libndef.a`', 'the Rust crate reads', 'by hand in C', 'gcc to by hand'],
                     rows)

    def peers(self):
        rows = []
        for name, (spoken, count) in WORKLOADS.items():
            check, walk = self.time('c', 'check', name), self.time('c', 'walk', name)
            hand, qt = self.time('plain', 'check', name), self.time('qt', 'read', name)
            rows.append([spoken, str(count), shown(check), shown(self.time('c_v2', 'check', name)), shown(hand), ratio(check, hand), shown(walk),
                         shown(qt), ratio(walk, qt), shown(self.time('c', 'memcpy', name))])
        return table(['message', 'bytes', '`ndef_check`', 'for x86-64-v2', 'by hand', 'ratio', 'check and walk', 'Qt reads', 'ratio', '`memcpy`'], rows)

    def rust(self):
        """The check by the Rust crate, beside the library for C and Rust by hand."""
        rows = []
        for name, (spoken, _) in WORKLOADS.items():
            c, hand, crate = (self.time(program, 'check', name) for program in ('c', 'plain', 'rust'))
            lto = self.time('rust_lto', 'check', name)
            rows.append([spoken, shown(c), shown(hand), shown(crate), shown(lto), shown(self.time('rust_simd', 'check', name)), ratio(lto, c), ratio(lto, hand)])
        return table(['message', '`ndef_check`', 'by hand', 'the crate', 'with LTO', 'with simdutf8', 'LTO / C', 'LTO / by hand'], rows)

    def utf8(self):
        rows = []
        for name in ('ascii-1M', 'wide-1M'):
            simd = self.time('utf8', 'simdutf8', name)
            plain, faster = self.time('c', 'check', name), self.time('c_v2', 'check', name)
            rows.append([WORKLOADS[name][0], shown(simd), shown(self.time('utf8', 'std', name)), shown(plain), ratio(plain, simd), shown(faster), ratio(faster, simd)])
        return table(['text', '`simdutf8`', "Rust's `std`", '`ndef_check`', 'ratio', 'for x86-64-v2', 'ratio'], rows)

    def faces(self):
        rows = []
        for program, spoken in FACES.items():
            read, many = ('walk' if program == 'c' else 'read'), self.time(program, 'many', 'hello')
            if self.time(program, read, 'hello') is None:
                continue
            rows.append([spoken, *(shown(self.time(program, read, name)) for name in READ), shown(self.time(program, 'value', 'hello'))])
            if many:
                rows.append([spoken + ', `decode_many`', *(shown(self.time(program, 'many', name)) for name in READ), NONE])
        return table(['from', *(WORKLOADS[name][0] for name in READ), '"Hello" with its value'], rows)

    def languages(self):
        """Each language beside a parser by hand in it."""
        rows = []
        for program in ('cpp', 'rust', 'go', 'python'):
            cells = []
            for call, name in (('read', 'hello'), ('value', 'hello'), ('value', 'uri'), ('read', 'records-1000'), ('value', 'records-1000')):
                ours, hand = self.time(program, call, name), self.time(program, 'hand-' + call, name)
                cells.append('%s (%s)' % (ratio(ours, hand), shown(hand)) if ours and hand else NONE)
            if cells[0]:
                rows.append([FACES[program], *cells])
        return table(['from', 'the text "Hello"', 'with its value', 'a URI with its value', '1000 short records', 'with their values'], rows)

    def by_hand(self, program, column, asked):
        """A binding beside a parser by hand in its language; asked are the call, the message, and its words."""
        rows = []
        for call, name, spoken in asked:
            ours, hand = self.time(program, call, name), self.time(program, 'hand-' + call, name)
            if ours is not None:
                rows.append([spoken, shown(ours), shown(hand), ratio(ours, hand)])
        return table(['message', column, 'by hand', 'ratio'], rows)

    def javascript(self):
        return self.by_hand('javascript', '`decode`', (
            ('decode', 'hello', 'the text "Hello"'), ('values', 'hello', 'and its value'), ('values', 'uri', 'a URI with its value'),
            ('decode', 'records-1000', '1000 short records'), ('values', 'records-1000', 'and their values'),
            ('decode', 'cut', 'a message that is cut off')))

    def java(self):
        return self.by_hand('java', '`new NdefMessage`', (
            ('read', 'hello', 'the text "Hello"'), ('value', 'hello', 'and its value'), ('value', 'uri', 'a URI with its value'),
            ('read', 'records-1000', '1000 short records'), ('value', 'records-1000', 'and their values'),
            ('value', 'wide-1M', 'one text, not ASCII, and its value')))

    def page(self):
        rows = []
        for count in (100, 1000, 10000):
            times = [self.time('page', call, 'records-%d' % count) for call in ('task', 'layout', 'all')]
            if None not in times:
                rows.append(['%d records' % count, *map(shown, times)])
        return table(['a message of', 'the task', 'the layout', 'until all is there'], rows)

    def commands(self):
        rows = [['`ndef %s`' % word, *(shown(self.time('commands', word, name)) for name in ('hello', 'wide-1M'))] for word in ('check', 'show')]
        return table(['command', 'each of 10000 messages "Hello"', 'one text of 1000000 bytes, not ASCII'], rows)

    def instructions(self):
        rows, counts = [], self.all['instructions']
        for name, count in counts.items():
            hand = counts.get('by hand: ' + name)
            if not name.startswith('by hand: '):
                rows.append([re.sub(r'^ndef_\w+', r'`\g<0>`', name), str(count), str(hand or NONE), ratio(count, hand)])
        return table(['call', 'instructions', 'by hand in C', 'ratio'], rows)

    def growth(self):
        rows = []
        for spoken, program, call in (('`ndef_check`', 'c', 'check'), ('check and walk', 'c', 'walk'), ('fed by 4096 bytes', 'c', 'feed'),
                                      ('by hand', 'plain', 'check'), ('Qt', 'qt', 'read')):
            times = [self.time(program, call, 'records-%d' % count) for count in (100, 1000, 10000, 60000)]
            if times[0] is not None:
                rows.append([spoken, *('%.0f' % (least / count) for least, count in zip(times, (100, 1000, 10000, 60000)))])
        return table(['nanoseconds a record of', '100 records', '1000', '10000', '60000'], rows)

    def peaks(self):
        rows = []
        for spoken, who in (('`ndef_check`', 'c'), ('Qt', 'qt'), ('the command `ndef check`, all of it', 'commands')):
            if who + ' records-60000' in self.all['peaks']:
                rows.append([spoken, *(str(self.all['peaks'][who + ' ' + name]) for name in ('records-60000', 'opaque-1M'))])
        return table(['kB', '60000 records (1 MB)', 'one opaque record (1 MB)'], rows)

    def made(self):
        released = '`dist/` of release %s' % self.all['released']
        what, others = 'what was proved, version ' + self.all['version'], self.all['of dist']
        if self.all['made of'] == 'dist':
            what, others = released, []
        if others:
            what += ', and of %s: %s' % (released, ', '.join(others))
        return 'Made of %s; on %s; %s.' % (what, self.all['machine'], self.all['load'])


NAMES = ('made', 'files', 'peers', 'rust', 'utf8', 'faces', 'languages', 'javascript', 'java', 'page', 'commands', 'instructions', 'growth', 'peaks')


def written(results):
    """All tables as text."""
    measured = Results(results)
    return '\n'.join('%s\n\n%s\n' % (name, getattr(measured, name)()) for name in NAMES)


def filled(page, results):
    """The page with each table between its lines; one of which nothing was measured stays, and then so does the line that says of what all are made.
    ValueError where a table has no place, or a place no table."""
    measured = Results(results)
    tables = {name: getattr(measured, name)() for name in NAMES}
    if UNMEASURED in tables.values():
        tables['made'] = UNMEASURED
    places = re.findall(r'^<!-- bench (\w+) -->$', page, re.M)
    if sorted(places) != sorted(NAMES):
        raise ValueError('the page has places for %s, and needs them for %s' % (', '.join(sorted(places)), ', '.join(sorted(NAMES))))
    return re.sub(r'^(<!-- bench (\w+) -->\n).*?^(<!-- end -->)$', lambda found: found[0] if tables[found[2]] == UNMEASURED
                  else '%s%s\n%s' % (found[1], tables[found[2]], found[3]), page, flags=re.M | re.S)


def write(path, results):
    path.write_text(filled(path.read_text(encoding='utf-8'), results), encoding='utf-8')


def main():
    results = json.loads(pathlib.Path(sys.argv[1]).read_text(encoding='utf-8'))
    if len(sys.argv) == 2:
        print(written(results), end='')
    else:
        write(pathlib.Path(sys.argv[2]), results)


if __name__ == '__main__':
    main()
