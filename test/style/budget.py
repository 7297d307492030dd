"""The budget of lines. budget.txt has a row 'WHAT LINES RELEASE' of each part of the repository: how many lines it may have, and how many the last
release had. What is generated is counted apart, and so are the files. A row is lowered when lines go, and raised only by a commit that says why."""
import collections
import pathlib
import re

TOP = pathlib.Path(__file__).resolve().parents[2]
FILE = TOP / 'test/style/budget.txt'
GENERATED = re.compile(r'''dist/|bindings/(go/(ndef|calls)\S*\.[ch]$|rust/src/proved/|python/simbegyor_ndef/_interface\.py|web/interface\.js|java/.*/Numbers\.java$)|include/ndef\w*\.h$|.*\.lock$
    |packaging/(share/(?!options)|processor_seconds)|test/(c/layout\.c|style/\w+\.txt|wrong_bodies/verdicts\.txt)''', re.X)


def row_of(path):
    """The row in which the lines of a file count."""
    if GENERATED.match(path):
        return 'generated'
    found = re.match(r'(crates/\w+/(?:src|specs|proofs)|crates|(?:bindings|test)/\w+(?=/)|\w+(?=/))', path)
    return found[1] if found else 'top'


def counts(files):
    """The lines of each row, but for the budget's own, and the number of files."""
    found = collections.Counter()
    for path, text in files:
        found[row_of(path)] += 0 if path == 'test/style/budget.txt' else text.count('\n')
        found['files'] += 1
    return found


def kept(text):
    """The rows of budget.txt: the lines that each may have, and those of the release."""
    return {name: (int(most), int(then)) for name, most, then in re.findall(r'^([^#\s]\S*) (\d+) (\d+)$', text, re.M)}


def wrong(rows, now):
    """What has more lines than its row, or no row. Prints what has fewer."""
    for name in sorted(now.keys() | rows.keys()):
        most = rows.get(name, (0, 0))[0]
        if now[name] > most:
            yield f'{name} has {now[name]} lines, and {FILE.relative_to(TOP)} {most}'
        elif now[name] < most:
            print(f'{name} has {now[name]} lines, and its row {most}: test/style/run --keep lowers it')


def total(counted):
    by_hand = sum(lines for name, lines in counted.items() if name not in ('generated', 'files'))
    return f"{by_hand} lines by hand, {counted['generated']} generated, in {counted['files']} files"


def summary(text, now):
    """The lines that are now, beside those of the last release."""
    return f'now {total(now)}; the last release {total(collections.Counter({name: then for name, (_, then) in kept(text).items()}))}'


def keep(files, is_release):
    """Writes the rows as they are, and says which are higher than before. A release is the one to compare with from then on."""
    text, now = FILE.read_text(), counts(files)
    rows = kept(text)
    for name in sorted(now):
        if now[name] > rows.get(name, (0, 0))[0]:
            print(f'raised, so say why in the commit: {name}, from {rows.get(name, (0, 0))[0]} to {now[name]}')
    head = ''.join(line for line in text.splitlines(True) if line.startswith('#'))
    lines = [f'{name} {now[name]} {now[name] if is_release else rows.get(name, (0, 0))[1]}\n' for name in sorted(now.keys() | rows.keys()) if now[name] or not is_release]
    FILE.write_text(head + ''.join(lines))
