"""What test/coverage/run asks of branches: those that a file of C has by gcov, those that were never taken, and whether a list has them.

A branch is named by its function, the text of its line and its outcome, never by a line's number. In the text each variable and each
label of a generated file is `v` and `L`, so that a list outlives a change elsewhere. Several branches with one name are counted."""
import collections
import gzip
import json
import re
import subprocess

# A list has, after a line '== REASON', lines 'FUNCTION | TEXT | OUTCOME', with ' | N times' where there are several.
SEPARATOR = ' | '
LONGEST = 150
# How many branches of a function lead to nd_stop().
excluded = collections.Counter()


def plain(text):
    """The text of a line without what another translation numbers anew; the middle of a long one is left out."""
    text = re.sub(r'\bv\d+(_\d+)?\b', 'v', re.sub(r'\bL\d+\b', 'L', text.strip()))
    text = text.replace('((unsigned char *)((uintptr_t)', 'at((').replace(SEPARATOR, ' or ')
    return text if len(text) <= LONGEST else f'{text[:LONGEST // 2]} .. {text[-LONGEST // 2:]}'


def cases(source, number):
    """The labels of a switch whose line has this number, in order; none where they aren't a line each."""
    labels = []
    for line in source[number:]:
        label = re.match(r'\s*(?:case ([^:]+)|(default)):', line)
        if not label:
            break
        labels.append(f'case {label[1]}' if label[1] else 'default')
        if label[2]:
            break
    return labels


def without_throws(found):
    """The branches but for those of a call that may throw: the way past it, and the way by which an exception leaves."""
    kept = []
    for branch in found:
        if not branch['throw']:
            kept.append(branch)
        elif kept and kept[-1]['fallthrough']:
            kept.pop()
    return kept


def outcomes(source, line):
    """The name of each branch of a line: what its condition is, or which label is taken, or its number. Before the labels of a switch stand
    the branches of what it switches over."""
    count, text = len(line['branches']), source[line['line_number'] - 1]
    if count == 2 and 'switch' not in text:
        return ['true', 'false']
    labels = cases(source, line['line_number']) if 'switch' in text else []
    numbers = [f'{number + 1} of {count}' for number in range(count)]
    return numbers[:count - len(labels)] + labels if len(labels) <= count else numbers


def past_labels(source, at):
    """The line with this index, or the first after it that is no label."""
    return next((line for line in source[at:] if not re.fullmatch(r'\s*L\d+:;', line)), '')


def after_label(source, number, label):
    """The line that follows a label of the function in which a line stands."""
    start = next((at for at in range(number - 1, -1, -1) if source[at] == '}'), 0)
    at = next(at for at in range(start, len(source)) if source[at].startswith(label + ':;'))
    return past_labels(source, at + 1)


def ends_at(source, number, outcome):
    """The line with which a branch of a generated file goes on, or '' where its own line says no label."""
    text = source[number - 1].strip()
    if outcome == 'false':
        return past_labels(source, number) if text.startswith('if') else ''
    if outcome != 'true':
        text = next((line.strip() for line in source[number:number + 100] if line.strip().startswith(outcome + ':')), '')
    label = re.search(r'(?:^if .*\)|:) goto (L\d+);', text)
    return after_label(source, number, label[1]) if label else text if 'nd_stop' in text else ''


def is_excluded(source, number, outcome):
    """Whether a branch leads to nd_stop(), which the proofs say is never reached."""
    return 'nd_stop()' in ends_at(source, number, outcome)


def measured(data, source):
    """What `gcov --json-format` found in a source: the lines and the branches of each function, as pairs of those that were reached and
    all, and how often each branch that was never taken is there, but for those that the proofs exclude."""
    lines, branches, untaken = collections.defaultdict(lambda: [0, 0]), collections.defaultdict(lambda: [0, 0]), collections.Counter()
    for line in data['lines']:
        function = line.get('function_name') or '(none)'
        lines[function][0] += line['count'] > 0
        lines[function][1] += 1
        for outcome, branch in zip(outcomes(source, line), line['branches']):
            if branch['count'] == 0 and is_excluded(source, line['line_number'], outcome):
                excluded[function] += 1
                continue
            branches[function][0] += branch['count'] > 0
            branches[function][1] += 1
            if branch['count'] == 0:
                untaken[function, plain(source[line['line_number'] - 1]), outcome] += 1
    return lines, branches, untaken


def all_gcov(notes):
    """What gcov says of each source file, by the counts of an object."""
    printed = subprocess.run(['gcov', '--json-format', '--branch-probabilities', '--stdout', notes], stdout=subprocess.PIPE, check=True).stdout
    printed = gzip.decompress(printed) if printed[:2] == b'\x1f\x8b' else printed
    return json.loads(printed)['files']


def read_gcov(notes, path):
    """What gcov says of one source file."""
    return next(file for file in all_gcov(notes) if file['file'].endswith(path))


def read_list(text):
    """How often a list has each name, and the reason of each."""
    listed, reasons, reason = collections.Counter(), {}, ''
    for line in text.splitlines():
        if line.startswith('== '):
            reason = line[3:]
        elif line.strip() and not line.startswith('#'):
            *name, last = line.split(SEPARATOR)
            times = re.fullmatch(r'(\d+) times', last)
            name = tuple(name if times else [*name, last])
            listed[name] += int(times[1]) if times else 1
            reasons[name] = reason
    return listed, reasons


def written(name, times):
    """The line of a list for a name."""
    return SEPARATOR.join(name) + (f'{SEPARATOR}{times} times' if times > 1 else '')


def more_than_listed(untaken, listed):
    """The lines of what the list lacks."""
    return [written(name, times - listed[name]) for name, times in sorted(untaken.items()) if times > listed[name]]


def less_than_listed(untaken, listed):
    """The lines of what the list has in vain."""
    return [written(name, times - untaken[name]) for name, times in sorted(listed.items()) if times > untaken[name]]


def percent(pair):
    """A pair of numbers as '95.00 % of 200'."""
    return f'{100 * pair[0] / max(pair[1], 1):.2f} % of {pair[1]}'


def sums(table):
    """The sum of all pairs of a table."""
    return [sum(pair[0] for pair in table.values()), sum(pair[1] for pair in table.values())]
