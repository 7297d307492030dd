#!/usr/bin/env python3
"""test/coverage/instrument.py IN OUT TABLE [--steps]: changes the assembly of the commands for x86-64 so that a run says which of its
branches were taken. A branch is an outcome of a conditional jump, or a target of a table of jumps. Each gets a byte of the array
`coverage_marks`, which a taken branch sets to 1; TABLE has a line for each, `FUNCTION<tab>TEXT`, in the order of the array. Nothing
else changes: a mark is written by a move, which leaves the flags and the registers alone.
With --steps each label adds 1 to `coverage_steps` too: no loop and no call goes on without one."""
import pathlib
import re
import sys

LABEL = re.compile(r'^("[^"]*"|[\w.$]+):')
CONDITIONAL = re.compile(r'^\tj(?!mp)(\w+)\t(\S+)')
FUNCTION = re.compile(r'^\t\.type\t("[^"]*"|[\w.$]+),@function')
LONG_NAME = re.compile(r'^\t\.set\t("[^"]*"), (\.Lf\w+)$')
TABLE_ENTRY = re.compile(r'^\t\.long\t(\.LBB\w+)-(\.LJTI\w+)')
# 128 bytes below the stack's end may be in use, and the flags too.
STEP = ['\tleaq\t-128(%rsp), %rsp', '\tpushfq', '\tincq\tcoverage_steps(%rip)', '\tpopfq', '\tleaq\t128(%rsp), %rsp']


class Marks:
    """The branches so far, and the code that marks those that jump."""

    def __init__(self):
        self.rows, self.stubs, self.of_tables = [], [], {}

    def mark(self, function, text):
        """The line that marks a new branch."""
        self.rows.append((function.strip('"'), text))
        return f'\tmovb\t$1, coverage_marks+{len(self.rows) - 1}(%rip)'

    def jump(self, function, text, target):
        """The label of code that marks a new branch and goes on at the target."""
        label = f'.Lreached_{len(self.rows)}'
        self.stubs += [f'{label}:', self.mark(function, text), f'\tjmp\t{target}']
        return label

    def of_table(self, function, table, target):
        """The same for a target of a table, which may stand there several times."""
        if (table, target) not in self.of_tables:
            self.of_tables[table, target] = self.jump(function, 'table of jumps', target)
        return self.of_tables[table, target]


def changed(lines, steps):
    """The lines with marks, and the marks."""
    marks, made, functions, function, owners = Marks(), [], set(), '', {}
    long_names = {match[2]: match[1] for match in map(LONG_NAME.match, lines) if match}
    for line in lines:
        is_function, label, entry = FUNCTION.match(line), LABEL.match(line), TABLE_ENTRY.match(line)
        jump = CONDITIONAL.match(line)
        if is_function:
            functions.add(is_function[1])
        if label and label[1] in functions:
            function = long_names.get(label[1], label[1])
        for table in re.findall(r'\.LJTI\w+(?=\(%rip\))', line):
            owners[table] = function
        if jump:
            made.append(f'\tj{jump[1]}\t{marks.jump(function, f"j{jump[1]} taken", jump[2])}')
            made.append(marks.mark(function, f'j{jump[1]} not taken'))
        elif entry:
            made.append(f'\t.long\t{marks.of_table(owners[entry[2]], entry[2], entry[1])}-{entry[2]}')
        else:
            made.append(line)
        if steps and label and (label[1] in functions or label[1].startswith('.LBB')):
            made += STEP
    return made, marks


def main(source, target, table, *flags):
    made, marks = changed(pathlib.Path(source).read_text().splitlines(), '--steps' in flags)
    size = (len(marks.rows) + 4095) // 4096 * 4096
    made += ['\t.text', *marks.stubs, '\t.section\t.marks,"aw",@nobits', '\t.p2align\t12', '\t.globl\tcoverage_marks', 'coverage_marks:',
             f'\t.zero\t{size}', '\t.globl\tcoverage_marks_end', 'coverage_marks_end:', '\t.globl\tcoverage_steps', 'coverage_steps:',
             '\t.zero\t8', '\t.section\t".note.GNU-stack","",@progbits']
    pathlib.Path(target).write_text('\n'.join(made) + '\n')
    pathlib.Path(table).write_text(''.join(f'{function}\t{text}\n' for function, text in marks.rows))


if len(sys.argv) < 4:
    sys.exit(__doc__)
main(*sys.argv[1:])
