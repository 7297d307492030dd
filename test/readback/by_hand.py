#!/usr/bin/python3
"""by_hand.py: the translators of ports/ over a module that was written by hand, with each kind of line (numbers.ll, memory.ll, flow.ll), and over a program with
what a library hasn't (program.ll): their translations are read back; what they don't know they refuse (refusals.py); of narrow.ll the functions `lost..` lose half of a number on a machine of 32 bits; and each fault of
faults.txt in one of them is found by one of these. Prints 'N passed, M failed'."""
import pathlib
import re
import sys

from files import File, Module
from module_side import read_module
from narrow import lost_half
from readback import compared
from refusals import tests
from translators import loaded

HERE = pathlib.Path(__file__).resolve().parent
sys.path.insert(0, str(HERE.parent))
from harness import count, finish  # noqa: E402

PROGRAM = (HERE / 'program.ll').read_text(encoding='utf-8')
BY_HAND = ''.join((HERE / f'{name}.ll').read_text(encoding='utf-8') for name in ('numbers', 'memory', 'flow'))


def differences(ports):
    """What readback.py finds in the translations of the module and the program, or why there is none."""
    try:
        made = [(BY_HAND, ports.translated(BY_HAND, HERE, '0', 'ndef.c')), (PROGRAM, ports.translated_program(PROGRAM, '0', 'commands.c'))]
    except Exception as why:
        return [f'it is not translated: {why}']
    try:
        read = [(text, File(of_c)) for text, of_c in made]
        return [f'{kind}: {name}: {why}' for text, file in read for kind, wrong in compared(Module(text, file), file)[0].items() for name, why in wrong]
    except Exception as why:
        return [f'it is not read: {why}']


def narrow_tests(ports):
    """Names of tests of numbers that are made pointers, whether they pass, and what was said."""
    text = (HERE / 'narrow.ll').read_text(encoding='utf-8')
    for name, function in read_module(text)[0].items():
        said = lost_half(function)
        yield f'{name} on a machine of 32 bits', (said != '') == name.startswith('lost'), said
    before, after = (re.search(rf'@{name}(\(.*?^}}$)', text, re.M | re.S)[1] for name in ('lost_before', 'kept_after'))
    made = ports.with_numbers_kept(text)
    yield 'retarget.py keeps numbers', f'@lost_before{after}' in made and f'@kept_after{after}' in made and before not in made, made


def faults():
    for line in (HERE / 'faults.txt').read_text(encoding='utf-8').splitlines():
        if not line.startswith('#'):
            yield [part.replace('\0', '|').replace('\\n', '\n') for part in line.replace('\\|', '\0').split(' | ')]


def is_found(fault):
    ports = loaded(*fault)
    return differences(ports) or not all(passes for _, passes, _ in [*tests(ports), *narrow_tests(ports)])


def main():
    sys.setrecursionlimit(20000)
    ports = loaded()
    wrong = differences(ports)
    count('the module and the program by hand are read back', not wrong, *wrong)
    for name, passes, said in [*tests(ports), *narrow_tests(ports)]:
        count(name, passes, said, quiet=True)
    for fault in faults():
        count(f'a fault in {fault[0]}: {fault[2].strip()}', is_found(fault), quiet=True)
    finish()


if __name__ == '__main__':
    main()
