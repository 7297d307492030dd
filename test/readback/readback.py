#!/usr/bin/python3
"""readback.py MODULE.ll NDEF.c: reads a C file back and compares each of its functions with the LLVM module it was translated from. It shares no code
with ports/. The C is read by pycparser and evaluated by C99's rules for a machine of 64 bits, the module by a reader of its own, and a simulation
is proved of the two (simulation.py): values are compared as terms in a normal form, and where those differ by z3, for all values of the registers.

Also compared: the bytes of each constant; each helper nd_* with what its name says (helpers.py); the arguments and the result of each call of the
header; what the head of the file defines. And no function loses half of a number on a machine of 32 bits (narrow.py). Prints what differs, and counts;
its status is 1 where anything does."""
import sys

from pycparser import c_parser

from c_side import CFunction
from files import File, Module, wrong_call, wrong_constant
from helpers import wrong_helpers
from narrow import lost_half
from simulation import Simulation
from terms import counts

sys.setrecursionlimit(20000)


def wrong_function(module, file, name, parser, body=None):
    """What the C text of a function does otherwise than the module's, or nothing."""
    try:
        text = body or file.bodies[module.c_name(name)]
        Simulation(module.functions[name], CFunction(text, parser), module, file).compare()
    except Exception as why:  # a thing that isn't known is no agreement either
        return f'{type(why).__name__}: {why}'
    return ''


def compared(module, file):
    """What differs, as (what, name, why), and how many there are of each kind."""
    parser = c_parser.CParser()
    calls = [name for name, function in module.functions.items() if not function.is_internal and not file.is_program]
    helpers, count = wrong_helpers(file, parser)
    kinds = {'constants': [(name, why) for name in module.constants if (why := wrong_constant(module, file, name))],
             'calls': [(name, why) for name in calls if (why := wrong_call(module, file, name))],
             'helpers': [(name, 'is not what its name says') for name in helpers],
             'definitions': [(text, '') for text in file.wrong_definitions()],
             'functions': [(name, why) for name, function in module.functions.items()
                           if (why := wrong_function(module, file, name, parser) or lost_half(function))]}
    kinds['functions'] += [(name, 'is not in the module') for name in file.bodies if name not in module.of_c_name]
    all_of = {'constants': len(module.constants), 'calls': len(calls), 'helpers': count, 'definitions': 0, 'functions': len(module.functions)}
    return kinds, all_of


def main(words):
    with open(words[0], encoding='utf-8') as module, open(words[1], encoding='utf-8') as file:
        file = File(file.read())
        kinds, all_of = compared(Module(module.read(), file), file)
    for kind, wrong in kinds.items():
        for name, why in wrong:
            print(f'{words[1]}: {kind}: {name}: {why[:300]}')
    print(f'{words[1]} is read back: ' + ', '.join(f'{count - len(kinds[kind])} of {count} {kind}' for kind, count in all_of.items() if count)
          + f'; {counts["form"]} values have one form, {counts["z3"]} are equal by z3')
    return any(kinds.values())


if __name__ == '__main__':
    sys.exit(main(sys.argv[1:]))
