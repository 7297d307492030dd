#!/usr/bin/env python3
"""ports/translate.py IN.ll INCLUDE TREE OUT.c [fast]: writes the LLVM module of the library for C as one C99 file, whose calls are
those that the headers ndef*.h in the folder INCLUDE declare. TREE is the hash of the crates (packaging/tree_hash).
`fast` asks for stores where a memset is slower.

ports/translate.py --program IN.ll TREE OUT.c: the same of the module of the commands, whose `main` becomes `ndef_commands`. What it asks of the system
packaging/c/runtime.c has.

It stops at anything it doesn't know, with the line of the module. test/readback/run tests it."""

import os
import pathlib
import re
import sys

from c_helpers import HELPERS
from c_text import Body, Names
from module_text import ANY_NUMBER, Array, Bytes, Fields, Int, Moved, Nothing, Pointer, Unknown, module

WIDE = 100  # numbers to a line of an array
PARTS = 4  # in which a compiler may make the commands
HEAD = '''/* The library of Simbegyor for C, in one file of C99: ndef.h documents its calls. Compile it with your program, with
 * ndef.h beside it; of the C library it needs only memcpy, memmove and memset. ndef.c is the fast form of the library, and
 * ndef_small.c the small one: take one of the two.
 *
 * Made by `make amalgamation` of the crates with the hash {tree}
 * (packaging/tree_hash prints that of a checkout). The crates are proved. This file is their LLVM module, optimised by
 * clang and translated by ports/translate.py. test/readback/readback.py has read it back: each function does what the module's does.
 *
 * License: MIT or Apache-2.0, as the project's. */
/* A null pointer is left to the code: no compiler takes a test of one away. */
#define NDEF_NEEDS(...)
#define NDEF_ANSWERS(...)
#include "ndef.h"
'''
PROGRAM_HEAD = '''/* The commands of Simbegyor, ndef, ndef-make and ndef-explain, in one file of C99: compile it with runtime.c, which has what
 * they ask of the system. The program is the command of the name by which it is called.
 *
 * Made by ports/commands of the crates with the hash {tree}
 * (packaging/tree_hash prints that of a checkout). The crates are proved. This file is their LLVM module, optimised by
 * clang and translated by ports/translate.py. test/readback/readback.py has read it back: each function does what the module's does.
 *
 * License: MIT or Apache-2.0, as the project's. */
'''
COMMON = '''#include <limits.h>
#include <stddef.h>
#include <stdint.h>

#if CHAR_BIT != 8
#error "{name} needs bytes of 8 bits"
#endif
#if defined(__BYTE_ORDER__) && defined(__ORDER_LITTLE_ENDIAN__)
#if __BYTE_ORDER__ != __ORDER_LITTLE_ENDIAN__
#error "{name} needs a little-endian machine"
#endif
#elif defined(__BIG_ENDIAN__) || defined(_BIG_ENDIAN) || defined(__ARMEB__) || defined(__MIPSEB__) || defined(__s390__)
#error "{name} needs a little-endian machine"
#endif

#if defined(__STDC_HOSTED__) && __STDC_HOSTED__ == 0
void *memcpy(void *to, const void *from, size_t size);
void *memmove(void *to, const void *from, size_t size);
void *memset(void *to, int octet, size_t size);
#else
#include <string.h>
#endif
/* By these names a compiler knows them even where it is told that there is no C library: most calls become a load or a store. */
#if defined(__GNUC__) && !defined(__TINYC__)
#define nd_memcpy __builtin_memcpy
#define nd_memmove __builtin_memmove
#define nd_memset __builtin_memset
#else
#define nd_memcpy memcpy
#define nd_memmove memmove
#define nd_memset memset
#endif

/* What the proofs say is never reached. */
#if defined(__GNUC__)
#define nd_stop() __builtin_trap()
#else
#define nd_stop() do {{ }} while (1)
#endif

/* Memory of a call, aligned for a number of 64 bits. */
#define ND_ROOM(size) union {{ unsigned char b[size]; uint64_t a; }}
/* A pointer in a constant: 8 bytes on every machine. */
#define ND_POINTER union {{ const unsigned char *p; uint64_t a; }}

'''
PROGRAM = '''/* A compiler makes the whole file, or with -DND_PART=N, where N is 1 to {parts}, one part of it: so all of them at once. */
#ifdef ND_PART
#define ND_LOCAL
#define ND_IN(part) (ND_PART == part)
#else
#define ND_LOCAL static
#define ND_IN(part) 1
#endif

'''
LAYOUT = '''
/* The header's structs have to be laid out as the module's are: numbers of 64 bits at multiples of 8 bytes. */
struct nd_layout { char c; ndef_size size; };
typedef char nd_layout_is_known[offsetof(struct nd_layout, size) == 8 && sizeof(struct nd_layout) == 16 ? 1 : -1];
'''


def stop(why):
    sys.exit(f'ports/translate.py: {why}')


def wrapped(numbers):
    """Numbers of an array, in lines."""
    rows = [', '.join(numbers[at:at + WIDE]) for at in range(0, len(numbers), WIDE)]
    return ',\n    '.join(rows) or '0'


def octets(value, type_of):
    data = value.data if isinstance(value, Bytes) else bytes(type_of.count)
    if len(data) != type_of.count:
        raise Unknown(f'{len(data)} bytes for {type_of}')
    return wrapped([str(octet) for octet in data])


def is_octets(type_of):
    return isinstance(type_of, Array) and type_of.element == Int(8)


def pointer(names, value):
    """The initialiser of a pointer within a constant."""
    base, offset = (value.base, value.bytes) if isinstance(value, Moved) else (value, 0)
    text = f'(const unsigned char *){names.of[base.name]}'
    return f'{{ {text} + {offset} }}' if offset else f'{{ {text} }}'


def leads_to(constant):
    """The constants to which the pointers in one lead."""
    for type_of, value in constant.value.parts if isinstance(constant.value, Fields) else []:
        if type_of == Pointer():
            yield (value.base if isinstance(value, Moved) else value).name


def in_order(constants):
    """What a pointer leads to comes before it; a constant may lead into itself."""
    constants = sorted(constants, key=has_pointers)
    by_name = {constant.name: constant for constant in constants}
    order = {}

    def visit(constant, above):
        if constant.name in above:
            raise Unknown(f'a circle of constants: {constant.name}')
        if constant.name not in order:
            for name in leads_to(constant):
                if name != constant.name and name in by_name:
                    visit(by_name[name], above | {constant.name})
            order[constant.name] = constant
    for constant in constants:
        visit(constant, frozenset())
    return list(order.values())


def parts_of(names, constant):
    """The members of a struct in C for a constant with pointers, and what they hold."""
    members, held, at = [], [], 0
    parts = constant.value.parts
    for place, (type_of, value) in enumerate(parts):
        if isinstance(type_of, Pointer) and at % 8 == 0:
            members.append(f'ND_POINTER p{place};')
            held.append(pointer(names, value))
            at += 8
        elif is_octets(type_of):
            members.append(f'unsigned char b{place}[{type_of.count}];')
            held.append(f'{{ {octets(value, type_of)} }}')
            at += type_of.count
        else:
            raise Unknown(f'a constant of the type {type_of}')
    return members, held


def has_pointers(constant):
    return isinstance(constant.value, Fields) and any(type_of == Pointer() for type_of, _ in constant.value.parts)


def named(names, constant):
    """Gives a constant its name, by which its address is taken."""
    names.add(constant.name, f'data_{constant.name}')
    name = names.of[constant.name]
    if is_octets(constant.type):
        names.of[constant.name] = name if constant.align == 1 else f'{name}.b'
    elif has_pointers(constant):
        names.of[constant.name] = f'&{name}'
    return name


def constant_text(names, name, constant):
    """The definition of a constant in C."""
    type_of, value = constant.type, constant.value
    if constant.align > 8:
        raise Unknown(f'a constant aligned to {constant.align}: {constant.name}')
    if is_octets(type_of) and isinstance(value, (Bytes, Nothing)):
        if constant.align == 1:
            return f'static const unsigned char {name}[{max(type_of.count, 1)}] = {{ {octets(value, type_of)} }};\n'
        return f'static const ND_ROOM({max(type_of.count, 1)}) {name} = {{ {{ {octets(value, type_of)} }} }};\n'
    if names.of[constant.name] == f'&{name}':
        members, held = parts_of(names, constant)
        return f'static const struct {{ {" ".join(members)} }} {name} = {{ {", ".join(held)} }};\n'
    if isinstance(type_of, Array) and isinstance(type_of.element, Int) and isinstance(value, Fields):
        numbers = wrapped([names.value(part, type_of.element) for _, part in value.parts])
        return f'static const {names.type(type_of.element)}{name}[{type_of.count}] = {{ {numbers} }};\n'
    raise Unknown(f'the constant {constant.name} of the type {type_of}')


def function_head(names, function, variables, linkage):
    parameters = ', '.join(f'{names.type(type_of)}{variables[name]}' for type_of, name in function.parameters)
    return f'{linkage} {names.type(function.type)}{names.of[function.name]}({parameters or "void"})'


def function_text(names, function, linkage='static'):
    """The prototype and the definition of a function in C."""
    body = Body(names, function)
    code = body.text()
    head = function_head(names, function, body.variables, linkage)
    return f'{head};\n', f'\n{head} {{\n{body.declarations()}{body.unused()}{code}}}\n'


def calls_of(include):
    """The calls that the headers declare: name, result and parameters."""
    text = ''.join(path.read_text(encoding='utf-8') for path in sorted(pathlib.Path(include).glob('ndef*.h')))
    calls = {}
    for result, name, parameters in re.findall(r'^(uint32_t|void) (ndef_\w+)\(([^()]*)\)[^;]*;', text, re.M):
        given = [one.strip() for one in parameters.split(',') if one.strip() != 'void']
        split = [re.fullmatch(r'(.*?)(\w+)', one, re.S) for one in given]
        calls[name] = (result, ' '.join(parameters.split()), [(match[1].strip(), match[2]) for match in split])
    return calls


def type_in_header(text):
    if text.endswith('*'):
        return Pointer()
    known = {'uint8_t': Int(8), 'uint16_t': Int(16), 'uint32_t': Int(32), 'uint64_t': Int(64), 'ndef_size': Int(64)}
    return known.get(text)


def call_text(names, function, calls):
    """A call of the header, made of the static function."""
    if function.name not in calls:
        raise Unknown(f'{function.name} is not in the header')
    result, parameters, named_parameters = calls[function.name]
    wanted = [type_in_header(text) for text, _ in named_parameters]
    if wanted != [type_of for type_of, _ in function.parameters]:
        raise Unknown(f'{function.name} has other parameters in the header')
    given = ', '.join(f'(unsigned char *){name}' if text.endswith('*') else name for text, name in named_parameters)
    says = 'return ' if result != 'void' else ''
    return f'\n{result} {function.name}({parameters}) {{\n    {says}{names.of[function.name]}({given});\n}}\n'


def written(names, constants, functions, linkage='static'):
    """The parts of a C file: helpers and structs, constants, prototypes, and definitions."""
    known = {constant.name: named(names, constant) for constant in constants}
    for function in functions:
        names.add(function.name, function.name)
    data = [constant_text(names, known[constant.name], constant) for constant in in_order(constants)]
    code = [function_text(names, function, linkage) for function in functions]
    helpers = [HELPERS[name] + '\n' for name in HELPERS if name in names.helpers]
    structs = [f'struct {name} {{ {" ".join(f"{names.type(field)}f{at};" for at, field in enumerate(type_of.fields))} }};\n'
               for name, type_of in names.structs.items()]
    return [*helpers, '\n', *structs], data, [head for head, _ in code], [body for _, body in code]


def translated(text, include, tree, name, is_fast=False):
    constants, functions, _ = module(text)
    names = Names(is_fast)
    types, data, heads, bodies = written(names, constants, functions)
    calls = calls_of(include)
    exported = [function for function in functions if not function.is_static]
    if sorted(function.name for function in exported) != sorted(calls):
        raise Unknown('the module has other calls than the header')
    exports = [call_text(names, function, calls) for function in exported]
    return ''.join([(HEAD + COMMON).format(tree=tree, name=name), *types, LAYOUT, '\n', *data, '\n', *heads, *bodies, *exports])


def asked(names, functions, declared):
    """The prototypes of what a program asks of the system, by the names that runtime.c has for it."""
    called = {line.detail[0]: line.detail[1] for function in functions for _, lines in function.blocks for line in lines if line.kind == 'call'}
    lines = []
    for name, _, type_of, parameters in declared:
        if name in called and not name.startswith('llvm.'):
            types = [one[0] for one in parameters if one != ANY_NUMBER]
            if called[name] != types:
                raise Unknown(f'a call of {name} with other arguments than it has by name')
            names.of[name] = name if name.startswith('rattle_') else 'ndef_host_' + name.removeprefix('__sysv_')
            shown = ', '.join(names.type(one).strip() for one in types)
            lines.append(f'{names.type(type_of)}{names.of[name]}({shown or "void"});\n')
    return lines


def in_parts(bodies):
    """The definitions in parts of the same length, each of which a compiler may make by itself."""
    size, parts = sum(map(len, bodies)), [[] for _ in range(PARTS)]
    at = 0
    for body in bodies:
        parts[at * PARTS // size].append(body)
        at += len(body)
    return [f'\n#if ND_IN({number})\n{"".join(part)}#endif\n' for number, part in enumerate(parts, 1)]


def translated_program(text, tree, name):
    constants, functions, declared = module(text)
    names = Names()
    host = asked(names, functions, declared)
    types, data, heads, bodies = written(names, constants, functions, 'ND_LOCAL')
    if [function.name for function in functions if not function.is_static] != ['main']:
        raise Unknown('the module has no main, or another call')
    bodies.append(f'\nint ndef_commands(void);\nint ndef_commands(void) {{ return (int){names.of["main"]}(); }}\n')
    return ''.join([(PROGRAM_HEAD + COMMON).format(tree=tree, name=name), PROGRAM.format(parts=PARTS), *types, '\n/* What runtime.c has. */\n', *host,
                    '\n', *data, '\n', *heads, *in_parts(bodies)])


def main(words):
    is_program = words[:1] == ['--program']
    if len(words) != 4 and words[4:] != ['fast']:
        stop(__doc__)
    source, to = words[1 if is_program else 0], words[3]
    with open(source, encoding='utf-8') as file:
        text = file.read()
    try:
        made = translated_program(text, words[2], os.path.basename(to)) if is_program \
            else translated(text, words[1], words[2], os.path.basename(to), len(words) == 5)
    except Unknown as unknown:
        stop(unknown)
    with open(to + '.part', 'w', encoding='utf-8') as file:
        file.write(made)
    os.replace(to + '.part', to)


if __name__ == '__main__':
    main(sys.argv[1:])
