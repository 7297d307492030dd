"""Writes the functions of an LLVM module in C99. What it has no C for it refuses by Unknown, with the line.

A value is a variable, or stands where it is used if that is one place of the same block. Memory is read and written by
memcpy alone, so C's rules of aliasing and alignment are kept. A pointer in memory takes 8 bytes on every machine, as in
the module: it is read and written as a number. What LLVM leaves without a value, C must not leave undefined: a count of bits
to shift by is cut to the width of the type, memory of no bytes is not handed to memcpy, and a sum of pointers is one of
numbers, unless a load or a store uses it at once (`is_at_once`).
"""

import re

from c_helpers import HELPERS, NEEDED, WIDTHS
from module_text import (Array, Cast, Combined, Double, Fields, Global, Int, Local, Moved, NO_EFFECT, Nothing, Number, Pointer, Real, Struct,
                         Unknown, Void, type_of_result)

PREFIX = 'nd_'
DEEPEST = 12  # how deep an expression may be
STORED = range(40, 400)  # bytes that the fast form sets by stores: gcc takes a slow instruction of the processor for one memset
OPERATORS = {'add': '+', 'sub': '-', 'mul': '*', 'and': '&', 'or': '|', 'xor': '^', 'udiv': '/', 'urem': '%', 'shl': '<<',
             'lshr': '>>'}
COMPARED = {'eq': '==', 'ne': '!=', 'ult': '<', 'ule': '<=', 'ugt': '>', 'uge': '>=', 'slt': '<', 'sle': '<=', 'sgt': '>',
            'sge': '>='}
FRACTIONS = {'fadd': '+', 'fsub': '-', 'fmul': '*', 'fdiv': '/'}
# Comparisons of fractions: `o` is false where one is no number, and `u` true, as the opposite comparison is false.
ORDERED = {'oeq': '==', 'une': '!=', 'olt': '<', 'ole': '<=', 'ogt': '>', 'oge': '>='}
UNORDERED = {'ult': '>=', 'ule': '>', 'ugt': '<=', 'uge': '<'}
PURE = {*OPERATORS, *FRACTIONS, 'ashr', 'icmp', 'fcmp', 'fneg', 'uitofp', 'bitcast', 'select', 'zext', 'sext', 'trunc', 'ptrtoaddr', 'ptrtoint',
        'inttoptr', 'getelementptr', 'extractvalue', 'insertvalue', 'freeze'}
FENCE = 'llvm.arithmetic.fence.f64'  # what rounds a fraction to 64 bits
POINTER = 'unsigned char *'


def stop(why):
    raise Unknown(why)


def width(type_of):
    """The bits of the C type that holds an integer."""
    for bits in WIDTHS:
        if type_of.bits <= bits:
            return bits
    return stop(f'an integer of {type_of.bits} bits')


def is_wide(type_of):
    """Whether a number has 128 bits: it is two of 64 in C."""
    return type_of == Int(128)


def number(value, type_of):
    value &= (1 << type_of.bits) - 1
    return f'{value}{"" if type_of.bits <= 16 else "U" if type_of.bits <= 32 else "ULL"}'


def cut(type_of, text):
    """A C expression as a value of an integer type, whose other bits are 0."""
    if type_of.bits in WIDTHS:
        return f'(uint{width(type_of)}_t){text}'
    return f'(uint{width(type_of)}_t)({text} & {number(-1, type_of)})'


def signed(type_of, text):
    if type_of.bits in WIDTHS:
        return f'(int{type_of.bits}_t){text}'
    places = 64 - type_of.bits
    return f'((int64_t)((uint64_t){text} << {places}) >> {places})'


def summed(base, sign, count):
    """An address that may lie outside of the object: C counts on numbers alone there."""
    return f'((unsigned char *)((uintptr_t){base} {sign} {count}))'


def bare(text):
    """An expression without the parentheses around all of it."""
    depth = 0
    for at, letter in enumerate(text):
        depth += {'(': 1, ')': -1}.get(letter, 0)
        if depth == 0:
            return text[1:-1] if at == len(text) - 1 and text[0] == '(' else text
    return text


class Names:
    """The C names of a module's constants, functions and structs, and which helpers its functions need."""

    def __init__(self, is_fast=False):
        self.of, self.is_fast = {}, is_fast
        self.taken = {PREFIX + name for name in [*HELPERS, 'stop', 'memcpy', 'memmove', 'memset']}
        self.structs = {}
        self.helpers = set()
        self.exact = {}

    def add(self, name, shown):
        """Gives a static name of the module a C name made of the words in it."""
        words = re.sub(r'\W+', '_', re.sub(r'::<.*', '', shown)).strip('_')
        chosen, count = PREFIX + words, 1
        while chosen in self.taken:
            count += 1
            chosen = f'{PREFIX}{words}_{count}'
        self.taken.add(chosen)
        self.of[name] = chosen

    def help(self, name):
        if name not in HELPERS:
            stop(f'no helper {name}')
        self.helpers.update([name, *NEEDED.get(name, ['wide'] if name.endswith('_i128') else [])])
        return PREFIX + name

    def helped(self, name, *arguments):
        """A call of a helper."""
        return f'{self.help(name)}({", ".join(arguments)})'

    def type(self, type_of):
        if is_wide(type_of):
            return f'struct {self.help("wide")} '
        if isinstance(type_of, Double):
            return 'double '
        if isinstance(type_of, Int):
            return f'uint{width(type_of)}_t '
        if isinstance(type_of, Pointer):
            return POINTER
        if isinstance(type_of, Void):
            return 'void '
        if isinstance(type_of, Struct) and not type_of.is_packed:
            name = PREFIX + '_'.join(self.word(field) for field in type_of.fields)
            self.structs[name] = type_of
            return f'struct {name} '
        return stop(f'a value of the type {type_of}')

    def word(self, field):
        """What the name of a struct has for a field; the structs within it are made known first."""
        text = self.type(field)
        if isinstance(field, Struct):
            return text.strip().replace(f'struct {PREFIX}', 'struct_') + '_end'
        return 'ptr' if isinstance(field, Pointer) else 'real' if isinstance(field, Double) else str(width(field))

    def value(self, value, type_of):
        """A value that is itself in C."""
        if isinstance(value, Number) and is_wide(type_of):
            return self.helped('wide', number(value.value, Int(64)), number(value.value >> 64, Int(64)))
        if isinstance(value, Real):
            return self.helped('real', number(value.bits, Int(64)))
        if isinstance(value, Combined):
            first, second = self.value(value.first, value.type), self.value(value.second, value.type)
            return cut(value.type, f'({first} {OPERATORS[value.kind]} {second})')
        if isinstance(value, Number):
            return number(value.value, type_of)
        if isinstance(value, Global):
            return f'({POINTER}){self.of[value.name]}' if value.name in self.of else stop(f'no {value.name}')
        if isinstance(value, Moved):
            return summed(self.value(value.base, type_of), '+-'[value.bytes < 0], abs(value.bytes))
        if isinstance(value, Cast):
            return self.cast(value)
        if isinstance(value, Nothing):
            return self.nothing(type_of)
        return stop(f'the value {value}')

    def cast(self, cast):
        """A constant address as a number of 64 bits, or a number as an address."""
        if cast.kind == 'inttoptr':
            return f'({POINTER})(uintptr_t){self.value(cast.value, Int(64))}'
        return f'(uint64_t)(uintptr_t){self.value(cast.value, Pointer())}'

    def nothing(self, type_of):
        if isinstance(type_of, Struct):
            self.type(type_of)
            return f'(({self.type(type_of).strip()}) {{ 0 }})'
        if is_wide(type_of):
            return self.value(Number(0), type_of)
        return '0' if isinstance(type_of, (Int, Double)) else f'({POINTER})0'


class Body:
    """The body of one function in C."""

    def __init__(self, names, function):
        self.names, self.function = names, function
        self.types = {name: type_of for type_of, name in function.parameters}
        self.blocks = without_idle(function.blocks)
        self.lines, self.used = [], set()
        self.texts, self.depths, self.rooms, self.parts, self.sums = {}, {}, {}, {}, {}
        for _, lines in self.blocks:
            for line in lines:
                if line.result is not None:
                    self.types[line.result] = type_of_result(line)
        self.variables = {name: f'v{place}' for place, name in enumerate(self.types, 1)}
        self.labels = {label: f'L{place}' for place, (label, _) in enumerate(self.blocks)}
        self.edges = self.edges_of()
        self.places = self.places_of()
        self.folded = set()
        for label, lines in self.blocks:
            self.fold_block(label, lines)
        self.room_sizes = {line.result: size_of(line.type) for _, lines in self.blocks for line in lines if line.kind == 'alloca'}

    # ---- what is known before the first line is written

    def edges_of(self):
        """What each way from a block to another gives to the phis there: (phi, type, value)."""
        found = {}
        for label, lines in self.blocks:
            for line in lines:
                if line.kind != 'phi':
                    continue
                for value, come_from in zip(line.operands, line.detail):
                    if come_from not in self.labels:
                        stop(f'a value from {come_from}: {line.line}')
                    gives = found.setdefault((come_from, label), [])
                    if all(name != line.result for name, _, _ in gives):
                        gives.append((line.result, line.type, value))
        return found

    def places_of(self):
        """Where each value is used: labels of blocks with the numbers of lines. What a phi takes is used at the end of the
        other block."""
        places = {}
        for label, lines in self.blocks:
            for at, line in enumerate(lines):
                for name in locals_of(line.operands) if line.kind != 'phi' else []:
                    places.setdefault(name, []).append((label, at))
        ends = {label: len(lines) - 1 for label, lines in self.blocks}
        for (come_from, _), gives in self.edges.items():
            for name in locals_of([value for _, _, value in gives]):
                places.setdefault(name, []).append((come_from, ends[come_from]))
        return places

    def fold_block(self, label, lines):
        """Finds the results that stand where they are used: pure ones, and loads where nothing is written before that
        place."""
        shown = list(range(len(lines)))
        for at in reversed(range(len(lines))):
            line = lines[at]
            used = self.places.get(line.result, [])
            if len(used) != 1 or used[0][0] != label or line.kind not in PURE | {'load'}:
                continue
            last = shown[used[0][1]]
            if line.kind != 'load' or not any(has_effect(other) for other in lines[at + 1:last]):
                shown[at] = last
                self.folded.add(line.result)

    # ---- values

    def value(self, value, type_of):
        if isinstance(value, Local):
            self.used.add(value.name)
            return self.texts.get(value.name) or self.rooms.get(value.name) or self.variables[value.name]
        if isinstance(value, Fields):
            parts = ', '.join(self.value(part, part_type) for part_type, part in value.parts)
            return f'(({self.names.type(type_of).strip()}) {{ {parts} }})'
        return self.names.value(value, type_of)

    def values(self, line):
        return [self.value(operand, line.type) for operand in line.operands]

    def binary(self, line):
        type_of, kind = line.type, line.kind
        first, second = self.values(line)
        if is_wide(type_of):
            return self.names.helped(f'{kind}_i128', first, second)
        if kind in FRACTIONS:
            return self.names.helped('fence', f'{first} {FRACTIONS[kind]} {second}')
        if kind == 'add' and type_of == Int(64) and isinstance(line.operands[1], Number):
            self.sums[line.result] = first, line.operands[1].value
        if kind in ('shl', 'lshr', 'ashr'):
            second = self.places_to_shift(type_of, line.operands[1], second)
        if kind == 'ashr':
            return cut(type_of, f'({signed(type_of, first)} >> {second})')
        if type_of.bits < 32 and kind in ('mul', 'shl'):
            first = f'(uint32_t){first}'
        if type_of.bits == 1 and second.startswith('('):
            second = f'(int){second}'  # clang warns of | between two comparisons
        text = f'({first} {OPERATORS[kind]} {second})'
        if type_of.bits == 1 and kind in ('and', 'or', 'xor'):
            return f'(uint8_t){text}' if second.startswith('(int)') else text
        return text if type_of.bits in (32, 64) else cut(type_of, text)

    def places_to_shift(self, type_of, count, text):
        """How far to shift: C has no shift by as many bits as the type has, or more."""
        if isinstance(count, Number):
            return str(count.value & (width(type_of) - 1))
        return f'({text} & {width(type_of) - 1})'

    def compare(self, line):
        first, second = self.values(line)
        if is_wide(line.type):
            return self.compare_wide(line.detail, first, second)
        if line.detail[0] == 's':
            first, second = signed(line.type, first), signed(line.type, second)
        elif isinstance(line.type, Pointer) and line.detail not in ('eq', 'ne'):
            first, second = f'(uintptr_t){first}', f'(uintptr_t){second}'
        return f'({first} {COMPARED[line.detail]} {second})'

    def compare_wide(self, kind, first, second):
        if kind in ('eq', 'ne'):
            return f'({"!" if kind == "ne" else ""}{self.names.helped("eq_i128", first, second)})'
        if kind[1:] in ('gt', 'le'):
            first, second = second, first
        return f'({"!" if kind[1:] in ("le", "ge") else ""}{self.names.helped(f"{kind[0]}lt_i128", first, second)})'

    def compare_fractions(self, line):
        first, second = self.values(line)
        kind = line.detail
        if kind in ORDERED:
            return f'({first} {ORDERED[kind]} {second})'
        if kind in UNORDERED:
            return f'(!({first} {UNORDERED[kind]} {second}))'
        if kind != 'ord':
            stop(f'a comparison {kind}')
        return f'({first} == {first} && {second} == {second})'

    def select(self, line):
        condition = self.value(line.operands[0], Int(1))
        first, second = [self.value(operand, line.type) for operand in line.operands[1:]]
        text = f'({condition} ? {first} : {second})'
        is_narrow = isinstance(line.type, Int) and line.type.bits < 32
        return f'({self.names.type(line.type).strip()}){text}' if is_narrow else text

    def cast(self, line):
        value, = self.values(line)
        kind, wanted = line.kind, line.detail
        if is_wide(line.type) or is_wide(wanted) or isinstance(wanted, Double) or isinstance(line.type, Double):
            return self.cast_other(kind, line.type, wanted, value)
        if kind == 'inttoptr':
            return self.numbered(line, value)
        if kind in ('ptrtoaddr', 'ptrtoint'):
            return cut(wanted, f'(uintptr_t){value}')
        if kind == 'sext':
            value = f'(0 - (uint64_t){value})' if line.type.bits == 1 else signed(line.type, value)
        return cut(wanted, value) if kind != 'zext' else f'(uint{width(wanted)}_t){value}'

    def cast_other(self, kind, type_of, wanted, text):
        """A number of 128 bits or a fraction as another value, or another as that."""
        if kind == 'uitofp' and not is_wide(type_of):
            return f'(double){text}'
        if kind == 'bitcast' and {type_of, wanted} == {Int(64), Double()}:
            return self.names.helped('real' if type_of == Int(64) else 'bits', text)
        if kind == 'trunc' and is_wide(type_of):
            return cut(wanted, f'{text}.low')
        if kind == 'zext' and is_wide(wanted):
            return self.names.helped('wide', text, '0')
        if kind == 'sext' and type_of == Int(64):
            return self.names.helped('sext_i128', text)
        return stop(f'a cast {kind} of {type_of} to {wanted}')

    def numbered(self, line, text):
        """A number as an address. A sum with a constant that is used at once is one of pointers."""
        base, count = self.sums.get(getattr(line.operands[0], 'name', None), (None, 0))
        if base is None or not self.is_at_once(line.result):
            return f'({POINTER})(uintptr_t){text}'
        return f'(({POINTER})(uintptr_t){base} {"+-"[count < 0]} {abs(count)})'

    def element(self, line, at_once):
        """An address. In memory of this call, or where it is used at once, it is a sum of C's own: so a compiler sees which loads are
        neighbours."""
        base = self.value(line.operands[0], Pointer())
        size = size_of(line.type)
        count_type = line.detail
        is_plain = self.is_in_room(line, size) or at_once
        if isinstance(line.operands[1], Number):
            count = line.operands[1].value * size
            sign, count = '-' if count < 0 else '+', str(abs(count))
        else:
            count = self.value(line.operands[1], count_type)
            count = count if count_type == Int(64) else f'(uint64_t){signed(count_type, count)}'
            sign, count = '+', f'({count} * {size})' if size != 1 else count
            count = f'({"ptrdiff_t" if is_plain else "uintptr_t"}){count}'
        return f'({base} {sign} {count})' if is_plain else summed(base, sign, count)

    def is_in_room(self, line, size):
        base, count = line.operands
        return isinstance(count, Number) and isinstance(base, Local) and 0 <= count.value * size <= self.room_sizes.get(base.name, -1)

    def is_at_once(self, name):
        """Whether an address is used by a load, a store or a copy of some bytes, which ends the program where it lies outside."""
        if name not in self.folded:
            return False
        label, at = self.places[name][0]
        user = dict(self.blocks)[label][at]
        if user.kind == 'call':
            return user.detail[0].startswith('llvm.mem') and isinstance(user.operands[2], Number) and user.operands[2].value > 0
        return user.kind == 'load' or user.kind == 'store' and user.operands[0] != Local(name)

    def loaded(self, line):
        pointer = self.value(line.operands[0], Pointer())
        if is_wide(line.type):
            return self.names.helped('load_128', pointer)
        if isinstance(line.type, Double):
            return self.names.helped('real', self.names.helped('load_64', pointer))
        if not isinstance(line.type, Int):
            stop(f'a load: {line.line}')
        if line.type.bits not in WIDTHS and line.type.bits > 8:
            return cut(line.type, f'{self.names.help("load_part")}({pointer}, {(line.type.bits + 7) // 8})')
        text = f'{self.names.help(f"load_{width(line.type)}")}({pointer})'
        return text if line.type.bits in WIDTHS else cut(line.type, text)

    def inserted(self, line):
        """A struct with another value in one field."""
        whole, part = line.operands
        if not isinstance(line.type, Struct):
            stop(f'a struct of the type {line.type}')
        count = len(line.type.fields)
        if isinstance(whole, Nothing):
            parts = ['0' if isinstance(field, Int) else self.names.nothing(field) for field in line.type.fields]
        elif isinstance(whole, Local) and whole.name in self.parts:
            self.used.add(whole.name)
            parts = list(self.parts[whole.name])
        else:
            text = self.value(whole, line.type)
            parts = [f'{text}.f{place}' for place in range(count)]
        parts[line.detail] = self.value(part, line.type.fields[line.detail])
        if line.result in self.folded:
            self.parts[line.result] = parts
        return f'(({self.names.type(line.type).strip()}) {{ {", ".join(parts)} }})'

    def expression(self, line):
        """The value of a pure instruction or a load."""
        if line.kind in OPERATORS or line.kind in FRACTIONS or line.kind == 'ashr':
            return self.binary(line)
        if line.kind == 'fcmp':
            return self.compare_fractions(line)
        if line.kind == 'fneg':
            return f'(-{self.values(line)[0]})'
        if line.kind == 'icmp':
            return self.compare(line)
        if line.kind == 'select':
            return self.select(line)
        if line.kind == 'getelementptr':
            return self.element(line, self.is_at_once(line.result))
        if line.kind == 'extractvalue':
            return f'{self.values(line)[0]}.f{line.detail}'
        if line.kind == 'insertvalue':
            return self.inserted(line)
        if line.kind == 'freeze':
            return self.values(line)[0]
        if line.kind == 'load':
            return self.loaded(line)
        return self.cast(line)

    # ---- lines

    def say(self, text):
        self.lines.append(f'    {text}\n')

    def set(self, name, text):
        self.used.add(name)
        self.say(f'{self.variables[name]} = {bare(text)};')

    def write(self, label, line, after):
        """Writes an instruction of a block, which the block `after` follows."""
        kind = line.kind
        if kind == 'phi':
            return
        if kind in PURE | {'load'}:
            self.evaluated(line)
        elif kind == 'alloca':
            self.room_for(line)
        elif kind == 'store':
            self.stored(line)
        elif kind == 'call':
            self.called(line)
        elif kind == 'ret':
            self.say(f'return {bare(self.values(line)[0])};' if line.operands else 'return;')
        elif kind == 'unreachable':
            if not self.lines or 'nd_stop();' not in self.lines[-1]:
                self.say('nd_stop();')
        elif kind == 'br':
            self.branch(label, line, after)
        else:
            self.switch(label, line, after)

    def evaluated(self, line):
        depth = 1 + max([self.depths.get(name, 0) for name in locals_of(line.operands)], default=0)
        if depth >= DEEPEST:
            self.folded.discard(line.result)
        text = self.expression(line)
        if line.result in self.folded:
            self.texts[line.result], self.depths[line.result] = text, depth
        else:
            self.parts.pop(line.result, None)
            self.sums.pop(line.result, None)
            self.set(line.result, f'(uint8_t){text}' if line.kind in OPERATORS and line.type == Int(1) else text)

    def room_for(self, line):
        if line.detail > 16:
            stop(f'memory aligned to {line.detail}: {line.line}')
        if all(line is not other for other in self.blocks[0][1]):
            stop('memory that a block after the first asks for')
        address = f'{self.variables[line.result]}.b'
        self.rooms[line.result] = address if line.detail <= 8 else self.names.helped('aligned', address)

    def stored(self, line):
        value, pointer = self.value(line.operands[0], line.type), self.value(line.operands[1], Pointer())
        if is_wide(line.type):
            self.say(f'{self.names.helped("store_128", pointer, value)};')
        elif isinstance(line.type, Int) and line.type.bits not in WIDTHS and line.type.bits > 8:
            self.say(f'{self.names.help("store_part")}({pointer}, {value}, {(line.type.bits + 7) // 8});')
        elif isinstance(line.type, Int):
            self.say(f'{self.names.help(f"store_{width(line.type)}")}({pointer}, {value});')
        elif isinstance(line.type, Double):
            self.say(f'{self.names.helped("store_64", pointer, self.names.helped("bits", value))};')
        else:
            stop(f'a store: {line.line}')

    def called(self, line):
        name, types = line.detail
        arguments = [self.value(operand, type_of) for operand, type_of in zip(line.operands, types)]
        if name == 'llvm.trap':
            self.say('nd_stop();')
        elif name.startswith('llvm.mem'):
            self.memory(line, name.split('.')[1], arguments)
        else:
            self.returned(line, self.callee(name, arguments))

    def callee(self, name, arguments):
        if not name.startswith('llvm.'):
            if name not in self.names.of:
                stop(f'no function {name}')
            return f'{self.names.of[name]}({", ".join(arguments)})'
        name = 'fence' if name == FENCE else name[5:].replace('.', '_')
        count = 1 if name.startswith(('cttz', 'ctlz', 'bswap', 'abs', 'fence')) else 2
        return f'{self.names.help(name)}({", ".join(arguments[:count])})'

    def returned(self, line, text):
        if line.result in self.places:
            self.set(line.result, text)
        else:
            self.say(f'{text};')

    def memory(self, line, kind, arguments):
        to, other, size = arguments[:3]
        if line.operands[3] != Number(0):
            stop('volatile memory')
        if isinstance(line.operands[2], Number):
            count = line.operands[2].value
            is_room = line.operands[0] in map(Local, self.rooms)
            each = 16 if self.names.is_fast and is_room and kind == 'memset' and count in STORED else count
            for at in range(0, count, each or 1):
                place = f'({to} + {at})' if at else to
                self.say(f'{PREFIX}{kind}({place}, {other}, {min(each, count - at)});')
        else:
            helper = {'memcpy': 'copy', 'memmove': 'move', 'memset': 'fill'}[kind]
            self.say(f'{self.names.help(helper)}({to}, {other}, {size});')

    # ---- from block to block

    def steps(self, label, to):
        """The assignments to the phis of a block on the way there."""
        edges = self.edges.get((label, to), [])
        self.used.update(name for name, _, _ in edges)
        gives = [(self.variables[name], self.value(value, type_of), type_of) for name, type_of, value in edges]
        gives = [(name, text, type_of) for name, text, type_of in gives if name != text]
        read = [set(re.findall(r'\bv\d+\b', text)) for _, text, _ in gives]
        if not any(name in others for at, (name, _, _) in enumerate(gives) for others in read[at + 1:]):
            return [f'{name} = {bare(text)};' for name, text, _ in gives]
        first = [f'{self.names.type(type_of)}t{at} = {text};' for at, (_, text, type_of) in enumerate(gives)]
        return first + [f'{name} = t{at};' for at, (name, _, _) in enumerate(gives)]

    def jump(self, label, to, after):
        """The statements that lead from a block to another."""
        steps = self.steps(label, to)
        return steps if to == after else steps + [f'goto {self.labels[to]};']

    def block(self, statements):
        return statements[0] if len(statements) == 1 else f'{{ {" ".join(statements)} }}'

    def branch(self, label, line, after):
        if len(line.detail) == 1:
            statements = self.jump(label, line.detail[0], after)
            self.say_all(statements)
            return
        condition = self.value(line.operands[0], Int(1))
        first, second = line.detail
        if first == after and not self.steps(label, first):
            self.say(f'if (!{condition}) {self.block(self.jump(label, second, None))}')
            return
        self.say(f'if ({bare(condition)}) {self.block(self.jump(label, first, None))}')
        self.say_all(self.jump(label, second, after))

    def say_all(self, statements):
        if any(re.search(r'\bt0\b', text) for text in statements):
            self.say(self.block(statements))
        else:
            for text in statements:
                self.say(text)

    def switch(self, label, line, after):
        others, pairs = line.detail
        self.say(f'switch ({bare(self.values(line)[0])}) {{')
        for value, to in pairs:
            self.say(f'case {number(value.value, line.type)}: {self.block(self.jump(label, to, None))}')
        statements = self.jump(label, others, None)
        self.say(f'default: {self.block(statements)} }}')

    def text(self):
        """The lines of the body, and the C names of the parameters that it uses."""
        order = [label for label, _ in self.blocks]
        for at, (label, lines) in enumerate(self.blocks):
            self.lines.append(f'{self.labels[label]}:;\n')
            after = order[at + 1] if at + 1 < len(order) else None
            for line in lines:
                try:
                    self.write(label, line, after)
                except Unknown as unknown:
                    raise Unknown(f'{unknown} in {self.function.name}: {line.line.strip()[:300]}') from None
        code = ''.join(self.lines)
        reached = set(re.findall(r'goto (L\d+);', code))
        return ''.join(line for line in self.lines if not line.startswith('L') or line[:-3] in reached)

    def declarations(self):
        """The variables: of each C type on one line."""
        groups = {}
        parameters = {name for _, name in self.function.parameters}
        for name, type_of in self.types.items():
            if name in self.used and name not in parameters and name not in self.rooms and name not in self.texts:
                groups.setdefault(self.names.type(type_of), []).append(self.variables[name])
        between = {c_type: ', *' if '*' in c_type else ', ' for c_type in groups}
        lines = [f'    {c_type}{between[c_type].join(names)};\n' for c_type, names in groups.items()]
        return ''.join(lines) + self.room_lines()

    def room_lines(self):
        groups = {}
        for _, lines in self.blocks:
            for line in lines:
                if line.kind == 'alloca' and line.result in self.used:
                    size = max(size_of(line.type), 1) + (15 if line.detail > 8 else 0)
                    groups.setdefault(size, []).append(self.variables[line.result])
        return ''.join(f'    ND_ROOM({size}) {", ".join(names)};\n' for size, names in groups.items())

    def unused(self):
        """Lines for parameters that nothing uses."""
        names = [name for _, name in self.function.parameters if name not in self.used]
        return ''.join(f'    (void){self.variables[name]};\n' for name in names)


def has_no_effect(line):
    return line.kind == 'call' and line.detail[0].startswith(NO_EFFECT)


def without_idle(blocks):
    """The blocks without what has no effect, and without values that nothing uses."""
    blocks = [(label, [line for line in lines if not has_no_effect(line)]) for label, lines in blocks]
    while True:
        used = {name for _, lines in blocks for line in lines for name in locals_of(line.operands)}
        kept = [(label, [line for line in lines if line.result in used or line.kind not in PURE | {'load', 'phi'}])
                for label, lines in blocks]
        if kept == blocks:
            return blocks
        blocks = kept


def has_effect(line):
    return line.kind in ('store', 'call')


def locals_of(values):
    """The names of the values that others are made of."""
    for value in values:
        if isinstance(value, Local):
            yield value.name
        elif isinstance(value, Fields):
            yield from locals_of([part for _, part in value.parts])


def size_of(type_of):
    if isinstance(type_of, (Pointer, Double)):
        return 8
    if is_wide(type_of):
        return 16
    if isinstance(type_of, Int):
        return width(type_of) // 8
    if isinstance(type_of, Array):
        return type_of.count * size_of(type_of.element)
    if isinstance(type_of, Struct) and not type_of.is_packed:
        at = 0
        for field in type_of.fields:
            at = rounded(at, alignment_of(field)) + size_of(field)
        return rounded(at, alignment_of(type_of))
    return stop(f'the size of {type_of}')


def alignment_of(type_of):
    if isinstance(type_of, Array):
        return alignment_of(type_of.element)
    if isinstance(type_of, Struct):
        return max((alignment_of(field) for field in type_of.fields), default=1)
    return size_of(type_of)


def rounded(at, alignment):
    return -(-at // alignment) * alignment
