"""Reads a function of the C file by pycparser, and evaluates its expressions by C99's rules for a machine of 64 bits: promotions, conversions,
and what C leaves undefined, which is refused."""
import re

from pycparser import c_ast

from module_side import Wrong
from terms import atom, binary, const, equal, field, fraction_less, is_const, ite, less, most, negated, not_zero, raw, same, sext, shift, struct, trunc, zext

PRELUDE = '''typedef unsigned char uint8_t; typedef unsigned short uint16_t; typedef unsigned int uint32_t; typedef unsigned long uint64_t;
typedef signed char int8_t; typedef short int16_t; typedef int int32_t; typedef long int64_t;
typedef unsigned long size_t; typedef unsigned long uintptr_t; typedef long ptrdiff_t;
'''
POINTER, INT = ('p', 64), ('s', 32)
FRACTION, EXACT = ('d', 64), ('x', 64)  # rounded to 64 bits, and perhaps not yet
WIDE = ('u', 128)
TYPES = {'int': INT, 'double': FRACTION, 'size_t': ('u', 64), 'uintptr_t': ('u', 64), 'ptrdiff_t': ('s', 64), 'void': None,
         **{f'{"u" if sign == "u" else ""}int{bits}_t': (sign, bits) for sign in 'us' for bits in (8, 16, 32, 64)}}
HELPER = re.compile(r'nd_(umin|umax|smin|smax|usub_sat|uadd_sat|cttz|ctlz|abs|bswap)_i(\d+)$')
OF_WIDE = re.compile(r'nd_(add|sub|mul|and|or|xor|shl|lshr|eq|ult|slt|sext)_i(128)$')
ARITHMETIC = {'+': 'add', '-': 'sub', '*': 'mul', '&': 'and', '|': 'or', '^': 'xor', '/': 'udiv', '%': 'urem'}
COPIES = {'nd_copy': 'memcpy', 'nd_move': 'memmove', 'nd_fill': 'memset', 'nd_memcpy': 'memcpy', 'nd_memmove': 'memmove', 'nd_memset': 'memset'}


def c_type(node):
    if isinstance(node, c_ast.PtrDecl):
        return POINTER
    if isinstance(node, c_ast.TypeDecl):
        if isinstance(node.type, c_ast.Struct):
            return WIDE if node.type.name == 'nd_wide' else ('struct', node.type.name)
        if node.type.names in (['unsigned', 'char'],) or len(node.type.names) == 1 and node.type.names[0] in TYPES:
            return TYPES[node.type.names[0]] if len(node.type.names) == 1 else TYPES['uint8_t']
    raise Wrong(f'C: a type {node}')


def type_of_words(text):
    """The type of a member or a parameter, by the text before its name."""
    if text.startswith('struct'):
        return WIDE if text.split()[1] == 'nd_wide' else ('struct', text.split()[1])
    return POINTER if '*' in text else TYPES[text.split()[0]]


class CFunction:
    """`params` as (name, type), the `types` of variables, and `items`: statements and ('label', name), whose places `labels` has."""

    def __init__(self, text, parser):
        text = re.sub(r'ND_ROOM\((\d+)\) ', r'struct nd_room_\1 ', text)
        names = ''.join(f'struct {name};' for name in set(re.findall(r'struct (\w+)', text)))
        definition = [part for part in parser.parse(PRELUDE + names + text).ext if isinstance(part, c_ast.FuncDef)][0]
        declared = definition.decl.type
        self.type = c_type(declared.type)
        self.params = [(param.name, c_type(param.type)) for param in declared.args.params if param.name] if declared.args else []
        self.types = dict(self.params)
        self.items, self.labels = [], {}
        for statement in definition.body.block_items or []:
            self.flatten(statement)

    def flatten(self, statement):
        if isinstance(statement, c_ast.Decl) and not statement.init:
            self.types[statement.name] = c_type(statement.type)
        elif isinstance(statement, c_ast.Label):
            self.labels[statement.name] = len(self.items)
            self.items.append(('label', statement.name))
            self.flatten(statement.stmt)
        elif isinstance(statement, c_ast.Compound):
            for part in statement.block_items:
                self.flatten(part)
        elif not isinstance(statement, c_ast.EmptyStatement):
            self.items.append(statement)


class Evaluator:
    """Evaluates C in a state of `Simulation`, which says what variables hold and where the module counts on pointers."""

    def cast(self, term, from_type, to):
        if 'd' in (to[0], from_type[0]) and to != from_type or 'x' in (to[0], from_type[0]):
            return self.to_fraction(term, from_type, to)
        if to[0] == 'struct':
            return term if from_type[0] == 'struct' else self.zero(to)
        if to[1] <= from_type[1]:
            return trunc(term, to[1])
        return sext(term, to[1]) if from_type[0] == 's' else zext(term, to[1])

    @staticmethod
    def to_fraction(term, from_type, to):
        if to != FRACTION or from_type[0] != 'u' and not (is_const(term) and most(term) < 1 << 31):
            raise Wrong(f'C: a fraction of {from_type} as {to}')
        return term if is_const(term) and not term.args[0] else raw('uitofp', 64, zext(term, 64))

    def zero(self, type_of):
        return struct([self.zero(part) for part in self.file.structs[type_of[1]]]) if type_of[0] == 'struct' else const(0, type_of[1])

    def promoted(self, term, type_of):
        return (self.cast(term, type_of, INT), INT) if type_of[0] != 'p' and type_of[1] < 32 else (term, type_of)

    def common(self, a, b):
        (a, x), (b, y) = self.promoted(*a), self.promoted(*b)
        wanted = x if x == y else ('u', x[1]) if x[1] == y[1] else max(x, y, key=lambda type_of: type_of[1])
        return self.cast(a, x, wanted), self.cast(b, y, wanted), wanted

    def ev(self, s, e):
        """The value and the type of an expression."""
        known = getattr(self, 'ev_' + type(e).__name__, None)
        if not known:
            raise Wrong(f'C: {type(e).__name__}')
        return known(s, e)

    def ev_Constant(self, _, e):
        match = re.fullmatch(r'(0x[0-9A-Fa-f]+|\d+)(U|ULL)?', e.value)
        value, suffix = int(match[1], 0), match[2]
        bits = 32 if value < 1 << (32 if suffix else 31) and suffix != 'ULL' else 64
        return const(value, bits), ('u' if suffix else 's', bits)

    def ev_ID(self, s, e):
        return (atom('@' + e.name, 64), POINTER) if e.name in self.file.data else self.variable(s, e.name)

    def ev_StructRef(self, s, e):
        if e.field.name == 'b':
            if e.name.name in self.file.data:
                return atom('@' + e.name.name, 64), POINTER
            return self.slot(e.name.name), POINTER
        term, type_of = self.ev(s, e.name)
        if type_of == WIDE:
            return trunc(term if e.field.name == 'low' else shift('lshr', term, const(64, 128)), 64), ('u', 64)
        place = int(e.field.name[1:])
        return field(term, place), self.file.structs[type_of[1]][place]

    def ev_Cast(self, s, e):
        to = c_type(e.to_type.type)
        return self.cast(*self.ev(s, e.expr), to), to

    def ev_CompoundLiteral(self, s, e):
        type_of = 'struct', e.type.type.type.name
        parts = self.file.structs[type_of[1]]
        values = [self.cast(*self.ev(s, value), part) for part, value in zip(parts, e.init.exprs)]
        return struct(values + [self.zero(part) for part in parts[len(values):]]), type_of

    def ev_UnaryOp(self, s, e):
        if e.op == '!':
            return zext(negated(not_zero(self.ev(s, e.expr)[0])), 32), INT
        if e.op == '&' and isinstance(e.expr, c_ast.ID) and e.expr.name in self.file.data:
            return atom('@' + e.expr.name, 64), POINTER
        if e.op == '-':
            term, type_of = self.promoted(*self.ev(s, e.expr))
            if type_of == FRACTION:
                return raw('fneg', 64, term), type_of
            if type_of[0] == 'u' or is_const(term):
                return binary('sub', const(0, type_of[1]), term), type_of
        raise Wrong(f'C: {e.op}')

    def ev_TernaryOp(self, s, e):
        condition = not_zero(self.ev(s, e.cond)[0])
        a, b = self.ev(s, e.iftrue), self.ev(s, e.iffalse)
        if a[1][0] == 'struct' or POINTER in (a[1], b[1]) or a[1] == b[1] and a[1] in (FRACTION, WIDE):
            return ite(condition, a[0], b[0]), a[1]
        x, y, type_of = self.common(a, b)
        return ite(condition, x, y), type_of

    def ev_FuncCall(self, s, e):
        name, args = e.name.name, e.args.exprs
        match = re.match(r'nd_load_(\d+)$', name)
        if match:
            bits = int(match[1])
            return self.load(s, self.address(s, args[0]), bits), ('u', bits)
        if name == 'nd_load_part':
            return zext(self.load(s, self.address(s, args[0]), 8 * int(args[1].value)), 64), ('u', 64)
        match = HELPER.match(name)
        if match:
            type_of = 'u', int(match[2])
            return raw(match[1], type_of[1], *[self.cast(*self.ev(s, arg), type_of) for arg in args]), type_of
        if name in ('nd_fence', 'nd_real', 'nd_bits'):
            return self.fraction(name, *self.ev(s, args[0]))
        if name == 'nd_wide' or OF_WIDE.match(name):
            return self.wide(name, [self.ev(s, arg) for arg in args])
        if name == 'nd_aligned' and isinstance(args[0], c_ast.StructRef):
            return self.slot(args[0].name.name, 16), POINTER
        raise Wrong(f'C: a call {name} within an expression')

    @staticmethod
    def fraction(name, term, type_of):
        """A fraction rounded, of its bits, or its bits."""
        if type_of not in {'nd_fence': (FRACTION, EXACT), 'nd_real': (('u', 64),), 'nd_bits': (FRACTION,)}[name]:
            raise Wrong(f'C: {name} of {type_of}')
        return term, ('u', 64) if name == 'nd_bits' else FRACTION

    def wide(self, name, values):
        """A number of 128 bits, of two or of one of 64, or of two of 128 bits."""
        if name in ('nd_wide', 'nd_sext_i128'):
            low, *high = [self.cast(*value, ('u', 64)) for value in values]
            return binary('or', zext(low, 128), shift('shl', zext(high[0], 128), const(64, 128))) if high else sext(low, 128), WIDE
        if [type_of for _, type_of in values] != [WIDE] * 2:
            raise Wrong(f'C: {name} of other numbers')
        (a, _), (b, _), op = *values, OF_WIDE.match(name)[1]
        if op in ('eq', 'ult', 'slt'):
            return zext(equal(a, b) if op == 'eq' else less(a, b, op == 'slt'), 8), ('u', 8)
        return shift(op, a, binary('and', b, const(127, 128))) if op in ('shl', 'lshr') else binary(op, a, b), WIDE

    @staticmethod
    def of_fractions(op, a, b):
        if op in ('+', '-', '*', '/'):
            return raw({'+': 'fadd', '-': 'fsub', '*': 'fmul', '/': 'fdiv'}[op], 64, a, b), EXACT
        if op in ('==', '!='):
            is_equal = raw('feq', 1, *sorted((a, b), key=lambda term: term.id))
            return zext(is_equal if op == '==' else negated(is_equal), 32), INT
        return zext(fraction_less(op, a, b), 32), INT

    def ev_BinaryOp(self, s, e, at_once=False):
        a, b, op = self.ev(s, e.left), self.ev(s, e.right), e.op
        if op in ('&&', '||'):
            return zext(binary('and' if op == '&&' else 'or', not_zero(a[0]), not_zero(b[0])), 32), INT
        if (a[1], b[1]) == (FRACTION, FRACTION):
            return self.of_fractions(op, a[0], b[0])
        if {a[1], b[1]} & {FRACTION, EXACT, WIDE}:
            raise Wrong(f'C: {op} of {a[1]} and {b[1]}')
        if a[1] == POINTER and op in ('+', '-') and b[1] != POINTER:
            offset = self.cast(*self.promoted(*b), ('s', 64))
            return self.counted(s, a[0], binary('sub', const(0, 64), offset) if op == '-' else offset, at_once), POINTER
        if op in ('<<', '>>'):
            return self.shifted(op, self.promoted(*a), self.promoted(*b))
        if op in ('==', '!=', '<', '>', '<=', '>='):
            return zext(self.compared(op, a, b), 32), INT
        if op not in ARITHMETIC:
            raise Wrong(f'C: {op}')
        x, y, type_of = self.common(a, b)
        if type_of[0] == 's':
            most_of = {'+': most(x) + most(y), '*': most(x) * most(y), '-': max(most(x), most(y))}.get(op, 0)
            if max(most_of, most(x), most(y)) >= 1 << type_of[1] - 1 and op in '+*-/%':
                raise Wrong(f'C: a signed {op} that may overflow: {x} {y}')
        return binary(ARITHMETIC[op], x, y), type_of

    @staticmethod
    def shifted(op, a, b):
        (term, type_of), count = a, b[0]
        bits = type_of[1]
        if most(count) >= bits:
            raise Wrong('C: a shift by too many bits')
        count = trunc(count, bits) if count.bits >= bits else zext(count, bits)
        if op == '<<' and type_of[0] == 's' and (not is_const(count) or most(term) << count.args[0] >= 1 << bits - 1):
            raise Wrong('C: a signed shift that may overflow')
        return shift('shl' if op == '<<' else 'ashr' if type_of[0] == 's' else 'lshr', term, count), type_of

    def compared(self, op, a, b):
        if POINTER in (a[1], b[1]):
            if op not in ('==', '!=') or a[1] != b[1]:
                raise Wrong('C: an order of pointers')
            x, y, type_of = a[0], b[0], POINTER
        else:
            x, y, type_of = self.common(a, b)
        is_signed = type_of[0] == 's'
        return {'==': lambda: equal(x, y), '!=': lambda: negated(equal(x, y)), '<': lambda: less(x, y, is_signed), '>': lambda: less(y, x, is_signed),
                '<=': lambda: negated(less(y, x, is_signed)), '>=': lambda: negated(less(x, y, is_signed))}[op]()

    # ---- memory

    def address(self, s, e):
        """A pointer by which memory is read or written at once."""
        if isinstance(e, c_ast.BinaryOp):
            return self.ev_BinaryOp(s, e, True)[0]
        term, type_of = self.ev(s, e)
        if type_of != POINTER:
            raise Wrong('C: a number as a pointer')
        return term

    def load(self, s, at, bits):
        """C reads only what the module reads."""
        found = raw('load', bits, at, s.version_c)
        if found in s.loads:
            return found
        for other in s.loads:
            if other.bits == bits and other.args[1] == s.version_c and same(at, other.args[0]):
                return other
        raise Wrong(f'C reads what the module does not: {found}')

    def called(self, s, e):
        """A call as a statement: what it does, and the C function that it calls."""
        name, args = e.name.name, e.args.exprs if e.args else []
        match = re.match(r'nd_store_(\d+)$', name)
        if match or name == 'nd_store_part':
            bits = int(match[1]) if match else 8 * int(args[2].value)
            value = self.cast(*self.ev(s, args[1]), ('u', bits if match else 64))
            s.effect_c('store', bits, self.address(s, args[0]), trunc(value, bits))
        elif name in COPIES:
            kind, size = COPIES[name], self.cast(*self.ev(s, args[2]), ('u', 64))
            read = self.address if is_const(size) and size.args[0] else lambda s, e: self.ev(s, e)[0]
            other = trunc(self.ev(s, args[1])[0], 8) if kind == 'memset' else read(s, args[1])
            s.effect_c(kind, read(s, args[0]), other, size)
        elif name in self.file.parameters:
            s.effect_c('call', name, *[self.cast(*self.ev(s, arg), to) for arg, to in zip(args, self.file.parameters[name])])
            return name
        else:
            raise Wrong(f'C: a call of {name}')
        return None
