"""Values as terms in a normal form, and what z3 says of two of them. A term has a number of bits; the parts of a struct are terms of their own."""
import z3

TABLE = {}


class Term:
    """An operation over terms and constants. Equal terms are the same object."""
    __slots__ = ('op', 'bits', 'args', 'id')

    def __repr__(self):
        if self.op in ('const', 'atom'):
            return f'{self.args[0]}:{self.bits}'
        return f'({self.op}{self.bits} {" ".join(map(repr, self.args))})'


def raw(op, bits, *args):
    key = (op, bits, *[arg.id if isinstance(arg, Term) else ('k', arg) for arg in args])
    found = TABLE.get(key)
    if found is None:
        found = TABLE[key] = Term()
        found.op, found.bits, found.args, found.id = op, bits, args, len(TABLE)
    return found


def const(value, bits):
    return raw('const', bits, value & mask(bits))


def atom(name, bits):
    """A value of which nothing is known."""
    return raw('atom', bits, name)


def struct(parts):
    return raw('struct', 0, *parts)


UNDEF = raw('undef', 0)  # what the module leaves open


def mask(bits):
    return (1 << bits) - 1


def is_const(term):
    return term.op == 'const'


def signed(value, bits):
    return value - (1 << bits) if value >> (bits - 1) & 1 else value


def field(term, place):
    return UNDEF if term is UNDEF else term.args[place]


FOLD = {'add': lambda a, b: a + b, 'mul': lambda a, b: a * b, 'and': lambda a, b: a & b, 'or': lambda a, b: a | b, 'xor': lambda a, b: a ^ b}


def binary(op, a, b):
    if a.bits != b.bits:
        raise ValueError(f'{op} of {a} and {b}')
    if op == 'sub':
        return binary('add', a, const(-b.args[0], a.bits)) if is_const(b) else raw('sub', a.bits, a, b)
    if op in FOLD:
        return symmetric(op, a, b)
    if is_const(a) and is_const(b) and b.args[0]:
        return const(a.args[0] // b.args[0] if op == 'udiv' else a.args[0] % b.args[0], a.bits)
    return raw(op, a.bits, a, b)


def symmetric(op, a, b):
    if is_const(a) and is_const(b):
        return const(FOLD[op](a.args[0], b.args[0]), a.bits)
    if is_const(a):
        a, b = b, a
    if is_const(b):
        return with_constant(op, a, b)
    if a.op == 'zext' and b.op == 'zext' and op in ('and', 'or', 'xor'):
        inner = max(a.args[0].bits, b.args[0].bits)
        return zext(binary(op, zext(a.args[0], inner), zext(b.args[0], inner)), a.bits)
    return raw(op, a.bits, *sorted((a, b), key=lambda term: term.id))


def with_constant(op, a, b):
    bits, k = a.bits, b.args[0]
    if k == 0 and op in ('add', 'or', 'xor') or k == mask(bits) and op == 'and' or k == 1 and op == 'mul':
        return a
    if k == 0 and op in ('and', 'mul'):
        return b
    if op in ('add', 'xor', 'and', 'or') and a.op == op and is_const(a.args[1]):
        return binary(op, a.args[0], binary(op, a.args[1], b))
    if op == 'and' and k & (k + 1) == 0:
        return zext(trunc(a, k.bit_length()), bits)
    if op == 'mul' and k & (k - 1) == 0:
        return shift('shl', a, const(k.bit_length() - 1, bits))
    if a.op == 'zext' and op in ('and', 'or', 'xor') and k < 1 << a.args[0].bits:
        return zext(binary(op, a.args[0], const(k, a.args[0].bits)), bits)
    return raw(op, bits, a, b)


def shift(op, a, count):
    bits = a.bits
    if not is_const(count) or count.args[0] >= bits:
        return raw(op, bits, a, count)
    k = count.args[0]
    if k == 0:
        return a
    if is_const(a):
        value = a.args[0]
        return const(value << k if op == 'shl' else value >> k if op == 'lshr' else signed(value, bits) >> k, bits)
    if op != 'shl' and a.op == 'zext':
        inner = a.args[0]
        return zext(shift('lshr', inner, const(k, inner.bits)), bits) if k < inner.bits else const(0, bits)
    return raw(op, bits, a, count)


def zext(a, bits):
    if a.bits == bits:
        return a
    if is_const(a):
        return const(a.args[0], bits)
    if a.op == 'zext':
        return zext(a.args[0], bits)
    if a.op == 'ite':
        return ite(a.args[0], zext(a.args[1], bits), zext(a.args[2], bits))
    return raw('zext', bits, a)


def sext(a, bits):
    if a.bits == bits:
        return a
    if is_const(a):
        return const(signed(a.args[0], a.bits), bits)
    if a.op in ('zext', 'sext'):
        return {'zext': zext, 'sext': sext}[a.op](a.args[0], bits)
    if a.bits == 1:
        return binary('sub', const(0, bits), zext(a, bits))
    if a.op == 'ite':
        return ite(a.args[0], sext(a.args[1], bits), sext(a.args[2], bits))
    return raw('sext', bits, a)


def trunc(a, bits):
    if a.bits == bits:
        return a
    if is_const(a):
        return const(a.args[0], bits)
    if a.op in ('zext', 'sext'):
        inner = a.args[0]
        return trunc(inner, bits) if inner.bits >= bits else (zext if a.op == 'zext' else sext)(inner, bits)
    if a.op == 'trunc':
        return trunc(a.args[0], bits)
    if a.op == 'ite':
        return ite(a.args[0], trunc(a.args[1], bits), trunc(a.args[2], bits))
    if a.op in ('add', 'sub', 'mul', 'and', 'or', 'xor'):
        return binary(a.op, trunc(a.args[0], bits), trunc(a.args[1], bits))
    if a.op == 'shl' and is_const(a.args[1]):
        return shift('shl', trunc(a.args[0], bits), const(a.args[1].args[0], bits)) if a.args[1].args[0] < bits else const(0, bits)
    return raw('trunc', bits, a)


def negated(bit):
    if is_const(bit):
        return const(1 - bit.args[0], 1)
    return bit.args[0] if bit.op == 'not' else raw('not', 1, bit)


def equal(a, b):
    if a is b:
        return const(1, 1)
    if is_const(a):
        a, b = b, a
    if is_const(b):
        return equal_to_constant(a, b)
    if a.op == 'zext' and b.op == 'zext':
        inner = max(a.args[0].bits, b.args[0].bits)
        if inner < a.bits:
            return equal(zext(a.args[0], inner), zext(b.args[0], inner))
    return raw('eq', 1, *sorted((a, b), key=lambda term: term.id))


def equal_to_constant(a, b):
    k = b.args[0]
    if is_const(a):
        return const(a.args[0] == k, 1)
    if a.bits == 1:
        return a if k else negated(a)
    if a.op in ('zext', 'sext'):
        inner = a.args[0]
        back = const(k, inner.bits)
        again = zext(back, a.bits) if a.op == 'zext' else sext(back, a.bits)
        return equal(inner, back) if again is b else const(0, 1)
    if a.op == 'add' and is_const(a.args[1]):
        return equal(a.args[0], const(k - a.args[1].args[0], a.bits))
    if a.op == 'ite' and is_const(a.args[1]) and is_const(a.args[2]):
        first, second = a.args[1].args[0] == k, a.args[2].args[0] == k
        return const(first, 1) if first == second else a.args[0] if first else negated(a.args[0])
    return raw('eq', 1, *sorted((a, b), key=lambda term: term.id))


def less(a, b, is_signed):
    if is_const(a) and is_const(b):
        x, y = a.args[0], b.args[0]
        return const(signed(x, a.bits) < signed(y, b.bits) if is_signed else x < y, 1)
    for x, y in ((a, b), (b, a)):
        if x.op == 'zext':
            inner = max(x.args[0].bits, y.args[0].bits if y.op == 'zext' else y.args[0].bit_length() if is_const(y) else y.bits)
            if inner < a.bits:
                return less(trunc(a, inner), trunc(b, inner), False)
    for x, y in ((a, b), (b, a)):
        if is_signed and x.op == 'sext':
            inner = x.args[0].bits
            fits = y.op == 'sext' and y.args[0].bits <= inner or is_const(y) and sext(trunc(y, inner), y.bits) is y
            if fits:
                return less(trunc(a, inner), trunc(b, inner), True)
    return raw('slt' if is_signed else 'ult', 1, a, b)


def fraction_less(op, a, b):
    """`<`, `>`, `<=` or `>=` of fractions."""
    a, b = (b, a) if op[0] == '>' else (a, b)
    return raw('fle' if op[1:] else 'flt', 1, a, b)


def ite(condition, a, b):
    """`a` where the bit is 1, else `b`; what one leaves open the other decides."""
    if b is UNDEF or a is b:
        return a
    if a is UNDEF:
        return b
    if is_const(condition):
        return a if condition.args[0] else b
    if a.op == 'struct':
        return struct([ite(condition, x, y) for x, y in zip(a.args, b.args)])
    if condition.op == 'not':
        return ite(condition.args[0], b, a)
    if is_const(a) and is_const(b) and {a.args[0], b.args[0]} == {0, 1}:
        return zext(condition if a.args[0] else negated(condition), a.bits)
    return raw('ite', a.bits, condition, a, b)


def not_zero(a):
    return negated(equal(a, const(0, a.bits))) if a.bits > 1 else a


def most(term):
    """A bound of an unsigned value."""
    if is_const(term):
        return term.args[0]
    if term.op == 'zext':
        return most(term.args[0])
    if term.op == 'ite':
        return max(most(term.args[1]), most(term.args[2]))
    if term.op == 'and':
        return min(most(term.args[0]), most(term.args[1]))
    if term.op == 'lshr' and is_const(term.args[1]):
        return most(term.args[0]) >> term.args[1].args[0]
    if term.op == 'add':
        return min(most(term.args[0]) + most(term.args[1]), mask(term.bits))
    return mask(term.bits)


# ---- what two terms mean

MEANING = {
    'add': lambda a, b: a + b, 'sub': lambda a, b: a - b, 'mul': lambda a, b: a * b, 'and': lambda a, b: a & b, 'or': lambda a, b: a | b,
    'xor': lambda a, b: a ^ b, 'shl': lambda a, b: a << b, 'lshr': z3.LShR, 'ashr': lambda a, b: a >> b, 'udiv': z3.UDiv, 'urem': z3.URem,
    'eq': lambda a, b: as_bit(a == b), 'ult': lambda a, b: as_bit(z3.ULT(a, b)), 'slt': lambda a, b: as_bit(a < b), 'not': lambda a: ~a,
    'ite': lambda c, a, b: z3.If(c == 1, a, b),
}
FORMULAS, PROVED = {}, {}
counts = {'form': 0, 'z3': 0}


def as_bit(condition):
    return z3.If(condition, z3.BitVecVal(1, 1), z3.BitVecVal(0, 1))


def formula(term):
    """The term for z3. A load, what a helper gives and an atom have any value, and the same term has the same."""
    if term.id not in FORMULAS:
        args = [formula(arg) for arg in term.args if isinstance(arg, Term)]
        if term.op == 'const':
            made = z3.BitVecVal(term.args[0], term.bits)
        elif term.op in ('zext', 'sext'):
            made = {'zext': z3.ZeroExt, 'sext': z3.SignExt}[term.op](term.bits - term.args[0].bits, args[0])
        elif term.op == 'trunc':
            made = z3.Extract(term.bits - 1, 0, args[0])
        elif term.op in MEANING:
            made = MEANING[term.op](*args)
        else:
            made = z3.BitVec(f'{term.op}{term.id}', term.bits)
        FORMULAS[term.id] = made
    return FORMULAS[term.id]


def same(mine, its):
    """Whether a value of C is that of the module, whatever the registers hold. What the module leaves open may be anything."""
    if mine is its or its is UNDEF:
        counts['form'] += 1
        return True
    if 'struct' in (mine.op, its.op):
        return mine.op == its.op and len(mine.args) == len(its.args) and all(map(same, mine.args, its.args))
    if mine.bits != its.bits:
        return False
    key = mine.id, its.id
    if key not in PROVED:
        PROVED[key] = holds(formula(mine) == formula(its))
        counts['z3'] += PROVED[key]
    return PROVED[key]


def holds(claim):
    """Whether z3 finds no values for which the claim is wrong. Where it gives up, it doesn't hold."""
    solver = z3.Solver()
    solver.set('rlimit', 20000000)  # steps, some 10 s of a processor: what is found doesn't depend on how busy that is
    solver.add(z3.Not(claim))
    return solver.check() == z3.unsat
