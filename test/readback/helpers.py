"""The helpers nd_* of a C file, whose meaning the evaluator takes from their names: each body is made a formula by the rules of C, and z3 compares it with
that meaning for all arguments. What is memcpy, memmove or memset in a cover is compared as text."""
import re

import z3
from pycparser import c_ast

from c_side import HELPER, OF_WIDE, PRELUDE, Evaluator, c_type
from files import PROGRAM
from module_side import Wrong
from simulation import State
from terms import MEANING as MEANING_OF_TERMS
from terms import atom, binary, const, formula, holds, ite, most, not_zero, shift, trunc, zext

COVERS = {
    r'nd_load_(8|16|32|64)': 'static uint{0}_t nd_load_{0}(const unsigned char *from) {{ uint{0}_t v; nd_memcpy(&v, from, sizeof v); return v; }}',
    r'nd_store_(8|16|32|64)': 'static void nd_store_{0}(unsigned char *to, uint{0}_t v) {{ nd_memcpy(to, &v, sizeof v); }}',
    r'nd_load_128': 'static struct nd_wide nd_load_128(const unsigned char *from) {{ return nd_wide(nd_load_64(from), nd_load_64(from + 8)); }}',
    r'nd_store_128': 'static void nd_store_128(unsigned char *to, struct nd_wide v) {{ nd_store_64(to, v.low); nd_store_64(to + 8, v.high); }}',
    r'nd_wide': 'static struct nd_wide nd_wide(uint64_t low, uint64_t high) {{ struct nd_wide v; v.low = low; v.high = high; return v; }}',
    r'nd_aligned': 'static unsigned char *nd_aligned(unsigned char *from) '
                   '{{ return (unsigned char *)(((uintptr_t)from + 15) & ~(uintptr_t)15); }}',
    r'nd_fence': 'static double nd_fence(double v) {{ volatile double rounded = v; return rounded; }}',
    r'nd_real': 'static double nd_real(uint64_t bits) {{ double v; nd_memcpy(&v, &bits, 8); return v; }}',
    r'nd_bits': 'static uint64_t nd_bits(double v) {{ uint64_t bits; nd_memcpy(&bits, &v, 8); return bits; }}',
    r'nd_load_part': 'static uint64_t nd_load_part(const unsigned char *from, size_t size) '
                     '{{ uint64_t v = 0; nd_memcpy(&v, from, size); return v; }}',
    r'nd_store_part': 'static void nd_store_part(unsigned char *to, uint64_t v, size_t size) {{ nd_memcpy(to, &v, size); }}',
    r'nd_copy': 'static void nd_copy(unsigned char *to, const unsigned char *from, uint64_t size) '
                '{{ size_t count = (size_t)size; if (count - 1 < (size_t)PTRDIFF_MAX) nd_memcpy(to, from, count); }}',
    r'nd_move': 'static void nd_move(unsigned char *to, const unsigned char *from, uint64_t size) '
                '{{ size_t count = (size_t)size; if (count - 1 < (size_t)PTRDIFF_MAX) nd_memmove(to, from, count); }}',
    r'nd_fill': 'static void nd_fill(unsigned char *to, uint8_t octet, uint64_t size) {{ if (size) nd_memset(to, octet, (size_t)size); }}'}
MEANING = {
    'umin': lambda a, b: z3.If(z3.ULT(a, b), a, b), 'umax': lambda a, b: z3.If(z3.UGT(a, b), a, b), 'smin': lambda a, b: z3.If(a < b, a, b),
    'smax': lambda a, b: z3.If(a > b, a, b), 'usub_sat': lambda a, b: z3.If(z3.ULT(a, b), 0, a - b),
    'uadd_sat': lambda a, b: z3.If(z3.ULT(a + b, a), z3.BitVecVal(-1, a.size()), a + b),
    'abs': lambda a: z3.If(a < 0, -a, a), 'sext': lambda a: z3.SignExt(64, a),
    **{name: (lambda a, b, of=MEANING_OF_TERMS[name]: of(a, b)) for name in ('add', 'sub', 'and', 'or', 'xor', 'eq', 'ult', 'slt')},
    'shl': lambda a, b: a << (b & 127), 'lshr': lambda a, b: z3.LShR(a, b & 127),
    'bswap': lambda a: z3.Concat(*[z3.Extract(at + 7, at, a) for at in range(0, a.size(), 8)])}


def cttz(a):
    """How many of the lowest bits are 0."""
    found = z3.BitVecVal(a.size(), a.size())
    for at in reversed(range(a.size())):
        found = z3.If(z3.Extract(at, at, a) == 1, z3.BitVecVal(at, a.size()), found)
    return found


def ctlz(a):
    """How many of the highest bits are 0."""
    found = z3.BitVecVal(a.size(), a.size())
    for at in range(a.size()):
        found = z3.If(z3.Extract(at, at, a) == 1, z3.BitVecVal(a.size() - 1 - at, a.size()), found)
    return found


def is_product(body):
    """Whether a helper gives the product of two numbers of 128 bits: the sum of the products of their parts, each of which may be any number here."""
    low, high = [[trunc(shift('lshr', a, const(at, 128)), 64) for a in body.atoms] for at in (0, 64)]
    (a0, b0), (a1, b1) = [zext(trunc(a, 32), 64) for a in low], [shift('lshr', a, const(32, 64)) for a in low]
    products = [binary('mul', *parts) for parts in ((a0, b0), (a0, b1), (a1, b0), (a1, b1), (low[0], high[1]), (high[0], low[1]))]
    names = [z3.BitVec(f'product{at}', 64) for at in range(6)]
    first, *others = [z3.ZeroExt(64, name) for name in names]
    wanted = first + ((others[0] + others[1]) << 32) + ((others[2] + others[3] + others[4]) << 64)
    named = [(formula(term), name) for term, name in zip(products, names)]
    named += [(formula(trunc(term, 32)), z3.Extract(31, 0, name)) for term, name in zip(products, names)]
    return holds(z3.substitute(formula(body.value), *named) == wanted)


class Body(Evaluator):
    """A helper's body: `value` is what it returns."""

    def __init__(self, definition, file):
        self.file, self.types = file, {param.name: c_type(param.type) for param in definition.decl.type.args.params}
        self.s = State()
        self.s.c = {name: atom(name, type_of[1]) for name, type_of in self.types.items()}
        self.atoms, self.path = list(self.s.c.values()), []
        self.arguments = [formula(term) for term in self.atoms]
        self.result = c_type(definition.decl.type.type)
        self.value = self.run(list(definition.body.block_items), self.result[1])

    def variable(self, s, name):
        return s.c[name], self.types[name]

    def run(self, items, turns):
        """What the statements return. A loop goes round at most as often as the type has bits."""
        item, *rest = items
        if isinstance(item, c_ast.Return):
            return self.cast(*self.ev(self.s, item.expr), self.result)
        if isinstance(item, c_ast.Decl):
            self.types[item.name] = c_type(item.type)
            self.s.c[item.name] = self.cast(*self.ev(self.s, item.init), self.types[item.name])
        elif isinstance(item, c_ast.If):
            condition, path = not_zero(self.ev(self.s, item.cond)[0]), self.path
            self.path = [*path, formula(condition) == 1]
            first = self.run([item.iftrue], turns)
            self.path = [*path, formula(condition) == 0]
            return ite(condition, first, self.run(rest, turns))
        elif isinstance(item, c_ast.While) and turns:
            condition, kept = not_zero(self.ev(self.s, item.cond)[0]), dict(self.s.c)
            ended = self.run(rest, turns)
            self.s.c = kept
            return ite(condition, self.run([*item.stmt.block_items, *items], turns - 1), ended)
        elif isinstance(item, c_ast.While):
            return atom('never', self.result[1])
        elif isinstance(item, c_ast.UnaryOp) and item.op == 'p++':
            self.assign(item.expr.name, '+', c_ast.Constant('int', '1'))
        elif isinstance(item, c_ast.Assignment) and item.op in ('>>=', '<<='):
            self.assign(item.lvalue.name, item.op[:2], item.rvalue)
        else:
            raise Wrong(f'C: a helper with {type(item).__name__}')
        return self.run(rest, turns)

    def assign(self, name, op, value):
        made = self.ev(self.s, c_ast.BinaryOp(op, c_ast.ID(name), value))
        self.s.c[name] = self.cast(*made, self.types[name])

    def ev_FuncCall(self, s, e):
        """A helper within another: what the other one's proof says."""
        term, type_of = super().ev_FuncCall(s, e)
        if not HELPER.match(e.name.name):
            return term, type_of
        value = MEANING[HELPER.match(e.name.name)[1]](*map(formula, term.args))
        return known(value, type_of[1]), type_of

    def shifted(self, op, a, b):
        """A shift, on a path by which it isn't by too many bits."""
        (term, type_of), count = a, b[0]
        if most(count) < type_of[1] or type_of[0] == 's':
            return super().shifted(op, a, b)
        if not holds(z3.Implies(z3.And(self.path), z3.ULT(formula(count), type_of[1]))):
            raise Wrong('C: a shift by too many bits')
        count = trunc(count, term.bits) if count.bits >= term.bits else zext(count, term.bits)
        return shift('shl' if op == '<<' else 'lshr', term, count), type_of


def known(value, bits):
    """A term for a formula of z3."""
    from terms import FORMULAS
    term = atom(value.sexpr(), bits)
    FORMULAS[term.id] = value
    return term


def is_meant(body, helper):
    meant = {**MEANING, 'cttz': cttz, 'ctlz': ctlz}[helper[1]](*body.arguments)
    bits = body.value.bits if meant.size() == 1 else int(helper[2])  # (a comparison may give 1 in any type)
    return body.value.bits == bits and holds(formula(body.value) == z3.ZeroExt(bits - meant.size(), meant))


RIGHT = {}  # whether the helpers that were looked at are right, by their texts


def wrong_helpers(file, parser):
    """The helpers that aren't as their names say, and the number of all."""
    pattern = r'^static (?:uint\d+_t|void|double|struct nd_wide|unsigned char \*) ?(nd_\w+)\(([^;{]*)\) (?:\{[^\n]*\}$|\{\n.*?^\}$)'
    wrong, count = [], 0
    for match in re.finditer(pattern, file.text[:file.text.index(PROGRAM if file.is_program else 'struct nd_layout')], re.M | re.S):
        name, helper, count = match[1], HELPER.match(match[1]) or OF_WIDE.match(match[1]), count + 1
        if match[0] in RIGHT:
            is_right = RIGHT[match[0]]
        elif helper:
            try:
                body = Body([part for part in parser.parse(PRELUDE + match[0]).ext if isinstance(part, c_ast.FuncDef)][0], file)
                is_right = RIGHT[match[0]] = is_product(body) if name == 'nd_mul_i128' else is_meant(body, helper)
            except Exception as why:  # what isn't known isn't right
                is_right = False
                name += f' ({why})'
        else:
            covers = [text.format(*found.groups()) for known_name, text in COVERS.items() if (found := re.fullmatch(known_name, name))]
            is_right = covers == [' '.join(match[0].split())]
        if not is_right:
            wrong.append(name)
    return wrong, count
