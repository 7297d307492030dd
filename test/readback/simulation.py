"""A function of the module beside its C. Both run over the same unknown values from one joining point of the control flow to the next. Between two such
points they write the same memory and call the same functions with the same arguments, in the same order; they take the same branch, and each
variable of C gets the value of the module's register. That is a simulation: so the C function does what the module's does.

The names of C's variables and labels are only a hint which register and which block they are. A wrong hint fails; it can't pass."""
import re

from pycparser import c_ast

from c_side import Evaluator, c_type
from module_side import FRACTIONS, Wrong, size_align
from terms import (UNDEF, Term, atom, binary, const, equal, field, fraction_less, is_const, ite, less, negated, not_zero, raw, same, sext, shift, struct,
                   trunc, zext)

SUMS = ('add', 'sub', 'mul', 'and', 'or', 'xor', 'udiv', 'urem')
COMPARED = {
    'eq': equal, 'ne': lambda x, y: negated(equal(x, y)), 'ult': lambda x, y: less(x, y, False), 'ugt': lambda x, y: less(y, x, False),
    'ule': lambda x, y: negated(less(y, x, False)), 'uge': lambda x, y: negated(less(x, y, False)), 'slt': lambda x, y: less(x, y, True),
    'sgt': lambda x, y: less(y, x, True), 'sle': lambda x, y: negated(less(y, x, True)), 'sge': lambda x, y: negated(less(x, y, True))}
HELPERS = re.compile(r'llvm\.(umin|umax|smin|smax|usub\.sat|uadd\.sat|cttz|ctlz|abs|bswap)\.i(\d+)$')


def container(bits):
    """The bits of the C type that holds this number of bits."""
    return next(width for width in (8, 16, 32, 64, 128) if bits <= width)


def wide(term):
    """A value of the module as a variable of C holds it."""
    if term is UNDEF:
        return term
    return struct(map(wide, term.args)) if term.op == 'struct' else zext(term, container(term.bits))


def unknown(name, type_of):
    """A value of which nothing is known but its type."""
    if isinstance(type_of, tuple):
        return struct([unknown(f'{name}.{place}', part) for place, part in enumerate(type_of[1:])])
    return atom(name, type_of)


class State:
    """What both have done since the last joining point: the values of registers (`l`) and variables (`c`), effects on memory and calls, the loads
    of the module, and what it counts on each pointer (`counts`)."""

    def __init__(self):
        self.l, self.c, self.types = {}, {}, {}
        self.assigned, self.pending = set(), []
        self.version_l = self.version_c = 0
        self.effects_l, self.effects_c = [], []
        self.loads, self.counts = {}, {}

    def copy(self):
        s = State()
        for name, value in vars(self).items():
            setattr(s, name, value if isinstance(value, int) else value.copy())
        return s

    def effect_l(self, *what):
        self.version_l += 1
        self.effects_l.append(what)

    def effect_c(self, *what):
        """A memset that goes on where the last one ended is one with it."""
        last = self.effects_c[-1] if self.effects_c else ('',)
        if what[0] == last[0] == 'memset' and what[2] is last[2] and is_const(what[3]) and is_const(last[3]) \
                and what[1] is binary('add', last[1], last[3]):
            self.effects_c[-1] = 'memset', last[1], last[2], binary('add', last[3], what[3])
            return
        self.version_c += 1
        self.effects_c.append(what)


class Simulation(Evaluator):
    def __init__(self, function, c, module, file):
        self.f, self.c, self.module, self.file = function, c, module, file
        self.register_of = {f'v{place}': name for place, name in enumerate(function.order, 1)}
        self.variable_of = {name: variable for variable, name in self.register_of.items()}
        self.label_of = {block: f'L{place}' for place, block in enumerate(function.blocks)}
        self.slots = {line.result: size_align(line.args[0])[0] for block in function.blocks.values() for line in block if line.op == 'alloca'}
        self.aligns = {line.result: line.args[1] for block in function.blocks.values() for line in block if line.op == 'alloca'}
        self.read_across, self.ends, self.todo, self.done = set(), [], [], set()

    # ---- the module's side

    def ll(self, s, value, type_of):
        kind = value[0]
        if kind == '%':
            return s.l[value[1]] if value[1] in s.l else self.register(value[1])
        if kind == 'k':
            return struct([self.ll(s, value, part) for part in type_of[1:]]) if isinstance(type_of, tuple) else const(value[1], type_of)
        if kind == '@':
            return binary('add', atom('@' + self.module.c_name(value[1]), 64), const(value[2], 64))
        if kind in ('add', 'sub', 'xor'):
            return binary(kind, *[self.ll(s, part, value[1]) for part in value[2:]])
        return UNDEF if kind == 'undef' else struct([self.ll(s, part, part_type) for part_type, part in value[1]])

    def number(self, s, value, type_of):
        """A value, of which what is left open is 0."""
        term = self.ll(s, value, type_of)
        return const(0, type_of) if term is UNDEF else term

    def register(self, name):
        return atom('&' + name, 64) if name in self.slots else unknown('%' + name, self.f.types[name])

    def step(self, s, line):
        op, a = line.op, line.args
        if op in ('store', 'call'):
            (self.step_store if op == 'store' else self.step_call)(s, line, *a)
            return
        if op in FRACTIONS or op == 'fneg':
            made = raw(op, 64, *[self.number(s, value, a[0]) for value in a[1:]])
        elif op == 'fcmp':
            made = self.of_fractions_l(a[0], self.number(s, a[2], a[1]), self.number(s, a[3], a[1]))
        elif op in ('uitofp', 'bitcast'):
            value = self.number(s, a[1], a[0])
            made = raw(op, 64, zext(value, 64)) if op == 'uitofp' else value
        elif op in SUMS:
            made = binary(op, self.number(s, a[1], a[0]), self.number(s, a[2], a[0]))
        elif op in ('shl', 'lshr', 'ashr'):
            made = self.shifted_l(op, self.number(s, a[1], a[0]), self.number(s, a[2], a[0]))
        elif op == 'icmp':
            made = COMPARED[a[0]](self.number(s, a[2], a[1]), self.number(s, a[3], a[1]))
        elif op == 'select':
            made = ite(self.number(s, a[1], 1), self.ll(s, a[2], a[0]), self.ll(s, a[3], a[0]))
        elif op in ('zext', 'sext', 'trunc', 'ptrtoaddr', 'ptrtoint', 'inttoptr'):
            value = self.number(s, a[1], a[0])
            made = sext(value, a[2]) if op == 'sext' else zext(value, a[2]) if value.bits < a[2] else trunc(value, a[2])
            if op == 'inttoptr' and made.op == 'add':
                s.counts.setdefault(made.args[0], []).append(made.args[1])
        elif op == 'freeze':
            made = self.number(s, a[1], a[0])
        else:
            made = getattr(self, 'step_' + op)(s, line, *a)
        s.l[line.result] = made

    @staticmethod
    def of_fractions_l(kind, a, b):
        """A comparison of fractions. `o` is 0 where one is no number, `u` 1: it is 0 where the opposite `o` is 1."""
        def is_number(term):
            return raw('feq', 1, term, term)
        signs = {'lt': '<', 'gt': '>', 'le': '<=', 'ge': '>='}
        if kind in ('oeq', 'une'):
            found = raw('feq', 1, *sorted((a, b), key=lambda term: term.id))
            return found if kind == 'oeq' else negated(found)
        if kind == 'ord':
            return binary('and', is_number(a), is_number(b))
        if kind[1:] not in signs:
            raise Wrong(f'the module: a comparison {kind}')
        if kind[0] == 'o':
            return fraction_less(signs[kind[1:]], a, b)
        opposite = {'lt': '>=', 'gt': '<=', 'le': '>', 'ge': '<'}
        return negated(fraction_less(opposite[kind[1:]], a, b))

    @staticmethod
    def shifted_l(op, value, count):
        """A shift by as many bits as the type has, or more, has no value in the module. Here it has that of a C type as wide, by a count cut to it."""
        bits, width = value.bits, container(value.bits)
        if is_const(count):
            return shift(op, value, const(count.args[0] & (width - 1), bits))
        count = binary('and', zext(count, width), const(width - 1, width))
        return trunc(shift(op, (sext if op == 'ashr' else zext)(value, width), count), bits)

    def step_load(self, s, _, type_of, pointer):
        if isinstance(type_of, tuple):
            raise Wrong('the module: a load of a struct')
        made = raw('load', -(-type_of // 8) * 8, self.ll(s, pointer, 64), s.version_l)
        s.loads[made] = True
        return trunc(made, type_of)

    def step_getelementptr(self, s, _, type_of, base, index):
        offset = binary('mul', sext(self.number(s, index[1], index[0]), 64), const(size_align(type_of)[0], 64))
        base = self.number(s, base, 64)
        s.counts.setdefault(base, []).append(offset)
        return binary('add', base, offset)

    def step_alloca(self, _, line, type_of, align):
        if align > 16:
            raise Wrong('the module: memory aligned to more than 16 bytes')
        return atom('&' + line.result, 64)

    def step_extractvalue(self, s, _, type_of, whole, place):
        return field(self.ll(s, whole, type_of), place)

    def step_insertvalue(self, s, _, type_of, whole, part, place):
        term = self.ll(s, whole, type_of)
        parts = [field(term, at) for at in range(len(type_of) - 1)]
        parts[place] = self.ll(s, part[1], part[0])
        return struct(parts)

    def step_store(self, s, _, type_of, value, pointer):
        if isinstance(type_of, tuple):
            raise Wrong('the module: a store of a struct')
        term, bits = self.ll(s, value, type_of), -(-type_of // 8) * 8
        s.effect_l('store', bits, self.ll(s, pointer, 64), term if term is UNDEF else zext(term, bits))

    def step_call(self, s, line, type_of, name, args):
        values = [self.ll(s, value, arg_type) for arg_type, value in args]
        helper = HELPERS.match(name)
        if helper:
            count = 1 if helper[1] in ('cttz', 'ctlz', 'abs', 'bswap') else 2
            numbers = [self.number(s, value, arg_type) for arg_type, value in args[:count]]
            s.l[line.result] = raw(helper[1].replace('.', '_'), type_of, *numbers)
        elif name.startswith(('llvm.memcpy.p0', 'llvm.memmove.p0', 'llvm.memset.p0')) and values[3] is const(0, 1):
            if values[2] is not const(0, 64):
                s.effect_l(name.split('.')[1], *values[:3])
        elif name == 'llvm.arithmetic.fence.f64':
            s.l[line.result] = values[0]
        elif name.startswith('llvm.') and name != 'llvm.trap':
            raise Wrong(f'the module: {name}')
        elif name != 'llvm.trap':
            s.effect_l('call', self.module.c_name(name), *map(wide, values))
            if line.result:
                s.l[line.result] = unknown(f'call{s.version_l}', type_of)

    # ---- C's side

    def slot(self, name, align=8):
        """Memory of the call. One that is aligned to 16 has 15 bytes more, of which the first place so aligned is taken."""
        register = self.register_of.get(name)
        size = int(re.match(r'nd_room_(\d+)$', self.c.types[name][1])[1]) - (align - 1 if align > 8 else 0)
        if size < self.slots.get(register, size + 1) or align < self.aligns[register]:
            raise Wrong(f'the room {name}')
        return atom('&' + register, 64)

    def counted(self, s, base, offset, at_once):
        """A sum of pointers in C's own way: within memory of the call, or one that a load or a store uses at once. The module counts the same on
        the same pointer, so what it reads or writes there is in that pointer's object."""
        made = binary('add', base, offset)
        if base.op == 'atom' and base.args[0][0] == '&' and is_const(offset) and offset.args[0] <= self.slots[base.args[0][1:]]:
            return made
        if at_once and any(same(offset, other) for other in s.counts.get(base, ())):
            return made
        raise Wrong(f'C counts on a pointer that may leave its object: {base} + {offset}')

    def variable(self, s, name):
        if name in s.c:
            return s.c[name], s.types.get(name) or self.c.types[name]
        register = self.register_of.get(name)
        if register is None or register in s.l and register not in self.slots:
            raise Wrong(f'C reads {name} before it has the value of %{register}')
        self.read_across.add(register)
        return wide(self.register(register)), self.c.types[name]

    def statement(self, s, e):
        """An assignment or a call."""
        if isinstance(e, c_ast.Assignment) and e.op == '=':
            name, value = e.lvalue.name, e.rvalue
            if isinstance(value, c_ast.FuncCall) and value.name.name in self.file.parameters:
                called = self.called(s, value)
                s.c[name] = wide(unknown(f'call{s.version_c}', self.module.type_of(called)))
            else:
                s.c[name] = self.cast(*self.ev(s, value), self.c.types[name])
            its = wide(s.l.get(self.register_of.get(name), UNDEF))
            if its is not UNDEF and same(s.c[name], its):
                s.c[name] = its
            s.pending.append(name)
        elif isinstance(e, c_ast.Decl):  # a value held while others change
            s.types[e.name] = c_type(e.type)
            s.c[e.name] = self.cast(*self.ev(s, e.init), s.types[e.name])
        elif isinstance(e, c_ast.FuncCall):
            self.called(s, e)
        elif not (isinstance(e, c_ast.Cast) and isinstance(e.expr, c_ast.ID)):  # (void)v3;
            raise Wrong(f'C: a statement {type(e).__name__}')

    # ---- both

    def settle(self, s):
        """Compares what both have done since the last time."""
        if len(s.effects_l) != len(s.effects_c):
            raise Wrong(f'{len(s.effects_l)} effects in the module, {len(s.effects_c)} in C: {s.effects_l[-2:]} {s.effects_c[-2:]}')
        for its, mine in zip(s.effects_l, s.effects_c):
            if len(its) != len(mine) or not all(same(b, a) if isinstance(b, Term) else a == b for a, b in zip(its, mine)):
                raise Wrong(f'an effect differs: {its} {mine}')
        s.effects_l, s.effects_c = [], []
        left = []
        for name in s.pending:
            register = self.register_of.get(name)
            if register not in s.l:
                left.append(name)
            elif same(s.c[name], wide(s.l[register])):
                s.assigned.add(register)
            else:
                raise Wrong(f'{name} is not %{register}: {s.c[name]} | {s.l[register]}')
        s.pending = left

    def compare(self):
        if [(self.variable_of[name], container(type_of)) for name, type_of in self.f.params] != [(name, type_of[1]) for name, type_of in self.c.params]:
            raise Wrong('other parameters')
        self.todo = [(self.f.entry, 0)]
        while self.todo:
            block, place = self.todo.pop()
            self.follow(State(), block, place, None)
        for defined, assigned in self.ends:
            for name in defined & self.read_across - assigned - set(self.slots):
                raise Wrong(f'C may read the variable of %{name} where it has an older value')

    def follow(self, s, block, place, come_from):
        """Both from the front of a block of the module and a place of C. Without `come_from` the block is a joining point, whose phis have any value."""
        while True:
            for line in self.f.blocks[block][:-1]:
                if line.op != 'phi':
                    self.step(s, line)
                elif come_from is not None:
                    s.l[line.result] = self.ll(s, line.args[1][come_from], line.args[0])
            last = self.f.blocks[block][-1]
            come_from, targets = block, last.targets()
            if last.op != 'br' or len(targets) != 1:
                break
            if len(self.f.preds[targets[0]]) != 1:
                self.join(s, block, targets[0], place)
                return
            block = targets[0]
        control, place = self.run_c(s, place, None)
        self.settle(s)
        getattr(self, 'end_' + last.op)(s, block, last, control, place)

    def run_c(self, s, place, label):
        """Runs C up to a label, or to what branches or ends it; gives the latter and its place."""
        for _ in range(2 * len(self.c.items)):
            item = self.c.items[place] if place < len(self.c.items) else ('label', None)
            if isinstance(item, c_ast.Goto):
                place = self.c.labels[item.name]
            elif isinstance(item, tuple):
                if item[1] == label:
                    return None, place
                place += 1
            elif isinstance(item, (c_ast.If, c_ast.Return, c_ast.Switch)) or isinstance(item, c_ast.FuncCall) and item.name.name == 'nd_stop':
                if label is not None:
                    raise Wrong(f'C does not go on to {label}')
                return item, place
            else:
                self.statement(s, item)
                place += 1
        raise Wrong('C goes round')

    def end_unreachable(self, _s, _block, _last, control, _place):
        if not isinstance(control, c_ast.FuncCall):
            raise Wrong('C goes on where the module does not')

    def end_ret(self, s, _block, last, control, _place):
        type_of, value = last.args
        if not isinstance(control, c_ast.Return) or bool(type_of) != (control.expr is not None):
            raise Wrong('C does not return')
        if type_of:
            mine = self.cast(*self.ev(s, control.expr), self.c.type)
            if not same(mine, wide(self.ll(s, value, type_of))):
                raise Wrong(f'another result: {mine}')

    def end_br(self, s, block, last, control, place):
        condition, first, second = last.args
        if not isinstance(control, c_ast.If) or control.iffalse is not None:
            raise Wrong('C has no branch where the module has')
        condition, mine = self.ll(s, condition, 1), not_zero(self.ev(s, control.cond)[0])
        if not same(mine, condition):
            if not same(mine, negated(condition)):
                raise Wrong(f'another condition: {mine} | {condition}')
            first, second = second, first
        self.edge(s.copy(), block, first, [control.iftrue], None)
        self.edge(s, block, second, [], place + 1)

    def end_switch(self, s, block, last, control, _place):
        type_of, value, others, cases = last.args
        if not isinstance(control, c_ast.Switch):
            raise Wrong('C has no switch where the module has')
        mine, _ = self.promoted(*self.ev(s, control.cond))
        if not same(mine, zext(self.number(s, value, type_of), mine.bits)):
            raise Wrong('another value of a switch')
        left = {**dict(cases), 'default': others}
        for item in control.stmt.block_items:
            case = self.ev(s, item.expr)[0].args[0] if isinstance(item, c_ast.Case) else 'default'
            if case not in left:
                raise Wrong(f'case {case}')
            self.edge(s.copy(), block, left.pop(case), item.stmts, None)
        if left:
            raise Wrong('a case is missing')

    def edge(self, s, block, to, statements, place):
        """The way to a block: C's statements there, which end in a goto, or the place where C goes on."""
        flat = [part for statement in statements for part in (statement.block_items if isinstance(statement, c_ast.Compound) else [statement])]
        if flat:
            for statement in flat[:-1]:
                self.statement(s, statement)
            if not isinstance(flat[-1], c_ast.Goto):
                raise Wrong('a branch of C that goes on')
            place = self.c.labels[flat[-1].name]
        if len(self.f.preds[to]) == 1:
            self.follow(s, to, place, block)
        else:
            self.join(s, block, to, place)

    def join(self, s, block, to, place):
        """Both come to a joining point, whose phis get their values."""
        _, place = self.run_c(s, place, self.label_of[to])
        self.settle(s)
        for line in self.f.blocks[to]:
            if line.op != 'phi':
                break
            value, name = self.ll(s, line.args[1][block], line.args[0]), self.variable_of[line.result]
            if name in s.c:
                if not same(s.c[name], wide(value)):
                    raise Wrong(f'{name} is not what %{line.result} gets: {s.c[name]} | {value}')
            elif value not in (UNDEF, unknown('%' + line.result, line.args[0])):
                raise Wrong(f'{name} is not set on the way to {to}')
            s.pending = [other for other in s.pending if other != name]
        if s.pending:
            raise Wrong(f'C sets {s.pending} and the module nothing like it')
        self.ends.append((set(s.l), s.assigned))
        if to not in self.done:
            self.done.add(to)
            self.todo.append((to, place))
