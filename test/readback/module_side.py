"""Reads the text of an LLVM module by rules of its own: what it doesn't know it refuses by Wrong."""
import re
import struct

FRACTIONS = ('fadd', 'fsub', 'fmul', 'fdiv')
PURE = {'add', 'sub', 'mul', 'and', 'or', 'xor', 'udiv', 'urem', 'shl', 'lshr', 'ashr', 'icmp', 'select', 'zext', 'sext', 'trunc', 'ptrtoaddr',
        *FRACTIONS, 'fcmp', 'fneg', 'uitofp', 'bitcast', 'ptrtoint', 'inttoptr', 'getelementptr', 'extractvalue', 'insertvalue', 'freeze', 'load', 'phi'}
CASTS = ('zext', 'sext', 'trunc', 'uitofp', 'bitcast', 'ptrtoint', 'ptrtoaddr', 'inttoptr')
IDLE = ('llvm.lifetime.', 'llvm.assume', 'llvm.experimental.noalias')
FLAGS = {'nuw', 'nsw', 'exact', 'disjoint', 'nneg', 'samesign', 'inbounds', 'nusw', 'tail', 'musttail', 'notail', 'fastcc'}
ATTRIBUTES = {'noundef', 'zeroext', 'signext', 'nonnull', 'noalias', 'readonly', 'writeonly', 'readnone', 'nofree', 'immarg', 'returned',
              'writable', 'captures', 'range', 'dereferenceable', 'initializes', 'align', 'dead_on_return', 'dead_on_unwind'}
LINKAGE = {'internal', 'private', 'dso_local', 'fastcc', 'unnamed_addr', 'local_unnamed_addr', 'hidden'}
TOKEN = re.compile(r'c"(?:[^"\\]|\\.)*"|[@%]"[^"]*"|[@%!#][\w.$-]+|-?\d\.\d+e[+-]\d+|0x[0-9A-F]+|-?\d+|[A-Za-z_][\w.]*|<\{|\}>|"[^"]*"|\S')


class Wrong(Exception):
    """What the C file has otherwise than the module, or what isn't known."""


class Reader:
    """Words of a line. A type is a number of bits, which a fraction and a pointer have too, ('struct', TYPE..), ('packed', TYPE..) or ('array', COUNT, TYPE); void has no bits."""

    def __init__(self, text):
        self.words, self.at = TOKEN.findall(text), 0

    def peek(self):
        return self.words[self.at] if self.at < len(self.words) else ''

    def next(self):
        self.at += 1
        return self.words[self.at - 1] if self.at <= len(self.words) else ''

    def want(self, *words):
        for word in words:
            if self.next() != word:
                raise Wrong(f'the module: no `{word}` in {" ".join(self.words)[:200]}')

    def take(self, word):
        found = self.peek() == word
        self.at += found
        return found

    def skip(self, words):
        taken = set()
        while self.peek() in words:
            taken.add(self.next())
        return taken

    def each_until(self, end, read):
        found = []
        while not self.take(end):
            if found:
                self.want(',')
            found.append(read())
        return found

    def attributes(self):
        while self.peek() in ATTRIBUTES:
            if self.next() == 'align' and self.peek() != '(':
                self.next()
            elif self.peek() == '(':
                depth = 0
                while True:
                    depth += {'(': 1, ')': -1}.get(self.next(), 0)
                    if not depth:
                        break

    def type(self):
        word = self.next()
        if word in ('ptr', 'double', 'void'):
            return 0 if word == 'void' else 64
        if re.fullmatch(r'i\d+', word):
            return int(word[1:])
        if word in ('{', '<{'):
            return ('struct', *self.each_until('}', self.type)) if word == '{' else ('packed', *self.each_until('}>', self.type))
        if word == '[':
            count = int(self.next())
            self.want('x')
            element = self.type()
            self.want(']')
            return 'array', count, element
        raise Wrong(f'the module: a type {word}')

    def label(self):
        self.want('label')
        return name_of(self.next())


def name_of(word):
    return word[1:].strip('"')


def size_align(type_of):
    """The bytes that a value takes in memory, and their alignment."""
    if isinstance(type_of, int):
        bits = 8
        while bits < type_of:
            bits *= 2
        return bits // 8, bits // 8
    if type_of[0] == 'array':
        size, align = size_align(type_of[2])
        return size * type_of[1], align
    at, most = 0, 1
    for part in type_of[1:]:
        size, align = size_align(part)
        align = 1 if type_of[0] == 'packed' else align
        at = -(-at // align) * align + size
        most = max(most, align)
    return -(-at // most) * most, most


class Instruction:
    """A line of a block: `result`, `op`, `args` as its reader gives them, and `uses`, the registers that it reads. An operand is
    ('%', name), ('@', name, bytes past it), ('k', number), ('undef',), ('{', [(type, operand)]) or (operation, type, operand, operand)."""

    def __init__(self, text):
        text = re.sub(r' #\d+$', '', re.sub(r'(, ![\w.]+ !\d+)+$', '', text.strip()))
        self.text, self.result, self.uses = text, None, []
        words = self.words = Reader(text)
        if words.peek()[:1] == '%':
            self.result = name_of(words.next())
            words.want('=')
        words.skip({'tail', 'musttail', 'notail'})
        self.op = words.next()
        if self.op != 'call':
            words.skip(FLAGS)
        self.args = getattr(self, 'read_' + self.op, self.read_binary)()
        if words.peek() and self.op not in ('load', 'store', 'alloca', 'call'):
            raise Wrong(f'the module: `{words.peek()}` in {text[:200]}')

    def value(self, type_of):
        words = self.words
        word = words.next()
        if word[:1] == '%':
            self.uses.append(name_of(word))
            return '%', name_of(word)
        if word[:1] == '@':
            return '@', name_of(word), 0
        if word in ('true', 'false', 'null', 'zeroinitializer'):
            return 'k', int(word == 'true')
        if word in ('poison', 'undef'):
            return ('undef',)
        if re.fullmatch(r'-?\d+', word):
            return 'k', int(word)
        if word[:2] == '0x' or 'e' in word and word[-1].isdigit() and word not in CASTS:
            return 'k', int(word, 16) if word[:2] == '0x' else int.from_bytes(struct.pack('>d', float(word)), 'big')
        if word in ('add', 'sub', 'xor'):
            words.skip(FLAGS)
            words.want('(')
            inner, first = self.typed()
            made = word, inner, first, self.after_comma(self.typed)[1]
            words.want(')')
            return made
        if word == '{':
            return '{', words.each_until('}', self.typed)
        if word == 'getelementptr':
            words.skip(FLAGS)
            words.want('(', 'i8', ',', 'ptr')
            base = self.value(64)
            words.want(',', 'i64')
            moved = int(words.next())
            words.want(')')
            return '@', base[1], base[2] + moved
        if word in ('ptrtoint', 'ptrtoaddr', 'inttoptr'):
            words.want('(')
            inner, value = self.typed()
            words.want('to')
            if (inner, words.type()) != (64, 64):
                raise Wrong(f'the module: {self.text[:200]}')
            words.want(')')
            return value
        raise Wrong(f'the module: a value {word} in {self.text[:200]}')

    def typed(self):
        type_of = self.words.type()
        self.words.attributes()
        return type_of, self.value(type_of)

    def after_comma(self, read):
        self.words.want(',')
        return read()

    def read_binary(self):
        if self.op not in PURE:
            raise Wrong(f'the module: an instruction {self.op}')
        type_of, first = self.typed()
        return type_of, first, self.after_comma(lambda: self.value(type_of))

    def read_icmp(self):
        predicate = self.words.next()
        return predicate, *self.read_binary()

    read_fcmp = read_icmp

    def read_select(self):
        condition = self.typed()[1]
        type_of, first = self.after_comma(self.typed)
        return type_of, condition, first, self.after_comma(self.typed)[1]

    def read_cast(self):
        type_of, value = self.typed()
        self.words.want('to')
        return type_of, value, self.words.type()

    read_zext = read_sext = read_trunc = read_uitofp = read_bitcast = read_ptrtoint = read_ptrtoaddr = read_inttoptr = read_cast

    def read_freeze(self):
        return self.typed()

    read_fneg = read_freeze

    def read_load(self):
        return self.words.type(), self.after_comma(self.typed)[1]

    def read_store(self):
        return *self.typed(), self.after_comma(self.typed)[1]

    def read_getelementptr(self):
        return self.words.type(), self.after_comma(self.typed)[1], self.after_comma(self.typed)

    def read_alloca(self):
        type_of = self.words.type()
        self.words.want(',', 'align')
        return type_of, int(self.words.next())

    def read_extractvalue(self):
        return *self.typed(), self.after_comma(lambda: int(self.words.next()))

    def read_insertvalue(self):
        return *self.typed(), self.after_comma(self.typed), self.after_comma(lambda: int(self.words.next()))

    def read_phi(self):
        type_of, come = self.words.type(), {}
        while True:
            self.words.want('[')
            value = self.value(type_of)
            self.words.want(',')
            come[name_of(self.words.next())] = value
            self.words.want(']')
            if not self.words.take(','):
                return type_of, come

    def read_call(self):
        self.words.skip(FLAGS)
        self.words.attributes()
        type_of = self.words.type()
        if self.words.take('('):  # the types of parameters, the last of which is `...`
            self.words.skip({'ptr', 'i32', 'i64', ','})
            self.words.want('.', '.', '.', ')')
        called = self.words.next()
        if called[:1] != '@':
            raise Wrong(f'the module: a call of {called}')
        if name_of(called).startswith(IDLE):
            return type_of, name_of(called), []
        self.words.want('(')
        args = self.words.each_until(')', self.typed)
        if self.words.peek():
            raise Wrong(f'the module: {self.text[:200]}')
        return type_of, name_of(called), args

    def read_br(self):
        if self.words.peek() == 'label':
            return (self.words.label(),)
        condition = self.typed()[1]
        return condition, self.after_comma(self.words.label), self.after_comma(self.words.label)

    def read_switch(self):
        type_of, value = self.typed()
        others = self.after_comma(self.words.label)
        self.words.want('[')
        cases = []
        while not self.words.take(']'):
            number = self.typed()[1][1] & ((1 << type_of) - 1)
            cases.append((number, self.after_comma(self.words.label)))
        return type_of, value, others, cases

    def read_ret(self):
        type_of = self.words.type()
        return (0, None) if type_of == 0 else (type_of, self.value(type_of))

    def read_unreachable(self):
        return ()

    def type_of_result(self):
        if self.op in ('icmp', 'fcmp'):
            return 1
        if self.op in ('getelementptr', 'alloca'):
            return 64
        if self.op in CASTS:
            return self.args[2]
        return self.args[0][1 + self.args[2]] if self.op == 'extractvalue' else self.args[0]

    def targets(self):
        if self.op == 'br':
            return list(self.args if len(self.args) == 1 else self.args[1:])
        return [self.args[2]] + [to for _, to in self.args[3]] if self.op == 'switch' else []


class Function:
    """`params` as (name, type), `blocks` by label, the `types` of registers, `preds`: from where each block is reached, and `order`: all
    registers, parameters first."""

    def __init__(self, head, lines):
        self.read_head(head)
        self.read_blocks(lines)
        self.drop_unread()
        self.types = dict(self.params)
        self.preds = {}
        for label, block in self.blocks.items():
            self.types.update((line.result, line.type_of_result()) for line in block if line.result)
            for to in block[-1].targets():
                self.preds.setdefault(to, []).append(label)
        self.order = list(self.types)
        self.entry = next(iter(self.blocks))

    def read_head(self, head):
        words = Reader(head)
        words.next()
        self.is_internal = 'internal' in words.skip(LINKAGE)
        words.attributes()
        self.type = words.type()
        self.name = name_of(words.next())
        words.want('(')

        def parameter():
            type_of = words.type()
            words.attributes()
            return name_of(words.next()), type_of
        self.params = words.each_until(')', parameter)

    def read_blocks(self, lines):
        text = re.sub(r'\[\n(?: +i\d+ [^\n]*\n)* *\]', lambda match: match[0].replace('\n', ' '), '\n'.join(lines))
        label = str(sum(name.isdigit() for name, _ in self.params))
        self.blocks = {}
        for line in text.split('\n'):
            line = re.sub(r'\s*; preds = .*$', '', line)
            match = re.match(r'^("[^"]*"|[\w.$-]+):\s*$', line)
            if match:
                label = match[1].strip('"')
                self.blocks[label] = []
            elif line.strip():
                read = Instruction(line)
                if not (read.op == 'call' and read.args[1].startswith(IDLE)):
                    self.blocks.setdefault(label, []).append(read)

    def drop_unread(self):
        """Without registers that nothing reads."""
        while True:
            used = {name for block in self.blocks.values() for line in block for name in line.uses}
            kept = {label: [line for line in block if line.op not in PURE or line.result in used] for label, block in self.blocks.items()}
            if kept == self.blocks:
                return
            self.blocks = kept


def read_module(text):
    """The functions of a module, the lines of its constants, and the types of what declared functions give, by name."""
    functions, constants, declared = {}, {}, {}
    lines = text.split('\n')
    at = 0
    while at < len(lines):
        line = lines[at]
        at += 1
        if line.startswith('@'):
            constants[name_of(re.match(r'@"[^"]*"|@[\w.$-]+', line)[0])] = line
        elif line.startswith('declare'):
            words = Reader(line)
            words.next()
            words.skip(LINKAGE)
            words.attributes()
            type_of = words.type()
            declared[name_of(words.next())] = type_of
        elif line.startswith('define'):
            end = lines.index('}', at)
            function = Function(line, lines[at:end])
            functions[function.name] = function
            at = end + 1
    return functions, constants, declared
