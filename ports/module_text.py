"""Reads the text of an LLVM module: the part of the language that the toolchain writes for the library. Anything else is
refused by Unknown, which names the line."""

import re
import struct
from dataclasses import dataclass


class Unknown(Exception):
    """A line that isn't known, and why."""


@dataclass(frozen=True)
class Int:
    bits: int


@dataclass(frozen=True)
class Pointer:
    pass


@dataclass(frozen=True)
class Double:
    """A number of 64 bits with a fraction."""


@dataclass(frozen=True)
class Void:
    pass


@dataclass(frozen=True)
class Struct:
    fields: tuple
    is_packed: bool = False


@dataclass(frozen=True)
class Array:
    count: int
    element: tuple


@dataclass(frozen=True)
class Local:
    """The value of a parameter or of an instruction."""
    name: str


@dataclass(frozen=True)
class Global:
    """The address of a constant or of a function."""
    name: str


@dataclass(frozen=True)
class Number:
    value: int


@dataclass(frozen=True)
class Real:
    """A number with a fraction, by its bits."""
    bits: int


@dataclass(frozen=True)
class Nothing:
    """Zero, no pointer, or a value that nothing depends on."""


@dataclass(frozen=True)
class Bytes:
    data: bytes


@dataclass(frozen=True)
class Fields:
    """The types and values of an array or a struct."""
    parts: tuple


@dataclass(frozen=True)
class Moved:
    """The address so many bytes after another one."""
    base: tuple
    bytes: int


@dataclass(frozen=True)
class Cast:
    """A constant address as a number, or a number as an address."""
    kind: str
    value: tuple


@dataclass(frozen=True)
class Combined:
    """A number made of two constant ones."""
    kind: str
    type: tuple
    first: tuple
    second: tuple


@dataclass(frozen=True)
class Instruction:
    """One line of a block. What `detail` holds depends on the kind: Line's methods say it."""
    result: str
    kind: str
    type: tuple
    operands: list
    detail: object
    line: str


@dataclass(frozen=True)
class Constant:
    name: str
    type: tuple
    value: tuple
    align: int


@dataclass(frozen=True)
class Function:
    """A function: the types and names of its parameters, and its blocks, each a label with its instructions."""
    name: str
    is_static: bool
    type: tuple
    parameters: list
    blocks: list


WORD = re.compile(r'c"[^"]*"|[@%]?"[^"]*"|[@%!#]?[\w.$+-]+|<\{|\}>|\S')
LABEL = re.compile(r'("[^"]*"|[\w.$-]+):(?: |$)')
METADATA = re.compile(r'(, ![\w.]+ !\d+)+$')
FLAGS = {'nuw', 'nsw', 'exact', 'disjoint', 'nneg', 'samesign', 'inbounds', 'nusw'}
ATTRIBUTES = {'noundef', 'zeroext', 'signext', 'nonnull', 'noalias', 'readonly', 'writeonly', 'readnone', 'nofree', 'immarg',
              'captures', 'range', 'dereferenceable', 'initializes', 'align', 'dead_on_return', 'dead_on_unwind', 'returned',
              'writable'}
LINKAGE = {'internal', 'private', 'dso_local', 'fastcc', 'unnamed_addr', 'local_unnamed_addr', 'constant'}
BINARY = {'add', 'sub', 'mul', 'and', 'or', 'xor', 'udiv', 'urem', 'shl', 'lshr', 'ashr', 'fadd', 'fsub', 'fmul', 'fdiv'}
ADDRESS_CASTS = {'ptrtoaddr', 'ptrtoint', 'inttoptr'}
CASTS = {'zext', 'sext', 'trunc', 'uitofp', 'bitcast', *ADDRESS_CASTS}
NO_EFFECT = ('llvm.lifetime.', 'llvm.assume', 'llvm.experimental.noalias')


def name_of(word):
    return word[1:].strip('"')


def unescaped(text):
    r"""The bytes of a string, in which \ and two hexadecimal digits are a byte, and \\ is a backslash."""
    def octet(match):
        return match[1] if match[1] == b'\\' else bytes([int(match[1], 16)])
    return re.sub(rb'\\(\\|[0-9A-Fa-f]{2})', octet, text.encode())


class Line:
    """A line of the module, read word by word."""

    def __init__(self, line):
        self.line = line
        self.words = WORD.findall(METADATA.sub('', line))
        if ';' in self.words:
            del self.words[self.words.index(';'):]
        self.at = 0

    def stop(self, why):
        raise Unknown(f'{why}: {self.line.strip()[:300]}')

    def peek(self):
        return self.words[self.at] if self.at < len(self.words) else ''

    def next(self):
        word = self.peek()
        self.at += 1
        return word

    def accept(self, *words):
        """Takes the next word if it is one of these."""
        if self.peek() in words:
            return self.next()
        return ''

    def expect(self, *words):
        for word in words:
            if self.next() != word:
                self.stop(f'no `{word}`')

    def skip(self, words):
        """Takes those of the words that come next, and returns them."""
        taken = []
        while self.peek() in words:
            taken.append(self.next())
        return taken

    def end(self):
        if self.peek().startswith('#'):
            self.next()
        if self.peek():
            self.stop(f'unknown `{self.peek()}`')

    def attributes(self):
        """Takes attributes, which only say more than the code needs."""
        while self.peek() in ATTRIBUTES:
            word = self.next()
            if self.peek() == '(':
                self.parentheses()
            elif word == 'align':
                self.next()

    def parentheses(self):
        depth = 0
        while True:
            word = self.next()
            depth += {'(': 1, ')': -1}.get(word, 0)
            if not word:
                self.stop('an open parenthesis')
            if depth == 0:
                return

    def integer(self):
        word = self.next()
        if not re.fullmatch(r'-?\d+', word):
            self.stop(f'no number `{word}`')
        return int(word)

    def list_until(self, end, read):
        """What `read` gives, separated by commas, up to a word."""
        found = []
        while not self.accept(end):
            if found:
                self.expect(',')
            found.append(read())
        return found

    # ---- types and values

    def type(self):
        word = self.next()
        if re.fullmatch(r'i\d+', word):
            return Int(int(word[1:]))
        if word == 'ptr':
            return Pointer()
        if word == 'double':
            return Double()
        if word == 'void':
            return Void()
        if word == '{':
            return Struct(tuple(self.list_until('}', self.type)))
        if word == '<{':
            return Struct(tuple(self.list_until('}>', self.type)), True)
        if word == '[':
            count = self.integer()
            self.expect('x')
            element = self.type()
            self.expect(']')
            return Array(count, element)
        return self.stop(f'unknown type `{word}`')

    def typed(self):
        """A type, attributes and a value."""
        type_of = self.type()
        self.attributes()
        return type_of, self.value()

    def value(self):
        word = self.next()
        if word[:1] == '%':
            return Local(name_of(word))
        if word[:1] == '@':
            return Global(name_of(word))
        if word in ('true', 'false'):
            return Number(int(word == 'true'))
        if word in ('poison', 'undef', 'null', 'zeroinitializer'):
            return Nothing()
        if word in ('{', '<{', '['):
            end = {'{': '}', '<{': '}>', '[': ']'}[word]
            return Fields(tuple(self.list_until(end, self.typed)))
        if word.startswith('c"'):
            return Bytes(unescaped(word[2:-1]))
        if word == 'getelementptr':
            return self.moved()
        if word in ADDRESS_CASTS:
            return self.constant_cast(word)
        if word in ('add', 'sub', 'xor'):
            return self.combined(word)
        if re.fullmatch(r'-?\d+', word):
            return Number(int(word))
        if re.fullmatch(r'0x[0-9A-F]{16}', word):
            return Real(int(word, 16))
        if re.fullmatch(r'-?\d\.\d+e[+-]\d+', word):
            return Real(int.from_bytes(struct.pack('>d', float(word)), 'big'))
        return self.stop(f'unknown value `{word}`')

    def moved(self):
        """`(i8, ptr BASE, i64 BYTES)` of a constant address."""
        self.skip(FLAGS)
        self.expect('(', 'i8', ',', 'ptr')
        base = self.value()
        self.expect(',', 'i64')
        count = self.integer()
        self.expect(')')
        return Moved(base, count)

    def constant_cast(self, kind):
        """`(TYPE VALUE to TYPE)`; an address as a number is one of 64 bits."""
        self.expect('(')
        type_of, value = self.typed()
        self.expect('to')
        wanted = self.type()
        self.expect(')')
        if {type_of, wanted} != {Int(64), Pointer()}:
            self.stop('a cast')
        return Cast(kind, value)

    def combined(self, kind):
        """`(TYPE FIRST, TYPE SECOND)`."""
        self.skip(FLAGS)
        self.expect('(')
        type_of, first = self.typed()
        self.expect(',')
        second = self.typed()[1]
        self.expect(')')
        return Combined(kind, type_of, first, second)

    def label(self):
        self.expect('label')
        return name_of(self.next())

    # ---- instructions

    def instruction(self):
        result = None
        if self.peek()[:1] == '%':
            result = name_of(self.next())
            self.expect('=')
        self.skip({'tail', 'musttail', 'notail'})
        kind = self.next()
        type_of, operands, detail = self.rest(kind)
        self.end()
        return Instruction(result, kind, type_of, operands, detail, self.line)

    def rest(self, kind):
        """The type, the operands and the detail of an instruction."""
        if kind in BINARY:
            return self.binary()
        if kind in CASTS:
            return self.cast()
        readers = {'icmp': self.compare, 'fcmp': self.compare, 'fneg': self.one, 'freeze': self.one, 'select': self.select, 'load': self.load,
                   'store': self.store, 'getelementptr': self.element, 'alloca': self.alloca,
                   'extractvalue': self.extract, 'insertvalue': self.insert, 'phi': self.phi, 'call': self.call,
                   'br': self.branch, 'switch': self.switch, 'ret': self.ret, 'unreachable': self.nothing}
        if kind not in readers:
            self.stop(f'unknown instruction `{kind}`')
        self.skip(FLAGS)
        return readers[kind]()

    def nothing(self):
        return Void(), [], None

    def binary(self):
        self.skip(FLAGS)
        type_of, first = self.typed()
        self.expect(',')
        return type_of, [first, self.value()], None

    def cast(self):
        """The detail is the type that the value gets."""
        self.skip(FLAGS)
        type_of, value = self.typed()
        self.expect('to')
        return type_of, [value], self.type()

    def compare(self):
        """The detail is the predicate."""
        predicate = self.next()
        type_of, operands, _ = self.binary()
        return type_of, operands, predicate

    def one(self):
        type_of, value = self.typed()
        return type_of, [value], None

    def select(self):
        condition = self.typed()[1]
        self.expect(',')
        type_of, first = self.typed()
        self.expect(',')
        return type_of, [condition, first, self.typed()[1]], None

    def align(self):
        self.expect(',', 'align')
        return self.integer()

    def load(self):
        type_of = self.type()
        self.expect(',')
        pointer = self.typed()[1]
        return type_of, [pointer], self.align()

    def store(self):
        type_of, value = self.typed()
        self.expect(',')
        pointer = self.typed()[1]
        return type_of, [value, pointer], self.align()

    def element(self):
        """An address, counted on in elements of the type. The detail is the type of the count."""
        type_of = self.type()
        self.expect(',')
        base = self.typed()[1]
        self.expect(',')
        count_type, count = self.typed()
        return type_of, [base, count], count_type

    def alloca(self):
        """The detail is the alignment."""
        type_of = self.type()
        return type_of, [], self.align()

    def extract(self):
        """The detail is the number of the field."""
        type_of, value = self.typed()
        self.expect(',')
        return type_of, [value], self.integer()

    def insert(self):
        type_of, value = self.typed()
        self.expect(',')
        field = self.typed()[1]
        self.expect(',')
        return type_of, [value, field], self.integer()

    def phi(self):
        """The detail is the labels of the blocks that the values come from."""
        type_of = self.type()
        operands, labels = [], []
        while True:
            self.expect('[')
            operands.append(self.value())
            self.expect(',')
            labels.append(name_of(self.next()))
            self.expect(']')
            if not self.accept(','):
                return type_of, operands, labels

    def call(self):
        """The detail is the name of the function, and the types of the arguments."""
        self.skip(LINKAGE)
        self.attributes()
        type_of = self.type()
        if self.peek() == '(':  # the types of the parameters, where a function has `...`
            self.parentheses()
        function = self.value()
        if not isinstance(function, Global):
            self.stop('a call that names no function')
        if function.name.startswith(NO_EFFECT):
            self.at = len(self.words)
            return type_of, [], (function.name, [])
        self.expect('(')
        arguments = self.list_until(')', self.typed)
        return type_of, [value for _, value in arguments], (function.name, [type_of for type_of, _ in arguments])

    def branch(self):
        """The detail is the labels: one, or those for true and false."""
        if self.peek() == 'label':
            return Void(), [], [self.label()]
        condition = self.typed()[1]
        self.expect(',')
        first = self.label()
        self.expect(',')
        return Void(), [condition], [first, self.label()]

    def switch(self):
        """The detail is the label of all other values, and pairs of a number and its label."""
        type_of, value = self.typed()
        self.expect(',')
        others = self.label()
        self.expect('[')
        pairs = []
        while not self.accept(']'):
            number = self.typed()[1]
            self.expect(',')
            pairs.append((number, self.label()))
        return type_of, [value], (others, pairs)

    def ret(self):
        type_of = self.type()
        return type_of, [] if type_of == Void() else [self.value()], None


def type_of_result(instruction):
    """The type of what an instruction gives."""
    kind, type_of = instruction.kind, instruction.type
    if kind in CASTS:
        return instruction.detail
    if kind in ('icmp', 'fcmp'):
        return Int(1)
    if kind in ('getelementptr', 'alloca'):
        return Pointer()
    if kind == 'extractvalue':
        if not isinstance(type_of, Struct):
            raise Unknown(f'a part of {type_of}: {instruction.line.strip()[:300]}')
        return type_of.fields[instruction.detail]
    return type_of


def constant(line):
    """A line `@NAME = .. constant TYPE VALUE, align N`."""
    words = Line(line)
    name = name_of(words.next())
    words.expect('=')
    words.skip(LINKAGE)
    type_of, value = words.typed()
    align = words.align() if words.peek() else 1
    words.end()
    return Constant(name, type_of, value, align)


def head(line):
    """The name, the linkage, the type and the parameters of a line `define` or `declare`."""
    words = Line(line)
    words.next()
    is_static = words.peek() == 'internal'
    words.skip(LINKAGE)
    words.attributes()
    type_of = words.type()
    name = name_of(words.next())
    words.expect('(')

    def parameter():
        if line.startswith('declare') and words.accept('...'):
            return ANY_NUMBER
        type_of = words.type()
        words.attributes()
        return type_of, name_of(words.next()) if words.peek()[:1] == '%' else ''
    return name, is_static, type_of, words.list_until(')', parameter)


ANY_NUMBER = Void(), '...'  # the last parameter of a declared function that takes any number of arguments besides


def blocks(lines, parameters):
    """The blocks of a function. The first may have no label; its name is the number after those of the parameters then."""
    found = [(str(sum(name.isdigit() for _, name in parameters)), [])]
    lines = iter(lines)
    for line in lines:
        label = LABEL.match(line)
        if label:
            found.append((label[1].strip('"'), []))
            continue
        if line.rstrip().endswith('['):
            for more in lines:
                line += more
                if more.strip().startswith(']'):
                    break
        if line.strip():
            found[-1][1].append(Line(line).instruction())
    return found if found[0][1] else found[1:]


def module(text):
    """The constants, the functions and the declared functions of a module."""
    constants, functions, declared = [], [], []
    lines = iter(text.split('\n'))
    for line in lines:
        if line.startswith('@'):
            constants.append(constant(line))
        elif line.startswith('declare'):
            declared.append(head(line))
        elif line.startswith('define'):
            body = []
            for more in lines:
                if more == '}':
                    break
                body.append(more)
            about = head(line)
            functions.append(Function(*about, blocks(body, about[3])))
    return constants, functions, declared
