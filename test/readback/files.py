"""What a module and a C file have besides the bodies of functions: names, constants, structs, helpers, and the calls of the header."""
import re

from c_side import type_of_words
from module_side import Instruction, Reader, Wrong, read_module, size_align

# What is defined before the functions, as it has to be.
DEFINED = {
    'nd_memcpy': ('memcpy', '__builtin_memcpy'), 'nd_memmove': ('memmove', '__builtin_memmove'), 'nd_memset': ('memset', '__builtin_memset'),
    'ND_LOCAL': ('static', ''), 'ND_IN(part)': ('(ND_PART == part)', '1'), 'nd_stop()': ('__builtin_trap()', 'do { } while (1)'), 'ND_ROOM(size)': ('union { unsigned char b[size]; uint64_t a; }',),
    'ND_POINTER': ('union { const unsigned char *p; uint64_t a; }',)}
PROGRAM = '/* What runtime.c has. */'  # the line before what a program asks of the system
FUNCTION = re.compile(r'^static (?:[\w ]+?|unsigned char \*|struct \w+ )\*?(nd_\w+)\(([^;{]*)\) \{\n.*?^\}$', re.M | re.S)


class Module:
    """The functions and constants of a module, and the names that a C file has for them: functions in the same order, constants by their words.
    That is a hint, which the comparison checks."""

    def __init__(self, text, file):
        self.functions, self.constants, declared = read_module(text)
        self.names = dict(zip(self.functions, file.bodies))
        self.of_c_name = {c_name: name for name, c_name in self.names.items()}
        # What a program asks of the system.
        hosts = {name: name if name.startswith('rattle_') else 'ndef_host_' + name.removeprefix('__sysv_') for name in declared if name[:5] != 'llvm.'}
        self.hosts = {c_name: declared[name] for name, c_name in hosts.items()}
        self.names.update(hosts)
        for name in self.constants:
            words = 'nd_data_' + re.sub(r'\W+', '_', re.sub(r'::<.*', '', name)).strip('_')
            chosen, count = words, 1
            while chosen in self.names.values():
                count += 1
                chosen = f'{words}_{count}'
            self.names[name] = chosen

    def c_name(self, name):
        if name not in self.names:
            raise Wrong(f'the module: no {name}')
        return self.names[name]

    def type_of(self, c_name):
        return self.hosts[c_name] if c_name in self.hosts else self.functions[self.of_c_name[c_name]].type


class File:
    """A C file: its functions' texts (`bodies`), the types of their `parameters`, the parts of `structs`, and the bytes of constants (`data`)."""

    def __init__(self, text):
        self.is_program = PROGRAM in text
        self.text = text = re.sub('^ND_LOCAL ', 'static ', text, flags=re.M)
        found = list(FUNCTION.finditer(text, text.index(PROGRAM if self.is_program else 'nd_layout_is_known')))
        self.bodies = {match[1]: match[0] for match in found}
        self.parameters = {match[1]: [] if match[2] == 'void' else [type_of_words(part) for part in match[2].split(', ')] for match in found}
        for type_of, name, types in re.findall(r'^(\w[\w ]*[ *])((?:rattle|ndef_host)_\w+)\(([^)]*)\);$', text, re.M):
            self.parameters[name] = [] if types == 'void' else [type_of_words(part) for part in types.split(', ')]
        self.structs = {name: [type_of_words(part) for part in parts.rstrip('; ').split('; ')]
                        for name, parts in re.findall(r'^struct (nd_(?!layout|wide)\w+) \{ (.*) \};$', text, re.M)}
        self.data = dict(c_constant(match[0]) for match in re.finditer(r'^static const (?:struct \{[^}]*\}[^;]*|[^;]*);', text, re.M))

    def wrong_definitions(self):
        """What the head of the file defines in another way."""
        found = re.findall(r'^ *# *define (\S+?(?:\(\w*\))?) (.*)$', self.text, re.M)
        return [f'#define {name} {text}' for name, text in found if text.replace('{{', '{') not in DEFINED.get(name, ())]


def module_constant(line, c_name):
    """The bytes of a constant and its alignment. An address is its place in the list, (name, bytes past it), and seven times None."""
    words = Reader(line)
    words.next()
    words.want('=')
    while words.next() not in ('constant', ''):
        pass
    type_of = words.type()
    held = constant_bytes(words, type_of, line, c_name)
    align = int(words.next()) if words.take(',') and words.take('align') else size_align(type_of)[1]
    if words.peek():
        raise Wrong(f'the module: {line[:200]}')
    return held, align


def constant_bytes(words, type_of, line, c_name):
    size = size_align(type_of)[0]
    if isinstance(type_of, int):
        reader = Instruction.__new__(Instruction)
        reader.words, reader.uses, reader.text = words, [], line
        value = reader.value(type_of)
        if value[0] == '@':
            return [(c_name(value[1]), value[2])] + [None] * 7
        return list((value[1] & (1 << type_of) - 1).to_bytes(size, 'little')) if value[0] == 'k' else [0] * size
    word = words.next()
    if word in ('zeroinitializer', 'undef', 'poison'):
        return [0] * size
    if word.startswith('c"'):
        octet = re.compile(rb'\\([0-9A-Fa-f]{2}|\\)')
        held = list(octet.sub(lambda match: b'\\' if match[1] == b'\\' else bytes([int(match[1], 16)]), word[2:-1].encode()))
    else:
        held = []
        for place, part in enumerate(type_of[1:] if type_of[0] != 'array' else [type_of[2]] * type_of[1]):
            words.want(*[','] * (place > 0))
            if words.type() != part:
                raise Wrong(f'the module: a part of {line[:200]}')
            if type_of[0] == 'struct':
                held += [0] * (-len(held) % size_align(part)[1])
            held += constant_bytes(words, part, line, c_name)
        words.next()
    if len(held) > size or type_of[0] != 'struct' and len(held) != size:
        raise Wrong(f'the module: {len(held)} bytes in {line[:200]}')
    return held + [0] * (size - len(held))


def c_constant(text):
    """The name of a constant of C, its bytes and its alignment."""
    match = re.fullmatch(r'static const (unsigned char|u?int(\d+)_t|ND_ROOM\((\d+)\)|struct \{.*?\}) (\w+)(?:\[(\d+)\])? = (\{.*\});', text, re.S)
    if not match:
        raise Wrong(f'C: {text[:200]}')
    kind, bits, capacity, name, count, held = match.groups()
    if kind.startswith('struct'):
        return name, (struct_bytes(kind, held), 8)
    size = int(bits or 8) // 8
    numbers = [int(number) for number in re.findall(r'(\d+)(?:ULL|U)?', held)]
    numbers += [0] * (int(capacity or count) - len(numbers))
    return name, ([octet for number in numbers for octet in number.to_bytes(size, 'little')], 8 if capacity else size)


def struct_bytes(kind, held):
    found = []
    members = re.findall(r'(ND_POINTER p\d+|unsigned char b\d+\[(\d+)\]);', kind)
    for (member, size), text in zip(members, re.findall(r'\{([^{}]*)\}', held[1:-1]), strict=True):
        if member.startswith('ND_POINTER'):
            match = re.fullmatch(r'\s*\(const unsigned char \*\)(?:&)?(\w+?)(?:\.b)?(?: \+ (\d+))?\s*', text)
            if len(found) % 8:
                raise Wrong(f'C: a pointer at {len(found)} of {kind[:200]}')
            found += [(match[1], int(match[2] or 0))] + [None] * 7
        else:
            octets = [int(number) for number in re.findall(r'\d+', text)]
            found += octets + [0] * (int(size) - len(octets))
    return found


def wrong_constant(module, file, name):
    """What C has otherwise of a constant of the module, or nothing."""
    held, align = module_constant(module.constants[name], module.c_name)
    if module.c_name(name) not in file.data:
        return 'C has none'
    mine, mine_align = file.data[module.c_name(name)]
    if mine[:len(held)] != held or align > mine_align:
        return f'{held[:12]} | {mine[:12]}, aligned to {align} | {mine_align}'
    moved = [part for part in held if isinstance(part, tuple)]
    return '' if all(0 <= count <= len(file.data[other][0]) for other, count in moved) else 'a pointer that leaves its object'


def wrong_call(module, file, name):
    """What a call of the header does otherwise than to hand its arguments to its function, or nothing."""
    match = re.search(r'^(uint32_t|void) ' + name + r'\(([^{;]*)\) \{\n    (return )?(\w+)\(([^;]*)\);\n\}$', file.text, re.M)
    if not match or match[4] != module.c_name(name):
        return 'C has no such call'
    declared = [part.strip() for part in match[2].split(',') if part.strip() != 'void']
    given = [re.sub(r'^\(unsigned char \*\)', '', part.strip()) for part in match[5].split(',') if part.strip()]
    types = [type_of_words(part.replace('ndef_size', 'uint64_t').replace('const ', '')) if '*' not in part else ('p', 64) for part in declared]
    if given != [re.search(r'\w+$', part)[0] for part in declared] or types != file.parameters[match[4]]:
        return 'other arguments'
    result = {'uint32_t': 32, 'void': 0}[match[1]]
    return '' if result == module.functions[name].type and bool(match[3]) == bool(result) else 'another result'
