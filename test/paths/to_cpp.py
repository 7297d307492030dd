#!/usr/bin/env python3
"""to_cpp.py NDEF.c OUT.inc: dist/ndef.c with each number and pointer as a value of engine.hpp. Only the words of types, the
declarations, `switch` and `?:` change; every line of the result is checked to have no type of C left in a function."""
import re
import sys

SKIP = re.compile(r'^(static )?(uint\d+_t|unsigned char \*|void ?)\s*\*?nd_(load_(8|16|32|64|part)|store_(8|16|32|64|part)|copy|move|fill)\(')


def matching(text, at):
    depth = 0
    for i in range(at, len(text)):
        depth += {'(': 1, ')': -1}.get(text[i], 0)
        if depth == 0:
            return i
    raise SystemExit(f'no end of ( in {text[:200]}')


def parts(text):
    """(condition, first, second) of the outermost `? :` of a text, or None."""
    depth, question = 0, None
    nested = 0
    for i, letter in enumerate(text):
        depth += {'(': 1, ')': -1}.get(letter, 0)
        if depth == 0 and letter == '?':
            if question is None:
                question = i
            else:
                nested += 1
        if depth == 0 and letter == ':' and question is not None and '::' not in (text[i - 1:i + 1], text[i:i + 2]):
            if nested:
                nested -= 1
            else:
                return text[:question], text[question + 1:i], text[i + 1:]
    return None


def selects(text):
    """Each `(c ? a : b)` as select(c, a, b)."""
    out, i = '', 0
    while i < len(text):
        if text[i] == '(':
            end = matching(text, i)
            inner = text[i + 1:end]
            three = parts(inner) if '?' in inner else None
            if three:
                out += 'sym::select(' + ', '.join(selects(part.strip()) for part in three) + ')'
            else:
                out += '(' + selects(inner) + ')'
            i = end + 1
        else:
            out += text[i]
            i += 1
    return out


def line_selects(line):
    if '?' not in line:
        return line
    line = selects(line)
    match = re.fullmatch(r'(\s*(?:return|v\d+ =) )(.*);', line)
    if '?' in line and match and parts(match[2]):
        line = match[1] + 'sym::select(' + ', '.join(part.strip() for part in parts(match[2])) + ');'
    while True:     # an assignment within a block: `{ v1 = a ? b : c; goto L1; }`
        found = re.search(r'(v\d+ =|t\d+ =|return) ([^;]*\?[^;]*);', line)
        if not found:
            break
        three = parts(found[2])
        line = line[:found.start(2)] + 'sym::select(' + ', '.join(part.strip() for part in three) + ')' + line[found.end(2):]
    if '?' in line:
        raise SystemExit(f'a ? is left in {line}')
    return line


def types(line):
    line = re.sub(r'^(    )unsigned char \*(v\d+)((?:, \*v\d+)*);$', lambda m: f'{m[1]}P {m[2]}{m[3].replace("*", "")};', line)
    line = re.sub(r'\(unsigned char \*\)', '(P)', line)
    line = line.replace('unsigned char *', 'P ')
    line = re.sub(r'ND_ROOM\((\d+)\) ', r'sym::Local<\1> ', line)
    line = re.sub(r'\bu?int(8|16|32|64)_t\b', lambda m: ('U' if m[0][0] == 'u' else 'I') + m[1], line)
    line = re.sub(r'\b(uintptr_t|size_t)\b', 'U64', line)
    line = re.sub(r'\bptrdiff_t\b', 'I64', line)
    return re.sub(r'\(int\)', '(I32)', line)


def switches(line, state):
    match = re.fullmatch(r'(\s*)switch \((.*)\) \{', line)
    if match:
        return f'{match[1]}{{ const sym::V sw = {match[2]};'
    match = re.fullmatch(r'(\s*)case (\w+): (.*)', line)
    if match:
        return f'{match[1]}if (sw == {match[2]}) {match[3]}'
    match = re.fullmatch(r'(\s*)default: (.*)', line)
    return f'{match[1]}{match[2]}' if match else line


def main():
    source, to = sys.argv[1:]
    lines = open(source).read().split('\n')
    start = next(i for i, line in enumerate(lines) if line.startswith('static uint8_t nd_load_8'))
    stop = next(i for i, line in enumerate(lines) if re.match(r'^(uint32_t|void) ndef_\w+\(', line))
    out, registered, at, is_data = [], [], start, False
    while at < stop:
        line = lines[at]
        at += 1
        if SKIP.match(line):
            if not line.rstrip().endswith('}'):
                while lines[at] != '}':
                    at += 1
                at += 1
            continue
        if line.startswith('#') or line.startswith('__attribute__') or line.startswith('/*') or 'nd_layout' in line:
            continue
        if line.startswith('static const '):
            is_data = True
            name = re.search(r'\b(nd_data_\w+)', line)
            registered.append(name[1])
        if is_data:
            out.append(line)
            if line.rstrip().endswith(';'):
                is_data = False
            continue
        out.append(switches(types(line_selects(line)), None))
    out.append('static void register_constants() {')
    out += [f'    sym::is_static(&{name}, sizeof {name}, "{name}");' for name in registered]
    out.append('}')
    open(to, 'w').write('\n'.join(out) + '\n')


main()
