"""The public names of Rust, Java, Kotlin and JavaScript, of their sources as statements and blocks: no compiler is needed."""
import json
import re

TOKEN = re.compile(r'''(?s)(//[^\n]*|/\*.*?\*/)|(b?"(?:\\.|[^"\\])*"|b?'(?:\\.|[^'\\\n])'|`[^`]*`)|\s+|=>|\w+|.''')
ATTRIBUTE = re.compile(r'#\[((?:[^][]|\[[^][]*\])*)\]|@\w+(?:\([^)]*\))?')


def statements(text, literals=False, is_block=re.compile(r'(?!.*[=(]$|pub use )').match):
    """The statements of a text: of each its text up to its block or end, and the statements of its block. `is_block` says of the text
    before a brace whether a block begins there. Without `literals` strings are empty."""
    tokens = iter([found for found in TOKEN.finditer(text) if not found[1]])

    def block(parent):
        found, head, depth = [], '', 0
        for token in tokens:
            word = token[0] if literals or not token[2] else '""'
            inner = block(head) if word == '{' and not depth and is_block(' '.join(head.split())) else None
            ends = word in ';}' or word == ',' and re.search(r'\b(enum|struct)\b', parent)
            if inner is None and (depth or not ends):
                depth += (word in '([{') - (word in ')]}')
                head += word
                continue
            if head.strip() or inner:
                found.append((' '.join(head.split()), inner or []))
            head = ''
            if word == '}':
                break
        return found + ([(' '.join(head.split()), [])] if head.strip() else [])
    return block('')


def split(text, separator):
    """The parts of a text between separators that no bracket encloses."""
    parts, depth = [''], 0
    for token in re.findall(r'"[^"]*"|`[^`]*`|=>|.', text, re.S):
        depth += (token in '([{<') - (token in ')]}>')
        parts = parts + [''] if token == separator and not depth else parts[:-1] + [parts[-1] + token]
    return [part.strip() for part in parts if part.strip()]


def rust(top):
    """The items that lib.rs exports. Of a macro that declares some there are its items, with `$name` in them, and what it is called with."""
    folder = top / 'bindings/rust/src'
    uses = ','.join(re.findall(r'^pub use \w+::\{?([^;}]*)', (folder / 'lib.rs').read_text(), re.M))
    yield from (f'use {name}' for name in split(uses, ','))
    for path in sorted(folder.glob('*.rs')):
        text = re.sub(r'\$\(|\)[,;]?[*+](?=\W)', ' ', path.read_text())
        yield from (f'{path.stem}: {line}' for line in rust_items(statements(text), {'$name', *re.findall(r'\w+', uses)}))


def rust_items(items, exported):
    for text, block in items:
        attributes, text = ' '.join(ATTRIBUTE.findall(text)), ATTRIBUTE.sub('', text).strip()
        of = re.match(r'pub (?:const )?(struct|enum|trait|fn|type|const) ([$\w]+)', text)
        if text.startswith('macro_rules!'):
            yield from (line for _, arm in block for line in rust_items(arm, exported))
        elif re.match(r'\w+!$', text):
            yield from (f'{text} {entry}' for one, _ in block for entry in re.findall(r'(?:^|,)\s*(\d* ?[A-Z]\w*)', ATTRIBUTE.sub('', one)))
        elif of and of[1] in ('struct', 'enum', 'trait') and of[2] in exported:
            members = [' '.join([ATTRIBUTE.sub('', one).strip()] + [field for field, _ in fields]) for one, fields in block]
            public = [member for member in members if of[1] != 'struct' or member.startswith('pub ')]
            closed = 'non_exhaustive' not in attributes and len(public) == len(members) > 0
            yield re.sub(r'\((?!pub ).*', '', text) + (f' {{{"; ".join(members)}}}' if closed else '')
            yield from (f'{of[2]}: {member}' for member in public if not closed)
            yield from (f'{of[2]} is {name}' for names in re.findall(r'derive\((.*?)\)', attributes) for name in names.split(', '))
        elif of and of[2] in exported or re.match('impl.* for ', text) and exported.intersection(re.findall(r'[$\w]+', text)):
            yield text
        elif text.startswith('impl') and exported.intersection(re.findall(r'[$\w]+', text)):
            members = [ATTRIBUTE.sub('', one).strip().split(' = ')[0].replace('(mut ', '(') for one, _ in block]
            yield from (f'{text}: {member}' for member in members if re.match('pub [^(]', member))


def java(top):
    """What is public or protected in the packages; and what Kotlin has."""
    for folder in ('src', 'android/src'):
        for path in sorted((top / 'bindings/java' / folder).rglob('[A-Z]*.java')):
            yield from java_members(statements(path.read_text()), '', '')
    yield from re.findall(r'^((?:operator )?(?:fun|val) .*?)(?: =| get\(\)|$)', (top / 'bindings/java/kotlin/Extensions.kt').read_text(), re.M)


def java_members(items, within, kind):
    for text, block in items:
        text = ' '.join(ATTRIBUTE.sub('', text).split())
        of = re.search(r'\b(class|interface|enum) (\w+)', text)
        constant = kind == 'enum' and re.match(r'[A-Z][A-Z0-9_]*(\(.*\))?$', text)
        if re.search(r'\b(public|protected)\b', text) or constant or kind == 'interface' and 'private' not in text:
            yield within + (text if re.search(r'static final .*= -?\w+$', text) else text.split(' = ')[0])
            yield from java_members(block, f'{within}{of[2]}: ', of[1]) if of else ()


def javascript(top):
    """The entries of the package, what its modules export, and what the declarations say of that."""
    folder = top / 'bindings/web'
    yield from (f'entry {entry}' for entry in json.loads((top / 'packaging/npm/package.json.in').read_text())['exports'])
    for module in ('all', 'ndef'):
        found = re.findall(r'^export (?:\{ (.*?) \}|(?:class|function|const) (\w+))', (folder / f'{module}.js').read_text(), re.M)
        yield from (f'{module}.js exports {name}' for name in re.findall(r'\w+', str(found)))
    for module in ('index', 'ndef', 'fetched'):
        head = re.compile(r'(export |declare )*(class|interface|namespace|global)\b')
        for text, block in statements((folder / f'{module}.d.ts').read_text(), True, head.match):
            if text.startswith('export '):
                yield from (f'{module}: {line}' for line in declared(text[7:]))
                yield from (f'{module}: {text[7:]}: {line}' for member, _ in block for line in declared(member))


def declared(text):
    """A line for a declaration. Constants of an object, alternatives of a type and parameters that may be missing have lines of their own,
    since one more of them is an addition."""
    members = re.match(r'(.*(?:const|readonly) \w+): \{(.*)\}$', text)
    union = re.match(r'(type [^=]*=) (.*)$', text)
    call = re.match(r'((?:static |function )*\w+)(\(.*)$', text)
    if members:
        return [members[1]] + [f'{members[1]}: {member}' for member in split(members[2], ';')]
    if union:
        return [f'{union[1]} {part}' for part in split(union[2], '|')]
    if not call:
        return [text]
    end = next(at for at in range(1, len(call[2]) + 1) if call[2].count('(', 0, at) == call[2].count(')', 0, at))
    given = split(call[2][1:end - 1], ',')
    optional = [f'{at}: {one}' for at, one in enumerate(given, 1) if re.match(r'\w+\?:', one)]
    return [f'{call[1]}({", ".join(given[:len(given) - len(optional)])}){call[2][end:]}'] + [f'{call[1]} parameter {one}' for one in optional]
