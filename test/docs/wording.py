"""The words that texts for users don't have, with better ones: of pages, headers, man pages, help texts and what shells complete. Names of code
are no words: what is between backticks, in blocks of code, in links' targets, what has a dot, a slash or an underscore in it, options, calls
with their arguments, and members by an arrow."""
import re

# Each is a pattern, and what to write.
INSTEAD = {
    r'rooms?': 'buffer, or space',
    r'pieces?': 'chunk',
    r'(?<!key)words?': 'argument, name, text or term',
    r'(?<!in )(?<!take the )(?<!takes the )(?<!in one )(?<!in its )(?<!in the )(?<!in their )places?': 'offset or position',
    r'usual|usually': 'default',
    r'faces?': 'binding',
    r'left out|leaves? out|leaving out': 'skipped, missing or omitted',
    r'told|tells?': 'says, reports, finds',
    r'behind': 'after',
    r'so many': 'as many',
    r'put together by hand|never older': 'what the script that made the figure says',
}
# The same in pages. Other texts for users are in sources too, whose words change with these.
IN_PAGES = {
    r'alone': 'only',
    r'anew': 'again',
    r'sound': 'valid',
    r'whoever': 'who, or those who',
    r'mend(?:s|ed|ing)?': 'fix',
    r"(?:program|one)'s own": 'your own, or a program\'s',
    r'(?:says?|said) of': 'say about, or on',
    r'(?:is|are) no (?:message|record|payload|handover|poster|fault|digit|hexadecimal)': "isn't a",
    r'so (?:does|do|is|are|has|have) (?:the|a|an|its|each|all)': 'too, or one sentence for both',
    r'but for': 'except',
    r'in place of': 'instead of',
    r'and (?:its|their) kin': 'and the like',
    r'where no `* ?is': 'without',
}
SUCH_AS = re.compile(r'[,:] as (?:an? )?(?:`[^`]*`|"[^"]*"|[\w.]+[/:][\w.]+)(?! (?:does|lays|prints|says?|writes|gives|and)\b)|, as\n\.Q')
# CHANGELOG.md names what earlier releases said.
EXEMPT = ('CHANGELOG.md',)
# Texts for users that are no pages, and what of each is read.
OTHERS = {
    'include/*.h': r'/\*.*?\*/',
    'include/*.hpp': r'//[^\n]*',
    'crates/ndef_c/src/*.rt': r'(?:^ *///[^\n]*\n)+(?=(?:^ *#\[[^\n]*\n)*^ *pub (?!\())',
    'packaging/man/*.1': r'\A.*\Z',
    'crates/ndef_tool/src/running.rt': r'b"usage[^"]*"',
    'crates/ndef_cli_*/src/*pages.rt': r'b"[^"]*"',
    'packaging/share/fish/*.fish': r"-d '[^']*'",
    'bindings/python/simbegyor_ndef/__main__.py': r'\A""".*?"""|^_COMMANDS = """.*?"""|help=[^)]*',
    'bindings/web/*.d.ts': r'/\*\*.*?\*/',
    'packaging/**/control.in': r'^(?:Description:| )[^\n]*',
}
# What is code in these: an option, a call with its arguments, a member by an arrow, and the name of a member before what it is.
CODE = r'^ *--?[a-z][a-z0-9-]* *|(?<![\w-])--?[a-z][a-z0-9-]*|\w+\([^)]*\)|\S*->\S*|^ \* {3}\w+(?= {2,})'


def without_code(text):
    """The text without what is code by its layout: blocks, indented lines, and comments of pages."""
    return re.sub(r'^ {4}.*$|<!--.*?-->', '', re.sub(r'^```.*?^```$|^\.Bd.*?^\.Ed$', '', text, flags=re.M | re.S), flags=re.M)


def prose(text):
    """The text without code."""
    return re.sub(r'\S*[/_]\S*|\S+\.[a-z]+\b', '', re.sub(r'\]\([^)\s]*\)', ']', re.sub(r'`[^`\n]*`', '`', without_code(text))))


def is_read(name):
    return (name.startswith('docs/') or name.endswith('README.md') or '/' not in name)


def words(text, instead=INSTEAD):
    """The words of a text that it should not have, with better ones."""
    for pattern, better in instead.items():
        yield from (f'{found.group()!r}, for {better}: {found.string[max(0, found.start() - 40):found.end() + 30]!r}'
                    for found in re.finditer(rf'\b(?:{pattern})\b', prose(text), re.I))
    yield from (f"', as', for 'such as': {found.group()!r}" for found in SUCH_AS.finditer(re.sub(r'^```.*?^```$', '', text, flags=re.M | re.S)))


def wrong(name, text):
    """What is wrong of a page: words that it should not have, and a first paragraph that does not say for whom it is."""
    if name.startswith('docs/') and not re.match(r'# [^\n]+\n\nFor ', text):
        yield 'its first paragraph does not say for whom it is'
    if name not in EXEMPT:
        # The files of a release stay as they are.
        yield from words(text, INSTEAD if name.startswith('dist/') else INSTEAD | IN_PAGES)


def others(top):
    """For each kind of text that is no page what is wrong of its files."""
    for pattern, part in OTHERS.items():
        texts = {path.relative_to(top): '\n'.join(re.findall(part, path.read_text(), re.M | re.S)) for path in top.glob(pattern)}
        found = [f'{name}: {word}' for name, text in texts.items() for word in words(re.sub(rf'{CODE}|^ +', '', text, flags=re.M))]
        yield pattern, found if ''.join(texts.values()) else ['no text is found']
