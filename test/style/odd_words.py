"""Counts the words of odd_words.txt in comments and documents, and those that are there `in names` in the names of code. A plainer word says what
each says, so its count may only go down. Strings, names between backticks and generated files don't count."""
import pathlib
import re
import subprocess
import sys

TOP = pathlib.Path(__file__).resolve().parents[2]
sys.path.insert(0, str(TOP / 'test/docs'))
from budget import GENERATED  # noqa: E402
from wording import prose  # noqa: E402

FILE = 'test/style/odd_words.txt'
# What is generated, and what names the words.
EXEMPT = re.compile(r'dist/|bindings/go/(ndef|calls)\S*\.[ch]$|bindings/rust/src/proved/|CHANGELOG\.md|test/style/|test/docs/(wording\.py|run$)')
# By the ending of a file: a comment is the last group, and what stands before it is a string.
SLASHES = r'''"(?:\\.|[^"\\\n])*"|'(?:\\.|[^'\\\n])'|(//[^\n]*|/\*.*?\*/)'''
DASHES, HASHES = r'(?:^|(?<=\s))(--[^\n]*)', r'(?:^|(?<=\s))(#[^\n]*|""".*?""")'
KINDS = ((r'\.(rt|rs|c|h|hpp|cpp|m?js|ts|java|kts?|go|ino)$', SLASHES), (r'\.antt$', DASHES), (r'\.(md|1)$', r'(\A.*\Z)'),
         (r'\.(py|sh|fish|in|txt|cmake|toml|ya?ml|edits?|build)$|(^|/)[\w-]+$', HASHES))
# What has no names in a script.
QUOTED = r'''("{3}|'{3})(?:\\.|[^\\])*?\1|"(?:\\.|[^"\\\n])*"|'(?:\\.|[^'\\\n])*'|''' + HASHES
IN_NAMES = ' in names'


def read(path, text):
    """The comments of a file, or all of a document, without marks and names of code."""
    pattern = next((pattern for ending, pattern in KINDS if re.search(ending, path)), None)
    if not pattern or EXEMPT.match(path):
        return ''
    comments = '\n'.join(found for found in re.findall(pattern, text, re.M | re.S) if found)
    return prose(comments if path.endswith('.md') else re.sub(r'^[ \t]*(?:/\*+|\*+/?|//[/!]?|--+|#+!?)? ?', '', comments, flags=re.M))


def code(path, text):
    """A file of code without its comments and strings; nothing of another."""
    is_script = text.startswith('#!') or path.endswith(('.py', '.sh'))
    pattern = QUOTED if is_script else next((pattern for ending, pattern in KINDS[:2] if re.search(ending, path)), None)
    return re.sub(pattern, ' ', text, flags=re.M | re.S) if pattern and not (EXEMPT.match(path) or GENERATED.match(path)) else ''


def pattern_of(word):
    part = word.removesuffix(IN_NAMES)
    if part == word:
        return re.compile(r'\b' + r'\s+'.join(word.split()) + r'\b', re.I)
    # A name is taken apart at _ and before a capital.
    return re.compile(rf'(?:(?<![A-Za-z]){part}|{part.capitalize()})s?(?![a-z])|(?<![A-Z]){part.upper()}S?(?![A-Za-z])')


def kept():
    """The words, and how many of each are kept."""
    rows = re.findall(r'^([^#\n]+) (\d+)$', (TOP / FILE).read_text(), re.M)
    return {word: int(count) for word, count in rows}


def counts(files):
    files = list(files)
    prose_of, names_of = [read(path, text) for path, text in files], [code(path, text) for path, text in files]
    return {word: sum(len(pattern_of(word).findall(text)) for text in (names_of if word.endswith(IN_NAMES) else prose_of)) for word in kept()}


def added(word):
    """The lines with the word that the last commit added, or that were added since."""
    said = subprocess.run(['git', 'diff', '-U0', 'HEAD~1'], cwd=TOP, capture_output=True, text=True, errors='replace', check=False).stdout
    path = ''
    for line in said.splitlines():
        if line.startswith('+++ '):
            path = line[6:]
        elif line.startswith('+') and not EXEMPT.match(path) and pattern_of(word).search(line):
            yield f'{path}: {line[1:].strip()}'


def wrong(files):
    """What is wrong: a word that comes more often than is kept. Prints which come less often."""
    before, now = kept(), counts(files)
    for word, count in now.items():
        if count > before[word]:
            yield f'{word!r} comes {count} times, and {FILE} keeps {before[word]}. Lines of the last commit with it:'
            yield from added(word)
        elif count < before[word]:
            print(f'{word!r} comes {count} times, and {FILE} keeps {before[word]}: test/style/run --keep lowers it')


def keep(files):
    """Writes the counts as they are."""
    now = counts(files)
    text = re.sub(r'^([^#\n]+) \d+$', lambda row: f'{row[1]} {now[row[1]]}', (TOP / FILE).read_text(), flags=re.M)
    (TOP / FILE).write_text(text)
