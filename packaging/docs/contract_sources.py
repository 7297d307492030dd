"""What the sources of a crate say of contracts: its functions, traits and implementations, their clauses,
and the definitions of specs/ that clauses name. packaging/contracts makes pages of it."""
from __future__ import annotations

import dataclasses
import pathlib
import re
from collections.abc import Iterator

# A raw string, a string, a character, or a comment.
LITERAL = re.compile(r'''b?r(#*)".*?"\1|b?"(?:\\.|[^"\\])*"|b?'(?:\\.|[^'\\\n])'|//[^\n]*''', re.S)
FUNCTION = re.compile(r'^( *)(pub(?:\([a-z]+\))? )?(?:(?:const|unsafe|extern) +)*fn (\w+)', re.M)
TYPE = re.compile(r'^pub (?:struct|enum) (\w+)', re.M)
BLOCK = re.compile(r'^(?:impl\b|pub trait (\w+))', re.M)
CLAUSE = re.compile(r'\b(ghost|requires|ensures)\b\*?\s*(\w+)?:?\s*\{')
GHOST = re.compile(r'^    ghost (\w+)\s*[:=]\s*\{', re.M)
IMPORT = re.compile(r'^\s*(?:ghost )?use Rattle\.(\w+)\.specs\.([\w.]+?)(?:\.\{([^}]*)\})?(?: as (\w+))?;?$',
                    re.M)
DEFINITION = re.compile(r'(?:abbrev pub|unfoldable pub|pub record|pub data) (\S+)')
WORD = re.compile(r"(?<![\w.'])[A-Za-z_][\w'-]*(?:\.[A-Za-z_][\w'-]*)?")
BOUND = re.compile(r"λ ([^.()]*)\.|[({]([\w' ]+) :")
PAIRS = {'(': ')', '{': '}', '[': ']', '<': '>'}


@dataclasses.dataclass(frozen=True)
class Clause:
    """A clause of a contract or a ghost member, by `kind`: its name, if it has one, and its text."""
    kind: str
    name: str
    text: str


@dataclasses.dataclass(frozen=True)
class Definition:
    """A definition of specs/, with the comment above it and the text below its name."""
    crate: str
    module: str
    name: str
    path: pathlib.Path
    line: int
    comment: str
    text: str


@dataclasses.dataclass
class Function:
    """A function, with its contract. A law returns nothing and changes nothing."""
    name: str
    path: pathlib.Path
    line: int
    doc: str
    clauses: list[Clause]
    is_public: bool
    is_law: bool
    parameters: list[str]
    at: int


@dataclasses.dataclass
class Block:
    """A trait, or an implementation for a type, of a trait where it has one; its functions and ghost members."""
    is_trait: bool
    trait: str
    of: str
    path: pathlib.Path
    line: int
    doc: str
    functions: list[Function]
    ghosts: list[Clause]


@dataclasses.dataclass
class File:
    """A source file: the functions outside of blocks, the blocks, the public types with their comments, and
    what its `ghost use` lines import."""
    functions: list[Function]
    blocks: list[Block]
    types: dict[str, str]
    imports: dict[str, tuple[str, str, str]]
    modules: dict[str, tuple[str, str]]


def blanked(text: str) -> str:
    """The text with its literals and comments blank; all else keeps its place."""
    return LITERAL.sub(lambda found: re.sub(r'[^\n]', ' ', found[0]), text)


def closing(text: str, at: int) -> int:
    """The place of the bracket that closes the one at a place."""
    opened, closed, depth = text[at], PAIRS[text[at]], 0
    for place in range(at, len(text)):
        if text[place] == opened:
            depth += 1
        elif text[place] == closed and not (closed == '>' and text[place - 1] in '-='):
            depth -= 1
            if not depth:
                return place
    return len(text) - 1


def line_at(text: str, at: int) -> int:
    return text.count('\n', 0, at) + 1


def doc_above(lines: list[str], line: int) -> str:
    """The comment `///` above a line, over its attributes; its paragraphs are lines of the answer."""
    found: list[str] = []
    at = line - 2
    while at >= 0 and re.match(r'\s*(///|#\[|.*\)\]$)', lines[at]):
        if lines[at].strip().startswith('///'):
            found.append(lines[at].strip()[3:].strip())
        at -= 1
    return paragraphs(reversed(found))


def paragraphs(lines: Iterator[str]) -> str:
    """The lines of a comment, each paragraph in one line; items of lists are paragraphs."""
    text = '\n'.join(lines)
    joined = [' '.join(part.split()) for part in re.split(r'\n\s*\n|\n(?=- )', text)]
    return '\n'.join(part for part in joined if part)


def parameters_after(code: str, at: int) -> tuple[str, int]:
    """The parameters of a function whose name ends at a place, and where they end."""
    while code[at] not in '(<':
        at += 1
    if code[at] == '<':
        at = code.index('(', closing(code, at))
    end = closing(code, at)
    return code[at + 1:end], end + 1


def contract(code: str, text: str, at: int) -> tuple[list[Clause], bool]:
    """The clauses from a place on, up to the body or the end of the declaration, and whether a type is returned."""
    clauses: list[Clause] = []
    returns = code[at:].lstrip().startswith('->')
    while at < len(code):
        found = CLAUSE.match(code, at)
        if found:
            end = closing(code, found.end() - 1)
            clauses.append(Clause(found[1], found[2] or '', text[found.end():end]))
            at = end + 1
        elif code[at] in '([':
            at = closing(code, at) + 1
        elif code[at] in '{;':
            break
        else:
            at += 1
    return clauses, returns


def function(found: re.Match[str], code: str, text: str, path: pathlib.Path) -> Function:
    parameters, end = parameters_after(code, found.end())
    clauses, returns = contract(code, text, end)
    line = line_at(code, found.start())
    return Function(
        found[3], path, line, doc_above(text.split('\n'), line), clauses, is_public=found[2] == 'pub ',
        is_law=not returns and '&mut' not in parameters,
        parameters=[*re.findall(r'(\w+)\s*:', parameters), 'self'], at=found.start())


def implemented(head: str) -> tuple[str, str]:
    """The trait and the type of an implementation, by what stands between `impl` and its brace."""
    if head.startswith('<'):
        head = head[closing(head, 0) + 1:]
    trait, _, of = head.split(' where ')[0].rpartition(' for ')
    name = re.match(r"(?:&(?:'\w+ )?)?(?:\w+::)*(\w+)", of.strip())
    return trait.strip(), name[1] if name else of


def block(found: re.Match[str], code: str, text: str, path: pathlib.Path, functions: list[Function]) -> Block:
    """The trait or the implementation that begins there, with those of the functions that are in it."""
    opened = code.index('{', found.end())
    end = closing(code, opened)
    line = line_at(code, found.start())
    trait, of = ('', found[1]) if found[1] else implemented(' '.join(code[found.end():opened].split()))
    ghosts = [Clause('ghost', it[1], text[it.end():closing(code, it.end() - 1)])
              for it in GHOST.finditer(code, opened, end)]
    inside = [it for it in functions if opened < it.at < end]
    return Block(bool(found[1]), trait, of, path, line, doc_above(text.split('\n'), line), inside, ghosts)


def imports(text: str) -> tuple[dict[str, tuple[str, str, str]], dict[str, tuple[str, str]]]:
    """What the `ghost use` lines of a text import: for a name its crate, its module and its name there; and the
    modules that have a name of their own."""
    names: dict[str, tuple[str, str, str]] = {}
    modules: dict[str, tuple[str, str]] = {}
    for crate, module, listed, alias in IMPORT.findall(text):
        for part in str(listed).split(','):
            name, _, other = part.strip().partition(' as ')
            names[other.strip() or name] = crate, module, name
        if alias:
            modules[alias] = crate, module
    return names, modules


def read_file(path: pathlib.Path) -> File:
    text = path.read_text(encoding='utf-8')
    code = blanked(text)
    functions = [function(found, code, text, path) for found in FUNCTION.finditer(code)]
    blocks = [block(found, code, text, path, functions) for found in BLOCK.finditer(code)]
    inside = {it.at for made in blocks for it in made.functions}
    types = {found[1]: doc_above(text.split('\n'), line_at(code, found.start())) for found in TYPE.finditer(code)}
    return File([it for it in functions if it.at not in inside], blocks, types, *imports(text))


def read_crate(folder: pathlib.Path) -> list[File]:
    return [read_file(path) for path in sorted(folder.glob('src/**/*.rt'))]


def opening(folder: pathlib.Path) -> str:
    """The first paragraph of what the library of a crate says of itself."""
    head = re.match(r'(?://!.*\n)+', (folder / 'src/lib.rt').read_text(encoding='utf-8'))
    said = paragraphs(line[3:].strip() for line in head[0].split('\n')) if head else ''
    return said.split('\n')[0]


def definitions_of(crate: str, module: str, path: pathlib.Path) -> Iterator[Definition]:
    """The definitions of a file of specs/; the comment of one stands right above it."""
    lines = path.read_text(encoding='utf-8').split('\n')
    starts = [at for at, line in enumerate(lines) if DEFINITION.match(line)]
    for at, end in zip(starts, [*starts[1:], len(lines)]):
        found = DEFINITION.match(lines[at])
        above = at
        while above and re.match('--(?! --)', lines[above - 1]):
            above -= 1
        body = '\n'.join(re.sub(r'(^|\s)--(\s.*|$)', '', line) for line in lines[at:end])
        comment = ' '.join(line[2:].strip() for line in lines[above:at])
        if found:
            yield Definition(crate, module, found[1], path, at + 1, comment, body[found.end():])


class Definitions:
    """The definitions of all crates, by crate, module and name, and what their files import."""

    def __init__(self, top: pathlib.Path, crates: list[str]) -> None:
        self.all: dict[tuple[str, str, str], Definition] = {}
        self.files: dict[pathlib.Path, File] = {}
        for crate in crates:
            specs = top / 'crates' / crate / 'specs'
            for path in sorted(specs.glob('**/*.antt')):
                module = '.'.join(path.relative_to(specs).with_suffix('').parts)
                own = {it.name: it for it in definitions_of(crate, module, path)}
                names, modules = imports(path.read_text(encoding='utf-8'))
                here = {name: (crate, module, name) for name in own}
                self.files[path] = File([], [], {}, names | here, modules)
                self.all |= {here[name]: it for name, it in own.items()}

    def beneath(self, cited: set[Definition], crate: str) -> set[Definition]:
        """These definitions, and those of a crate on which they rest, but for the states of its machines."""
        found, left = set(cited), list(cited)
        while left:
            it = left.pop()
            more = self.named_in(self.files[it.path], [Clause('', '', it.text)], []) if it.crate == crate else []
            new = {own for own in more if own.crate == crate and not own.module.startswith('Machine')} - found
            found |= new
            left += new
        return found

    def named_in(self, file: File, clauses: list[Clause], bound: list[str]) -> list[Definition]:
        """The definitions that clauses name, in the order of their names there, by what the file imports. A
        word that a clause binds is none, nor is a parameter."""
        found: dict[tuple[str, str, str], Definition] = {}
        for clause in clauses:
            own = {word for many in BOUND.findall(clause.text) for word in ' '.join(many).split()} | set(bound)
            for word in WORD.findall(clause.text):
                key = self.key(file, word, own)
                if key in self.all:
                    found[key] = self.all[key]
        return list(found.values())

    @staticmethod
    def key(file: File, word: str, own: set[str]) -> tuple[str, str, str]:
        head, _, tail = word.partition('.')
        if head in own:
            return '', '', ''
        if head in file.modules and tail:
            return *file.modules[head], tail
        return file.imports.get(word) or file.imports.get(head) or ('', '', '')
