"""Tests of packaging/contracts: what it makes of each form of source in a planted crate, and where the links of the pages of
the crates lead."""
import os
import pathlib
import subprocess
import tempfile

import names

SOURCES = {
    'include/ndef.h': '''/* Tells
 * NDEF_OK is no answer here.
 * NDEF_OK: *count < 2.
 * NDEF_END: none. */
uint32_t ndef_count(const uint8_t *bytes);

/* NDEF_OK: of another. */
typedef struct of_another of_another;
void ndef_usual(void);
''',
    'crates.txt': '# lowest first\nlow: thiserror\ntests: low\n',
    'crates/tests/src/lib.rt': '//! Tests.\npub fn untold() {}\n',
    'crates/low/specs/Words.antt': '''use Rattle.low.specs.Machine.States.{IsState}
-- a word
abbrev pub IsWord : ℕ → Type 0
IsWord n = n ≡ 1

-- The words are few,
-- and no more.
pub record AreFew : Type 0 where
  pub few : counted -- unseen

abbrev pub shadow : ℕ
shadow = 1
pub lemma : IsWord 1

-- ---- a heading
-- their number
abbrev pub counted : Type 0
counted = IsState

-- nothing rests on it
abbrev pub unseen : ℕ
''',
    'crates/low/specs/Machine/States.antt': '-- a state\nabbrev pub IsState : Type 0\n',
    'crates/low/src/lib.rt': '''//! What is low,
//! and `a | b`.
//!
//! - `words.rt`: more.
ghost use Rattle.low.specs.Words.{IsWord as Word, AreFew, shadow, lemma};
ghost use Rattle.low.specs.Words as words;
ghost use Rattle.std.specs.Prelude.{IsTrue};

/// A law. It has two sentences.
///
/// And two paragraphs.
pub fn words_are_few()
    ensures { AreFew → Word 1 }
{
    other_law("}");
}

/// Counts. "pub fn fake()" isn't one.
#[inline]
pub fn count<const N: usize>(shadow: &[u8; N], at: &mut u8) -> u8
    requires small { IsTrue at.old }
    requires* { lemma }
    ensures { at.new.shadow ≡ shadow.now }
    ensures told { (AreFew : ℕ) → words.IsWord result → AreFew }
{
    '}'; 0
}

/// Exported.
#[unsafe(no_mangle)]
pub unsafe extern "C" fn ndef_count(at: *mut u8) -> u8
    ghost so_far: { ℕ }
    requires* room { Word so_far }
{
    0
}

fn private() ensures { Word 1 } {}

pub(crate) fn inner() ensures { Word 1 } {}

/// A thing.
pub struct Thing<'a>(&'a u8);

impl<'a> Thing<'a> {
    /// See [`count`](crate::count) and [`crate::count`]; `a | b` < *c*.
    pub fn of(self) -> u8
        ensures { shadow ≡ result }
    {
        0
    }

    fn hidden(self) {}
}

/// A trait. It has more to say.
pub trait Told {
    ghost exact: { Word 1 };

    /// Tells.
    fn tell(&self) -> u8
        ensures { result ≡ 1 };
}

impl<'a> Told for Thing<'a> {
    ghost exact = { lemma };

    fn tell(&self) -> u8 {
        1
    }
}

impl<'a> std::Silent for Thing<'a> {
    fn silent(&self) {}
}

impl Thing<'_> {
    /// A name that is there.
    ///
    /// - once more
    pub fn of() -> u8 ensures { 1 ≡ result } { 0 }
}
''',
}
LOW = '../../crates/low/'
ROWS = (
    '# The contracts of low\n\nWhat is low, and `a \\| b`.\n',
    f'## Laws\n\n| law | what it says | clauses | definitions |\n|---|---|---|---|\n| <a id="words_are_few"></a>[`words_are_few`]({LOW}src/lib.rt#L12) '
    '| A law. It has two sentences. And two paragraphs. | ensures `_` '
    f'| [`AreFew`]({LOW}specs/Words.antt#L8), [`IsWord`]({LOW}specs/Words.antt#L3) |\n\n## Calls\n',
    f'| <a id="count"></a>[`count`]({LOW}src/lib.rt#L20) | Counts. "pub fn fake()" isn\'t one. '
    f'| **requires** `small`, `_`; ensures `_`, `told` | [`IsWord`]({LOW}specs/Words.antt#L3) |\n',
    f'| <a id="ndef_count"></a>[`ndef_count`]({LOW}src/lib.rt#L31) | Exported. [ndef.h](../../include/ndef.h#L5): NDEF_OK: \\*count &lt; 2. '
    f'NDEF_END: none. | ghost `so_far`; **requires** `room` | [`IsWord`]({LOW}specs/Words.antt#L3) |\n',
    f'| <a id="thing-of"></a>[`Thing::of`]({LOW}src/lib.rt#L47) | See `count` and `count`; `a \\| b` &lt; \\*c\\*. | ensures `_` '
    f'| [`shadow`]({LOW}specs/Words.antt#L11) |\n',
    f'| <a id="told-tell"></a>[`Told::tell`]({LOW}src/lib.rt#L61) | Tells. | ensures `_` |  |\n'
    f'| <a id="thing-of-2"></a>[`Thing::of`]({LOW}src/lib.rt#L81) | A name that is there. - once more | ensures `_` |  |\n\n## Traits\n',
    f'| <a id="told"></a>[`Told`]({LOW}src/lib.rt#L57) | A trait. | ghost `exact` | [`IsWord`]({LOW}specs/Words.antt#L3) |\n',
    f'| <a id="thing-told"></a>[`Thing: Told`]({LOW}src/lib.rt#L65), as [the trait](#told) demands | A thing. | ghost `exact` |  |\n\n## Definitions\n',
    f'| [`IsWord`]({LOW}specs/Words.antt#L3) | a word |\n| [`AreFew`]({LOW}specs/Words.antt#L8) | The words are few, and no more. |\n'
    f'| [`counted`]({LOW}specs/Words.antt#L17) | their number |\n',
)
SILENT = ('private', 'inner', 'hidden', '`fake', 'Silent', 'lemma', 'unseen', 'IsState')


def answer(top, *words):
    run = subprocess.run([top / 'packaging/contracts', *words], capture_output=True, text=True)
    return run.returncode, run.stdout + run.stderr


def planted(top):
    """What is wrong of the pages of a planted crate."""
    with tempfile.TemporaryDirectory() as folder:
        for name, text in {**SOURCES, 'docs/contracts/gone.md': ''}.items():
            (pathlib.Path(folder) / name).parent.mkdir(parents=True, exist_ok=True)
            (pathlib.Path(folder) / name).write_text(text)
        made = answer(top, folder)
        pages = {path.name: path.read_text() for path in pathlib.Path(folder, 'docs/contracts').iterdir()}
    text, index = pages.get('low.md', ''), pages.get('README.md', '')
    yield from (f'the page lacks {row!r}' for row in ROWS if row not in text)
    yield from (f'the page names {name}' for name in SILENT if name in text)
    if '| [low](low.md) | What is low, and `a \\| b`. | 1 | 5 |\n\n' not in index:
        yield f'the list of crates is {index}'
    if set(pages) != {'low.md', 'README.md'} or made != (0, ''):
        yield f'the pages are {list(pages)}; status and output {made}'


def of_crates(top):
    """What is wrong of the pages of the crates: each link of theirs leads to a file and a line."""
    with tempfile.TemporaryDirectory() as folder:
        for name in ('crates', 'crates.txt', 'include', 'docs/THEOREM.md'):
            (pathlib.Path(folder) / name).parent.mkdir(exist_ok=True)
            (pathlib.Path(folder) / name).symlink_to(top / name)
        made = answer(top, folder)
        pages = sorted(pathlib.Path(folder, 'docs/contracts').iterdir())
        yield from (f'{page.name}: {link}' for page in pages for link in (*names.broken_links(pathlib.Path(folder), page), *names.moved_links(page)))
    if made != (0, '') or len(pages) < 10:
        yield f'{len(pages)} pages; status and output {made}'


def typed(top):
    """What mypy says of the script and of the file that it imports."""
    files = [top / 'packaging/contracts', top / 'packaging/docs/contract_sources.py']
    run = subprocess.run(['mypy', '--strict', '--scripts-are-modules', '--cache-dir', os.devnull, *files],
                         capture_output=True, text=True)
    yield from (run.stdout + run.stderr).splitlines() if run.returncode else ()


def all_tests(top):
    """The names of tests, and what each finds wrong."""
    yield 'the links of the pages of contracts resolve', of_crates(top)
    yield 'a planted crate has the rows that it should', planted(top)
