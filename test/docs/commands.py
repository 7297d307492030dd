"""Which test runs each command that a page shows, as it is printed, or why none does."""
import re

# The test of each page whose lines `$ COMMAND` are run, and what its blocks of `sh` are.
PAGES = {
    'README.md': 'test/docs/run', 'docs/COMMAND.md': 'test/docs/run', 'docs/EXPLAIN.md': 'test/docs/run', 'docs/C.md': 'test/c/run',
    'docs/CPP.md': 'test/cpp/part', 'bindings/python/README.md': 'test/python/test_readme.py', 'bindings/go/README.md': 'test/go/run',
    'bindings/java/README.md': 'test/java/readme', 'bindings/web/README.md': 'test/web/run',
}
PROVED = 'it needs the proof of all crates, and rt ci gives the same program all lines'
# The other commands, each with its page: the test that runs it, or why none does.
OTHERS = {
    ('bindings/python/README.md', 'pip install .'): 'test/docs/run',
    ('bindings/python/README.md', 'make python'): 'test/docs/run',
    ('bindings/python/README.md', 'PYTHONPATH=out/python python3'): 'it waits for code; test/docs/run imports the module of that folder',
    ('bindings/go/README.md', 'go mod edit -require simbegyor/ndef@v0.0.0 -replace simbegyor/ndef=/path/to/simbegyor/bindings/go'): 'test/go/run',
    ('bindings/java/README.md', 'make java'): 'test/java/run',
    ('conformance/TESTING.md', 'python3 runners/run.py my_reader.py'): 'test/conformance/runners',
    ('conformance/TESTING.md', 'node runners/run.mjs my_reader.mjs'): 'test/conformance/runners',
    ('conformance/TESTING.md', 'cc runners/run.c my_reader.c -lmylibrary -o run && ./run <cases.txt'): 'test/conformance/runners',
    ('conformance/TESTING.md', 'go run main.go'): 'test/conformance/runners',
    ('conformance/README.md', 'cd crates/ndef_conformance'): PROVED,
    ('conformance/README.md', "grep '^tag-001 ' ../../conformance/cases.txt | rt run"): PROVED,
    ('docs/RECIPES.md', 'cd crates/ndef_conformance'): PROVED,
    ('docs/RECIPES.md', "grep '^tag-001 ' ../../conformance/cases.txt | rt run"): PROVED,
    ('bench/README.md', 'bench/run'): 'it measures for an hour; test/bench/run runs its parts',
    ('bench/README.md', 'bench/run --write'): 'it measures for an hour, and changes docs/PERFORMANCE.md; test/bench/run runs its parts',
    ('ports/README.md', 'make amalgamation'): 'it needs the proof of all crates; test/dist/next makes the same files',
    ('ports/README.md', 'rt ci'): '.ci/run runs it',
    ('ports/README.md', 'make dist'): 'it changes dist/; test/dist/next makes the same files in another folder',
}
# How a line begins that is a command, in a block that is indented. The rest of such a block is text, or what a synopsis says.
COMMAND = re.compile(r'(?:[A-Z]+=\S+ )?(?:python3|node|cc|go|make|rt|cd|grep|pip|cmake|npm|cargo|\.?/?[a-z-]+/run|\./ndef\S*)(?: |$)')


def shown(text):
    """Each command of a page, and whether it is a line `$ COMMAND` or a block of `sh`."""
    for block in re.findall(r'^```(?:sh|console)\n(.*?)^```$', text, re.M | re.S):
        yield from ((line, True) for line in re.findall(r'^\$ (.*)', block, re.M) or [block])
    for line in re.findall(r'^ {4}(\S.*)', re.sub(r'^```.*?^```$', '', text, flags=re.M | re.S), re.M):
        if line.startswith('$ '):
            yield line[2:], True
        elif COMMAND.match(line):
            yield re.sub(r' {2,}#.*', '', line).strip(), False


def wrong(top, pages):
    """The commands of pages of which it isn't said which test runs them, the tests that don't name the page, and what no page shows."""
    found = {(str(page.relative_to(top)), command, is_run) for page in pages for command, is_run in shown(page.read_text())}
    of_pages = {name for name, _, is_run in found if is_run}
    others = {(name, command) for name, command, is_run in found if not is_run}
    yield from (f'{name}: no test is said to run its commands' for name in sorted(of_pages - set(PAGES)))
    yield from (f'{name}: no test is said to run {command!r}' for name, command in sorted(others - set(OTHERS)))
    yield from (f'{name} shows no command' for name in sorted(set(PAGES) - of_pages))
    yield from (f'{name} does not show {command!r}' for name, command in sorted(set(OTHERS) - others))
    for name, test in {*PAGES.items(), *((name, test) for (name, _), test in OTHERS.items())}:
        if re.fullmatch(r'test/\S+', test) and name not in (top / test).read_text():
            yield f'{test} does not name {name}'
