"""A small copy of the repository for tests of the harness: its files as they are, or with a fault, and stand-ins for all that they run. A stand-in
notes in the file `ran` that it ran, and with what; it then does what NAME.does says, a script beside it, or passes one test."""
import os
import pathlib
import shutil
import subprocess

HARNESS = ('.ci/run test/run test/parts.sh test/counts.sh test/harness.sh test/harness.py test/sources.sh test/needs.txt test/parts.txt test/left_out.txt '
           'test/python/counted.py test/wrong_bodies/verdicts.py test/wrong_bodies/edit_files.py').split()
STAND_IN = '''#!/bin/bash
echo "${0#%s/} $* from=${NDEF_FROM-} short=${NDEF_QUICK-} long=${NDEF_LONG-} release=${NDEF_RELEASE-}" >>'%s/ran'
if [ -e "$0.does" ]; then . "$0.does"; else echo '1 passed, 0 failed'; fi
'''
TOOLS = ('rt', 'make', 'node', 'apt-get', 'id')


class Tree:
    """The copy, in a folder that doesn't exist yet. `fault` is (file, old, new)."""

    def __init__(self, top, folder, fault=None):
        self.top = pathlib.Path(folder)
        for name in HARNESS:
            path = self.top / name
            path.parent.mkdir(parents=True, exist_ok=True)
            shutil.copy(top / name, path)
        if fault:
            path = self.top / fault[0]
            path.write_text(path.read_text().replace(fault[1], fault[2]))
        self.parts = [row.split()[3:] for row in (top / 'test/parts.txt').read_text().splitlines() if row and row[0] != '#']
        for name in {next(word for word in words if word.startswith('test/')) for words in self.parts} | {
                'test/wrong_bodies/run', 'test/wrong_bodies/selftest', 'packaging/library', 'packaging/build/crates_or_dist', 'packaging/tree_hash', 'ports/amalgamation',
                'bindings/web/build', 'packaging/measure', *['bin/' + it for it in TOOLS]}:
            self.stand_in(name)
        self.does('bin/id', 'echo 0')
        self.does('packaging/measure', 'shift; "$@"')
        self.does('packaging/tree_hash', 'echo 1234')
        self.does('packaging/build/crates_or_dist', 'echo dist')
        self.does('ports/amalgamation', 'mkdir -p "$1" && echo "hash 1234" | tee "$1/ndef.c" "$1/ndef_small.c"')
        self.does('bin/rt', 'case $1 in version) echo rattle-kit logic 12ab ;; *) echo "62 passed, 0 failed" ;; esac')
        for folder in ('crates/ndef_c/out', 'crates/a/src', 'crates/a/specs', 'crates/b/src', 'dist', 'out'):
            (self.top / folder).mkdir(parents=True)
        self.write('dist/SOURCE', 'version 1.0.0\ncrates 1234\n')
        self.write('test/needs.txt', 'bash bash\nfile file-package test -e %s\nnothing - true\n' % (self.top / 'installed'), 'a')

    def write(self, name, text, mode='w'):
        with open(self.top / name, mode, encoding='utf-8') as file:
            file.write(text)

    def stand_in(self, name):
        self.top.joinpath(name).parent.mkdir(parents=True, exist_ok=True)
        self.write(name, STAND_IN % (self.top, self.top))
        (self.top / name).chmod(0o755)

    def does(self, name, script):
        self.write(name + '.does', script + '\n')

    def ran(self):
        """What ran since the last question."""
        path = self.top / 'ran'
        lines = path.read_text().splitlines() if path.exists() else []
        path.unlink(missing_ok=True)
        return lines

    def run(self, *command, script=None, **more):
        """The status and the output of a command, or of a script of bash, in the copy."""
        kept = {name: it for name, it in os.environ.items() if not name.startswith(('NDEF_', 'WRONG_BODIES'))}
        done = subprocess.run(command or ('bash', '-c', script), cwd=self.top, stdin=subprocess.DEVNULL, stdout=subprocess.PIPE, stderr=subprocess.STDOUT, text=True,
                              errors='replace', timeout=900, check=False, env={**kept, 'PATH': f'{self.top}/bin:{kept["PATH"]}', **more})
        return done.returncode, done.stdout
