"""Tests of bindings/python/README.md: its programs are run as they are printed, and its commands print what it shows."""
import os
import pathlib
import re
import subprocess
import sys
import tempfile
import unittest

import counted
from cases import TOP

PAGE = (TOP / 'bindings/python/README.md').read_text()


def blocks(language):
    """The blocks of the page in a language."""
    return re.findall(r'^```%s\n(.*?)^```$' % language, PAGE, re.M | re.S)


class Readme(unittest.TestCase):
    def test_programs(self):
        programs = {re.match(r'# (\w+\.py)\n', block)[1]: block for block in blocks('python')}
        self.assertEqual(sorted(programs), ['find_fault.py', 'read_tag.py', 'write_handover.py'])
        tried = set()
        with tempfile.TemporaryDirectory() as folder:
            for name, text in programs.items():
                pathlib.Path(folder, name).write_text(text)
            os.symlink(sys.executable, pathlib.Path(folder, 'python3'))
            environment = {**os.environ, 'PATH': folder + os.pathsep + os.environ['PATH']}
            for part in re.split(r'^\$ ', ''.join(blocks('console')), flags=re.M)[1:]:
                command, _, wanted = part.partition('\n')
                done = subprocess.run(['bash', '-c', command], cwd=folder, env=environment, stdout=subprocess.PIPE, stderr=subprocess.STDOUT)
                self.assertEqual(done.stdout.decode().strip('\n'), wanted.strip('\n'), command)
                tried.update(name for name in programs if name in command)
        self.assertEqual(tried, set(programs))


if __name__ == '__main__':
    counted.main()
