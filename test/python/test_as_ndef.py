"""Tests of `install_as_ndef`, each in a process of its own."""
import os
import pathlib
import subprocess
import sys
import tempfile
import unittest

import counted
import simbegyor_ndef

HERE = pathlib.Path(__file__).resolve().parent
INSTALL = 'import simbegyor_ndef\nsimbegyor_ndef.install_as_ndef()\n'
# What ndeflib's documentation shows for the same calls; the octets are those of NDEF 1.0 and of the record types.
PRINTED = ("NDEF Text Record ID '' Text 'Hello' Language 'en' Encoding 'UTF-8'\n"
           "NDEF Text Record ID '' Text 'World' Language 'en' Encoding 'UTF-8'\n"
           '91010854' '02656e48656c6c6f' '11010e55' '036e66632e6e666370792e6f7267' '520a01' '746578742f706c61696e' '78\nrefused\nTrue exec\n')


class AsNdef(unittest.TestCase):
    def run_text(self, text, status=0):
        """What a program prints and complains of, where another module `ndef` lies on its path."""
        with tempfile.TemporaryDirectory() as folder:
            other = pathlib.Path(folder, 'ndef')
            other.mkdir()
            (other / '__init__.py').write_text('')
            (other / 'record.py').write_text('')
            path = os.pathsep.join((os.path.dirname(simbegyor_ndef.__path__[0]), folder))
            done = subprocess.run([sys.executable, '-c', text], stdout=subprocess.PIPE, stderr=subprocess.PIPE, cwd=folder,
                                  env={**os.environ, 'PYTHONPATH': path})
        self.assertEqual(done.returncode, status, done.stderr.decode())
        return done.stdout.decode(), done.stderr.decode()

    def test_a_program_for_ndeflib(self):
        run = 'import runpy\nrunpy.run_path(%r, run_name="made")["main"]()' % str(HERE / 'ndeflib_program.py')
        self.assertEqual(self.run_text(INSTALL + run), (PRINTED, ''))

    def test_the_modules_are_the_same(self):
        """No class is there twice, and another call changes nothing."""
        names = ('record', 'message', 'text', 'uri', 'smartposter', 'handover')
        lines = ['import ndef.%s\nassert ndef.%s is simbegyor_ndef.%s' % (name, name, name) for name in names]
        self.run_text('\n'.join([INSTALL, 'import ndef\nassert ndef is simbegyor_ndef', *lines, 'simbegyor_ndef.install_as_ndef()', *lines]))
        _, complaint = self.run_text(INSTALL + 'import ndef.wifi', 1)
        self.assertIn("No module named 'ndef.wifi'", complaint)

    def test_another_ndef_is_refused(self):
        for before, name in (('import ndef', 'ndef'), ('import ndef.record', 'ndef'), ('import sys, ndef.record\ndel sys.modules["ndef"]', 'ndef.record')):
            text = before + '''
import sys, simbegyor_ndef
before = dict(sys.modules)
try:
    simbegyor_ndef.install_as_ndef()
except ImportError as error:
    assert error.name == %r
    print(error)
assert sys.modules == before
''' % name
            said, _ = self.run_text(text)
            self.assertRegex(said, r'^%s has been imported from \S+%s: call simbegyor_ndef.install_as_ndef\(\) before anything imports it\n$'
                             % (name, {'ndef': '__init__.py', 'ndef.record': 'record.py'}[name]))

    def test_without_the_call_nothing_is_changed(self):
        self.assertEqual(self.run_text('import simbegyor_ndef, ndef\nprint(ndef is simbegyor_ndef)')[0], 'False\n')


if __name__ == '__main__':
    counted.main()
