"""Tests of the module as a package: its annotations, its wheel, and what `make install` says of its folder."""
import importlib
import importlib.machinery
import inspect
import os
import pathlib
import runpy
import subprocess
import sys
import tempfile
import unittest

import counted
import simbegyor_ndef as ndef
from simbegyor_ndef import _platform
from cases import TOP

HELLO = bytes.fromhex('d101085402656e48656c6c6f')
HERE = ('-c', 'import simbegyor_ndef as ndef; print(*ndef.message_decoder(bytes.fromhex("d101085402656e48656c6c6f")), ndef.__version__)')


def maker():
    """A Python that can make a wheel: this one, or else that of the system; or None."""
    able = (python for python in (sys.executable, '/usr/bin/python3') if os.path.exists(python)
            and subprocess.run([python, '-c', 'import pip'], stderr=subprocess.DEVNULL).returncode == 0)
    return next(able, None)


MAKER = maker()


class Package(unittest.TestCase):
    def test_all_is_annotated(self):
        for path in pathlib.Path(ndef.__path__[0]).glob('*.py'):
            module = importlib.import_module('simbegyor_ndef.' + path.stem)
            classes = [value for _, value in inspect.getmembers(module, inspect.isclass) if value.__module__ == module.__name__]
            for owner in (module, *classes):
                for name, value in vars(owner).items():
                    value = getattr(value, 'fget', None) or getattr(value, '__func__', value)
                    if inspect.isfunction(value) and value.__module__ == module.__name__ and value.__name__ != '<lambda>':
                        wanted = set(inspect.signature(value).parameters) - {'self', 'cls', '_cls'} | {'return'}
                        if not hasattr(owner, '_fields') or not name.startswith('_'):
                            self.assertLessEqual(wanted, set(value.__annotations__), '%s.%s' % (path.stem, name))

    def test_it_says_that_it_is_typed(self):
        self.assertTrue(pathlib.Path(ndef.__path__[0], 'py.typed').exists())

    @unittest.skipUnless(MAKER, 'no Python here has pip')
    def test_the_wheel(self):
        with tempfile.TemporaryDirectory() as folder:
            pip, made_of = [MAKER, '-m', 'pip', '--disable-pip-version-check'], (TOP / 'out/from').read_text().strip()
            made = subprocess.run([*pip, 'wheel', str(TOP), '--no-deps', '--no-index', '-w', folder],
                                  env={**os.environ, 'NDEF_LIB_DIR': str(TOP / 'out/lib'), 'NDEF_FROM': made_of}, stdout=subprocess.PIPE, stderr=subprocess.STDOUT)
            self.assertEqual(made.returncode, 0, made.stdout.decode())
            (wheel,) = pathlib.Path(folder).glob('simbegyor_ndef-%s-py3-none-*.whl' % ndef.__version__)
            target = str(pathlib.Path(folder, 'target'))
            subprocess.run([*pip, 'install', '--no-index', '--no-deps', '--target', target, str(wheel)], check=True,
                           stdout=subprocess.DEVNULL, stderr=subprocess.DEVNULL)
            said = subprocess.run([sys.executable, *HERE], cwd=folder, env={**os.environ, 'PYTHONPATH': target}, stdout=subprocess.PIPE, check=True)
            self.assertEqual(said.stdout.decode(), "NDEF Text Record ID '' Text 'Hello' Language 'en' Encoding 'UTF-8' %s\n" % ndef.__version__)
            self.command(target)

    def command(self, target):
        """The command of the wheel is the module as a program."""
        for word, printed in (('show', b"NDEF Text Record ID '' Text 'Hello' Language 'en' Encoding 'UTF-8'\n"),
                              ('check', b'message 1 at 0: records 1, bytes 12\n'), ('explain', b'message 1 at 0: bytes 12\n00000000  d1 ')):
            said = subprocess.run([sys.executable, target + '/bin/simbegyor-ndef', word], input=HELLO, stdout=subprocess.PIPE,
                                  env={**os.environ, 'PYTHONPATH': target}, check=True)
            self.assertEqual(said.stdout[:len(printed)], printed)
        said = subprocess.run([sys.executable, target + '/bin/simbegyor-ndef', '--help'], stdout=subprocess.PIPE,
                              env={**os.environ, 'PYTHONPATH': target}, check=True)
        self.assertIn(b'usage: simbegyor-ndef [show|check|explain]', said.stdout)

    def test_names_on_other_platforms(self):
        """Nothing is built for them here: these are the names that the loaders of Windows and macOS know."""
        for platform, name in (('linux', 'libndef.so.1'), ('freebsd14', 'libndef.so.1'), ('darwin', 'libndef.dylib'), ('win32', 'ndef.dll'),
                               ('cygwin', 'ndef.dll')):
            self.assertEqual(_platform.library_name(platform), name)
        self.assertTrue(pathlib.Path(ndef.__path__[0], _platform.library_name()).exists())

    def test_the_library_is_no_module(self):
        for platform in 'linux', 'freebsd14', 'darwin', 'win32', 'cygwin':
            name = _platform.library_name(platform)
            self.assertEqual([suffix for suffix in (*importlib.machinery.all_suffixes(), '.pyd') if name.endswith(suffix)], [])
        for name in 'libndef', 'ndef':
            with self.assertRaises(ModuleNotFoundError):
                importlib.import_module('simbegyor_ndef.' + name)

    def test_a_link_to_the_shared_library_is_asked_for_by_name(self):
        """The loader chooses among the files of a shared library where it is asked for its name, and not where it is given a path.
        Other links, as of a cache of packages, are paths."""
        with tempfile.TemporaryDirectory() as folder:
            for name, led_to, asked in (('a', '../lib/libsimbegyor-ndef.so.0', 'libsimbegyor-ndef.so.0'), ('b', '/cache/libndef.so', None),
                                        ('c', None, None)):
                path = pathlib.Path(folder, name)
                path.symlink_to(led_to) if led_to else path.touch()
                self.assertEqual(_platform.asked_for(str(path)), asked or str(path))

    def test_the_backend_on_other_platforms(self):
        made = runpy.run_path(str(TOP / 'bindings/python/backend.py'))
        self.assertEqual(made['LIBRARY'], _platform.library_name())
        for platform, wanted in (('linux', ('-fPIC', '-shared', '--whole-archive', 'x.a')), ('darwin', ('-fPIC', '-shared', '-force_load,x.a')),
                                 ('win32', ('-shared', '--whole-archive', 'x.a'))):
            words = ' '.join(made['linking'](platform, 'x.a'))
            self.assertEqual([word for word in wanted if word not in words], [])
            self.assertEqual(('-z,defs' in words, '-fPIC' in words), (platform == 'linux', platform != 'win32'))
            self.assertNotIn('x.a', ' '.join(made['linking'](platform)))

    def test_where_it_goes_is_said(self):
        environment = {name: value for name, value in os.environ.items() if name != 'PYTHONPATH'}
        for folder, warned in (('/nowhere', True), (os.path.dirname(os.__file__), False)):
            said = subprocess.run([str(TOP / 'packaging/python/say_folder'), sys.executable, folder], env=environment, stdout=subprocess.PIPE,
                                  stderr=subprocess.PIPE)
            self.assertEqual((said.returncode, said.stdout.decode()), (0, 'The Python module is in %s/simbegyor_ndef.\n' % folder))
            self.assertEqual(b'warning' in said.stderr, warned)


if __name__ == '__main__':
    counted.main()
