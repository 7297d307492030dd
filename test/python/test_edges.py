"""What the other files of tests leave out: classes of one's own that lack a method, values that are changed so that they can't be written, and a
module without its library, or with one that the loader doesn't know by name or that has another version."""
import ctypes
import pathlib
import shutil
import subprocess
import sys
import tempfile
import types
import unittest
from unittest import mock

import counted
import simbegyor_ndef as ndef
from simbegyor_ndef import _library as library
from simbegyor_ndef.handover import AlternativeCarrierRecord, ErrorRecord
from simbegyor_ndef.record import GlobalRecord


class Bare(GlobalRecord):
    """A class of one's own that has neither method."""
    _type = 'urn:nfc:ext:example.com:bare'


class Reached(unittest.TestCase):
    def test_a_class_needs_its_methods(self):
        octets = b''.join(ndef.message_encoder([ndef.Record('urn:nfc:ext:example.com:bare', '', b'\1')]))
        with self.assertRaisesRegex(NotImplementedError, 'Bare has no _decode_payload'):
            list(ndef.message_decoder(octets, known_types={Bare._type: Bare}))
        with self.assertRaisesRegex(NotImplementedError, 'Bare has no _encode_payload'):
            list(ndef.message_encoder([Bare()]))

    def test_references_are_checked_when_they_are_written(self):
        carrier = AlternativeCarrierRecord('active', '0', ['1'])
        # A reference has one octet for its length (Connection Handover 1.2), and a name is Latin-1.
        for name in (256 * 'x', '\u20ac', 1):
            carrier.auxiliary_data_reference[0] = name
            with self.assertRaises(ndef.EncodeError):
                carrier.data
        carrier.auxiliary_data_reference[0] = 255 * 'x'
        self.assertEqual(carrier.data, b'\1\0010\1\xff' + 255 * b'x')

    def test_members_that_are_read_or_set_one_by_one(self):
        error = ErrorRecord(1, 9)
        self.assertEqual((error.error_reason, error.error_data), (1, 9))
        poster = ndef.SmartposterRecord('http://a')
        poster.resource = 'http://b'
        self.assertEqual(poster.resource.iri, 'http://b')
        self.assertEqual(ndef.fields(b''), [])

    def test_a_module_without_its_library_says_so(self):
        with tempfile.TemporaryDirectory() as folder:
            module = pathlib.Path(folder, 'simbegyor_ndef')
            shutil.copytree(ndef.__path__[0], module, ignore=shutil.ignore_patterns('libndef.*', '__pycache__'))
            done = subprocess.run([sys.executable, '-c', 'import simbegyor_ndef'], cwd=folder, stderr=subprocess.PIPE,
                                  env={'PYTHONPATH': folder, 'PYTHONDONTWRITEBYTECODE': '1'})
            self.assertNotEqual(done.returncode, 0)
            self.assertIn(b'ImportError: simbegyor_ndef needs the library for C, for this machine, at ', done.stderr)

    def test_a_library_that_the_loader_does_not_know_by_name(self):
        """The file beside the module is a link to the shared library, which is taken where it lies then."""
        asked, lies = [], library._path

        def load(name):
            asked.append(name)
            if name != link:
                raise OSError(name)
            return ctypes.CDLL(lies)

        with tempfile.TemporaryDirectory() as folder:
            link = str(pathlib.Path(folder, 'libndef.so'))
            pathlib.Path(link).symlink_to('/nowhere/libsimbegyor-ndef.so.1')
            with mock.patch.object(library, '_path', link):
                loaded = library._loaded(load)
        self.assertEqual(asked, ['libsimbegyor-ndef.so.1', link])
        self.assertEqual(loaded.version(), ctypes.CDLL(lies).ndef_version())

    def test_a_library_of_another_version(self):
        def loaded(number):
            return library._loaded(lambda name: types.SimpleNamespace(ndef_version=lambda: number))

        for number, version in ((0x000300, '0.3.0'), (0x020003, '2.0.3')):
            with self.assertRaises(ImportError) as caught:
                loaded(number)
            self.assertEqual(str(caught.exception), 'simbegyor_ndef needs the library for C of version 1.0.0, or a later 1; that at %s is %s'
                             % (library._path, version))
        self.assertEqual([loaded(number).version() for number in (0x010000, 0x010203)], [0x010000, 0x010203])


if __name__ == '__main__':
    counted.main()
