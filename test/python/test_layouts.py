"""Tests of `_layout`: where and why a payload of a record class of one's own is refused, and what is no layout."""
import io
import unittest

import counted
import simbegyor_ndef as ndef
from simbegyor_ndef import _library as library
from simbegyor_ndef import layout

HELLO = bytes.fromhex('9101085402656e48656c6c6f')
FITS, UTF8 = (23, 'DoesNotFit'), (17, 'Utf8')


def own(*fields):
    """A class of records of the type example.com:temp with these fields, whose records have the payload in a list."""
    class Own(ndef.GlobalRecord):
        """A record of the layout."""

        _type, _layout = 'urn:nfc:ext:example.com:temp', fields

        @classmethod
        def _decode_payload(cls, octets, errors):
            made = cls()
            made.taken = [octets]
            return made

    return Own


def record(payload, first=0xd4, name=b''):
    """The octets of such a record; the number of its first octet."""
    size = bytes([first | 8 * bool(name), 16, len(payload)]) + bytes([len(name)]) * bool(name)
    return size + b'example.com:temp' + name + payload


def refusal(octets, *fields, **how):
    """The place, the number and the reason of the refusal of a message; None where it isn't refused."""
    try:
        list(ndef.message_decoder(octets, known_types={'urn:nfc:ext:example.com:temp': own(*fields)}, **how))
    except ndef.DecodeError as error:
        return error.place, (error.number, error.reason)
    return None


class Places(unittest.TestCase):
    def test_relaxed(self):
        octets = HELLO + record(b'\4a', 0x14) + record(b'abc', 0x54)
        for fields, found in (((layout.octets(3),), [(0, FITS), None]), ((layout.within(0, 4), layout.octets(1)), [None, (0, FITS)]),
                              ((layout.octets(1), layout.within(97, 97), layout.rest()), [None, (1, FITS)])):
            known = {'urn:nfc:ext:example.com:temp': own(*fields)}
            given = list(ndef.message_decoder(octets, 'relax', known))[1:]
            self.assertEqual([one.refusal and (one.refusal.place, (one.refusal.number, one.refusal.reason)) for one in given], found)

    def test_chunks(self):
        chunks = record(b'\2', 0xb4) + bytes.fromhex('5600026162')
        self.assertEqual(refusal(chunks, layout.counted()), None)
        for fields in ((layout.octets(2),), (layout.octets(2), layout.within(99, 99))):
            self.assertEqual(refusal(chunks, *fields), (19, FITS))

    def test_before_the_payload_is_decoded(self):
        class Never(own(layout.octets(2))):
            """A class whose records are never made."""

            @classmethod
            def _decode_payload(cls, octets, errors):
                raise AssertionError('decoded')

        with self.assertRaises(ndef.DecodeError) as caught:
            list(ndef.message_decoder(record(b'a'), known_types={Never._type: Never}))
        self.assertEqual(caught.exception.sentence, library.reason_sentence(23))


class Layouts(unittest.TestCase):
    def registered(self, given):
        known = dict(ndef.Record._known_parts)
        made = own()
        made._layout = given
        try:
            ndef.Record.register_type(made)
        finally:
            ndef.Record._known_parts.clear()
            ndef.Record._known_parts.update(known)

    def test_what_is_none(self):
        rest = layout.rest()
        fields = (layout.octets(2), layout.within(3, 4), layout.counted(), layout.utf8(), rest)  # as ndef.h numbers them
        self.assertEqual([tuple(field) for field in fields], [(1, 2, 0), (2, 3, 4), (3, 0, 0), (4, 0, 0), (5, 0, 0)])
        for given in (5, [rest], (1,), ((5, 0, 0),), rest, 'rest'):
            self.assertRaises(TypeError, self.registered, given)
        for given in ((rest, rest), (layout.utf8(), layout.octets(0)), (layout.within(2, 1),), (layout.within(0, 256),), 256 * (layout.octets(0),)):
            self.assertRaises(ValueError, self.registered, given)
            self.assertRaises(ValueError, refusal, record(b''), *given)
        for given in (None, (), (rest,), 255 * (layout.octets(0),), (layout.within(0, 255), layout.counted(), layout.utf8())):
            self.registered(given)

    def test_numbers(self):
        for function, given in ((layout.octets, ('a',)), (layout.octets, (2.0,)), (layout.within, (0, None)), (layout.within, ('', 1))):
            self.assertRaises(TypeError, function, *given)
        for function, given in ((layout.octets, (-1,)), (layout.octets, (1 << 32,)), (layout.within, (-1, 1)), (layout.within, (0, 1 << 32))):
            self.assertRaises(ValueError, function, *given)


if __name__ == '__main__':
    counted.main()
