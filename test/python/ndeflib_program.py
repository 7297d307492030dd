"""A program that is written for ndeflib: it knows no other module. The tests run it as it is."""
import sys

import ndef
import ndef.smartposter
from ndef.record import Record
from ndef.uri import UriRecord


def main():
    octets = bytearray.fromhex('9101085402656e48656c6c6f5101085402656e576f726c64')
    for record in ndef.message_decoder(octets):
        print(record)
    message = [ndef.TextRecord('Hello'), UriRecord('http://nfc.nfcpy.org'), Record('text/plain', '', b'x')]
    print(b''.join(ndef.message_encoder(message)).hex())
    try:
        list(ndef.message_decoder(b'\xff'))
    except ndef.DecodeError:
        print('refused')
    print(isinstance(ndef.SmartposterRecord('tel:1').resource, UriRecord), ndef.smartposter.ActionRecord('exec').action)


if __name__ == '__main__':
    sys.exit(main())
