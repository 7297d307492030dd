#!/usr/bin/env python3
"""test/embedded/tag.py: prints the pages that examples/boards/write_tag.c writes, as NDEF 1.0 and RTD URI 1.0 lay out its two records, and Type 2
Tag 1.0 the message on the tag."""
URI = b'\x02example.com/log'
LOG = b''.join(b'%02d:00,20.%d\n' % (line % 24, line % 10) for line in range(40))
RECORDS = bytes([0x91, 1, len(URI)]) + b'U' + URI, bytes([0x42, 8]) + len(LOG).to_bytes(4, 'big') + b'text/csv' + LOG


def pages(octets):
    """The octets in pages of four, the last one filled with 0."""
    whole = octets + bytes(-len(octets) % 4)
    return [whole[at:at + 4] for at in range(0, len(whole), 4)]


def main():
    message = b''.join(RECORDS)
    empty, front = b'\x03\0\xfe\0', b'\x03\xff' + len(message).to_bytes(2, 'big')
    for number, octets in [(4, empty), *enumerate(pages(message + b'\xfe'), 5), (4, front)]:
        print(f'page {number}:', octets.hex(' '))


main()
