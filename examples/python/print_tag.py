"""Prints the records of a tag's message: python3 print_tag.py FILE"""
import sys

import simbegyor_ndef as ndef


def describe(record):
    """A line for a record."""
    if isinstance(record, ndef.TextRecord):
        return 'text (%s): %s' % (record.language, record.text)
    if isinstance(record, ndef.UriRecord):
        return 'link: %s' % record.uri
    if isinstance(record, ndef.SmartposterRecord):
        return 'poster: %s, titles %s' % (record.resource.iri, record.titles)
    return str(record)


def main(path):
    """Prints the records; 1 where the octets are no message."""
    with open(path, 'rb') as file:
        try:
            for record in ndef.message_decoder(file):
                print(describe(record))
        except ndef.DecodeError as error:
            print('not a message:', error)
            return 1
    return 0


if __name__ == '__main__':
    sys.exit(main(sys.argv[1]))
