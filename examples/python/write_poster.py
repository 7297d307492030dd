"""Writes a tag's message, a smart poster with titles: python3 write_poster.py FILE URI [LANGUAGE=TITLE..]"""
import sys

import simbegyor_ndef as ndef


def poster(uri, titles):
    """The poster of a URI, with its titles."""
    record = ndef.SmartposterRecord(uri)
    for title in titles:
        language, _, text = title.partition('=')
        record.set_title(text, language)
    record.action = 'exec'
    record.resource_type = 'text/html'
    return record


def main(path, uri, *titles):
    """Writes the message; 1 where the record can't be."""
    try:
        message = [poster(uri, titles)]
        with open(path, 'wb') as file:
            count = sum(ndef.message_encoder(message, file))
    except (ValueError, ndef.EncodeError) as error:
        print('no such poster:', error)
        return 1
    print('%d bytes for %s' % (count, message[0]))
    return 0


if __name__ == '__main__':
    sys.exit(main(*sys.argv[1:]))
