"""Answers a handover request with the carriers that there are: python3 answer_handover.py REQUEST ANSWER TYPE.."""
import sys

import simbegyor_ndef as ndef


def answer(request_message, known):
    """The message that selects the requested carriers of known types; an error where there is none."""
    request, *others = request_message
    select = ndef.HandoverSelectRecord(request.version_string)
    carriers = []
    for carrier in request.alternative_carriers:
        for record in others:
            if record.name == carrier.carrier_data_reference and record.type in known:
                select.add_alternative_carrier('active', record.name)
                carriers.append(ndef.Record(record.type, record.name, record.data))
    if not carriers:
        select.set_error(3, 1)
    return [select, *carriers]


def main(request_path, answer_path, *known):
    """Writes the answer; 1 where the octets are no handover request."""
    with open(request_path, 'rb') as file:
        message = list(ndef.message_decoder(file.read()))
    if not message or not isinstance(message[0], ndef.HandoverRequestRecord):
        print('no handover request')
        return 1
    with open(answer_path, 'wb') as file:
        file.write(b''.join(ndef.message_encoder(answer(message, known))))
    return 0


if __name__ == '__main__':
    sys.exit(main(*sys.argv[1:]))
