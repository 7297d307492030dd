"""What is strange in a record of an accepted message, by the table of docs/EXPLAIN.md, and the sentence that says it."""
import truths

SAME_ID = 'Another record has the same id.'
SWAPPED = 'Every second octet of the text is 0: it may be little-endian, without a byte order mark.'
SAME_LANGUAGE = 'Two titles of the smart poster have the same language.'
NO_CARRIER = 'The request has no alternative carrier (`ac`).'
SECOND_COLLISION = 'The request has a second collision record (`cr`).'
LOOSE = 'A reference of an alternative carrier (`ac`) is to no record of the message.'
ALL = (SAME_ID, SWAPPED, SAME_LANGUAGE, NO_CARRIER, SECOND_COLLISION, LOOSE)


def id_of(chunk, octets):
    """The id of a record."""
    ends = chunk.at + chunk.begins
    return octets[ends - chunk.id_length:ends]


def references(payload):
    """The references of an alternative carrier, the auxiliary ones too."""
    ends = 2 + payload[1]
    found, at = [payload[2:ends]], ends + 1
    for _ in range(payload[ends]):
        found.append(payload[at + 1:at + 1 + payload[at]])
        at += 1 + payload[at]
    return found


def of_text(payload):
    text = payload[1 + (payload[0] & 0x3f):]
    is_swapped = payload[0] & 0x80 and text and text[:2] not in (b'\xfe\xff', b'\xff\xfe') and not any(text[1::2])
    return SWAPPED if is_swapped else None


def of_poster(records):
    titles = [record.payload[1:1 + (record.payload[0] & 0x3f)].lower() for record in records if record.kind('Sp') == 'T']
    return SAME_LANGUAGE if len(set(titles)) < len(titles) else None


def of_handover(table, records, ids):
    kinds = [record.kind(table) for record in records]
    if table == 'Hr' and 'ac' not in kinds:
        return NO_CARRIER
    if kinds.count('cr') > 1:
        return SECOND_COLLISION
    found = [reference for record, kind in zip(records, kinds) if kind == 'ac' for reference in references(record.payload)]
    return LOOSE if any(not reference or reference not in ids for reference in found) else None


def of_record(octets, index):
    """What is said of the record with this index, from 0: of its payload, or else of its id; None where nothing is strange."""
    chunks = truths.chunks_of(octets)
    records = [chunk for chunk, before in zip(chunks, [None, *chunks]) if before is None or not before.chunked]
    ids = [id_of(record, octets) for record in records]
    record = records[index]
    kind, payload, said = '' if record.chunked else record.kind(''), record.payload, None
    if kind == 'T':
        said = of_text(payload)
    elif kind == 'Sp':
        said = of_poster(truths.chunks_of(payload))
    elif kind in ('Hr', 'Hs'):
        said = of_handover(kind, truths.chunks_of(payload[1:]), ids)
    return said or (SAME_ID if ids[index] and ids.count(ids[index]) > 1 else None), len(records)
