package org.simbegyor.ndef;

/**
 * What the library read of a message: a head, and the words of {@code ndef_item} for each record. Each thread keeps one,
 * so what is in it is there until the thread reads again.
 */
final class Buffer {
    private static final int STATUS = 0, PLACE = 1, REASON = 2, COUNT = 3, HEAD = 4;
    /** For how many records a thread has room at first, and for how many at most. */
    private static final int FEW = 24, MOST = 1024;
    private static final ThreadLocal<Buffer> BUFFERS = new ThreadLocal<>();

    private final int[] words;

    private Buffer(int records) {
        words = new int[HEAD + records * Numbers.ITEM_WORDS];
    }

    /** Reads the message with which some of the bytes begin. */
    static Buffer read(byte[] bytes, int at, int length, Limits limits, Profile profile) throws FormatException {
        Buffer buffer = BUFFERS.get();
        if (buffer == null) {
            buffer = kept(new Buffer(FEW));
        }
        buffer.fill(bytes, at, length, limits, profile);
        if (buffer.words[STATUS] == Numbers.BUFFER_TOO_SMALL) {
            int count = buffer.words[COUNT];
            buffer = count <= MOST ? kept(new Buffer(count)) : new Buffer(count);
            buffer.fill(bytes, at, length, limits, profile);
        }
        if (buffer.words[STATUS] != Numbers.OK) {
            throw FormatException.of(buffer.words[PLACE], buffer.words[REASON]);
        }
        return buffer;
    }

    private static Buffer kept(Buffer buffer) {
        BUFFERS.set(buffer);
        return buffer;
    }

    private void fill(byte[] bytes, int at, int length, Limits limits, Profile profile) {
        Library.read(bytes, at, length, (int) limits.payload(), limits.records(), limits.chunks(), limits.flags(profile),
                words, (words.length - HEAD) / Numbers.ITEM_WORDS);
    }

    /** How many bytes the message has. */
    int length() {
        return words[PLACE];
    }

    /** The records of the message, which begins in the array at a place. */
    NdefRecord[] records(byte[] bytes, int base, Profile profile) {
        NdefRecord[] records = new NdefRecord[words[COUNT]];
        for (int i = 0; i < records.length; i++) {
            records[i] = record(bytes, base, HEAD + i * Numbers.ITEM_WORDS, profile);
        }
        return records;
    }

    private NdefRecord record(byte[] bytes, int base, int row, Profile profile) {
        int kind = words[row + Numbers.ITEM_KIND];
        int idLength = words[row + Numbers.ITEM_ID_LENGTH];
        byte[] type = kind == Numbers.KIND_TEXT ? Types.TEXT : kind == Numbers.KIND_URI ? Types.URI
                : NdefRecord.part(bytes, base + words[row + Numbers.ITEM_TYPE_AT], words[row + Numbers.ITEM_TYPE_LENGTH]);
        byte[] id = NdefRecord.part(bytes, base + words[row + Numbers.ITEM_PAYLOAD_AT] - idLength, idLength);
        return new NdefRecord(words[row + Numbers.ITEM_TNF], type, id, payload(bytes, base, row), profile, kind, value(row));
    }

    private byte[] payload(byte[] bytes, int base, int row) {
        if (words[row + Numbers.ITEM_CHUNKS] == 1) {
            return NdefRecord.part(bytes, base + words[row + Numbers.ITEM_PAYLOAD_AT], words[row + Numbers.ITEM_PAYLOAD_LENGTH]);
        }
        byte[] joined = Library.bytes(Library.READ_PAYLOAD, bytes, null, base + words[row + Numbers.ITEM_AT], 0, null);
        if (joined == null) {
            throw new IllegalStateException("another thread changes the bytes");
        }
        return joined;
    }

    /** How the value of a record lies in its payload. */
    private int value(int row) {
        int payloadAt = words[row + Numbers.ITEM_PAYLOAD_AT];
        int textAt = words[row + Numbers.ITEM_TEXT_AT] - payloadAt;
        switch (words[row + Numbers.ITEM_FORM]) {
            case Value.UTF8:
                return Value.text(words[row + Numbers.ITEM_LANGUAGE_AT] - payloadAt, words[row + Numbers.ITEM_LANGUAGE_LENGTH], textAt);
            case Value.URI:
                return Value.uri(words[row + Numbers.ITEM_NUMBER], textAt);
            default:
                return Value.NONE;
        }
    }
}
