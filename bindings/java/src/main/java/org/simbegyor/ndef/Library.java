package org.simbegyor.ndef;

import java.nio.ByteBuffer;

/**
 * The calls of the library for C; {@code native/ndef_jni.c} makes them. Numbers without a sign are ints with their
 * bits.
 */
final class Library {
    /** What {@link #bytes} is asked for; {@code ndef_jni.c} has the same numbers. */
    static final int READ_PAYLOAD = 0, READ_URI = 1, READ_TEXT = 2, WRITE_URI = 3, WRITE_TEXT = 4, WRITE_CARRIER = 5,
            WRITE_ACTION = 6, WRITE_SIZE = 7, WRITE_COLLISION = 8, WRITE_ERROR = 9, WRITE_ERROR_NUMBER = 10,
            WRITE_HANDOVER = 11;
    /** What {@link #sentence} is asked for. */
    static final int WHY = 13, HINT = 14;
    /** What {@link #warning} is asked for. */
    static final int FIELD_WARNING = 15, RECORD_WARNING = 16;
    /** What {@link #list} is asked for. */
    static final int RECORDS = 0, REFERENCES = 1, ICONS = 2, TITLE = 3, MEDIA_TYPE = 4, LINKS = 5, FIELDS = 6;
    /** What {@link #name} is asked for. */
    static final int REASON_NAME = 0, REASON_SENTENCE = 1, FIELD_NAME = 2, URI_PREFIX = 3;

    /** How a record is written, by the names that {@link RecordInputStream.Position} has had since 1.0. */
    static final int FIRST = Numbers.WRITE_FIRST, LAST = Numbers.WRITE_LAST;

    static {
        Loader.load();
    }

    private Library() {
    }

    /**
     * Reads the message with which some of the bytes begin into a buffer for {@code size} records, as {@link Buffer} has it.
     * The numbers are those of {@code ndef_limits}.
     */
    static native void read(byte[] bytes, int at, int length, int payload, int records, int chunks, int flags,
            int[] buffer, int size);

    /**
     * Lists what the call names: rows of numbers. Null where the library refuses the bytes; then {@code why}, if it is
     * there, has the place, the reason and a count.
     */
    static native int[] list(int call, byte[] one, byte[] two, int at, int length, int[] limits, long[] why);

    /** What a record of this type is; {@code within} is 0 or the kind of the payload that the record stands in. */
    static native int kind(int tnf, byte[] type, int within);

    /**
     * Writes a record, and answers its length; without a buffer that alone. {@code how} is the TNF, flags and the
     * chunk.
     */
    static native long record(int[] how, byte[] type, byte[] id, byte[] payload, byte[] buffer, int at);

    /**
     * Begins a record that is written in steps, of such lengths: whether there is one. {@code how} is as {@link #record}
     * has it, and the state has eight words.
     */
    static native boolean beginRecord(int[] how, int type, int id, long payload, int[] state);

    /**
     * Writes the next bytes of a record to some of a buffer, whose payload goes on with some bytes of a part. Answers how
     * many; -1 where the record is whole.
     */
    static native int nextBytes(int[] state, byte[] type, byte[] id, byte[] part, int at, int length, byte[] buffer,
            int from, int size);

    /** Bytes that the call makes; null where it refuses its arguments. */
    static native byte[] bytes(int call, byte[] one, byte[] two, int first, int second, long[] why);

    /** The sentence of ASCII that the call writes of bytes; null where it writes none. */
    static native byte[] sentence(int call, byte[] bytes, int[] limits);

    /** The sentence of ASCII on a field by the number of its name, or on a record by its index; null where there is none. */
    static native byte[] warning(int call, byte[] bytes, int number);

    /** What may help where bytes are refused: the number of a hint, a place and a length; null where nothing is known to. */
    static native int[] hint(byte[] bytes, int[] limits);

    /** The payload of an alternative carrier; null where there is none. */
    static native byte[] alternative(int power, byte[] references, int[] lengths);

    /** The numbers that a payload of a kind says; null where it is none. */
    static native int[] numbers(int kind, byte[] payload, int flags, long[] why);

    /** Begins a check: the answer is not {@link #OK} where a limit is out of range. */
    static native int begin(int[] limits, long[] state);

    /** Feeds a check with some bytes of an array. */
    static native int feed(long[] state, byte[] bytes, int at, int length, long[] checked);

    /** Feeds a check with some bytes of a direct buffer. */
    static native int feedDirect(long[] state, ByteBuffer bytes, int at, int length, long[] checked);

    /** A name; null where there is none. */
    static native String name(int list, int number);

    /** What {@link #list} gives for all bytes of an array. */
    static int[] list(int call, byte[] bytes, byte[] more) {
        return list(call, bytes, more, 0, bytes.length, null, null);
    }

    /** The bytes that the call makes of its arguments. */
    static byte[] written(String refusal, int call, byte[] one, byte[] two, int first, int second) {
        byte[] made = bytes(call, one, two, first, second, null);
        if (made == null) {
            throw new IllegalArgumentException(refusal);
        }
        return made;
    }

    /** The numbers that a payload says. */
    static int[] numbers(int kind, byte[] payload, Profile profile) throws FormatException {
        long[] why = new long[3];
        int[] numbers = numbers(kind, payload, profile.flags(), why);
        if (numbers == null) {
            throw FormatException.of(why);
        }
        return numbers;
    }
}
