package org.simbegyor.ndef;

/** Why a byte is refused. The numbers and names are those of {@code ndef.h}. */
public enum Reason {
    /** A reason that the library has not: the program made the exception itself, or only a newer library knows it. */
    OTHER(0, "Other", "Another reason."),
    /** The type name format 7 is reserved. */
    RESERVED_TNF(1),
    /** The first record of a message has to have MB set. */
    BEGIN_MISSING(2),
    /** MB is set again, though the message has begun. */
    BEGIN_AGAIN(3),
    /** The type name format 6 (unchanged) may only continue a chunked record. */
    UNCHANGED_OUTSIDE(4),
    /** A chunked record goes on with the type name format 6 (unchanged). */
    CHANGED_INSIDE(5),
    /** Only the first chunk of a record may have an id. */
    ID_INSIDE(6),
    /** The last record of a message (ME) has to end: CF must be clear. */
    CHUNK_AT_END(7),
    /** An empty record cannot be chunked. */
    CHUNK_OF_EMPTY(8),
    /** The record has more chunks than the limit or a nested message allows. */
    TOO_MANY_PIECES(9),
    /** The message has more records than the limit allows. */
    TOO_MANY_RECORDS(10),
    /** This type name format has no type: TYPE_LENGTH has to be 0. */
    TYPE_NOT_EMPTY(11),
    /** This type name format needs a type: TYPE_LENGTH must not be 0. */
    TYPE_EMPTY(12),
    /** An empty record has only lengths of 0. */
    EMPTY_NOT_EMPTY(13),
    /** The payload is longer than the limit allows. */
    PAYLOAD_TOO_LARGE(14),
    /** Bit 6 of the status octet of a text is reserved: it has to be 0. */
    TEXT_BIT(15),
    /** The language code of a text has to be ASCII. */
    LANGUAGE(16),
    /** The text is not UTF-8. */
    UTF8(17),
    /** The text is not UTF-16. */
    UTF16(18),
    /** The URI identifier codes from 24 to FF (hexadecimal) are reserved. */
    URI_CODE(19),
    /** A smart poster has to have a URI record. */
    URI_MISSING(20),
    /** A smart poster has only one URI record. */
    URI_AGAIN(21),
    /** The handover has another major version than 1. */
    VERSION(22),
    /** Nothing that could follow this byte fits the lengths given so far. */
    DOES_NOT_FIT(23),
    /** The input ends within a message. */
    END_OF_INPUT(24),
    /** A handover request has to begin with a collision resolution record. */
    COLLISION_MISSING(25),
    /** Other bytes follow the message, which is no reason of the library: its number is 0. */
    TRAILING_BYTES(0, "TrailingBytes", "Other bytes follow the message.");

    private static final Reason[] ALL = values();

    private final int number;
    private final String text;
    private final String sentence;

    Reason(int number) {
        this(number, Library.name(Library.REASON_NAME, number), Library.name(Library.REASON_SENTENCE, number));
    }

    Reason(int number, String text, String sentence) {
        this.number = number;
        this.text = text;
        this.sentence = sentence;
    }

    /** The reason with a number that the library gave; {@link #OTHER}, if only a newer library knows it. */
    static Reason of(long number) {
        return number < TRAILING_BYTES.ordinal() ? ALL[(int) number] : OTHER;
    }

    /**
     * The number of the reason.
     *
     * @return the number in {@code ndef.h}; 0 for {@link #OTHER} and {@link #TRAILING_BYTES}
     */
    public int number() {
        return number;
    }

    /**
     * What the reason means.
     *
     * @return a sentence of English
     */
    public String sentence() {
        return sentence;
    }

    /**
     * The name of the reason, as the commands print it.
     *
     * @return a name such as TextBit
     */
    @Override
    public String toString() {
        return text;
    }
}
