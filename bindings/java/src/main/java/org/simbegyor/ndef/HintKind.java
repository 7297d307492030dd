package org.simbegyor.ndef;

/** What a hint is about. The numbers and names are those of {@code ndef_hint_number} in {@code ndef.h}. */
public enum HintKind {
    /** An NDEF message TLV of a tag has bytes for a message, or none. */
    TLV(1),
    /** A message comes after the attribute block of a Type 3 Tag. */
    ATTRIBUTES(2),
    /** A message comes after its length, as in a file of a Type 4 Tag. */
    FILE(3),
    /** A message begins after other bytes. */
    MESSAGE(4),
    /** The terminator of a tag's TLV blocks is in place of a message. */
    TERMINATOR(5),
    /** The bytes are digits. */
    DIGITS(6),
    /** The bytes are a dump by xxd. */
    XXD(7),
    /** The bytes are a dump by hexdump -C. */
    HEXDUMP(8),
    /** The bytes are a dump by od or hexdump of numbers of more than one byte. */
    WORDS(9),
    /** The bytes are an NFC file of a Flipper. */
    FLIPPER(10),
    /** The bytes are what the client of a Proxmark prints. */
    PROXMARK(11),
    /** The bytes may be base64. */
    BASE64(12),
    /** The identifier code of a URI may be missing. */
    CODE(13),
    /** A reader of the standard profile accepts the bytes. */
    STANDARD(14),
    /** Reserved areas of a tag may lie before the end of an NDEF message TLV. */
    INTERRUPTED(15),
    /** A Type 3 Tag is being written: its message is not whole yet. */
    UNFINISHED(16),
    /** The bytes are a dump by od -tx1. */
    OD(17);

    private static final HintKind[] ALL = values();

    private final int number;

    HintKind(int number) {
        this.number = number;
    }

    /** Whether this module knows a kind with a number that the library gave. */
    static boolean knows(int number) {
        return number >= 1 && number <= ALL.length;
    }

    static HintKind of(int number) {
        return ALL[number - 1];
    }

    /**
     * The number of the kind.
     *
     * @return the number in {@code ndef.h}
     */
    public int number() {
        return number;
    }
}
