package org.simbegyor.ndef;

import java.util.Objects;
import java.util.Optional;
import org.jspecify.annotations.Nullable;

/** What may help where bytes are refused, to a program, as {@link Sentences#findHint(byte[])} finds it. */
public final class FoundHint {
    private final HintKind kind;
    private final int place;
    private final int length;
    /** The number of bytes that were given. */
    private final int given;

    private FoundHint(HintKind kind, int place, int length, int given) {
        this.kind = kind;
        this.place = place;
        this.length = length;
        this.given = given;
    }

    /** The hint with the numbers that the library gave; none, if it gave none, or only a newer module knows the hint. */
    static Optional<FoundHint> of(int @Nullable [] numbers, int given) {
        boolean isKnown = numbers != null && HintKind.knows(numbers[0]);
        return isKnown ? Optional.of(new FoundHint(HintKind.of(numbers[0]), numbers[1], numbers[2], given)) : Optional.empty();
    }

    /**
     * What the hint is about.
     *
     * @return the kind
     */
    public HintKind kind() {
        return kind;
    }

    /**
     * Where a message may begin.
     *
     * @return the offset, counted from 0; 0 where the hint names none
     */
    public int place() {
        return place;
    }

    /**
     * The length that a tag has for that message. The bytes that were given may have fewer.
     *
     * @return the number of bytes; 0 where the hint names none
     */
    public int length() {
        return length;
    }

    /**
     * The hint in a sentence of English, which names what a program in Java calls.
     * {@link Sentences#hint(byte[])} names commands instead.
     *
     * @return the sentence
     */
    public String text() {
        switch (kind) {
            case TLV:
                return inTag("in an NDEF TLV of a tag");
            case ATTRIBUTES:
                return inTag("after the attribute block of a Type 3 Tag");
            case FILE:
                return inTag("after its length, as in a file of a Type 4 Tag");
            case MESSAGE:
                return "The bytes may begin with what surrounds a message on a tag; a message begins at byte " + place
                        + ": read `" + copy(place, given) + "`.";
            case INTERRUPTED:
                return "A message may begin at byte " + place + ", in an NDEF TLV of a tag, but "
                        + "reserved areas may lie before its end: use a reader that skips them.";
            default:
                return plain(kind);
        }
    }

    /** The sentence for what a tag has for a message, with what surrounds it there. */
    private String inTag(String around) {
        if (length == 0) {
            return "This tag is empty: it has no bytes for a message.";
        }
        return "A message of length " + length + " may begin at byte " + place + ", " + around + ": read `"
                + copy(Math.min(place, given), Math.min(place + length, given)) + "`.";
    }

    private static String copy(int from, int to) {
        return "Arrays.copyOfRange(bytes, " + from + ", " + to + ")";
    }

    /** The sentence for a hint that names no place. */
    private static String plain(HintKind kind) {
        switch (kind) {
            case TERMINATOR:
                return "FE (hexadecimal) ends the TLV blocks of a tag.";
            case DIGITS:
                return "These are hexadecimal digits, not the bytes that they spell: decode them first.";
            case XXD:
                return "This is a dump by xxd, not the bytes that it spells: decode its digits first.";
            case HEXDUMP:
                return "This is a dump by hexdump, not the bytes that it spells: decode its digits first.";
            case OD:
                return "This is a dump by od, not the bytes that it spells: decode its digits first.";
            case WORDS:
                return "This dump by od or hexdump may show numbers of two bytes, not bytes: decode a dump of single bytes.";
            case FLIPPER:
                return "This is a file of a Flipper, not the bytes: decode the digits of its pages first.";
            case PROXMARK:
                return "This is what a Proxmark prints, not the bytes: decode the digits of its blocks first.";
            case BASE64:
                return "This may be base64, not the bytes that it spells: decode it first, as `Base64.getDecoder()` does.";
            case CODE:
                return "68 (hexadecimal) is the letter h: was the identifier code left out?";
            case UNFINISHED:
                return "This Type 3 Tag is being written: its attribute block says that the message is not whole yet.";
            default:
                return "The standard profile reads this: give `Profile.STANDARD`.";
        }
    }

    @Override
    public boolean equals(@Nullable Object other) {
        if (!(other instanceof FoundHint)) {
            return false;
        }
        FoundHint found = (FoundHint) other;
        return kind == found.kind && place == found.place && length == found.length && given == found.given;
    }

    @Override
    public int hashCode() {
        return Objects.hash(kind, place, length, given);
    }

    @Override
    public String toString() {
        return "FoundHint " + kind + " place=" + place + " length=" + length;
    }
}
