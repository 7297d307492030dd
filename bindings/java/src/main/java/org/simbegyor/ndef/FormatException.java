package org.simbegyor.ndef;

import java.util.Objects;
import org.jspecify.annotations.Nullable;

/**
 * Bytes are not what they have to be: {@link #place()} gives the first byte that is wrong, and {@link #reason()} why.
 */
public class FormatException extends Exception {
    private static final long serialVersionUID = 1;

    /** The offset of the first refused byte, or -1. */
    private final long place;
    /** Why it is refused. */
    private final Reason reason;

    /** Makes an exception that the program itself throws. It has no offset. */
    public FormatException() {
        this(null, null);
    }

    /**
     * Makes an exception that the program itself throws. It has no offset.
     *
     * @param message what {@link #getMessage()} returns, or null
     */
    public FormatException(@Nullable String message) {
        this(message, null);
    }

    /**
     * Makes an exception that the program itself throws. It has no offset.
     *
     * @param message what {@link #getMessage()} returns, or null
     * @param cause what {@link #getCause()} returns, or null
     */
    public FormatException(@Nullable String message, @Nullable Throwable cause) {
        super(message, cause);
        place = -1;
        reason = Reason.OTHER;
    }

    private FormatException(long place, Reason reason) {
        super(line(place, reason));
        this.place = place;
        this.reason = reason;
    }

    /** What the library refuses: the offset, the reason and a count. */
    static FormatException of(long[] why) {
        return of(why[0], why[1]);
    }

    static FormatException of(long place, long number) {
        return new FormatException(place, Reason.of(number));
    }

    /** Bytes follow where none may follow. */
    static FormatException ofRest(long place) {
        return new FormatException(place, Reason.TRAILING_BYTES);
    }

    /** A refusal in one line, as each language prints it. */
    static String line(long place, Reason reason) {
        return "refused at " + place + ": " + reason + ": " + reason.sentence();
    }

    /**
     * The offset of the first refused byte, counted from 0. No continuation of the bytes up to and with this one is
     * right. If the bytes end too early, it is their number.
     *
     * @return the offset, or -1 where the program made the exception itself
     */
    public long place() {
        return place;
    }

    /**
     * Why the byte is refused.
     *
     * @return the reason; {@link Reason#OTHER} where the program made the exception itself
     */
    public Reason reason() {
        return reason;
    }

    /**
     * What is wrong, in a sentence of English. {@link Sentences#why(byte[])} says more, of the bytes.
     *
     * @return the sentence of the reason, or the message where the library has no reason
     */
    public String sentence() {
        return reason == Reason.OTHER ? Objects.toString(getMessage(), reason.sentence()) : reason.sentence();
    }
}
