package org.simbegyor.ndef;

import java.nio.ByteBuffer;

/**
 * Checks a message whose bytes arrive in parts. It looks at each once, and keeps those of one type at most, while that
 * arrives in parts.
 */
public final class Checker {
    private final long[] state = new long[Numbers.CHECKER_LONGS];
    /** What the library answered last: an offset, a reason and the number of records. */
    private final long[] checked = new long[3];
    private long fed;

    /** Begins a check within the default limits, with the strict profile. */
    public Checker() {
        this(Limits.defaults(), Profile.STRICT);
    }

    /**
     * Begins a check.
     *
     * @param limits how large the message may be
     * @param profile what becomes of reserved values
     */
    public Checker(Limits limits, Profile profile) {
        Library.begin(limits.words(profile), state);
    }

    /**
     * Checks the next bytes: those of the buffer from its position to its limit. The position moves past what belongs
     * to the message: up to the limit where more must follow, to the end of the message, or to the refused byte.
     *
     * @param bytes the bytes
     * @return true, if the message is whole; false, if more bytes must follow
     * @throws FormatException if a byte is refused; its offset counts from the first byte that was fed
     */
    public synchronized boolean feed(ByteBuffer bytes) throws FormatException {
        int length = bytes.remaining();
        int status;
        if (bytes.isDirect()) {
            status = Library.feedDirect(state, bytes, bytes.position(), length, checked);
        } else if (bytes.hasArray()) {
            status = Library.feed(state, bytes.array(), bytes.arrayOffset() + bytes.position(), length, checked);
        } else {
            byte[] copy = new byte[length];
            bytes.duplicate().get(copy);
            status = Library.feed(state, copy, 0, length, checked);
        }
        long taken = Math.max(0, Math.min(checked[0] - fed, length));
        bytes.position(bytes.position() + (int) taken);
        return isWhole(status, length);
    }

    /**
     * Checks the next bytes.
     *
     * @param bytes the bytes
     * @return true, if the message is whole; false, if more bytes must follow
     * @throws FormatException if a byte is refused; its offset counts from the first byte that was fed
     */
    public synchronized boolean feed(byte[] bytes) throws FormatException {
        return isWhole(Library.feed(state, bytes, 0, bytes.length, checked), bytes.length);
    }

    private boolean isWhole(int status, int length) throws FormatException {
        fed += length;
        if (status != Numbers.OK && status != Numbers.MORE) {
            throw FormatException.of(checked);
        }
        return status == Numbers.OK;
    }

    /**
     * How far the message goes.
     *
     * @return its length where it is whole, the offset of the refused byte, or else the number of bytes fed
     */
    public synchronized long length() {
        return checked[0];
    }

    /**
     * The records of the message.
     *
     * @return their number where the message is whole, else 0
     */
    public synchronized int records() {
        return (int) checked[2];
    }
}
