package org.simbegyor.ndef;

/** A message with which bytes begin, and where it ends. */
public final class Prefix {
    private final NdefMessage message;
    private final int length;

    Prefix(NdefMessage message, int length) {
        this.message = message;
        this.length = length;
    }

    /**
     * The message.
     *
     * @return the message
     */
    public NdefMessage message() {
        return message;
    }

    /**
     * How many bytes the message has.
     *
     * @return the number of bytes that were read
     */
    public int length() {
        return length;
    }

    @Override
    public String toString() {
        return length + " bytes: " + message;
    }
}
