package org.simbegyor.ndef;

/** A message isn't made or written, since its reader would refuse one of its records. */
public final class RecordException extends IllegalArgumentException {
    private static final long serialVersionUID = 1;

    /** The index of the record in the message. */
    private final int record;
    /** The offset of the refused byte in the record. */
    private final long place;
    /** Why it is refused. */
    private final Reason reason;
    /** What was wanted there. */
    private final String sentence;

    RecordException(int record, long place, Reason reason, String sentence) {
        super("record " + record + ": " + FormatException.line(place, reason));
        this.record = record;
        this.place = place;
        this.reason = reason;
        this.sentence = sentence;
    }

    /**
     * Which record is refused.
     *
     * @return its index in the message, counted from 0
     */
    public int record() {
        return record;
    }

    /**
     * The offset of the refused byte.
     *
     * @return the offset, counted from the first byte of the record
     */
    public long place() {
        return place;
    }

    /**
     * Why the byte is refused.
     *
     * @return the reason
     */
    public Reason reason() {
        return reason;
    }

    /**
     * What was wanted there, or what the reason means where nothing more is known.
     *
     * @return a sentence of English
     */
    public String sentence() {
        return sentence;
    }
}
