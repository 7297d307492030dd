package org.simbegyor.ndef;

import java.util.Arrays;
import org.jspecify.annotations.Nullable;

/** How large a message may be, and whether its payloads are checked. */
public final class Limits {
    private static final Limits DEFAULTS = new Limits(1048576, 1024, 4096, 0);

    private final long payload;
    private final int records;
    private final int chunks;
    private final int flags;

    private Limits(long payload, int records, int chunks, int flags) {
        this.payload = payload;
        this.records = records;
        this.chunks = chunks;
        this.flags = flags;
    }

    /**
     * Limits that suit most tags: 1048576 bytes of payload, 1024 records, 4096 chunks; payloads are checked.
     *
     * @return these limits
     */
    public static Limits defaults() {
        return DEFAULTS;
    }

    /**
     * The most bytes of one record's payload, its chunks joined.
     *
     * @return 1 to 4294967295
     */
    public long payload() {
        return payload;
    }

    /**
     * The most records of the message.
     *
     * @return 1 to 65535
     */
    public int records() {
        return records;
    }

    /**
     * The most chunks of one record.
     *
     * @return 1 to 65535
     */
    public int chunks() {
        return chunks;
    }

    /**
     * Whether payloads are not checked.
     *
     * @return true, if any bytes will do as a payload
     */
    public boolean isOpaque() {
        return flags != 0;
    }

    /**
     * These limits with another payload.
     *
     * @param bytes the most bytes of a payload
     * @return the limits
     * @throws IllegalArgumentException if it is not 1 to 4294967295
     */
    public Limits withPayload(long bytes) {
        if (bytes != (bytes & 0xffffffffL)) {
            throw new IllegalArgumentException("a payload has at most 4294967295 bytes");
        }
        return new Limits(bytes, records, chunks, flags).checked();
    }

    /**
     * These limits with another number of records.
     *
     * @param count the most records of a message
     * @return the limits
     * @throws IllegalArgumentException if it is not 1 to 65535
     */
    public Limits withRecords(int count) {
        return new Limits(payload, count, chunks, flags).checked();
    }

    /**
     * These limits with another number of chunks.
     *
     * @param count the most chunks of a record
     * @return the limits
     * @throws IllegalArgumentException if it is not 1 to 65535
     */
    public Limits withChunks(int count) {
        return new Limits(payload, records, count, flags).checked();
    }

    /**
     * These limits with payloads that are checked, or not.
     *
     * @param isOpaque true, if payloads are not to be checked
     * @return the limits
     */
    public Limits withOpaque(boolean isOpaque) {
        return new Limits(payload, records, chunks, isOpaque ? Numbers.OPAQUE : 0);
    }

    private Limits checked() {
        if (Library.begin(words(Profile.STRICT), new long[Numbers.CHECKER_LONGS]) != Numbers.OK) {
            throw new IllegalArgumentException(this + ": a limit is out of range");
        }
        return this;
    }

    /** The flags of {@code ndef_limits}. */
    int flags(Profile profile) {
        return flags | profile.flags();
    }

    /** The four words of {@code ndef_limits}. */
    int[] words(Profile profile) {
        return new int[] {(int) payload, records, chunks, flags(profile)};
    }

    @Override
    public boolean equals(@Nullable Object other) {
        return other instanceof Limits && payload == ((Limits) other).payload
                && Arrays.equals(words(Profile.STRICT), ((Limits) other).words(Profile.STRICT));
    }

    @Override
    public int hashCode() {
        return Arrays.hashCode(words(Profile.STRICT));
    }

    @Override
    public String toString() {
        return "Limits payload=" + payload + " records=" + records + " chunks=" + chunks
                + (isOpaque() ? " opaque" : "");
    }
}
