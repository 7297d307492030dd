package org.simbegyor.ndef;

import java.io.EOFException;
import java.io.IOException;
import java.io.InputStream;
import java.util.Objects;
import org.jspecify.annotations.Nullable;

/**
 * The bytes of a record whose payload is read from another stream, as they are asked for: neither is whole in memory. The
 * length of the payload is given before. Nobody checks what the payload holds: a reader may refuse the message. Records one
 * after the other, as in a {@link java.io.SequenceInputStream}, are a message.
 */
public final class RecordInputStream extends InputStream {
    /** Where in its message a record is written. */
    public enum Position {
        /** It is the only record. */
        ONLY(Library.FIRST | Library.LAST),
        /** It is the first one, and others follow. */
        FIRST(Library.FIRST),
        /** It is neither the first nor the last one. */
        MIDDLE(0),
        /** It is the last one, and others are before it. */
        LAST(Library.LAST);

        private final int flags;

        Position(int flags) {
            this.flags = flags;
        }
    }

    private static final int BLOCK = 8192;
    private static final byte[] NONE = {};

    private final int[] state = new int[Numbers.WRITER_WORDS];
    private final byte[] type;
    private final byte[] id;
    private final long length;
    /** Where the payload comes from; null where all of it is the part. */
    private final @Nullable InputStream payload;
    /** The bytes of the payload that are at hand, and those of them that aren't written. */
    private byte[] part;
    private int at;
    private int left;
    private @Nullable String failure;

    /**
     * Begins a record.
     *
     * @param record a record with the type name format, the type and the id; its payload isn't written
     * @param payload the payload, which is closed with this stream
     * @param length the number of bytes of the payload
     * @param position where in its message the record is written
     * @throws IllegalArgumentException if no record of the type name format has a payload of this length
     */
    public RecordInputStream(NdefRecord record, InputStream payload, long length, Position position) {
        this(record, Objects.requireNonNull(payload, "the payload is null"), NONE, length,
                Objects.requireNonNull(position, "the position is null").flags, 0);
    }

    /** A record as it is, written in a form and at a place that the flags say. */
    RecordInputStream(NdefRecord record, int flags, int chunk) {
        this(record, null, record.payload(), record.payload().length, flags, chunk);
    }

    private RecordInputStream(NdefRecord record, @Nullable InputStream payload, byte[] part, long length, int flags, int chunk) {
        type = record.type();
        id = record.id();
        this.payload = payload;
        this.part = part;
        this.length = length;
        left = part.length;
        if (!Library.beginRecord(new int[] {record.getTnf(), flags, chunk}, type.length, id.length, length, state)) {
            throw new IllegalArgumentException("a record of the type name format " + record.getTnf() + " has no payload of "
                    + length + " bytes");
        }
    }

    @Override
    public int read() throws IOException {
        byte[] one = new byte[1];
        return read(one, 0, 1) < 0 ? -1 : one[0] & 255;
    }

    /**
     * Reads the next bytes of the record: those that are at hand, at least one.
     *
     * @param buffer the array to which they are written
     * @param from where in the array they begin
     * @param size how many at most
     * @return how many there are; -1 where the record is whole
     * @throws EOFException if the payload has fewer bytes than was said
     * @throws IOException if it has more, which is seen after its last byte; or as the other stream throws it
     * @throws IndexOutOfBoundsException if the array has fewer bytes
     */
    @Override
    public int read(byte[] buffer, int from, int size) throws IOException {
        Objects.checkFromIndexSize(from, size, buffer.length);
        while (size > 0) {
            if (failure != null) {
                throw new IOException(failure);
            }
            int taken = state[Numbers.WRITER_TAKEN];
            int count = Library.nextBytes(state, type, id, part, at, left, buffer, from, size);
            if (count < 0) {
                refuseMore();
                return -1;
            }
            at += state[Numbers.WRITER_TAKEN] - taken;
            left -= state[Numbers.WRITER_TAKEN] - taken;
            if (count > 0) {
                return count;
            }
            fetch();
        }
        return 0;
    }

    /** Fetches more of the payload, of which all that was at hand is written. */
    private void fetch() throws IOException {
        if (payload == null) {
            throw new IllegalStateException("another thread reads the stream");
        }
        long taken = Integer.toUnsignedLong(state[Numbers.WRITER_TAKEN]);
        if (part == NONE) {
            part = new byte[(int) Math.min(BLOCK, length)];
        }
        at = 0;
        left = payload.read(part, 0, (int) Math.min(part.length, length - taken));
        if (left < 0) {
            left = 0;
            failure = "the payload has " + taken + " bytes, and " + length + " were said";
            throw new EOFException(failure);
        }
    }

    private void refuseMore() throws IOException {
        if (payload != null && payload.read() >= 0) {
            failure = "the payload has more than the " + length + " bytes that were said";
            throw new IOException(failure);
        }
    }

    /**
     * Closes the stream of the payload.
     *
     * @throws IOException as that stream throws it
     */
    @Override
    public void close() throws IOException {
        if (payload != null) {
            payload.close();
        }
    }
}
