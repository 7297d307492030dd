package org.simbegyor.ndef;

import java.io.InputStream;
import java.io.SequenceInputStream;
import java.util.ArrayList;
import java.util.Arrays;
import java.util.Collections;
import java.util.List;
import java.util.Objects;
import org.jspecify.annotations.Nullable;

/**
 * A message: at least one record. Its methods are those of {@code android.nfc.NdefMessage}. Each message is one that a
 * reader takes, but for those that {@link #unchecked} makes.
 */
public final class NdefMessage {
    private final NdefRecord[] records;
    /** How the message is read; null where nobody may read it. */
    private final Limits limits;
    private final Profile profile;

    /**
     * Reads a message within the default limits. The message has to be all of the bytes, and its payloads are checked.
     *
     * @param data the bytes
     * @throws FormatException if they are refused
     */
    public NdefMessage(byte[] data) throws FormatException {
        this(whole(data, Limits.defaults(), Profile.STRICT), Limits.defaults(), Profile.STRICT);
    }

    /**
     * Makes a message of records.
     *
     * @param record the first
     * @param records those after it
     * @throws RecordException if {@link #NdefMessage(byte[])} would refuse the message
     */
    public NdefMessage(NdefRecord record, NdefRecord... records) {
        this(joined(record, records));
    }

    /**
     * Makes a message of records.
     *
     * @param records the records
     * @throws RecordException if {@link #NdefMessage(byte[])} would refuse the message
     * @throws IllegalArgumentException if there are none
     */
    public NdefMessage(NdefRecord[] records) {
        this(listed(records), Limits.defaults(), Profile.STRICT);
        check(0, 0);
    }

    /** A message of records in an array that nobody else changes. */
    private NdefMessage(NdefRecord[] records, Limits limits, Profile profile) {
        this.records = records;
        this.limits = limits;
        this.profile = profile;
    }

    /**
     * Makes a message of records for a reader with other limits or another profile.
     *
     * @param records the records
     * @param limits how large the message may be, and whether payloads are checked
     * @param profile what becomes of reserved values
     * @return the message
     * @throws RecordException if {@link #parse} would refuse the message with these
     * @throws IllegalArgumentException if there are no records
     */
    public static NdefMessage of(NdefRecord[] records, Limits limits, Profile profile) {
        Objects.requireNonNull(limits, "the limits are null");
        Objects.requireNonNull(profile, "the profile is null");
        NdefMessage message = new NdefMessage(listed(records), limits, profile);
        message.check(0, 0);
        return message;
    }

    /**
     * Makes a message of records that no reader may take.
     *
     * @param records the records
     * @return the message
     * @throws IllegalArgumentException if there are none
     */
    public static NdefMessage unchecked(NdefRecord... records) {
        return new NdefMessage(listed(records), null, Profile.STRICT);
    }

    private static NdefRecord[] joined(NdefRecord record, NdefRecord[] records) {
        NdefRecord[] all = new NdefRecord[1 + records.length];
        all[0] = record;
        System.arraycopy(records, 0, all, 1, records.length);
        return all;
    }

    /** A copy of the records of a message. */
    private static NdefRecord[] listed(NdefRecord[] records) {
        NdefRecord[] all = records.clone();
        if (all.length == 0) {
            throw new IllegalArgumentException("a message has at least one record");
        }
        for (NdefRecord record : all) {
            Objects.requireNonNull(record, "a record is null");
        }
        return all;
    }

    /** Looks whether the message is taken in a form, a record at a time. */
    private void check(int form, int chunk) {
        if (limits == null) {
            return;
        }
        Checker checker = new Checker(limits, profile);
        for (int i = 0; i < records.length; i++) {
            long begin = checker.length();
            try {
                checker.feed(bytes(form, chunk, i, i + 1));
            } catch (FormatException refusal) {
                throw new RecordException(i, refusal.place() - begin, refusal.reason(), sentence(form, chunk, i, refusal));
            }
        }
    }

    /** What was wanted where a record is refused: the library says so of the bytes up to its end. */
    private String sentence(int form, int chunk, int index, FormatException refusal) {
        byte[] bytes = bytes(form, chunk, 0, index + 1);
        return limits.isOpaque() ? refusal.sentence() : Sentences.why(bytes, limits, profile).orElse(refusal.sentence());
    }

    /**
     * Reads a message that has to be all of the bytes.
     *
     * @param bytes the bytes, which no other thread may change meanwhile
     * @param limits how large the message may be
     * @param profile what becomes of reserved values
     * @return the message
     * @throws FormatException if the bytes are refused
     */
    public static NdefMessage parse(byte[] bytes, Limits limits, Profile profile) throws FormatException {
        return new NdefMessage(whole(bytes, limits, profile), limits, profile);
    }

    /** The records of a message that has to be all of the bytes. */
    private static NdefRecord[] whole(byte[] bytes, Limits limits, Profile profile) throws FormatException {
        Objects.requireNonNull(bytes, "the bytes are null");
        Buffer buffer = Buffer.read(bytes, 0, bytes.length, limits, profile);
        if (buffer.length() != bytes.length) {
            throw FormatException.ofRest(buffer.length());
        }
        return buffer.records(bytes, 0, profile);
    }

    /**
     * Reads the message with which some bytes begin; others may follow.
     *
     * @param bytes an array, which no other thread may change meanwhile
     * @param at the offset in it where the message begins
     * @param length how many bytes may be read
     * @param limits how large the message may be
     * @param profile what becomes of reserved values
     * @return the message and its length
     * @throws FormatException if no message begins there; its offset counts from {@code at}
     * @throws IndexOutOfBoundsException if the array has fewer bytes
     */
    public static Prefix parsePrefix(byte[] bytes, int at, int length, Limits limits, Profile profile)
            throws FormatException {
        Objects.requireNonNull(bytes, "the bytes are null");
        Buffer buffer = Buffer.read(bytes, at, length, limits, profile);
        int end = buffer.length();
        return new Prefix(new NdefMessage(buffer.records(bytes, at, profile), limits, profile), end);
    }

    /**
     * The records.
     *
     * @return a new array of them
     */
    public NdefRecord[] getRecords() {
        return records.clone();
    }

    /** The number of records. */
    int count() {
        return records.length;
    }

    /**
     * The length of what {@link #toByteArray()} returns.
     *
     * @return the number of bytes
     */
    public int getByteArrayLength() {
        return length(0, 0, 0, records.length);
    }

    /** The length of some of the records in a form, from an index up to another. */
    private int length(int form, int chunk, int from, int to) {
        long length = 0;
        for (int i = from; i < to; i++) {
            length += records[i].write(form, chunk, null, 0);
        }
        if (length > Integer.MAX_VALUE) {
            throw new OutOfMemoryError("no array has " + length + " bytes");
        }
        return (int) length;
    }

    /**
     * The bytes of the message, each record in one chunk and each length as short as it can be.
     *
     * @return the bytes
     */
    public byte[] toByteArray() {
        return bytes(0, 0, 0, records.length);
    }

    /**
     * The bytes of the message in another form.
     *
     * @param hasLongLengths true, if each payload length is to be written in four bytes
     * @param chunk the payload bytes of each chunk but the last of a record; 0 writes each record in one chunk
     * @return the bytes
     * @throws RecordException if a reader of the message refuses it in this form: with too many chunks
     * @throws IllegalArgumentException if {@code chunk} is not 0 to 4294967295
     */
    public byte[] toByteArray(boolean hasLongLengths, long chunk) {
        if (chunk != (chunk & 0xffffffffL)) {
            throw new IllegalArgumentException("a chunk has 1 to 4294967295 bytes");
        }
        int form = hasLongLengths ? Numbers.WRITE_LONG : 0;
        check(form, (int) chunk);
        return bytes(form, (int) chunk, 0, records.length);
    }

    /**
     * The bytes of {@link #toByteArray()}, as they are asked for: they are never whole in memory. A read gives those of one
     * record at most. Nothing has to be closed.
     *
     * @return a new stream of the bytes
     */
    public InputStream toInputStream() {
        return stream(0, 0);
    }

    /**
     * The bytes of {@link #toByteArray(boolean, long)}, as they are asked for.
     *
     * @param hasLongLengths true, if each payload length is to be written in four bytes
     * @param chunk the payload bytes of each chunk but the last of a record; 0 writes each record in one chunk
     * @return a new stream of the bytes
     * @throws RecordException if a reader of the message refuses it in this form: with too many chunks
     * @throws IllegalArgumentException if {@code chunk} is not 0 to 4294967295
     */
    public InputStream toInputStream(boolean hasLongLengths, long chunk) {
        if (chunk != (chunk & 0xffffffffL)) {
            throw new IllegalArgumentException("a chunk has 1 to 4294967295 bytes");
        }
        int form = hasLongLengths ? Numbers.WRITE_LONG : 0;
        check(form, (int) chunk);
        return stream(form, (int) chunk);
    }

    private InputStream stream(int form, int chunk) {
        List<InputStream> streams = new ArrayList<>(records.length);
        for (int i = 0; i < records.length; i++) {
            streams.add(new RecordInputStream(records[i], flags(form, i), chunk));
        }
        return new SequenceInputStream(Collections.enumeration(streams));
    }

    /** The flags of the record with an index, written in a form. */
    private int flags(int form, int i) {
        return form | (i == 0 ? Numbers.WRITE_FIRST : 0) | (i + 1 == records.length ? Numbers.WRITE_LAST : 0);
    }

    /** Some of the records in a form, from an index up to another. */
    private byte[] bytes(int form, int chunk, int from, int to) {
        byte[] bytes = new byte[length(form, chunk, from, to)];
        int at = 0;
        for (int i = from; i < to; i++) {
            at += (int) records[i].write(flags(form, i), chunk, bytes, at);
        }
        return bytes;
    }

    /**
     * The links of the message: each alternative carrier of its first handover, and the record to which it refers.
     * The time grows with carriers times records.
     *
     * @return the links, in the order of the carriers; none where the message has no handover
     * @throws FormatException if the payload of the handover is refused, which only a record can have that was not
     * checked
     */
    public List<Link> links() throws FormatException {
        for (NdefRecord record : records) {
            int kind = record.kind(Numbers.KIND_OTHER);
            if (kind == Numbers.KIND_REQUEST || kind == Numbers.KIND_SELECT) {
                record.decode();
                return Link.listOf(toByteArray(), records, record.payload());
            }
        }
        return Collections.emptyList();
    }

    /**
     * In which field each byte stands of what {@link #toByteArray()} returns. {@link Fields#of} looks at any bytes.
     *
     * @return the fields
     */
    public Fields fields() {
        return Fields.of(toByteArray());
    }

    @Override
    public boolean equals(@Nullable Object other) {
        return other instanceof NdefMessage && Arrays.equals(records, ((NdefMessage) other).records);
    }

    @Override
    public int hashCode() {
        return Arrays.hashCode(records);
    }

    @Override
    public String toString() {
        return "NdefMessage " + Arrays.toString(records);
    }
}
