package org.simbegyor.ndef;

import java.util.AbstractList;
import java.util.Optional;
import java.util.RandomAccess;

/**
 * In which field each byte stands of the message with which some bytes begin. The fields follow one another without a
 * gap. Of bytes that are refused there are the fields before the refused byte.
 */
public final class Fields extends AbstractList<Field> implements RandomAccess {
    private static final int COLUMNS = 4;

    private final byte[] bytes;
    private final int[] rows;
    private final FormatException refusal;

    private Fields(byte[] bytes, int[] rows, FormatException refusal) {
        this.bytes = bytes;
        this.rows = rows;
        this.refusal = refusal;
    }

    /**
     * The fields of bytes, within the default limits, with the strict profile.
     *
     * @param bytes the bytes; others may follow the message
     * @return the fields
     */
    public static Fields of(byte[] bytes) {
        return of(bytes, Limits.defaults(), Profile.STRICT);
    }

    /**
     * The fields of bytes. Payloads are validated, whatever the limits say.
     *
     * @param bytes the bytes; others may follow the message
     * @param limits how large the message may be
     * @param profile what becomes of reserved values
     * @return the fields
     */
    public static Fields of(byte[] bytes, Limits limits, Profile profile) {
        byte[] own = bytes.clone();
        long[] why = new long[3];
        int[] words = limits.withOpaque(false).words(profile);
        int[] rows = Library.list(Library.FIELDS, own, null, 0, own.length, words, why);
        return new Fields(own, rows, why[1] == 0 ? null : FormatException.of(why));
    }

    /**
     * Why the bytes are refused.
     *
     * @return the refusal, if they are refused
     */
    public Optional<FormatException> refusal() {
        return Optional.ofNullable(refusal);
    }

    @Override
    public Field get(int index) {
        if (index < 0 || index >= size()) {
            throw new IndexOutOfBoundsException("there are " + size() + " fields, and none has the index " + index);
        }
        int row = COLUMNS * index;
        byte[] own = NdefRecord.part(bytes, rows[row], rows[row + 1]);
        return new Field(rows[row], rows[row + 2], FieldName.of(rows[row + 3]), own);
    }

    @Override
    public int size() {
        return rows.length / COLUMNS;
    }
}
