package org.simbegyor.ndef;

import java.util.Arrays;
import java.util.Objects;
import org.jspecify.annotations.Nullable;

/** Bytes of a message that stand in one field. */
public final class Field {
    private final int at;
    private final int depth;
    private final FieldName name;
    private final byte[] bytes;

    Field(int at, int depth, FieldName name, byte[] bytes) {
        this.at = at;
        this.depth = depth;
        this.name = name;
        this.bytes = bytes;
    }

    /**
     * Where the field begins.
     *
     * @return the offset of its first byte, counted from 0
     */
    public int at() {
        return at;
    }

    /**
     * The length of the field.
     *
     * @return the number of its bytes, at least 1
     */
    public int length() {
        return bytes.length;
    }

    /**
     * Whether the field stands in a message within a payload.
     *
     * @return 0 in the message itself, 1 in a message within a payload
     */
    public int depth() {
        return depth;
    }

    /**
     * The name of the field.
     *
     * @return the name
     */
    public FieldName name() {
        return name;
    }

    /**
     * The bytes of the field.
     *
     * @return a copy of them
     */
    public byte[] bytes() {
        return bytes.clone();
    }

    @Override
    public boolean equals(@Nullable Object other) {
        if (!(other instanceof Field)) {
            return false;
        }
        Field field = (Field) other;
        return at == field.at && depth == field.depth && name == field.name && Arrays.equals(bytes, field.bytes);
    }

    @Override
    public int hashCode() {
        return Objects.hash(at, depth, name, Arrays.hashCode(bytes));
    }

    @Override
    public String toString() {
        return at + " " + depth + " " + name + " " + Strings.hexadecimal(bytes);
    }
}
