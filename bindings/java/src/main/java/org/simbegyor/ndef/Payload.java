package org.simbegyor.ndef;

import java.util.Arrays;
import java.util.Objects;
import org.jspecify.annotations.Nullable;

/**
 * What the payload of a record says. Only the classes in this package extend it; sealed interfaces would need Java 17. Two are equal if they are of the same
 * class, and their payloads have the same bytes.
 */
public abstract class Payload {
    private final byte[] type;
    private final byte[] payload;

    /** The payload of a type, of arrays that nobody else changes. */
    Payload(byte[] type, byte[] payload) {
        this.type = type;
        this.payload = payload;
    }

    static Payload of(NdefRecord record) throws FormatException {
        byte[] payload = record.payload();
        switch (record.kind(Numbers.KIND_OTHER)) {
            case Numbers.KIND_TEXT:
                TextRecord text = Value.text(record.value(), payload);
                return text != null ? text : new TextRecord(payload);
            case Numbers.KIND_URI:
                UriRecord uri = Value.uri(record.value(), payload);
                return uri != null ? uri : new UriRecord(payload, record.profile());
            case Numbers.KIND_SMART_POSTER:
                return new SmartPoster(payload, record.profile());
            case Numbers.KIND_REQUEST:
                return new HandoverRequest(payload, record.profile());
            case Numbers.KIND_SELECT:
                return new HandoverSelect(payload, record.profile());
            case Numbers.KIND_CARRIER:
                return new Carrier(payload);
            default:
                return new Other(record);
        }
    }

    /** Reads a payload. */
    interface Reader<P> {
        P read() throws FormatException;
    }

    /** What is read of a payload that was written just now. */
    static <P> P promised(Reader<P> reader) {
        try {
            return reader.read();
        } catch (FormatException error) {
            throw new IllegalArgumentException("there is no such payload: " + error.getMessage(), error);
        }
    }

    /** The payload itself, which nobody may change. */
    byte[] payload() {
        return payload;
    }

    /** A part of the payload. */
    byte[] part(int at, int length) {
        return Arrays.copyOfRange(payload, at, at + length);
    }

    /**
     * The payload.
     *
     * @return a copy of its bytes
     */
    public byte[] toByteArray() {
        return payload.clone();
    }

    /**
     * The record with this payload, without an id. {@link NdefRecord#withId} gives it one.
     *
     * @return the record
     */
    public NdefRecord toRecord() {
        return NdefRecord.wellKnown(type, payload);
    }

    @Override
    public boolean equals(@Nullable Object other) {
        return other != null && getClass() == other.getClass() && Arrays.equals(payload, ((Payload) other).payload);
    }

    @Override
    public int hashCode() {
        return Objects.hash(getClass(), Arrays.hashCode(payload));
    }

    @Override
    public String toString() {
        return getClass().getSimpleName() + " payload=" + Strings.hexadecimal(payload);
    }

    /** The payload of a record of another type. */
    public static final class Other extends Payload {
        private final NdefRecord record;

        Other(NdefRecord record) {
            super(null, record.payload());
            this.record = record;
        }

        @Override
        public NdefRecord toRecord() {
            return record;
        }

        @Override
        public boolean equals(@Nullable Object other) {
            return other instanceof Other && record.equals(((Other) other).record);
        }

        @Override
        public int hashCode() {
            return record.hashCode();
        }
    }
}
