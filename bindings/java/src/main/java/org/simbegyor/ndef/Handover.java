package org.simbegyor.ndef;

import java.util.ArrayList;
import java.util.Arrays;
import java.util.Collections;
import java.util.List;
import java.util.Objects;

/** What a {@link HandoverRequest} and a {@link HandoverSelect} share. */
public abstract class Handover extends Payload {
    /** The numbers that the library gives: the version, and for a request its random number. */
    private final int[] numbers;
    private final int kind;
    private final List<NdefRecord> records;
    private final List<AlternativeCarrier> alternatives;

    Handover(int kind, byte[] type, byte[] payload, Profile profile) throws FormatException {
        super(type, payload);
        this.kind = kind;
        numbers = Library.numbers(kind, payload, profile);
        int[] rows = Library.list(Library.RECORDS, payload, null, 1, payload.length - 1, null, null);
        records = Collections.unmodifiableList(Arrays.asList(NdefRecord.listOf(payload, rows, profile)));
        List<AlternativeCarrier> found = new ArrayList<>();
        for (NdefRecord record : records) {
            if (record.kind(kind) == Numbers.KIND_ALTERNATIVE) {
                found.add(new AlternativeCarrier(record.payload()));
            }
        }
        alternatives = Collections.unmodifiableList(found);
    }

    int number(int index) {
        return numbers[index];
    }

    /** What a record of this handover is. */
    int kindOf(NdefRecord record) {
        return record.kind(kind);
    }

    /**
     * The major version of Connection Handover.
     *
     * @return 1
     */
    public int majorVersion() {
        return numbers[0];
    }

    /**
     * The minor version of Connection Handover.
     *
     * @return 0 to 15
     */
    public int minorVersion() {
        return numbers[1];
    }

    /**
     * The alternative carriers. {@link NdefMessage#links()} gives the record of each.
     *
     * @return the alternative carriers, in their order
     */
    public List<AlternativeCarrier> alternatives() {
        return alternatives;
    }

    /**
     * All records in the handover.
     *
     * @return the records
     */
    public List<NdefRecord> records() {
        return records;
    }

    /**
     * Builds a handover: its records stand in the order of the calls.
     *
     * @param <B> the class of the builder
     */
    public abstract static class Builder<B extends Builder<B>> {
        private final int minor;
        private final List<NdefRecord> records = new ArrayList<>();

        Builder(int minor) {
            this.minor = minor;
        }

        abstract B self();

        /**
         * Adds an alternative carrier.
         *
         * @param power the power state of the carrier
         * @param reference the id of the record that describes the carrier
         * @param auxiliaries the auxiliary references
         * @return this builder
         * @throws IllegalArgumentException if there are too many references, or one is too long
         */
        public B alternative(PowerState power, byte[] reference, byte[]... auxiliaries) {
            return record(AlternativeCarrier.of(power, reference, auxiliaries).toRecord());
        }

        /**
         * Adds any record.
         *
         * @param record the record
         * @return this builder
         */
        public B record(NdefRecord record) {
            records.add(Objects.requireNonNull(record, "the record is null"));
            return self();
        }

        /** The payload; {@code handover} is 0 for a request and 1 for a select. */
        byte[] payload(int handover) {
            NdefRecord[] all = records.toArray(new NdefRecord[0]);
            byte[] message = all.length == 0 ? new byte[0] : NdefMessage.unchecked(all).toByteArray();
            byte[] written = Library.bytes(Library.WRITE_HANDOVER, message, null, handover, minor, null);
            if (written == null) {
                boolean isMinor = Library.bytes(Library.WRITE_HANDOVER, message, null, handover, 0, null) != null;
                throw new IllegalArgumentException(
                        isMinor ? "no handover has the minor version " + minor : "the records are none of a handover");
            }
            return written;
        }
    }
}
