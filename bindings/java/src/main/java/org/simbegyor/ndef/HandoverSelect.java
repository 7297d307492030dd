package org.simbegyor.ndef;

import java.util.Optional;

/** A handover select ({@code Hs}, Connection Handover 1.2): the carriers that a device chose of a request. */
public final class HandoverSelect extends Handover {
    private final HandoverError error;

    HandoverSelect(byte[] payload, Profile profile) throws FormatException {
        super(Numbers.KIND_SELECT, Types.HANDOVER_SELECT, payload, profile);
        HandoverError found = null;
        for (NdefRecord record : records()) {
            if (found == null && kindOf(record) == Numbers.KIND_ERROR) {
                found = new HandoverError(record.payload());
            }
        }
        error = found;
    }

    /**
     * Reads the payload of a handover select.
     *
     * @param payload the payload, its chunks joined
     * @param profile what becomes of reserved values
     * @return the select
     * @throws FormatException if it is no such payload
     */
    public static HandoverSelect parse(byte[] payload, Profile profile) throws FormatException {
        return new HandoverSelect(payload.clone(), profile);
    }

    /**
     * Begins a select.
     *
     * @param minorVersion the minor version of Connection Handover, 0 to 15; the major one is 1
     * @return a builder
     */
    public static Builder builder(int minorVersion) {
        return new Builder(minorVersion);
    }

    /**
     * Its error; of several the first.
     *
     * @return the error, if it has one
     */
    public Optional<HandoverError> error() {
        return Optional.ofNullable(error);
    }

    @Override
    public String toString() {
        return "HandoverSelect " + majorVersion() + "." + minorVersion() + " " + alternatives();
    }

    /** Builds a select. */
    public static final class Builder extends Handover.Builder<Builder> {
        private Builder(int minorVersion) {
            super(minorVersion);
        }

        @Override
        Builder self() {
            return this;
        }

        /**
         * Adds an error.
         *
         * @param error the error
         * @return this builder
         */
        public Builder error(HandoverError error) {
            return record(error.toRecord());
        }

        /**
         * The select.
         *
         * @return the select
         * @throws IllegalArgumentException if there is no such select
         */
        public HandoverSelect build() {
            return promised(() -> new HandoverSelect(payload(1), Profile.STRICT));
        }
    }
}
