package org.simbegyor.ndef;

/** A handover request ({@code Hr}, Connection Handover 1.2): the carriers that a device offers. */
public final class HandoverRequest extends Handover {
    HandoverRequest(byte[] payload, Profile profile) throws FormatException {
        super(Numbers.KIND_REQUEST, Types.HANDOVER_REQUEST, payload, profile);
    }

    /**
     * Reads the payload of a handover request.
     *
     * @param payload the payload, its chunks joined
     * @param profile what becomes of reserved values
     * @return the request
     * @throws FormatException if it is no such payload
     */
    public static HandoverRequest parse(byte[] payload, Profile profile) throws FormatException {
        return new HandoverRequest(payload.clone(), profile);
    }

    /**
     * Begins a request.
     *
     * @param minorVersion the minor version of Connection Handover, 0 to 15; the major one is 1
     * @param collision the random number of its Collision Resolution record, 0 to 65535
     * @return a builder
     * @throws IllegalArgumentException if the random number is another
     */
    public static Builder builder(int minorVersion, int collision) {
        return new Builder(minorVersion, collision);
    }

    /**
     * The random number of its Collision Resolution record.
     *
     * @return 0 to 65535
     */
    public int collision() {
        return number(2);
    }

    @Override
    public String toString() {
        return "HandoverRequest " + majorVersion() + "." + minorVersion() + " " + alternatives();
    }

    /** Builds a request. */
    public static final class Builder extends Handover.Builder<Builder> {
        private Builder(int minorVersion, int collision) {
            super(minorVersion);
            String refusal = "a random number has 16 bits";
            byte[] payload = Library.written(refusal, Library.WRITE_COLLISION, null, null, collision, 0);
            record(NdefRecord.wellKnown(Types.COLLISION, payload));
        }

        @Override
        Builder self() {
            return this;
        }

        /**
         * The request.
         *
         * @return the request
         * @throws IllegalArgumentException if there is no such request
         */
        public HandoverRequest build() {
            return promised(() -> new HandoverRequest(payload(0), Profile.STRICT));
        }
    }
}
