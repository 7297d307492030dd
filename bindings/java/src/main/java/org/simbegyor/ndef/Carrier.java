package org.simbegyor.ndef;

/**
 * A handover carrier ({@code Hc}, Connection Handover 1.2): the kind of a carrier, and what a handover over it needs.
 */
public final class Carrier extends Payload {
    private final byte[] type;
    private final byte[] data;
    private final int format;

    Carrier(byte[] payload) throws FormatException {
        super(Types.HANDOVER_CARRIER, payload);
        int[] numbers = Library.numbers(Numbers.KIND_CARRIER, payload, Profile.STRICT);
        type = part(numbers[0], numbers[1]);
        data = part(numbers[2], numbers[3]);
        format = numbers[4];
    }

    private Carrier(byte[] payload, int format, byte[] type, byte[] data) {
        super(Types.HANDOVER_CARRIER, payload);
        this.format = format;
        this.type = type;
        this.data = data;
    }

    /**
     * Reads the payload of a handover carrier.
     *
     * @param payload the payload, its chunks joined
     * @return the carrier
     * @throws FormatException if it is no such payload
     */
    public static Carrier parse(byte[] payload) throws FormatException {
        return new Carrier(payload.clone());
    }

    /**
     * A handover carrier.
     *
     * @param format the carrier type format, 0 to 7
     * @param type the carrier type, at most 255 bytes
     * @param data the carrier data
     * @return the carrier
     * @throws IllegalArgumentException if there is none
     */
    public static Carrier of(int format, byte[] type, byte[] data) {
        byte[] ownType = type.clone();
        byte[] ownData = data.clone();
        String refusal = "a carrier has a format of 0 to 7 and a type of at most 255 bytes";
        byte[] payload = Library.written(refusal, Library.WRITE_CARRIER, ownType, ownData, format, 0);
        return new Carrier(payload, format, ownType, ownData);
    }

    /**
     * What kind of name the carrier type is.
     *
     * @return 0 to 7, as the type name formats of records
     */
    public int format() {
        return format;
    }

    /**
     * The carrier type.
     *
     * @return a copy of its bytes
     */
    public byte[] type() {
        return type.clone();
    }

    /**
     * The carrier data.
     *
     * @return a copy of their bytes
     */
    public byte[] data() {
        return data.clone();
    }
}
