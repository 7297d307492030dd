package org.simbegyor.ndef;

import java.util.Objects;
import java.util.OptionalLong;

/** The error of a handover select ({@code err}, Connection Handover 1.2). */
public final class HandoverError extends Payload {
    private final int[] numbers;

    HandoverError(byte[] payload) throws FormatException {
        super(Types.ERROR, payload);
        numbers = Library.numbers(Numbers.KIND_ERROR, payload, Profile.STRICT);
    }

    /**
     * Reads the payload of an error.
     *
     * @param payload the payload
     * @return the error
     * @throws FormatException if it is no such payload
     */
    public static HandoverError parse(byte[] payload) throws FormatException {
        return new HandoverError(payload.clone());
    }

    /**
     * An error with data.
     *
     * @param reason 0 to 255; the standard defines 1 to 3
     * @param data the data
     * @return the error
     * @throws IllegalArgumentException if the reason has no such data
     */
    public static HandoverError of(int reason, byte[] data) {
        Objects.requireNonNull(data, "the data are null");
        String refusal = "an error with the reason " + reason + " has no such data";
        return ofPayload(Library.written(refusal, Library.WRITE_ERROR, data, null, reason, 0));
    }

    /**
     * An error whose data are a number.
     *
     * @param reason 1 to 3
     * @param number the number: 0 to 255, for the reason 2 up to 4294967295
     * @return the error
     * @throws IllegalArgumentException if the reason has no such number
     */
    public static HandoverError ofNumber(int reason, long number) {
        String refusal = "an error with the reason " + reason + " has no number " + number;
        if (number != (number & 0xffffffffL)) {
            throw new IllegalArgumentException(refusal);
        }
        int call = Library.WRITE_ERROR_NUMBER;
        return ofPayload(Library.written(refusal, call, null, null, reason, (int) number));
    }

    private static HandoverError ofPayload(byte[] payload) {
        return promised(() -> new HandoverError(payload));
    }

    /**
     * The reason.
     *
     * @return 0 to 255; the standard defines 1 to 3
     */
    public int reason() {
        return numbers[2];
    }

    /**
     * The data.
     *
     * @return a copy of their bytes
     */
    public byte[] data() {
        return part(numbers[0], numbers[1]);
    }

    /**
     * The number that the data hold.
     *
     * @return the number, with the reasons 1 to 3
     */
    public OptionalLong number() {
        return numbers[3] == 0 ? OptionalLong.empty() : OptionalLong.of(numbers[4] & 0xffffffffL);
    }

    @Override
    public String toString() {
        return "HandoverError reason=" + reason() + " data=" + Strings.hexadecimal(data());
    }
}
