package org.simbegyor.ndef;

import java.util.ArrayList;
import java.util.Collections;
import java.util.List;

/** An alternative carrier of a handover ({@code ac}, Connection Handover 1.2): it refers to the record of a carrier. */
public final class AlternativeCarrier extends Payload {
    private final PowerState power;
    /** Pairs of numbers: where each reference lies. */
    private final int[] references;

    AlternativeCarrier(byte[] payload) throws FormatException {
        super(Types.ALTERNATIVE_CARRIER, payload);
        power = PowerState.of(Library.numbers(Numbers.KIND_ALTERNATIVE, payload, Profile.STRICT)[0]);
        references = Library.list(Library.REFERENCES, payload, null);
    }

    /**
     * Reads the payload of an alternative carrier.
     *
     * @param payload the payload
     * @return the alternative carrier
     * @throws FormatException if it is no such payload
     */
    public static AlternativeCarrier parse(byte[] payload) throws FormatException {
        return new AlternativeCarrier(payload.clone());
    }

    /**
     * An alternative carrier.
     *
     * @param power the power state of the carrier
     * @param reference the id of the record that describes the carrier, at most 255 bytes
     * @param auxiliaries the auxiliary references, at most 255, each of at most 255 bytes
     * @return the alternative carrier
     * @throws IllegalArgumentException if there are too many, or one is too long
     */
    public static AlternativeCarrier of(PowerState power, byte[] reference, byte[]... auxiliaries) {
        int[] lengths = new int[1 + auxiliaries.length];
        long all = lengths[0] = reference.length;
        for (int i = 0; i < auxiliaries.length; i++) {
            all += lengths[1 + i] = auxiliaries[i].length;
        }
        byte[] bytes = new byte[Math.toIntExact(all)];
        System.arraycopy(reference, 0, bytes, 0, reference.length);
        int at = reference.length;
        for (byte[] auxiliary : auxiliaries) {
            System.arraycopy(auxiliary, 0, bytes, at, auxiliary.length);
            at += auxiliary.length;
        }
        byte[] payload = Library.alternative(power.ordinal(), bytes, lengths);
        if (payload == null) {
            throw new IllegalArgumentException("at most 255 auxiliary references, each of at most 255 bytes");
        }
        return promised(() -> new AlternativeCarrier(payload));
    }

    /**
     * The power state of the carrier.
     *
     * @return the power state
     */
    public PowerState power() {
        return power;
    }

    /**
     * The carrier data reference: the id of the record that describes the carrier.
     *
     * @return a copy of its bytes
     */
    public byte[] reference() {
        return part(references[0], references[1]);
    }

    /**
     * The auxiliary data references.
     *
     * @return copies of them
     */
    public List<byte[]> auxiliaries() {
        List<byte[]> found = new ArrayList<>();
        for (int i = 2; i < references.length; i += 2) {
            found.add(part(references[i], references[i + 1]));
        }
        return Collections.unmodifiableList(found);
    }

    @Override
    public String toString() {
        return "AlternativeCarrier " + power + " reference=" + Strings.hexadecimal(reference());
    }
}
