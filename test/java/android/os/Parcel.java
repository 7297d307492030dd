package android.os;

import java.util.ArrayDeque;
import java.util.Deque;
import java.util.Optional;

/** What the tests use of Android's class: arrays that are read in the order in which they were written. */
public final class Parcel {
    private final Deque<Optional<byte[]>> arrays = new ArrayDeque<>();

    private Parcel() {
    }

    public static Parcel obtain() {
        return new Parcel();
    }

    public void writeByteArray(byte[] b) {
        arrays.add(Optional.ofNullable(b));
    }

    public byte[] createByteArray() {
        return arrays.isEmpty() ? null : arrays.remove().orElse(null);
    }
}
