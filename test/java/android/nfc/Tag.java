package android.nfc;

/** A tag, which here is what it holds: bytes, or null where it was never written. */
public final class Tag {
    public byte[] held;
}
