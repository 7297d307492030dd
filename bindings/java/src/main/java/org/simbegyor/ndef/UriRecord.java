package org.simbegyor.ndef;

/** A URI ({@code U}, NFC Forum RTD URI 1.0). */
public final class UriRecord extends Payload {
    private final String uri;

    UriRecord(byte[] payload, Profile profile) throws FormatException {
        super(Types.URI, payload);
        long[] why = new long[3];
        byte[] read = Library.bytes(Library.READ_URI, payload, null, profile.flags(), 0, why);
        if (read == null) {
            throw FormatException.of(why);
        }
        uri = Strings.ofUtf8(read);
    }

    UriRecord(byte[] payload, String uri) {
        super(Types.URI, payload);
        this.uri = uri;
    }

    /**
     * Reads the payload of a URI.
     *
     * @param payload the payload, its chunks joined
     * @param profile what becomes of reserved codes
     * @return the URI
     * @throws FormatException if it is no such payload
     */
    public static UriRecord parse(byte[] payload, Profile profile) throws FormatException {
        return new UriRecord(payload.clone(), profile);
    }

    /**
     * A URI, with the longest prefix code that fits it.
     *
     * @param uri the URI
     * @return the URI
     * @throws IllegalArgumentException if no UTF-8 spells it
     */
    public static UriRecord of(String uri) {
        byte[] bytes = Strings.utf8(uri);
        return new UriRecord(Library.written("no URI is so long", Library.WRITE_URI, bytes, null, 0, 0), uri);
    }

    /**
     * The URI, with its prefix spelled out.
     *
     * @return the URI
     */
    public String uri() {
        return uri;
    }

    @Override
    public String toString() {
        return "UriRecord uri=" + uri;
    }
}
