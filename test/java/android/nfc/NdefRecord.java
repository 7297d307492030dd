package android.nfc;

import android.net.Uri;
import java.nio.ByteBuffer;

/** The signatures of Android's class, without those of Parcelable. It writes short records of one chunk. */
public final class NdefRecord {
    public static final short TNF_EMPTY = 0;
    public static final short TNF_WELL_KNOWN = 1;
    public static final short TNF_MIME_MEDIA = 2;
    public static final short TNF_ABSOLUTE_URI = 3;
    public static final short TNF_EXTERNAL_TYPE = 4;
    public static final short TNF_UNKNOWN = 5;
    public static final short TNF_UNCHANGED = 6;
    public static final byte[] RTD_TEXT = {};
    public static final byte[] RTD_URI = {};
    public static final byte[] RTD_SMART_POSTER = {};
    public static final byte[] RTD_ALTERNATIVE_CARRIER = {};
    public static final byte[] RTD_HANDOVER_CARRIER = {};
    public static final byte[] RTD_HANDOVER_REQUEST = {};
    public static final byte[] RTD_HANDOVER_SELECT = {};

    private final short tnf;
    private final byte[] type;
    private final byte[] id;
    private final byte[] payload;

    public NdefRecord(short tnf, byte[] type, byte[] id, byte[] payload) {
        this.tnf = tnf;
        this.type = type;
        this.id = id == null ? new byte[0] : id;
        this.payload = payload;
    }

    public NdefRecord(byte[] data) throws FormatException {
        throw new UnsupportedOperationException();
    }

    public static NdefRecord createApplicationRecord(String packageName) {
        throw new UnsupportedOperationException();
    }

    public static NdefRecord createUri(Uri uri) {
        throw new UnsupportedOperationException();
    }

    public static NdefRecord createUri(String uriString) {
        throw new UnsupportedOperationException();
    }

    public static NdefRecord createMime(String mimeType, byte[] mimeData) {
        throw new UnsupportedOperationException();
    }

    public static NdefRecord createExternal(String domain, String type, byte[] data) {
        throw new UnsupportedOperationException();
    }

    public static NdefRecord createTextRecord(String languageCode, String text) {
        throw new UnsupportedOperationException();
    }

    public short getTnf() {
        return tnf;
    }

    public byte[] getType() {
        return type;
    }

    public byte[] getId() {
        return id;
    }

    public byte[] getPayload() {
        return payload;
    }

    public byte[] toByteArray() {
        boolean hasId = id.length > 0;
        ByteBuffer bytes = ByteBuffer.allocate((hasId ? 4 : 3) + type.length + id.length + payload.length);
        bytes.put((byte) (0xd0 | (hasId ? 8 : 0) | tnf)).put((byte) type.length).put((byte) payload.length);
        if (hasId) {
            bytes.put((byte) id.length);
        }
        return bytes.put(type).put(id).put(payload).array();
    }

    public String toMimeType() {
        throw new UnsupportedOperationException();
    }

    public Uri toUri() {
        throw new UnsupportedOperationException();
    }
}
