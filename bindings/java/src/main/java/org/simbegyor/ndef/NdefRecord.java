package org.simbegyor.ndef;

import java.nio.charset.StandardCharsets;
import java.util.Arrays;
import java.util.Locale;
import java.util.Objects;
import org.jspecify.annotations.Nullable;

/** A record of a message, its chunks joined: its methods are those of {@code android.nfc.NdefRecord}. */
public final class NdefRecord {
    /** The record is empty: type, id and payload have no bytes. */
    public static final short TNF_EMPTY = 0;
    /** The type is one of the NFC Forum, such as {@link #RTD_TEXT}. */
    public static final short TNF_WELL_KNOWN = 1;
    /** The type is a media type. */
    public static final short TNF_MIME_MEDIA = 2;
    /** The type is a URI. */
    public static final short TNF_ABSOLUTE_URI = 3;
    /** The type is an external one, such as {@code example.com:x}. */
    public static final short TNF_EXTERNAL_TYPE = 4;
    /** The type of the payload is not known; the type has no bytes. */
    public static final short TNF_UNKNOWN = 5;
    /** A further chunk of a record. No record has it, since chunks are joined. */
    public static final short TNF_UNCHANGED = 6;

    /** The type of a text. */
    public static final byte[] RTD_TEXT = Types.TEXT.clone();
    /** The type of a URI. */
    public static final byte[] RTD_URI = Types.URI.clone();
    /** The type of a smart poster. */
    public static final byte[] RTD_SMART_POSTER = Types.SMART_POSTER.clone();
    /** The type of an alternative carrier, in a handover. */
    public static final byte[] RTD_ALTERNATIVE_CARRIER = Types.ALTERNATIVE_CARRIER.clone();
    /** The type of a handover carrier. */
    public static final byte[] RTD_HANDOVER_CARRIER = Types.HANDOVER_CARRIER.clone();
    /** The type of a handover request. */
    public static final byte[] RTD_HANDOVER_REQUEST = Types.HANDOVER_REQUEST.clone();
    /** The type of a handover select. */
    public static final byte[] RTD_HANDOVER_SELECT = Types.HANDOVER_SELECT.clone();

    private static final byte[] NONE = {};
    /** How many numbers the library gives for each record. */
    private static final int COLUMNS = 7;
    private static final int UNKNOWN = -1;

    private final short tnf;
    private final byte[] type;
    private final byte[] id;
    private final byte[] payload;
    private final Profile profile;
    /** What the record is outside of a payload, as the library numbers it; {@link #UNKNOWN} where it wasn't asked. */
    private final int kind;
    /** How its value lies in the payload. */
    private final int value;

    /**
     * Makes a record. Null stands for no bytes.
     *
     * @param tnf the type name format, as {@link #TNF_WELL_KNOWN}
     * @param type the type, or null
     * @param id the id, or null
     * @param payload the payload, or null
     * @throws IllegalArgumentException if there is no such record: another type name format, a type or an id of more
     * than
     *     255 bytes, or a type, an id or a payload where the type name format has none, or no type where it has one
     */
    public NdefRecord(short tnf, byte @Nullable [] type, byte @Nullable [] id, byte @Nullable [] payload) {
        this(tnf, copy(type), copy(id), copy(payload), Profile.STRICT);
        refuseOther();
    }

    /**
     * Reads a message of one record.
     *
     * @param data the bytes
     * @throws FormatException if they are no message of one record
     */
    public NdefRecord(byte[] data) throws FormatException {
        this(only(new NdefMessage(data)), null);
    }

    private NdefRecord(NdefRecord other, byte[] id) {
        this(other.tnf, other.type, id == null ? other.id : id, other.payload, other.profile, other.kind, other.value);
    }

    /** A record of arrays that nobody else changes. */
    private NdefRecord(int tnf, byte[] type, byte[] id, byte[] payload, Profile profile) {
        this(tnf, type, id, payload, profile, UNKNOWN, Value.NONE);
    }

    /** The same, of which the library says what it is, and how its value lies in the payload. */
    NdefRecord(int tnf, byte[] type, byte[] id, byte[] payload, Profile profile, int kind, int value) {
        this.tnf = (short) tnf;
        this.type = type;
        this.id = id;
        this.payload = payload;
        this.profile = profile;
        this.kind = kind;
        this.value = value;
    }

    private static byte[] copy(byte @Nullable [] bytes) {
        return bytes == null ? NONE : bytes.clone();
    }

    private static NdefRecord only(NdefMessage message) throws FormatException {
        if (message.count() != 1) {
            throw new FormatException("the message has " + message.count() + " records instead of one");
        }
        return message.getRecords()[0];
    }

    /** The records that the library found in the bytes. */
    static NdefRecord[] listOf(byte[] bytes, int[] rows, Profile profile) {
        NdefRecord[] records = new NdefRecord[rows.length / COLUMNS];
        for (int i = 0; i < records.length; i++) {
            records[i] = of(bytes, rows, i * COLUMNS, profile);
        }
        return records;
    }

    private static NdefRecord of(byte[] bytes, int[] rows, int row, Profile profile) {
        int typeAt = rows[row + 2];
        int idAt = typeAt + rows[row + 3];
        int payloadAt = idAt + rows[row + 4];
        byte[] payload = rows[row + 6] == 1 ? part(bytes, payloadAt, rows[row + 5])
                : Library.bytes(Library.READ_PAYLOAD, bytes, null, rows[row], 0, null);
        if (payload == null) {
            throw new IllegalStateException("another thread changes the bytes");
        }
        byte[] type = part(bytes, typeAt, idAt - typeAt);
        return new NdefRecord(rows[row + 1], type, part(bytes, idAt, payloadAt - idAt), payload, profile);
    }

    /** Where the payload of each record ends, which lies in one chunk. */
    static int[] endsOf(int[] rows) {
        int[] ends = new int[rows.length / COLUMNS];
        for (int i = 0; i < ends.length; i++) {
            int row = i * COLUMNS;
            ends[i] = rows[row + 2] + rows[row + 3] + rows[row + 4] + rows[row + 5];
        }
        return ends;
    }

    static byte[] part(byte[] bytes, int at, int length) {
        return length == 0 ? NONE : Arrays.copyOfRange(bytes, at, at + length);
    }

    /** A record of a type of the NFC Forum, of an array that nobody else changes. */
    static NdefRecord wellKnown(byte[] type, byte[] payload) {
        return new NdefRecord(TNF_WELL_KNOWN, type, NONE, payload, Profile.STRICT);
    }

    /**
     * Makes the record of an application for Android, so that a phone opens or offers it.
     *
     * @param packageName the name of its package
     * @return the record
     * @throws IllegalArgumentException if the name is empty
     */
    public static NdefRecord createApplicationRecord(String packageName) {
        refuseEmpty(packageName, "the package name is empty");
        return new NdefRecord(TNF_EXTERNAL_TYPE, Strings.ascii("android.com:pkg"), null, Strings.utf8(packageName));
    }

    /**
     * Makes the record of a URI. Its scheme is written in lower case.
     *
     * @param uri the URI
     * @return the record
     * @throws IllegalArgumentException if the URI is empty, or no UTF-8 spells it
     */
    public static NdefRecord createUri(Uri uri) {
        String text = uri.normalizeScheme().toString();
        refuseEmpty(text, "the URI is empty");
        return UriRecord.of(text).toRecord();
    }

    /**
     * Makes the record of a URI. Its scheme is written in lower case.
     *
     * @param uriString the URI
     * @return the record
     * @throws IllegalArgumentException if the URI is empty, or no UTF-8 spells it
     */
    public static NdefRecord createUri(String uriString) {
        return createUri(Uri.parse(uriString));
    }

    /**
     * Makes the record of a media type. The type is written in lower case and without parameters.
     *
     * @param mimeType the media type, such as {@code text/plain}
     * @param mimeData the payload, or null
     * @return the record
     * @throws IllegalArgumentException if the type is empty or not ASCII, or nothing stands before or after its slash
     */
    public static NdefRecord createMime(String mimeType, byte @Nullable [] mimeData) {
        String type = normalized(mimeType);
        refuseEmpty(type, "the media type is empty");
        if (type.startsWith("/") || type.indexOf('/') == type.length() - 1) {
            throw new IllegalArgumentException("the media type lacks what stands before or after its slash");
        }
        return new NdefRecord(TNF_MIME_MEDIA, Strings.ascii(type), null, mimeData);
    }

    /**
     * Makes a record of an external type, {@code domain:type}. Both are written in lower case.
     *
     * @param domain the domain of the organization that issues the type
     * @param type the type
     * @param data the payload, or null
     * @return the record
     * @throws IllegalArgumentException if either is empty, or the two are too long
     */
    public static NdefRecord createExternal(String domain, String type, byte @Nullable [] data) {
        String issuer = domain.trim().toLowerCase(Locale.ROOT);
        String name = type.trim().toLowerCase(Locale.ROOT);
        refuseEmpty(issuer, "the domain is empty");
        refuseEmpty(name, "the type is empty");
        return new NdefRecord(TNF_EXTERNAL_TYPE, Strings.utf8(issuer + ":" + name), null, data);
    }

    /**
     * Makes the record of a text, in UTF-8.
     *
     * @param languageCode the language code, such as en; null or none stands for that of the default locale
     * @param text the text
     * @return the record
     * @throws IllegalArgumentException if the language code has more than 63 characters or is not ASCII, or no UTF-8
     * spells
     *     the text
     */
    public static NdefRecord createTextRecord(@Nullable String languageCode, String text) {
        Objects.requireNonNull(text, "the text is null");
        boolean isGiven = languageCode != null && !languageCode.isEmpty();
        return TextRecord.of(isGiven ? languageCode : Locale.getDefault().getLanguage(), text).toRecord();
    }

    private static void refuseEmpty(String text, String refusal) {
        if (text.isEmpty()) {
            throw new IllegalArgumentException(refusal);
        }
    }

    /** A media type as android.content.Intent.normalizeMimeType writes it. */
    private static String normalized(String mediaType) {
        String type = mediaType.trim().toLowerCase(Locale.ROOT);
        int parameters = type.indexOf(';');
        return parameters < 0 ? type : type.substring(0, parameters);
    }

    /**
     * The type name format.
     *
     * @return 0 to 5, as {@link #TNF_WELL_KNOWN}
     */
    public short getTnf() {
        return tnf;
    }

    /**
     * The type.
     *
     * @return a copy of its bytes
     */
    public byte[] getType() {
        return type.clone();
    }

    /**
     * The id.
     *
     * @return a copy of its bytes; none, if the record has no id
     */
    public byte[] getId() {
        return id.clone();
    }

    /**
     * The payload, its chunks joined.
     *
     * @return a copy of its bytes
     */
    public byte[] getPayload() {
        return payload.clone();
    }

    /**
     * The same record with another id.
     *
     * @param newId the id
     * @return the record
     * @throws IllegalArgumentException if the id has more than 255 bytes, or the record is empty
     */
    public NdefRecord withId(byte[] newId) {
        NdefRecord changed = new NdefRecord(this, newId.clone());
        changed.refuseOther();
        return changed;
    }

    /**
     * The media type of the payload.
     *
     * @return that of the record, in lower case and without parameters; {@code text/plain} for a text; null for others
     */
    public @Nullable String toMimeType() {
        if (kind(Numbers.KIND_OTHER) == Numbers.KIND_TEXT) {
            return "text/plain";
        }
        return tnf == TNF_MIME_MEDIA ? normalized(new String(type, StandardCharsets.US_ASCII)) : null;
    }

    /**
     * The URI of the record: that of a URI record or of a smart poster; the type where that is a URI; or
     * {@code vnd.android.nfc://ext/} and an external type.
     *
     * @return the URI, or null where the record has none or its payload is refused
     */
    public @Nullable Uri toUri() {
        if (tnf == TNF_ABSOLUTE_URI) {
            return Uri.parse(Strings.ofUtf8(type)).normalizeScheme();
        }
        if (tnf == TNF_EXTERNAL_TYPE) {
            return Uri.parse("vnd.android.nfc://ext/" + new String(type, StandardCharsets.US_ASCII));
        }
        try {
            Payload decoded = decode();
            String text = decoded instanceof UriRecord ? ((UriRecord) decoded).uri()
                    : decoded instanceof SmartPoster ? ((SmartPoster) decoded).uri() : null;
            return text == null ? null : Uri.parse(text).normalizeScheme();
        } catch (FormatException error) {
            return null;
        }
    }

    /**
     * What the payload says: a {@link TextRecord}, {@link UriRecord}, {@link SmartPoster}, {@link HandoverRequest},
     * {@link HandoverSelect}, {@link Carrier}, or {@link Payload.Other} for all other types. Reserved values are read
     * with the profile with which the message was read.
     *
     * @return the payload
     * @throws FormatException if it is no payload of its type; its offset counts from the first byte of the payload
     */
    public Payload decode() throws FormatException {
        return Payload.of(this);
    }

    /** What the record is, in a payload of a kind or outside. */
    int kind(int within) {
        return within == Numbers.KIND_OTHER && kind != UNKNOWN ? kind : Library.kind(tnf, type, within);
    }

    /** How its value lies in the payload, as {@link Value} has it. */
    int value() {
        return value;
    }

    /** The type itself, which nobody may change. */
    byte[] type() {
        return type;
    }

    /** The id itself, which nobody may change. */
    byte[] id() {
        return id;
    }

    /** The payload itself, which nobody may change. */
    byte[] payload() {
        return payload;
    }

    Profile profile() {
        return profile;
    }

    /**
     * The bytes of a message of this record alone.
     *
     * @return the bytes
     * @throws RecordException if {@link #NdefRecord(byte[])} would refuse them
     */
    public byte[] toByteArray() {
        return new NdefMessage(this).toByteArray();
    }

    /** Writes the record to the buffer, or asks for its length where there is none; -1 where it is no record. */
    long write(int flags, int chunk, byte[] buffer, int at) {
        return Library.record(new int[] {tnf, flags, chunk}, type, id, payload, buffer, at);
    }

    /** Refuses parts of which there is no record. */
    private void refuseOther() {
        if (!isOne(tnf, type, id, payload)) {
            throw new IllegalArgumentException(fault());
        }
    }

    private static boolean isOne(int tnf, byte[] type, byte[] id, byte[] payload) {
        int[] how = {tnf, Numbers.WRITE_FIRST | Numbers.WRITE_LAST, 0};
        return Library.record(how, type, id, payload, null, 0) >= 0;
    }

    /** Why there is no such record: the library is asked for records with some of the parts. */
    private String fault() {
        String such = "a record of the type name format " + tnf;
        if (!isOne(TNF_UNKNOWN, NONE, id, NONE)) {
            return "an id of " + id.length + " bytes is too long";
        }
        if (type.length > 0 && !isOne(TNF_MIME_MEDIA, type, NONE, NONE)) {
            return "a type of " + type.length + " bytes is too long";
        }
        if (!isOne(tnf, NONE, NONE, NONE)) {
            return isOne(tnf, new byte[1], NONE, NONE) ? such + " needs a type" : "no record has the type name format " + tnf;
        }
        if (!isOne(tnf, type, NONE, NONE)) {
            return such + " has no type";
        }
        return such + (isOne(tnf, type, id, NONE) ? " has no payload" : " has no id");
    }

    @Override
    public boolean equals(@Nullable Object other) {
        if (!(other instanceof NdefRecord)) {
            return false;
        }
        NdefRecord record = (NdefRecord) other;
        return tnf == record.tnf && Arrays.equals(type, record.type) && Arrays.equals(id, record.id)
                && Arrays.equals(payload, record.payload);
    }

    @Override
    public int hashCode() {
        return Objects.hash(tnf, Arrays.hashCode(type), Arrays.hashCode(id), Arrays.hashCode(payload));
    }

    @Override
    public String toString() {
        StringBuilder to = new StringBuilder("NdefRecord tnf=").append(tnf);
        append(to, " type=", type);
        append(to, " id=", id);
        append(to, " payload=", payload);
        return to.toString();
    }

    private static void append(StringBuilder to, String name, byte[] bytes) {
        if (bytes.length > 0) {
            to.append(name).append(Strings.hexadecimal(bytes));
        }
    }
}
