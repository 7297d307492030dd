package org.simbegyor.ndef.android;

import org.jspecify.annotations.Nullable;
import org.simbegyor.ndef.FormatException;
import org.simbegyor.ndef.NdefMessage;
import org.simbegyor.ndef.NdefRecord;
import org.simbegyor.ndef.Uri;

/** Messages, records and URIs to and from the classes of Android. */
public final class Nfc {
    private Nfc() {
    }

    /**
     * The message that a tag gave to Android. Its payloads are checked, which Android doesn't do.
     *
     * @param message a message of Android
     * @return the message
     * @throws FormatException if {@link NdefMessage#NdefMessage(byte[])} refuses its bytes
     */
    public static NdefMessage fromAndroid(android.nfc.NdefMessage message) throws FormatException {
        return new NdefMessage(message.toByteArray());
    }

    /**
     * The record that Android has.
     *
     * @param record a record of Android
     * @return the record
     * @throws FormatException if {@link NdefRecord#NdefRecord(byte[])} refuses its bytes
     */
    public static NdefRecord fromAndroid(android.nfc.NdefRecord record) throws FormatException {
        return new NdefRecord(record.toByteArray());
    }

    /**
     * The URI that Android has.
     *
     * @param uri a URI of Android
     * @return the URI
     */
    public static Uri fromAndroid(android.net.Uri uri) {
        return Uri.parse(uri.toString());
    }

    /**
     * The message for Android, as {@code Ndef.writeNdefMessage} takes it.
     *
     * @param message a message
     * @return the message of Android
     */
    public static android.nfc.NdefMessage toAndroid(NdefMessage message) {
        NdefRecord[] records = message.getRecords();
        android.nfc.NdefRecord[] made = new android.nfc.NdefRecord[records.length];
        for (int i = 0; i < records.length; i++) {
            made[i] = toAndroid(records[i]);
        }
        return new android.nfc.NdefMessage(made);
    }

    /**
     * The record for Android.
     *
     * @param record a record
     * @return the record of Android
     */
    public static android.nfc.NdefRecord toAndroid(NdefRecord record) {
        return new android.nfc.NdefRecord(record.getTnf(), record.getType(), record.getId(), record.getPayload());
    }

    /**
     * The URI for Android, as {@code Intent.setData} takes it.
     *
     * @param uri a URI, or null, as {@link NdefRecord#toUri()} returns it
     * @return the URI of Android, or null
     */
    public static android.net.@Nullable Uri toAndroid(@Nullable Uri uri) {
        return uri == null ? null : android.net.Uri.parse(uri.toString());
    }
}
