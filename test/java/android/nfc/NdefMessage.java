package android.nfc;

import java.io.ByteArrayOutputStream;
import java.util.ArrayList;
import java.util.Arrays;
import java.util.List;

/**
 * The signatures of Android's class, without those of Parcelable. It reads short records of one chunk without an id, and writes
 * short records of one chunk.
 */
public final class NdefMessage {
    private final NdefRecord[] records;

    public NdefMessage(byte[] data) throws FormatException {
        List<NdefRecord> found = new ArrayList<>();
        for (int at = 0; at < data.length; ) {
            if ((data[at] & 0x38) != 0x10 || data.length - at < 3 || data.length - at - 3 < data[at + 1] + data[at + 2]) {
                throw new FormatException("not a short record");
            }
            int payloadAt = at + 3 + data[at + 1];
            int end = payloadAt + data[at + 2];
            found.add(new NdefRecord((short) (data[at] & 7), Arrays.copyOfRange(data, at + 3, payloadAt), null,
                    Arrays.copyOfRange(data, payloadAt, end)));
            at = end;
        }
        records = found.toArray(new NdefRecord[0]);
    }

    public NdefMessage(NdefRecord record, NdefRecord... records) {
        throw new UnsupportedOperationException();
    }

    public NdefMessage(NdefRecord[] records) {
        this.records = records.clone();
    }

    public NdefRecord[] getRecords() {
        return records;
    }

    public int getByteArrayLength() {
        return toByteArray().length;
    }

    public byte[] toByteArray() {
        ByteArrayOutputStream bytes = new ByteArrayOutputStream();
        for (int i = 0; i < records.length; i++) {
            int flags = (i == 0 ? 0x80 : 0) | (i + 1 == records.length ? 0x40 : 0);
            byte[] record = records[i].toByteArray();
            bytes.write(record[0] & 0x3f | flags);
            bytes.write(record, 1, record.length - 1);
        }
        return bytes.toByteArray();
    }
}
