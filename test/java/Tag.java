import android.net.Uri;
import android.nfc.FormatException;
import android.nfc.NdefMessage;
import android.nfc.NdefRecord;
import java.nio.charset.StandardCharsets;
import java.util.Arrays;

/**
 * A program that is written against android.nfc. The test compiles it so, and then with other imports, and runs that.
 */
public class Tag {
    public static void main(String[] words) throws FormatException {
        NdefRecord plain = new NdefRecord(NdefRecord.TNF_WELL_KNOWN, NdefRecord.RTD_TEXT, new byte[] {'1'},
                new byte[] {2, 'e', 'n', 'A'});
        NdefMessage message = new NdefMessage(NdefRecord.createUri(Uri.parse("HTTPS://www.example.com")), plain,
                NdefRecord.createTextRecord("en", "Hello"), NdefRecord.createMime("text/plain", new byte[] {'x'}),
                NdefRecord.createExternal("example.com", "x", null), NdefRecord.createApplicationRecord("com.example"),
                NdefRecord.createUri("tel:1"));
        byte[] bytes = message.toByteArray();
        System.out.println(bytes.length == message.getByteArrayLength() && new NdefMessage(bytes).equals(message));
        System.out.println(new NdefMessage(message.getRecords()).hashCode() == message.hashCode());
        for (NdefRecord record : new NdefMessage(bytes).getRecords()) {
            print(record);
        }
        try {
            new NdefMessage(Arrays.copyOf(bytes, bytes.length - 1));
        } catch (FormatException error) {
            System.out.println("broken");
        }
        System.out.println(new NdefRecord(plain.toByteArray()).equals(plain));
    }

    private static void print(NdefRecord record) {
        short tnf = record.getTnf();
        if (tnf == NdefRecord.TNF_WELL_KNOWN && Arrays.equals(record.getType(), NdefRecord.RTD_TEXT)) {
            byte[] payload = record.getPayload();
            int start = 1 + (payload[0] & 63);
            System.out.println("text " + new String(payload, start, payload.length - start, StandardCharsets.UTF_8)
                    + " id " + record.getId().length);
            return;
        }
        Uri uri = record.toUri();
        String shown = uri == null ? "none" : uri.getScheme() + " " + uri;
        System.out.println(tnf + " " + record.toMimeType() + " " + shown);
    }
}
