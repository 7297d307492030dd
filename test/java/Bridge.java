import android.content.Intent;
import android.nfc.Tag;
import android.os.BadParcelableException;
import android.os.Parcel;
import org.simbegyor.ndef.*;
import org.simbegyor.ndef.android.MessageParcel;
import org.simbegyor.ndef.android.Nfc;

/** What goes to Android and comes from there, over the classes in the folder android, and the program of bindings/java/README.md. */
final class Bridge {
    private static final String HELLO = "D101085402656E48656C6C6F";

    private Bridge() {
    }

    interface Call {
        void run() throws Exception;
    }

    private static Exception thrown(Class<? extends Exception> type, Call call) throws Exception {
        try {
            call.run();
        } catch (Exception error) {
            if (type.isInstance(error)) {
                return error;
            }
            throw error;
        }
        throw new AssertionError("no " + type);
    }

    private static void tags() throws Exception {
        Tag tag = new Tag();
        Tags.write(tag, "Hello");
        Cases.same("written", HELLO, Cases.hex(tag.held));
        Cases.same("read", "Hello", Tags.text(tag));
    }

    private static void messages() throws Exception {
        NdefMessage message = new NdefMessage(NdefRecord.createUri("tel:1"), NdefRecord.createExternal("a.b", "c", new byte[] {1}));
        android.nfc.NdefMessage theirs = Nfc.toAndroid(message);
        Cases.same("bytes", Cases.hex(message.toByteArray()), Cases.hex(theirs.toByteArray()));
        Cases.same("message", message, Nfc.fromAndroid(theirs));
        byte[] code = Cases.unhex("d10102552461");
        FormatException refusal = (FormatException) thrown(FormatException.class,
                () -> Nfc.fromAndroid(new android.nfc.NdefMessage(code)));
        Cases.same("place", "4 UriCode", refusal.place() + " " + refusal.reason());
        NdefRecord unread = new NdefRecord((short) 1, new byte[] {'U'}, null, new byte[] {0x24});
        Cases.same("unchecked", "D101015524", Cases.hex(Nfc.toAndroid(NdefMessage.unchecked(unread)).toByteArray()));
    }

    private static void records() throws Exception {
        NdefRecord record = NdefRecord.createMime("a/b", new byte[] {1, 2}).withId(new byte[] {7});
        android.nfc.NdefRecord theirs = Nfc.toAndroid(record);
        Cases.same("parts", "2 612F62 07 0102", theirs.getTnf() + " " + Cases.hex(theirs.getType()) + " " + Cases.hex(theirs.getId())
                + " " + Cases.hex(theirs.getPayload()));
        Cases.same("record", record, Nfc.fromAndroid(theirs));
        thrown(FormatException.class,
                () -> Nfc.fromAndroid(new android.nfc.NdefRecord((short) 1, new byte[] {'T'}, null, new byte[0])));
    }

    private static void uris() {
        Intent intent = new Intent(Intent.ACTION_VIEW, Nfc.toAndroid(NdefRecord.createUri("HTTPS://a").toUri()));
        Cases.same("intent", "https://a", intent.getData().toString());
        Cases.same("from", Uri.parse("a:b"), Nfc.fromAndroid(android.net.Uri.parse("a:b")));
        if (Nfc.toAndroid(NdefRecord.createTextRecord("en", "x").toUri()) != null) {
            throw new AssertionError("a text has no URI");
        }
    }

    private static void parcels() throws Exception {
        MessageParcel sent = new MessageParcel(new NdefMessage(Cases.unhex(HELLO)));
        Parcel parcel = Parcel.obtain();
        sent.writeToParcel(parcel, sent.describeContents());
        MessageParcel arrived = MessageParcel.CREATOR.createFromParcel(parcel);
        Cases.same("parcel", sent, arrived);
        Cases.same("hash", sent.hashCode(), arrived.hashCode());
        Cases.same("message", HELLO, Cases.hex(arrived.message().toByteArray()));
        Cases.same("array", 3, MessageParcel.CREATOR.newArray(3).length);
        thrown(BadParcelableException.class, () -> MessageParcel.CREATOR.createFromParcel(parcel));
        parcel.writeByteArray(new byte[] {1});
        thrown(BadParcelableException.class, () -> MessageParcel.CREATOR.createFromParcel(parcel));
        NdefRecord unread = new NdefRecord((short) 1, new byte[] {'U'}, null, null);
        thrown(RecordException.class, () -> new MessageParcel(NdefMessage.unchecked(unread)));
    }

    public static void main(String[] words) {
        Cases.check("tags", Bridge::tags);
        Cases.check("messages", Bridge::messages);
        Cases.check("records", Bridge::records);
        Cases.check("uris", Bridge::uris);
        Cases.check("parcels", Bridge::parcels);
        Cases.finish("bridges");
    }
}
