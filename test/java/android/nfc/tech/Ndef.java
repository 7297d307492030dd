package android.nfc.tech;

import android.nfc.FormatException;
import android.nfc.NdefMessage;
import android.nfc.Tag;
import java.io.Closeable;
import java.io.IOException;

/** What the tests use of Android's class. */
public final class Ndef implements Closeable {
    private final Tag tag;
    private boolean isConnected;

    private Ndef(Tag tag) {
        this.tag = tag;
    }

    public static Ndef get(Tag tag) {
        return new Ndef(tag);
    }

    public void connect() throws IOException {
        isConnected = true;
    }

    @Override
    public void close() throws IOException {
        isConnected = false;
    }

    public NdefMessage getNdefMessage() throws IOException, FormatException {
        checkConnected();
        return tag.held == null ? null : new NdefMessage(tag.held);
    }

    public void writeNdefMessage(NdefMessage msg) throws IOException, FormatException {
        checkConnected();
        tag.held = msg.toByteArray();
    }

    private void checkConnected() {
        if (!isConnected) {
            throw new IllegalStateException("Call connect() first!");
        }
    }
}
