import java.io.ByteArrayInputStream;
import java.io.ByteArrayOutputStream;
import java.io.EOFException;
import java.io.FilterInputStream;
import java.io.IOException;
import java.io.InputStream;
import java.io.OutputStream;
import java.nio.charset.StandardCharsets;
import java.util.Arrays;
import java.util.Random;
import org.simbegyor.ndef.*;
import org.simbegyor.ndef.RecordInputStream.Position;

/**
 * Messages that are read in steps, and records whose payload is read from a stream: Steps MESSAGES random messages have the
 * bytes that toByteArray gives, whatever is asked for at once; and what is refused, and when.
 */
final class Steps {
    private static final byte[] NONE = {};
    private static final short[] FORMATS = {NdefRecord.TNF_EMPTY, NdefRecord.TNF_WELL_KNOWN, NdefRecord.TNF_MIME_MEDIA,
        NdefRecord.TNF_ABSOLUTE_URI, NdefRecord.TNF_EXTERNAL_TYPE, NdefRecord.TNF_UNKNOWN};

    private static final Random DICE = new Random(9);

    private Steps() {
    }

    public static void main(String[] words) {
        int rounds = Integer.parseInt(words[0]);
        Cases.check("random messages", () -> randomMessages(rounds));
        Cases.check("each size", Steps::eachSize);
        Cases.check("too few bytes", Steps::tooFew);
        Cases.check("too many bytes", Steps::tooMany);
        Cases.check("what no record has", Steps::noRecord);
        Cases.check("what is at hand", Steps::atHand);
        Cases.check("errors of the other stream", Steps::otherErrors);
        Cases.check("large payloads", Steps::large);
        if (rounds >= 10000) {
            Cases.check("a payload of more than 2 GiB", Steps::huge);
        }
        Cases.finish("steps");
    }

    private interface Call {
        void run() throws Exception;
    }

    private static Exception fails(Class<? extends Exception> type, Call call) {
        try {
            call.run();
        } catch (Exception error) {
            if (error.getClass() != type) {
                throw new AssertionError("expected " + type, error);
            }
            return error;
        }
        throw new AssertionError("expected " + type);
    }

    private static byte[] bytes(int most) {
        byte[] made = new byte[DICE.nextInt(most + 1)];
        DICE.nextBytes(made);
        return made;
    }

    private static byte[] ascii(String text) {
        return text.getBytes(StandardCharsets.ISO_8859_1);
    }

    private static NdefRecord record() {
        short tnf = FORMATS[DICE.nextInt(FORMATS.length)];
        if (tnf == NdefRecord.TNF_EMPTY) {
            return new NdefRecord(tnf, null, null, null);
        }
        byte[] type = tnf == NdefRecord.TNF_UNKNOWN ? NONE : ascii("x".repeat(1 + DICE.nextInt(40)));
        return new NdefRecord(tnf, type, bytes(6), bytes(DICE.nextInt(8) == 0 ? 600 : 20));
    }

    private static NdefMessage message(int count) {
        NdefRecord[] records = new NdefRecord[count];
        Arrays.setAll(records, i -> record());
        return NdefMessage.unchecked(records);
    }

    /** A stream that gives some of what is asked for. */
    private static InputStream some(byte[] bytes) {
        return new FilterInputStream(new ByteArrayInputStream(bytes)) {
            @Override
            public int read(byte[] buffer, int at, int size) throws IOException {
                return super.read(buffer, at, size == 0 ? 0 : 1 + DICE.nextInt(size));
            }
        };
    }

    /** All bytes of a stream, of which some are asked for at once; nothing around them in the array is written. */
    private static byte[] all(InputStream stream, int most) throws IOException {
        ByteArrayOutputStream to = new ByteArrayOutputStream();
        byte[] buffer = new byte[most + 2];
        for (;;) {
            Arrays.fill(buffer, (byte) 0xa5);
            int size = 1 + DICE.nextInt(most);
            int count = stream.read(buffer, 1, size);
            if (count < 0) {
                Cases.same("the end again", -1, stream.read(buffer, 1, size));
                return to.toByteArray();
            }
            if (count == 0 || count > size || buffer[0] != (byte) 0xa5 || buffer[count + 1] != (byte) 0xa5) {
                throw new AssertionError(count + " of " + size + " bytes");
            }
            to.write(buffer, 1, count);
        }
    }

    private static void same(byte[] expected, byte[] found) {
        Cases.same("bytes", Cases.hex(expected), Cases.hex(found));
    }

    private static void randomMessages(int rounds) throws IOException {
        int[] sizes = {1, 2, 5, 40, 1000};
        for (int round = 0; round < rounds; round++) {
            NdefMessage message = message(1 + DICE.nextInt(4));
            NdefRecord[] records = message.getRecords();
            int most = sizes[DICE.nextInt(sizes.length)];
            byte[] whole = message.toByteArray();
            same(whole, all(message.toInputStream(), most));
            boolean isLong = DICE.nextBoolean();
            int chunk = DICE.nextInt(30);
            same(message.toByteArray(isLong, chunk), all(message.toInputStream(isLong, chunk), most));
            ByteArrayOutputStream to = new ByteArrayOutputStream();
            for (int i = 0; i < records.length; i++) {
                boolean isFirst = i == 0;
                boolean isLast = i + 1 == records.length;
                Position position = isFirst ? isLast ? Position.ONLY : Position.FIRST : isLast ? Position.LAST : Position.MIDDLE;
                byte[] payload = records[i].getPayload();
                to.write(all(new RecordInputStream(records[i], some(payload), payload.length, position), most));
            }
            same(whole, to.toByteArray());
        }
    }

    private static void eachSize() throws IOException {
        NdefMessage message = new NdefMessage(NdefRecord.createTextRecord("en", "Hello"),
                NdefRecord.createMime("image/png", new byte[300]));
        byte[] whole = message.toByteArray();
        same(whole, message.toInputStream().readAllBytes());
        for (int size = 1; size <= whole.length; size++) {
            InputStream stream = message.toInputStream();
            for (int at = 0; at < whole.length; at += size) {
                same(Arrays.copyOfRange(whole, at, Math.min(at + size, whole.length)), stream.readNBytes(size));
            }
            Cases.same("the end", -1, stream.read());
        }
        InputStream one = message.toInputStream();
        for (byte octet : whole) {
            Cases.same("a byte", octet & 255, one.read());
        }
        Cases.same("no bytes", 0, one.readNBytes(9).length);
    }

    private static final byte[] HEAD = ascii("\u00d5\0\5");

    private static RecordInputStream of(byte[] payload, long length) {
        NdefRecord head = new NdefRecord(NdefRecord.TNF_UNKNOWN, null, null, ascii("not written"));
        return new RecordInputStream(head, some(payload), length, Position.ONLY);
    }

    /** What is read before the error of a class, whose text is given, and which comes again. */
    private static void failsAfter(byte[] expected, Class<? extends Exception> type, String text, InputStream stream)
            throws IOException {
        ByteArrayOutputStream to = new ByteArrayOutputStream();
        Exception error = fails(type, () -> {
            for (int octet = stream.read(); octet >= 0; octet = stream.read()) {
                to.write(octet);
            }
        });
        same(expected, to.toByteArray());
        Cases.same("text", text, error.getMessage());
        Cases.same("again", text, fails(IOException.class, stream::read).getMessage());
    }

    private static byte[] joined(byte[] front, String rest) throws IOException {
        ByteArrayOutputStream to = new ByteArrayOutputStream();
        to.write(front);
        to.write(ascii(rest));
        return to.toByteArray();
    }

    private static void tooFew() throws IOException {
        failsAfter(joined(HEAD, "abc"), EOFException.class, "the payload has 3 bytes, and 5 were said", of(ascii("abc"), 5));
        failsAfter(HEAD, EOFException.class, "the payload has 0 bytes, and 5 were said", of(NONE, 5));
        byte[] buffer = new byte[9];
        RecordInputStream stream = of(ascii("a"), 5);
        Cases.same("no byte is asked for", 0, stream.read(buffer, 9, 0));
        fails(IndexOutOfBoundsException.class, () -> stream.read(buffer, 5, 5));
        fails(EOFException.class, stream::readAllBytes);
    }

    private static void tooMany() throws IOException {
        failsAfter(joined(HEAD, "abcde"), IOException.class, "the payload has more than the 5 bytes that were said", of(ascii("abcdef"), 5));
        failsAfter(ascii("\u00d5\0\0"), IOException.class, "the payload has more than the 0 bytes that were said", of(ascii("a"), 0));
        same(joined(HEAD, "abcde"), all(of(ascii("abcde"), 5), 9));
    }

    private static void noRecord() {
        NdefRecord unknown = new NdefRecord(NdefRecord.TNF_UNKNOWN, null, null, null);
        NdefRecord empty = new NdefRecord(NdefRecord.TNF_EMPTY, null, null, null);
        InputStream none = new ByteArrayInputStream(NONE);
        for (long length : new long[] {-1, 1L << 32, Long.MIN_VALUE, Long.MAX_VALUE}) {
            fails(IllegalArgumentException.class, () -> new RecordInputStream(unknown, none, length, Position.ONLY));
        }
        Exception error = fails(IllegalArgumentException.class, () -> new RecordInputStream(empty, none, 1, Position.ONLY));
        Cases.same("text", "a record of the type name format 0 has no payload of 1 bytes", error.getMessage());
        fails(NullPointerException.class, () -> new RecordInputStream(unknown, null, 1, Position.ONLY));
        fails(NullPointerException.class, () -> new RecordInputStream(unknown, none, 1, null));
        fails(NullPointerException.class, () -> new RecordInputStream(null, none, 1, Position.ONLY));
        NdefMessage message = NdefMessage.unchecked(unknown);
        for (long chunk : new long[] {-1, 1L << 32}) {
            fails(IllegalArgumentException.class, () -> message.toInputStream(true, chunk));
        }
        NdefMessage many = new NdefMessage(new NdefRecord(NdefRecord.TNF_UNKNOWN, null, null, new byte[5000]));
        fails(RecordException.class, () -> many.toInputStream(false, 1));
    }

    /** A read gives what is at hand, and doesn't wait for more of the payload. */
    private static void atHand() throws IOException {
        int[] asked = {0};
        InputStream payload = new InputStream() {
            @Override
            public int read() {
                throw new AssertionError("one byte is asked for");
            }

            @Override
            public int read(byte[] buffer, int at, int size) {
                asked[0]++;
                buffer[at] = 'a';
                return 1;
            }
        };
        NdefRecord head = new NdefRecord(NdefRecord.TNF_UNKNOWN, null, null, null);
        try (RecordInputStream stream = new RecordInputStream(head, payload, 5, Position.ONLY)) {
            byte[] buffer = new byte[9];
            Cases.same("the head", "3 0", stream.read(buffer) + " " + asked[0]);
            Cases.same("a byte", "1 1", stream.read(buffer) + " " + asked[0]);
        }
    }

    private static void otherErrors() throws IOException {
        boolean[] isClosed = {false};
        InputStream payload = new InputStream() {
            @Override
            public int read() throws IOException {
                throw new IOException("no cable");
            }

            @Override
            public void close() {
                isClosed[0] = true;
            }
        };
        NdefRecord head = new NdefRecord(NdefRecord.TNF_UNKNOWN, null, null, null);
        try (RecordInputStream stream = new RecordInputStream(head, payload, 5, Position.ONLY)) {
            same(HEAD, stream.readNBytes(3));
            Cases.same("text", "no cable", fails(IOException.class, stream::read).getMessage());
        }
        Cases.same("it is closed", true, isClosed[0]);
        NdefMessage.unchecked(head).toInputStream().close();
    }

    private static void large() throws IOException {
        byte[] payload = new byte[100000];
        DICE.nextBytes(payload);
        NdefMessage message = new NdefMessage(NdefRecord.createMime("a/b", payload));
        same(message.toByteArray(), message.toInputStream().readAllBytes());
        NdefRecord head = NdefRecord.createMime("a/b", NONE);
        same(message.toByteArray(), new RecordInputStream(head, new ByteArrayInputStream(payload), payload.length, Position.ONLY).readAllBytes());
    }

    /** Its length and what is taken of it have no place in a number of 32 bits with a sign. */
    private static void huge() throws IOException {
        long length = (1L << 31) + 9;
        InputStream payload = new InputStream() {
            @Override
            public int read() {
                return -1;
            }

            @Override
            public int read(byte[] buffer, int at, int size) {
                return size;
            }
        };
        InputStream stream = new RecordInputStream(NdefRecord.createMime("a/b", NONE), payload, length, Position.ONLY);
        Cases.same("bytes", 9 + length, stream.transferTo(OutputStream.nullOutputStream()));
    }
}
