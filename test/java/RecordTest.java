import static org.junit.jupiter.api.Assertions.assertArrayEquals;
import static org.junit.jupiter.api.Assertions.assertEquals;
import static org.junit.jupiter.api.Assertions.assertNotEquals;
import static org.junit.jupiter.api.Assertions.assertNull;
import static org.junit.jupiter.api.Assertions.assertThrows;

import java.nio.ByteBuffer;
import java.nio.charset.StandardCharsets;
import java.util.Arrays;
import java.util.List;
import java.util.Locale;
import org.junit.jupiter.api.Test;
import org.junit.jupiter.api.function.Executable;
import org.simbegyor.ndef.*;

/** What the classes have of their own, as the documentation of android.nfc describes it, and what they refuse. */
class RecordTest {
    private static final byte[] NONE = {};

    private static byte[] bytes(String text) {
        return text.getBytes(StandardCharsets.UTF_8);
    }

    private static byte[] hello() {
        return Cases.unhex("d101085402656e48656c6c6f");
    }

    private static void refuses(Executable call) {
        assertThrows(IllegalArgumentException.class, call);
    }

    private static void isNull(Executable... calls) {
        for (Executable call : calls) {
            assertThrows(NullPointerException.class, call);
        }
    }

    private static void is(NdefRecord record, int tnf, String type, String payload) {
        assertEquals(tnf, record.getTnf());
        assertEquals(type, new String(record.getType(), StandardCharsets.UTF_8));
        assertEquals(payload, new String(record.getPayload(), StandardCharsets.UTF_8));
        assertEquals(0, record.getId().length);
    }

    // ---- what makes a record

    @Test
    void aRecordHasItsParts() {
        NdefRecord record = new NdefRecord(NdefRecord.TNF_MIME_MEDIA, bytes("a/b"), bytes("id"), bytes("x"));
        assertEquals("a/b id x 2", new String(record.getType(), StandardCharsets.UTF_8) + " "
                + new String(record.getId(), StandardCharsets.UTF_8) + " "
                + new String(record.getPayload(), StandardCharsets.UTF_8) + " " + record.getTnf());
        NdefRecord empty = new NdefRecord(NdefRecord.TNF_EMPTY, NONE, NONE, NONE);
        assertEquals(empty, new NdefRecord((short) 0, null, null, null));
    }

    @Test
    void recordsThatThereAreNot() {
        refuses(() -> new NdefRecord((short) -1, null, null, null));
        refuses(() -> new NdefRecord(NdefRecord.TNF_UNCHANGED, null, null, null));
        refuses(() -> new NdefRecord((short) 7, null, null, null));
        refuses(() -> new NdefRecord((short) 8, null, null, null));
        refuses(() -> new NdefRecord(NdefRecord.TNF_EMPTY, null, null, bytes("x")));
        refuses(() -> new NdefRecord(NdefRecord.TNF_EMPTY, null, bytes("x"), null));
        refuses(() -> new NdefRecord(NdefRecord.TNF_UNKNOWN, bytes("x"), null, null));
        refuses(() -> new NdefRecord(NdefRecord.TNF_MIME_MEDIA, new byte[256], null, null));
        refuses(() -> new NdefRecord(NdefRecord.TNF_MIME_MEDIA, bytes("a/b"), new byte[256], null));
        refuses(() -> NdefRecord.createMime("a/b", NONE).withId(new byte[256]));
    }

    private static String why(Executable call) {
        return assertThrows(IllegalArgumentException.class, call).getMessage();
    }

    /** The messages name the part that is wrong, and no bytes. */
    @Test
    void whatIsWrongWithARecord() {
        byte[] large = new byte[1000000];
        assertEquals("a record of the type name format 0 has no payload",
                why(() -> new NdefRecord((short) 0, null, null, large)));
        assertEquals("a record of the type name format 0 has no id", why(() -> new NdefRecord((short) 0, null, bytes("x"), large)));
        assertEquals("a record of the type name format 0 has no type",
                why(() -> new NdefRecord((short) 0, bytes("x"), null, large)));
        assertEquals("a record of the type name format 5 has no type",
                why(() -> new NdefRecord((short) 5, bytes("x"), null, large)));
        for (short tnf = 1; tnf < 5; tnf++) {
            short own = tnf;
            assertEquals("a record of the type name format " + tnf + " needs a type",
                    why(() -> new NdefRecord(own, null, null, large)));
        }
        for (short tnf : new short[] {-1, 6, 7, 8, 256, 257, Short.MAX_VALUE}) {
            assertEquals("no record has the type name format " + tnf, why(() -> new NdefRecord(tnf, bytes("x"), null, large)));
        }
        assertEquals("a type of 256 bytes is too long", why(() -> new NdefRecord((short) 2, new byte[256], null, large)));
        assertEquals("an id of 1000000 bytes is too long", why(() -> new NdefRecord((short) 2, bytes("a/b"), large, null)));
        assertEquals("an id of 1000000 bytes is too long", why(() -> NdefRecord.createUri("a:b").withId(large)));
        assertEquals("a type of 300 bytes is too long", why(() -> NdefRecord.createExternal("d", "t".repeat(298), large)));
        assertEquals("the media type lacks what stands before or after its slash",
                why(() -> NdefRecord.createMime("a".repeat(1000000) + "/", null)));
    }

    @Test
    void whatIsWrongWithOthers() {
        assertEquals("no handover has the minor version 16", why(() -> HandoverSelect.builder(16).build()));
        assertEquals("the records are none of a handover", why(() -> HandoverRequest.builder(2, 1)
                .record(new NdefRecord((short) 1, bytes("ac"), null, new byte[1])).build()));
        assertEquals("an error with the reason 4 has no number 1", why(() -> HandoverError.ofNumber(4, 1)));
        assertEquals("an error with the reason 1 has no such data", why(() -> HandoverError.of(1, new byte[1000000])));
        assertEquals("a carrier has a format of 0 to 7 and a type of at most 255 bytes",
                why(() -> Carrier.of(1, new byte[1000000], NONE)));
        byte[] two = new NdefMessage(times(2, NdefRecord.createUri("a:b"))).toByteArray();
        assertEquals("the message has 2 records instead of one",
                assertThrows(FormatException.class, () -> new NdefRecord(two)).getMessage());
    }

    @Test
    void uris() throws FormatException {
        assertEquals("file:///I", Uri.parse("FILE:///I").normalizeScheme().toString());
        is(NdefRecord.createUri("http://www.example.com"), 1, "U", "\1example.com");
        is(NdefRecord.createUri("HTTP://www.example.com"), 1, "U", "\1example.com");
        is(NdefRecord.createUri(Uri.parse("urn:nfc:a")), 1, "U", "\43a");
        is(NdefRecord.createUri("geo:1,2"), 1, "U", "\0geo:1,2");
        assertEquals("https://example.com/ü", NdefRecord.createUri("https://example.com/ü").toUri().toString());
        refuses(() -> NdefRecord.createUri(""));
        refuses(() -> NdefRecord.createUri("a:\ud800"));
        isNull(() -> NdefRecord.createUri((String) null), () -> NdefRecord.createUri((Uri) null),
                () -> Uri.parse(null));
        assertEquals(UriRecord.of("tel:1"), NdefRecord.createUri("tel:1").decode());
    }

    @Test
    void texts() throws FormatException {
        is(NdefRecord.createTextRecord("en", "Hello"), 1, "T", "\2enHello");
        Locale before = Locale.getDefault();
        try {
            Locale.setDefault(Locale.GERMAN);
            is(NdefRecord.createTextRecord(null, "a"), 1, "T", "\2dea");
            is(NdefRecord.createTextRecord("", "a"), 1, "T", "\2dea");
        } finally {
            Locale.setDefault(before);
        }
        String longest = "x".repeat(63);
        assertEquals(longest, ((TextRecord) NdefRecord.createTextRecord(longest, "").decode()).language());
        refuses(() -> NdefRecord.createTextRecord("x".repeat(64), ""));
        refuses(() -> NdefRecord.createTextRecord("ü", ""));
        refuses(() -> NdefRecord.createTextRecord("en", "\udc00"));
        isNull(() -> NdefRecord.createTextRecord("en", null), () -> TextRecord.of(null, ""),
                () -> TextRecord.parse(null));
        assertArrayEquals(Cases.unhex("82656EFEFF0041"), TextRecord.ofUtf16("en", "A").toByteArray());
    }

    @Test
    void mediaTypesAndOthers() {
        is(NdefRecord.createMime("Text/Plain; charset=utf-8", bytes("x")), 2, "text/plain", "x");
        is(NdefRecord.createMime(" a/b ", null), 2, "a/b", "");
        Locale before = Locale.getDefault();
        try {
            Locale.setDefault(new Locale("tr", "TR"));
            is(NdefRecord.createMime("IMAGE/GIF", NONE), 2, "image/gif", "");
        } finally {
            Locale.setDefault(before);
        }
        is(NdefRecord.createMime("noslash", NONE), 2, "noslash", "");
        for (String wrong : new String[] {"", " ", ";", "/b", "a/", "ä/b"}) {
            refuses(() -> NdefRecord.createMime(wrong, NONE));
        }
        is(NdefRecord.createExternal("Example.COM", " Type", bytes("x")), 4, "example.com:type", "x");
        refuses(() -> NdefRecord.createExternal("", "t", NONE));
        refuses(() -> NdefRecord.createExternal("d", " ", NONE));
        refuses(() -> NdefRecord.createExternal("d", "t".repeat(254), NONE));
        is(NdefRecord.createApplicationRecord("com.example"), 4, "android.com:pkg", "com.example");
        refuses(() -> NdefRecord.createApplicationRecord(""));
        isNull(() -> NdefRecord.createMime(null, NONE), () -> NdefRecord.createExternal(null, "t", NONE),
                () -> NdefRecord.createExternal("d", null, NONE), () -> NdefRecord.createApplicationRecord(null));
    }

    // ---- what a record says

    @Test
    void mediaTypesOfRecords() {
        assertEquals("text/plain", NdefRecord.createTextRecord("en", "x").toMimeType());
        assertEquals("a/b", new NdefRecord((short) 2, bytes("A/B;c=d"), null, null).toMimeType());
        assertNull(NdefRecord.createUri("tel:1").toMimeType());
        assertNull(new NdefRecord((short) 4, bytes("T"), null, null).toMimeType());
    }

    @Test
    void urisOfRecords() {
        assertEquals(Uri.parse("http://a"), new NdefRecord((short) 3, bytes("HTTP://a"), null, null).toUri());
        assertEquals("vnd.android.nfc://ext/d:t", NdefRecord.createExternal("d", "t", null).toUri().toString());
        assertEquals("tel:1", SmartPoster.builder("tel:1").title("en", "x").build().toRecord().toUri().toString());
        assertNull(NdefRecord.createTextRecord("en", "x").toUri());
        assertNull(new NdefRecord((short) 1, bytes("U"), null, NONE).toUri());
        assertNull(new NdefRecord((short) 1, bytes("Sp"), null, NONE).toUri());
    }

    @Test
    void recordsWithProfiles() throws FormatException {
        byte[] reserved = Cases.unhex("d101025524 61");
        NdefRecord record = NdefMessage.parse(reserved, Limits.defaults(), Profile.STANDARD).getRecords()[0];
        assertEquals("a", ((UriRecord) record.decode()).uri());
        assertThrows(FormatException.class, () -> NdefMessage.parse(reserved, Limits.defaults(), Profile.STRICT));
        assertEquals(19, assertThrows(FormatException.class, () -> new NdefRecord((short) 1, bytes("U"), null,
                record.getPayload()).decode()).reason().number());
    }

    @Test
    void otherPayloads() throws FormatException {
        NdefRecord record = NdefRecord.createMime("a/b", bytes("x")).withId(bytes("1"));
        Payload other = record.decode();
        assertEquals(Payload.Other.class, other.getClass());
        assertEquals(record, other.toRecord());
        assertEquals(other, record.decode());
        assertNotEquals(other, record.withId(NONE).decode());
    }

    // ---- values

    @Test
    void equalRecords() {
        NdefRecord record = new NdefRecord((short) 2, bytes("a/b"), bytes("1"), bytes("x"));
        NdefRecord same = new NdefRecord((short) 2, bytes("a/b"), bytes("1"), bytes("x"));
        assertEquals(record, same);
        assertEquals(record.hashCode(), same.hashCode());
        assertEquals("NdefRecord tnf=2 type=612F62 id=31 payload=78", record.toString());
        for (NdefRecord other : new NdefRecord[] {new NdefRecord((short) 4, bytes("a/b"), bytes("1"), bytes("x")),
            new NdefRecord((short) 2, bytes("a/c"), bytes("1"), bytes("x")), record.withId(NONE),
            new NdefRecord((short) 2, bytes("a/b"), bytes("1"), NONE)}) {
            assertNotEquals(record, other);
        }
        assertNotEquals(record, "record");
        assertNotEquals(record, null);
    }

    @Test
    void equalMessages() throws FormatException {
        NdefMessage message = new NdefMessage(hello());
        NdefMessage same = new NdefMessage(NdefRecord.createTextRecord("en", "Hello"));
        assertEquals(message, same);
        assertEquals(message.hashCode(), same.hashCode());
        assertEquals("NdefMessage [NdefRecord tnf=1 type=54 payload=02656E48656C6C6F]", message.toString());
        assertNotEquals(message, new NdefMessage(message.getRecords()[0], message.getRecords()[0]));
        assertEquals(message.getRecords()[0], new NdefRecord(hello()));
        assertArrayEquals(hello(), message.getRecords()[0].toByteArray());
        byte[] two = new NdefMessage(message.getRecords()[0], message.getRecords()[0]).toByteArray();
        assertThrows(FormatException.class, () -> new NdefRecord(two));
    }

    @Test
    void equalValues() throws FormatException {
        assertEquals(Limits.defaults(), Limits.defaults().withRecords(1024));
        assertNotEquals(Limits.defaults(), Limits.defaults().withChunks(1));
        assertEquals(Fields.of(hello()), new NdefMessage(NdefRecord.createTextRecord("en", "Hello")).fields());
        assertEquals(TextRecord.of("en", "a").hashCode(), TextRecord.of("en", "a").hashCode());
        assertNotEquals(TextRecord.of("en", "a"), TextRecord.ofUtf16("en", "a"));
        byte[] id = bytes("1");
        HandoverSelect chosen = HandoverSelect.builder(2).alternative(PowerState.ACTIVE, id).build();
        NdefMessage select = new NdefMessage(chosen.toRecord(),
                NdefRecord.createUri("tel:1").withId(id));
        Link link = select.links().get(0);
        assertEquals(link, select.links().get(0));
        assertEquals(link.hashCode(), select.links().get(0).hashCode());
        assertNotEquals(link, new NdefMessage(select.getRecords()[0]).links().get(0));
        Field field = Fields.of(hello()).get(1);
        assertEquals(field.hashCode(), Fields.of(hello()).get(1).hashCode());
        Fields fields = Fields.of(hello());
        Fields others = new NdefMessage(NdefRecord.createTextRecord("en", "Hallo")).fields();
        for (int i = 0; i < 7; i++) {
            assertEquals(i != 6, fields.get(i).equals(others.get(i)));
            assertNotEquals(fields.get(i), fields.get((i + 1) % 7));
        }
        for (int index : new int[] {-1, 7, Integer.MAX_VALUE, Integer.MIN_VALUE}) {
            assertThrows(IndexOutOfBoundsException.class, () -> fields.get(index));
        }
        assertThrows(IndexOutOfBoundsException.class, () -> Sentences.recordWarning(hello(), -1));
        assertEquals(Limits.defaults().hashCode(), Limits.defaults().withRecords(1024).hashCode());
        assertEquals(Uri.parse("a:b").hashCode(), Uri.parse("a:b").hashCode());
        SmartPoster poster = SmartPoster.builder("a:b").icon("image/png", bytes("x")).build();
        assertEquals(poster.icons(), SmartPoster.builder("a:c").icon("image/png", bytes("x")).build().icons());
        assertNotEquals(poster.icons(), SmartPoster.builder("a:c").icon("image/png", NONE).build().icons());
        assertNotEquals(poster.icons(), SmartPoster.builder("a:c").icon("image/gif", bytes("x")).build().icons());
        Icon icon = poster.icons().get(0);
        for (Object value : new Object[] {field, link, poster, icon, Limits.defaults(), Uri.parse("a"), select}) {
            assertNotEquals(value, "value");
            assertNotEquals(value, null);
        }
    }

    // ---- arrays are copied

    @Test
    void whatTheCallerChangesAfterwards() throws FormatException {
        byte[] type = bytes("a/b");
        byte[] id = bytes("1");
        byte[] payload = bytes("x");
        NdefRecord record = new NdefRecord((short) 2, type, id, payload);
        NdefRecord named = record.withId(id);
        Carrier carrier = Carrier.of(2, type, payload);
        byte[] given = hello();
        NdefMessage message = new NdefMessage(given);
        NdefRecord[] records = {record};
        NdefMessage made = new NdefMessage(records);
        Fields fields = Fields.of(given);
        for (byte[] array : new byte[][] {type, id, payload, given, record.getType(), record.getId(),
            record.getPayload(), message.toByteArray(), carrier.type(), carrier.data(), carrier.toByteArray(),
            fields.get(0).bytes()}) {
            Arrays.fill(array, (byte) 0);
        }
        records[0] = made.getRecords()[0] = null;
        assertEquals("NdefRecord tnf=2 type=612F62 id=31 payload=78", record.toString());
        assertEquals(record, named);
        assertArrayEquals(Cases.unhex("0203612F6278"), carrier.toByteArray());
        assertEquals("a/b x", new String(carrier.type(), StandardCharsets.UTF_8) + " " + new String(carrier.data(),
                StandardCharsets.UTF_8));
        assertArrayEquals(hello(), message.toByteArray());
        assertEquals(record, made.getRecords()[0]);
        assertEquals("0 0 header D1", fields.get(0).toString());
    }

    @Test
    void constantsThatAreChanged() {
        try {
            NdefRecord.RTD_TEXT[0] = 'X';
            assertArrayEquals(bytes("T"), NdefRecord.createTextRecord("en", "a").getType());
        } finally {
            NdefRecord.RTD_TEXT[0] = 'T';
        }
    }

    // ---- messages, limits and checks

    private static NdefRecord[] times(int count, NdefRecord record) {
        NdefRecord[] records = new NdefRecord[count];
        Arrays.fill(records, record);
        return records;
    }

    @Test
    void messagesThatThereAreNot() {
        NdefRecord record = NdefRecord.createUri("tel:1");
        refuses(() -> new NdefMessage(new NdefRecord[0]));
        assertEquals("the bytes are null",
                assertThrows(NullPointerException.class, () -> new NdefMessage((byte[]) null)).getMessage());
        isNull(() -> new NdefMessage((byte[]) null), () -> new NdefMessage((NdefRecord) null),
                () -> new NdefMessage((NdefRecord[]) null), () -> new NdefMessage(new NdefRecord[] {record, null}),
                () -> new NdefMessage(record, (NdefRecord) null), () -> new NdefMessage(record, (NdefRecord[]) null),
                () -> NdefMessage.parse(NONE, null, Profile.STRICT),
                () -> NdefMessage.parse(NONE, Limits.defaults(), null),
                () -> NdefMessage.parse(null, Limits.defaults(), Profile.STRICT),
                () -> NdefMessage.parsePrefix(null, 0, 0, Limits.defaults(), Profile.STRICT));
        refuses(() -> new NdefMessage(record).toByteArray(false, -1));
        refuses(() -> new NdefMessage(record).toByteArray(false, 1L << 32));
    }

    @Test
    void refusals() {
        byte[] broken = Cases.unhex("d101035442656e");
        FormatException refusal = assertThrows(FormatException.class, () -> new NdefMessage(broken));
        assertEquals(4, refusal.place());
        assertEquals(Reason.TEXT_BIT, refusal.reason());
        assertEquals("Bit 6 of the status octet of a text is reserved: it has to be 0.", refusal.sentence());
        assertEquals("refused at 4: TextBit: " + refusal.sentence(), refusal.getMessage());
        byte[] longer = Arrays.copyOf(hello(), 13);
        refusal = assertThrows(FormatException.class, () -> new NdefMessage(longer));
        assertEquals(12, refusal.place());
        assertEquals(Reason.TRAILING_BYTES, refusal.reason());
        assertEquals("refused at 12: TrailingBytes: Other bytes follow the message.", refusal.getMessage());
        assertEquals("Other bytes follow the message.", refusal.sentence());
        assertEquals(24, assertThrows(FormatException.class, () -> new NdefMessage(NONE)).reason().number());
        FormatException own = new FormatException();
        assertEquals("-1 null Another reason.", own.place() + " " + own.getMessage() + " " + own.sentence());
        assertEquals("mine", new FormatException("mine", refusal).sentence());
    }

    /** The message of an exception says what is wrong, and a text of a record not all of its bytes. */
    @Test
    void messagesOfExceptionsAreShort() {
        byte[] large = new byte[1_000_000];
        NdefRecord text = new NdefRecord(NdefRecord.TNF_WELL_KNOWN, bytes("T"), null, large);
        NdefRecord unknown = new NdefRecord(NdefRecord.TNF_UNKNOWN, null, null, large);
        byte[] written = NdefMessage.unchecked(text, unknown).toByteArray();
        large[0] = 0x40;
        NdefRecord wrong = new NdefRecord(NdefRecord.TNF_WELL_KNOWN, bytes("T"), null, large);
        for (Executable call : List.<Executable>of(wrong::decode, () -> new NdefMessage(wrong), () -> new NdefMessage(large),
                () -> new NdefRecord(written), () -> new NdefMessage(Arrays.copyOf(written, written.length + 1)),
                () -> new NdefRecord((short) 0, null, null, large), () -> new NdefRecord((short) 2, large, null, null))) {
            String said = assertThrows(Exception.class, call).getMessage();
            assertEquals(said.substring(0, Math.min(said.length(), 160)), said);
        }
        String spelled = unknown.toString();
        assertEquals("NdefRecord tnf=5 payload=" + "00".repeat(1024) + ".. (1000000 bytes)", spelled);
    }

    @Test
    void partsOfArrays() throws FormatException {
        byte[] twice = Cases.unhex("00d101085402656e48656c6c6fd00000");
        Prefix prefix = NdefMessage.parsePrefix(twice, 1, 15, Limits.defaults(), Profile.STRICT);
        assertEquals(12, prefix.length());
        assertArrayEquals(hello(), prefix.message().toByteArray());
        prefix = NdefMessage.parsePrefix(twice, 13, 3, Limits.defaults(), Profile.STRICT);
        assertEquals(0, prefix.message().getRecords()[0].getTnf());
        for (int[] wrong : new int[][] {{-1, 3}, {0, -1}, {0, 17}, {16, 1}, {17, 0}, {1, Integer.MAX_VALUE},
            {Integer.MAX_VALUE, 1}, {Integer.MIN_VALUE, 0}}) {
            assertThrows(IndexOutOfBoundsException.class,
                    () -> NdefMessage.parsePrefix(twice, wrong[0], wrong[1], Limits.defaults(), Profile.STRICT));
        }
    }

    @Test
    void limitsOutOfRange() throws FormatException {
        for (long wrong : new long[] {0, -1, 1L << 32, Long.MIN_VALUE}) {
            refuses(() -> Limits.defaults().withPayload(wrong));
        }
        for (int wrong : new int[] {0, -1, 65536, Integer.MIN_VALUE}) {
            refuses(() -> Limits.defaults().withRecords(wrong));
            refuses(() -> Limits.defaults().withChunks(wrong));
        }
        Limits most = Limits.defaults().withPayload(4294967295L).withRecords(65535).withChunks(65535).withOpaque(true);
        assertEquals("Limits payload=4294967295 records=65535 chunks=65535 opaque", most.toString());
        assertEquals(1, NdefMessage.parse(Cases.unhex("d10101 54 ff"), most, Profile.STRICT).getRecords().length);
    }

    // ---- payloads

    @Test
    void postersThatThereAreNot() {
        refuses(() -> SmartPoster.builder("a:b").action(256));
        refuses(() -> SmartPoster.builder("a:b").action(-1));
        refuses(() -> SmartPoster.builder("a:b").size(1L << 32));
        refuses(() -> SmartPoster.builder("a:b").size(-1));
        refuses(() -> SmartPoster.builder("a:b").icon("", NONE));
        refuses(() -> SmartPoster.builder("a:b").record(NdefRecord.createUri("tel:1")).build());
        isNull(() -> SmartPoster.builder(null), () -> SmartPoster.builder("a").title("en", null),
                () -> SmartPoster.builder("a").icon("a/b", null), () -> SmartPoster.builder("a").record(null));
        SmartPoster poster = SmartPoster.builder("a:b").size(4294967295L).action(255).build();
        assertEquals("255 4294967295", poster.action().getAsInt() + " " + poster.size().getAsLong());
        assertThrows(UnsupportedOperationException.class, () -> poster.records().clear());
    }

    @Test
    void handoversThatThereAreNot() {
        byte[][] many = new byte[256][0];
        refuses(() -> AlternativeCarrier.of(PowerState.ACTIVE, NONE, many));
        byte[][] most = Arrays.copyOf(many, 255);
        assertEquals(255, AlternativeCarrier.of(PowerState.ACTIVE, NONE, most).auxiliaries().size());
        refuses(() -> AlternativeCarrier.of(PowerState.ACTIVE, NONE, new byte[1000][0]));
        refuses(() -> AlternativeCarrier.of(PowerState.ACTIVE, new byte[256]));
        refuses(() -> HandoverRequest.builder(2, 65536));
        refuses(() -> HandoverRequest.builder(2, -1));
        refuses(() -> HandoverSelect.builder(16).build());
        refuses(() -> HandoverError.of(1, NONE));
        refuses(() -> HandoverError.ofNumber(4, 1));
        refuses(() -> HandoverError.ofNumber(2, 1L << 32));
        refuses(() -> Carrier.of(8, NONE, NONE));
        isNull(() -> AlternativeCarrier.of(null, NONE), () -> AlternativeCarrier.of(PowerState.ACTIVE, null),
                () -> Carrier.of(1, null, NONE), () -> HandoverError.of(1, null),
                () -> HandoverSelect.builder(2).record(null));
        assertEquals(4294967295L, HandoverError.ofNumber(2, 4294967295L).number().getAsLong());
        assertEquals(Profile.values().length, 2);
    }
}
