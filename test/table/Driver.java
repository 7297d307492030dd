import java.io.ByteArrayInputStream;
import java.io.IOException;
import java.io.InputStream;
import java.io.SequenceInputStream;
import java.nio.ByteBuffer;
import java.nio.charset.CharacterCodingException;
import java.nio.charset.StandardCharsets;
import java.nio.file.Files;
import java.nio.file.Path;
import java.util.ArrayList;
import java.util.Arrays;
import java.util.Collections;
import java.util.HashMap;
import java.util.List;
import java.util.Map;
import java.util.Optional;
import java.util.concurrent.ConcurrentHashMap;
import java.util.function.Function;
import java.util.function.Supplier;
import java.util.regex.Matcher;
import java.util.regex.Pattern;
import java.util.stream.Collectors;
import java.util.stream.IntStream;
import java.util.stream.Stream;
import org.simbegyor.ndef.*;

/**
 * Driver TABLE: makes each call of the table, as its second form has them, through the public interface of the module, and prints a line for each row.
 * Bytes are given as arrays, as parts of arrays and as buffers of each kind, and are overwritten before an answer is read; arrays and lists that were
 * answered are overwritten, and read again; and four threads make all calls again in another order: nothing may be another answer then.
 */
final class Driver {
    private static final String NOT = "{'stream':'there is no reader of streams: a checker is fed','kind':'the class of a value says it','layout':'there are no layouts',"
            + "'handover':'links are those of the first handover','form':'of a message in another form that is checked the shortest form is checked before',"
            + "'sentence':'a stream checks the whole message first','utf8':'a text is Unicode','which':'it is in the words of the exception','made':'a record that has no bytes is not made',"
            + "'within':'a record within a poster has the value of a text or a URI, one within a handover that of a carrier or an error'}";

    private Driver() {
    }

    /** A row has no value: the answer instead. */
    private static final class Instead extends RuntimeException {
        private static final long serialVersionUID = 1;

        Instead(String answer) {
            super(answer);
        }
    }

    private static Instead not(String why) {
        return new Instead("{\"not\":\"" + why + "\"}");
    }

    // ---- a row

    /** The words of a row, and the arrays that were given of it. */
    private static final class Row {
        private final Map<String, String> words = new HashMap<>();
        private final List<byte[]> given = new ArrayList<>();

        Row(String line) {
            for (String word : line.split("\t")) {
                words.put(word.substring(0, word.indexOf('=')), word.substring(word.indexOf('=') + 1));
            }
        }

        boolean has(String name) {
            return words.containsKey(name);
        }

        String word(String name) {
            return words.getOrDefault(name, "");
        }

        long number(String name) {
            return has(name) ? Long.parseLong(word(name)) : 0;
        }

        byte[] bytes(String name) {
            byte[] bytes = new byte[word(name).length() / 2];
            for (int i = 0; i < bytes.length; i++) {
                bytes[i] = (byte) Integer.parseInt(word(name).substring(2 * i, 2 * i + 2), 16);
            }
            given.add(bytes);
            return bytes;
        }

        String text(String name) {
            try {
                return StandardCharsets.UTF_8.newDecoder().decode(ByteBuffer.wrap(bytes(name))).toString();
            } catch (CharacterCodingException wrong) {
                throw not("utf8");
            }
        }

        List<String> items(String name) {
            return IntStream.range(0, (int) number(name)).mapToObj(i -> name + "." + i).collect(Collectors.toList());
        }

        Profile profile() {
            return has("profile") ? Profile.STANDARD : Profile.STRICT;
        }

        Limits limits() {
            Limits limits = Limits.defaults().withOpaque(has("opaque"));
            limits = has("limits.payload") ? limits.withPayload(number("limits.payload")) : limits;
            limits = has("limits.records") ? limits.withRecords((int) number("limits.records")) : limits;
            return has("limits.chunks") ? limits.withChunks((int) number("limits.chunks")) : limits;
        }

        /** Overwrites what was given. */
        void spoil() {
            given.forEach(bytes -> Arrays.fill(bytes, (byte) 0xaa));
            given.clear();
        }
    }

    // ---- what is shown

    private static String quoted(String text) {
        return '"' + text.replace("\\", "\\\\").replace("\"", "\\\"") + '"';
    }

    private static String hex(byte[] bytes) {
        StringBuilder digits = new StringBuilder("\"");
        for (byte octet : bytes) {
            digits.append(Character.forDigit(octet >> 4 & 15, 16)).append(Character.forDigit(octet & 15, 16));
        }
        return digits.append('"').toString();
    }

    /** The octets of a text; a name that isn't UTF-8 is read with replacements. */
    private static String hex(String text) {
        return text.contains("\ufffd") ? "\"-utf8\"" : hex(text.getBytes(StandardCharsets.UTF_8));
    }

    private static String list(Object... items) {
        return Arrays.asList(items).toString().replaceAll("(?<=[\\],}\"\\w]), ", ",");
    }

    private static <T> String listed(List<T> items, Function<T, String> shown) {
        String all = "[" + items.stream().map(shown).collect(Collectors.joining(",")) + "]";
        try {
            items.clear();
        } catch (UnsupportedOperationException fixed) {
            return all;
        }
        return all;
    }

    private static String orNull(Optional<String> text) {
        return text.map(Driver::quoted).orElse("null");
    }

    /** What is read twice, and once more after what was answered is overwritten: the arrays that it hands out are copies. */
    private static String same(Supplier<byte[]> read) {
        byte[] first = read.get();
        String shown = hex(first);
        Arrays.fill(first, (byte) 0xbb);
        return shown.equals(hex(read.get())) ? shown : "an array that is overwritten changes what it was read of";
    }

    private static String place(FormatException refusal) {
        return list(refusal.place(), quoted(refusal.reason().toString()));
    }

    // ---- values

    private static String alternative(AlternativeCarrier carrier) {
        Supplier<String> read = () -> listed(carrier.auxiliaries(), Driver::hex);
        carrier.auxiliaries().forEach(name -> Arrays.fill(name, (byte) 0xbb));
        return carrier.power().ordinal() + "," + same(carrier::reference) + "," + read.get();
    }

    private static String error(HandoverError error) {
        return list(error.reason(), same(error::data), error.number().isPresent() ? error.number().getAsLong() : null);
    }

    private static String text(TextRecord text) {
        return list(hex(text.language()), hex(text.text()), text.isUtf16());
    }

    private static String handover(Handover handover) {
        String carriers = listed(handover.alternatives(), carrier -> "[" + alternative(carrier) + "]");
        return "\"version\":" + list(handover.majorVersion(), handover.minorVersion()) + ",\"carriers\":" + carriers;
    }

    private static String poster(SmartPoster poster) {
        poster.icons().forEach(icon -> Arrays.fill(icon.data(), (byte) 0xbb));
        return "\"poster\",\"uri\":" + hex(poster.uri()) + ",\"titles\":" + listed(poster.titles(), Driver::text) + ",\"action\":"
                + (poster.action().isPresent() ? poster.action().getAsInt() : null) + ",\"size\":" + (poster.size().isPresent() ? poster.size().getAsLong() : null)
                + ",\"media\":" + poster.mediaType().map(Driver::hex).orElse("null") + ",\"icons\":"
                + listed(poster.icons(), icon -> "[" + hex(icon.mediaType().getBytes(StandardCharsets.ISO_8859_1)) + "," + same(icon::data) + "]");
    }

    private static String value(Payload value) {
        if (value instanceof TextRecord) {
            TextRecord text = (TextRecord) value;
            return "{\"kind\":\"text\",\"language\":" + hex(text.language()) + ",\"text\":" + hex(text.text()) + ",\"utf16\":" + text.isUtf16() + "}";
        } else if (value instanceof UriRecord) {
            return "{\"kind\":\"uri\",\"uri\":" + hex(((UriRecord) value).uri()) + "}";
        } else if (value instanceof SmartPoster) {
            return "{\"kind\":" + poster((SmartPoster) value) + "}";
        } else if (value instanceof HandoverRequest) {
            return "{\"kind\":\"request\"," + handover((Handover) value) + ",\"collision\":" + ((HandoverRequest) value).collision() + "}";
        } else if (value instanceof HandoverSelect) {
            return "{\"kind\":\"select\"," + handover((Handover) value) + ",\"error\":" + ((HandoverSelect) value).error().map(Driver::error).orElse("null") + "}";
        } else if (value instanceof Carrier) {
            Carrier carrier = (Carrier) value;
            return "{\"kind\":\"carrier\",\"format\":" + carrier.format() + ",\"type\":" + same(carrier::type) + ",\"data\":" + same(carrier::data) + "}";
        }
        return "null";
    }

    private static String parts(NdefRecord record) {
        return record.getTnf() + "," + same(record::getType) + "," + same(record::getId) + "," + same(record::getPayload);
    }

    private static String record(NdefRecord record) {
        try {
            return "[" + parts(record) + ",\"-kind\"," + value(record.decode()) + "]";
        } catch (FormatException refusal) {
            return "[" + parts(record) + ",\"-kind\",{\"refused\":" + place(refusal) + "}]";
        }
    }

    private static String records(NdefMessage message) {
        Arrays.fill(message.getRecords(), null);
        return listed(Arrays.asList(message.getRecords()), Driver::record);
    }

    // ---- operations that read

    private static Prefix prefix(Row row) throws FormatException {
        byte[] bytes = row.bytes("bytes"), within = new byte[bytes.length + 7];
        System.arraycopy(bytes, 0, within, 3, bytes.length);
        Prefix prefix = NdefMessage.parsePrefix(within, 3, bytes.length, row.limits(), row.profile());
        Arrays.fill(within, (byte) 0xaa);
        return prefix;
    }

    private static String decode(Row row) throws FormatException {
        Prefix prefix = prefix(row);
        return "{\"length\":" + prefix.length() + ",\"records\":" + (row.word("op").equals("check") ? prefix.message().getRecords().length : records(prefix.message())) + "}";
    }

    private static String decodeAll(Row row) throws FormatException {
        byte[] bytes = row.bytes("bytes");
        NdefMessage message = NdefMessage.parse(bytes, row.limits(), row.profile());
        int length = bytes.length;
        row.spoil();
        return "{\"length\":" + length + ",\"records\":" + records(message) + "}";
    }

    /** The bytes as a buffer of one kind or another. */
    private static ByteBuffer buffer(byte[] bytes, int kind) {
        ByteBuffer memory = kind == 0 ? ByteBuffer.allocateDirect(bytes.length + 3) : ByteBuffer.allocate(bytes.length + 3);
        ByteBuffer buffer = memory.position(3).slice().put(bytes).position(0);
        return kind == 1 ? buffer.asReadOnlyBuffer() : buffer;
    }

    private static String feed(Row row) {
        Checker checker = new Checker(row.limits(), row.profile());
        List<String> fed = new ArrayList<>();
        int kind = row.word("id").hashCode() & 3;
        for (String part : row.items("parts")) {
            byte[] bytes = row.bytes(part);
            try {
                boolean isWhole = kind == 3 ? checker.feed(bytes) : checker.feed(buffer(bytes, kind));
                fed.add("[\"" + (isWhole ? "whole" : "more") + "\"," + checker.length() + "]");
            } catch (FormatException refusal) {
                fed.add("[\"refused\"," + refusal.place() + "," + quoted(refusal.reason().toString()) + "]");
            }
            row.spoil();
        }
        return "{\"fed\":" + listed(fed, it -> it) + "}";
    }

    private static String fields(Row row) {
        Fields fields = Fields.of(row.bytes("bytes"), row.limits(), row.profile());
        row.spoil();
        fields.forEach(field -> Arrays.fill(field.bytes(), (byte) 0xbb));
        String all = listed(fields, field -> list(field.at(), field.length(), field.depth(), quoted(field.name().toString())));
        return "{\"fields\":" + all + ",\"refused\":" + fields.refusal().map(Driver::place).orElse("null") + "}";
    }

    private static final Pattern PLACES = Pattern.compile("read `Arrays\\.copyOfRange\\(bytes, (\\d+), (\\d+)\\)`");

    /** The text of a hint before its colon, and the places after it; the second place of a message at a place is the end. */
    private static String text(FoundHint found) {
        Matcher part = PLACES.matcher(found.text());
        String places = !part.find() ? "" : found.kind() == HintKind.MESSAGE ? part.group(1) : part.group(1) + "," + part.group(2);
        return "[" + quoted(found.text().split(":")[0]) + ",[" + places + "]]";
    }

    private static String orBad(Supplier<String> said) {
        try {
            return said.get();
        } catch (IllegalArgumentException bad) {
            return "{\"bad\":true}";
        }
    }

    private static String refusal(Row row) {
        byte[] bytes = row.bytes("bytes");
        Supplier<Optional<FoundHint>> found = () -> Sentences.findHint(bytes, row.limits(), row.profile());
        return "{\"why\":" + orBad(() -> orNull(Sentences.why(bytes, row.limits(), row.profile())))
                + ",\"hint\":" + orBad(() -> orNull(Sentences.hint(bytes, row.limits(), row.profile())))
                + ",\"found\":" + orBad(() -> found.get().map(it -> list(it.kind().number(), it.place(), it.length())).orElse("null"))
                + ",\"text\":" + orBad(() -> found.get().map(Driver::text).orElse("null")).replace("{\"bad\":true}", "null") + "}";
    }

    /** The sentences that are there, each with its number. */
    private static String said(Stream<Optional<String>> sentences) {
        List<Optional<String>> all = sentences.collect(Collectors.toList());
        return IntStream.range(0, all.size()).filter(i -> all.get(i).isPresent()).mapToObj(i -> "[" + i + "," + quoted(all.get(i).get()) + "]")
                .collect(Collectors.joining(",", "[", "]"));
    }

    private static String warnings(Row row) throws FormatException {
        byte[] bytes = row.bytes("bytes");
        int records = prefix(row).message().getRecords().length;
        return "{\"fields\":" + said(Fields.of(bytes).stream().map(Sentences::fieldWarning)) + ",\"records\":"
                + said(IntStream.rangeClosed(0, records).mapToObj(i -> Sentences.recordWarning(bytes, i))) + "}";
    }

    private static String links(Row row) throws FormatException {
        NdefMessage message = prefix(row).message();
        List<NdefRecord> records = Arrays.asList(message.getRecords());
        int first = 0;
        while (first < records.size() && !isHandover(records.get(first))) {
            first++;
        }
        if (first != row.number("index") || first == records.size() || row.has("opaque")) {
            throw not("handover");
        }
        return "{\"links\":" + listed(message.links(), link -> "[" + alternative(link.alternative()) + ","
                + link.record().map(it -> String.valueOf(IntStream.range(0, records.size()).filter(i -> records.get(i) == it).findFirst().getAsInt())).orElse("null") + "]") + "}";
    }

    private static boolean isHandover(NdefRecord record) {
        String type = new String(record.getType(), StandardCharsets.ISO_8859_1);
        return record.getTnf() == NdefRecord.TNF_WELL_KNOWN && (type.equals("Hr") || type.equals("Hs"));
    }

    private static Payload parsed(Row row) throws FormatException {
        byte[] payload = row.bytes("payload");
        switch (row.text("type")) {
            case "T": return TextRecord.parse(payload);
            case "U": return UriRecord.parse(payload, row.profile());
            case "Sp": return SmartPoster.parse(payload, row.profile());
            case "Hr": return HandoverRequest.parse(payload, row.profile());
            case "Hs": return HandoverSelect.parse(payload, row.profile());
            default: return Carrier.parse(payload);
        }
    }

    private static String valueOf(Row row) throws FormatException {
        Payload value = parsed(row);
        if (!row.has("profile")) {
            Payload decoded = new NdefRecord((short) 1, row.bytes("type"), null, row.bytes("payload")).decode();
            if (!decoded.equals(value) || decoded.hashCode() != value.hashCode()) {
                throw new IllegalStateException("decode reads another value");
            }
        }
        row.spoil();
        return "{\"value\":" + value(value) + "}";
    }

    private static String within(Row row) throws FormatException {
        Payload value = parsed(row);
        boolean isPoster = value instanceof SmartPoster;
        row.spoil();
        if (!isPoster && !(value instanceof Handover)) {
            return "{\"within\":null}";
        }
        List<String> all = new ArrayList<>();
        for (NdefRecord record : isPoster ? ((SmartPoster) value).records() : ((Handover) value).records()) {
            all.add("[" + parts(record) + ",\"-kind\"," + valueWithin(record, isPoster, value instanceof HandoverSelect) + "]");
        }
        return "{\"within\":" + listed(all, it -> it) + "}";
    }

    private static String valueWithin(NdefRecord record, boolean isPoster, boolean isSelect) throws FormatException {
        switch (record.getTnf() + new String(record.getType(), StandardCharsets.ISO_8859_1)) {
            case "1T": case "1U": return isPoster ? value(record.decode()) : "null";
            case "1act": case "1s": case "1t": return isPoster ? "\"-within\"" : "null";
            case "1cr": return isPoster || isSelect ? "null" : "\"-within\"";
            case "1ac": return isPoster ? "null" : "{\"kind\":\"alternative\",\"alternative\":[" + alternative(AlternativeCarrier.parse(record.getPayload())) + "]}";
            case "1err": return isSelect ? "{\"kind\":\"error\",\"error\":" + error(HandoverError.parse(record.getPayload())) + "}" : "null";
            default: return "null";
        }
    }

    private static String reason(Row row) {
        Reason reason = Arrays.stream(Reason.values()).filter(it -> it.number() == row.number("number")).findFirst().get();
        return "{\"name\":" + quoted(reason.toString()) + ",\"sentence\":" + quoted(reason.sentence()) + "}";
    }

    private static String title(Row row) throws FormatException {
        return "{\"title\":" + SmartPoster.parse(row.bytes("payload"), Profile.STRICT).title(row.text("language")).map(Driver::text).orElse("null") + "}";
    }

    // ---- operations that write

    private static NdefRecord record(Row row, String name) {
        return new NdefRecord((short) row.number(name + ".0"), row.bytes(name + ".1"), row.bytes(name + ".2"), row.has(name + ".3") ? row.bytes(name + ".3") : null);
    }

    private static NdefMessage message(Row row) {
        NdefRecord[] records = row.items("records").stream().map(name -> record(row, name)).toArray(NdefRecord[]::new);
        row.spoil();
        NdefMessage message = row.has("unchecked") ? NdefMessage.unchecked(records) : NdefMessage.of(records, row.limits(), row.profile());
        Arrays.fill(records, null);
        return message;
    }

    private static String encode(Row row) {
        try {
            NdefMessage message = message(row);
            boolean isLong = row.has("form.long");
            long chunk = row.number("form.chunk");
            if (!isLong && chunk == 0 && message.getByteArrayLength() != message.toByteArray().length) {
                throw new IllegalStateException("getByteArrayLength");
            }
            return "{\"bytes\":" + same(() -> isLong || chunk != 0 ? message.toByteArray(isLong, chunk) : message.toByteArray()) + "}";
        } catch (RecordException refusal) {
            if (row.has("form.long") || row.has("form.chunk")) {
                throw not("form");
            }
            throw refusal;
        }
    }

    /** What an exception says: that of bytes which are read, or of records which aren't written. */
    private static String line(Row row) {
        NdefRecord[] records;
        try {
            records = row.items("records").stream().map(name -> record(row, name)).toArray(NdefRecord[]::new);
        } catch (IllegalArgumentException none) {
            throw not("made");
        }
        Throwable wrong = null;
        try {
            Object made = row.has("records") ? new NdefMessage(records) : new NdefMessage(row.bytes("bytes"));
        } catch (FormatException | RecordException refusal) {
            wrong = refusal;
        }
        return "{\"line\":" + quoted(wrong.getMessage()) + "}";
    }

    private static String parts(Row row) throws IOException {
        List<String> parts = new ArrayList<>();
        InputStream stream = message(row).toInputStream();
        for (byte[] part = stream.readNBytes((int) row.number("size")); part.length > 0; part = stream.readNBytes((int) row.number("size"))) {
            parts.add(hex(part));
            Arrays.fill(part, (byte) 0xaa);
        }
        return "{\"parts\":" + listed(parts, it -> it) + "}";
    }

    private static String recordParts(Row row) {
        List<InputStream> parts = row.items("parts").stream().map(part -> new ByteArrayInputStream(row.bytes(part))).collect(Collectors.toList());
        InputStream payload = new SequenceInputStream(Collections.enumeration(parts));
        try (InputStream stream = new RecordInputStream(record(row, "record"), payload, row.number("length"), RecordInputStream.Position.ONLY)) {
            return "{\"bytes\":" + hex(stream.readAllBytes()) + "}";
        } catch (IOException wrong) {
            return "{\"bad\":true}";
        }
    }

    private static Payload madePoster(Row row) {
        SmartPoster.Builder poster = SmartPoster.builder(row.text("value.uri"));
        for (String title : row.items("value.titles")) {
            String language = row.text(title + ".0"), text = row.text(title + ".1");
            poster = row.has(title + ".2") ? poster.record(TextRecord.ofUtf16(language, text).toRecord()) : poster.title(language, text);
        }
        poster = row.has("value.action") ? poster.action((int) row.number("value.action")) : poster;
        poster = row.has("value.size") ? poster.size(row.number("value.size")) : poster;
        poster = row.has("value.media") ? poster.mediaType(row.text("value.media")) : poster;
        for (String icon : row.items("value.icons")) {
            poster = poster.icon(row.text(icon + ".0"), row.bytes(icon + ".1"));
        }
        return poster.build();
    }

    private static <B extends Handover.Builder<B>> B carriers(Row row, B builder) {
        for (String name : row.items("value.carriers")) {
            int power = (int) row.number(name + ".0");
            if (power >= PowerState.values().length) {
                throw new IllegalArgumentException("no power state");
            }
            byte[][] others = row.items(name + ".2").stream().map(row::bytes).toArray(byte[][]::new);
            builder.alternative(PowerState.values()[power], row.bytes(name + ".1"), others);
        }
        return builder;
    }

    private static Payload made(Row row) {
        if (row.has("value.version") && row.number("value.version.0") != 1) {
            throw new IllegalArgumentException("no such version");
        }
        int minor = (int) row.number("value.version.1");
        switch (row.word("value.kind")) {
            case "text":
                String language = row.text("value.language"), text = row.text("value.text");
                return row.has("value.utf16") ? TextRecord.ofUtf16(language, text) : TextRecord.of(language, text);
            case "uri": return UriRecord.of(row.text("value.uri"));
            case "poster": return madePoster(row);
            case "carrier": return Carrier.of((int) row.number("value.format"), row.bytes("value.type"), row.bytes("value.data"));
            case "request": return carriers(row, HandoverRequest.builder(minor, (int) row.number("value.collision"))).build();
            default:
                HandoverSelect.Builder select = carriers(row, HandoverSelect.builder(minor));
                int reason = (int) row.number("value.error.0");
                if (row.has("value.error.2") && (row.word("id").length() & 1) == 0) {
                    select.error(HandoverError.ofNumber(reason, row.number("value.error.2")));
                } else if (row.has("value.error")) {
                    select.error(HandoverError.of(reason, row.bytes("value.error.1")));
                }
                return select.build();
        }
    }

    private static String make(Row row) {
        Payload value;
        try {
            value = made(row);
        } catch (IllegalArgumentException wrong) {
            return "{\"bad\":\"-which\"}";
        }
        row.spoil();
        return "{\"payload\":" + same(value::toByteArray) + ",\"value\":" + value(value) + "}";
    }

    private static String answer(Row row) throws FormatException, IOException {
        switch (row.word("op")) {
            case "check": case "decode": return decode(row);
            case "decode_all": return decodeAll(row);
            case "feed": return feed(row);
            case "fields": return fields(row);
            case "refusal": return refusal(row);
            case "warnings": return warnings(row);
            case "links": return links(row);
            case "value_of": return valueOf(row);
            case "within": return within(row);
            case "reason": return reason(row);
            case "title": return title(row);
            case "encode": return encode(row);
            case "line": return line(row);
            case "parts": return parts(row);
            case "record_parts": return recordParts(row);
            case "normalize": return "{\"bytes\":" + hex(prefix(row).message().toByteArray()) + "}";
            case "make": return make(row);
            default: throw not(row.word("op"));
        }
    }

    private static String answered(String line) {
        Row row = new Row(line);
        String answer;
        try {
            answer = answer(row);
        } catch (Instead instead) {
            answer = instead.getMessage();
        } catch (FormatException refusal) {
            answer = refusal.reason() == Reason.TRAILING_BYTES ? "{\"trailing\":" + refusal.place() + "}" : "{\"refused\":" + place(refusal) + "}";
        } catch (RecordException refusal) {
            String sentence = row.word("op").equals("parts") ? "-sentence" : refusal.sentence();
            answer = "{\"refused\":{\"record\":" + refusal.record() + ",\"place\":" + refusal.place() + ",\"reason\":" + quoted(refusal.reason().toString())
                    + ",\"sentence\":" + quoted(sentence) + "}}";
        } catch (IllegalArgumentException | IndexOutOfBoundsException bad) {
            answer = "{\"bad\":true}";
        } catch (IOException | RuntimeException wrong) {
            answer = "{\"failed\":" + quoted(wrong.toString()) + "}";
        }
        return "{\"id\":" + quoted(row.word("id")) + ",\"answer\":" + answer + "}";
    }

    public static void main(String[] words) throws Exception {
        List<String> rows = Files.readAllLines(Path.of(words[0]));
        String[] answers = rows.stream().map(Driver::answered).toArray(String[]::new);
        Map<Integer, String> others = new ConcurrentHashMap<>();
        List<Thread> threads = new ArrayList<>();
        for (int turn = 0; turn < 4; turn++) {
            int begin = turn * rows.size() / 4;
            threads.add(new Thread(() -> IntStream.range(0, rows.size()).map(i -> (rows.size() - 1 - i + begin) % rows.size())
                    .filter(i -> !answered(rows.get(i)).equals(answers[i])).forEach(i -> others.put(i, rows.get(i)))));
            threads.get(turn).start();
        }
        for (Thread thread : threads) {
            thread.join();
        }
        others.forEach((i, row) -> answers[i] = "{\"id\":" + quoted(new Row(row).word("id")) + ",\"answer\":{\"failed\":\"another answer in threads\"}}");
        byte[] all = ("{\"language\":\"Java\",\"not\":" + NOT.replace('\'', '"') + "}\n" + String.join("\n", answers) + "\n").getBytes(StandardCharsets.UTF_8);
        System.out.write(all, 0, all.length);
        System.out.flush();
    }
}
