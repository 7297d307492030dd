import java.lang.management.ManagementFactory;
import java.lang.management.ThreadMXBean;
import java.nio.ByteBuffer;
import java.nio.file.Files;
import java.nio.file.Path;
import java.util.ArrayList;
import java.util.Arrays;
import java.util.List;
import java.util.concurrent.Callable;
import java.util.concurrent.CyclicBarrier;
import java.util.concurrent.ExecutorService;
import java.util.concurrent.Executors;
import java.util.concurrent.Future;
import org.simbegyor.ndef.*;

/** Threads, memory, large messages, and how time grows: Load ROUNDS [short], without the last. */
final class Load {
    private static final int THREADS = 8;

    private Load() {
    }

    public static void main(String[] words) throws Exception {
        int rounds = Integer.parseInt(words[0]);
        Cases.check("threads", () -> threadsAgree(rounds / 100));
        Cases.check("one checker", () -> threadsFeed(Math.max(5, rounds / 5000)));
        Cases.check("memory", () -> memoryIsFlat(rounds));
        Cases.check("one payload of 1 MB", () -> largePayload(1000000));
        Cases.check("each length about the room of the native methods", () -> {
            for (int length = 256; length < 530; length++) {
                largePayload(length);
            }
        });
        Cases.check("many chunks", () -> manyChunks(4000, 240));
        Cases.check("many records", () -> manyRecords(words.length == 1 ? 60000 : 2000));
        Cases.check("many links", () -> manyLinks(300));
        Cases.check("many titles and icons", () -> manyTitles(400));
        if (words.length == 1) {
            Cases.check("growth", Load::timeGrows);
        }
        Cases.finish("loads");
    }

    static NdefMessage select(int carriers) {
        HandoverSelect.Builder builder = HandoverSelect.builder(2);
        NdefRecord[] records = new NdefRecord[1 + carriers];
        for (int i = 0; i < carriers; i++) {
            byte[] id = Cases.bytes(Integer.toString(i));
            builder.alternative(PowerState.values()[i % 4], id);
            records[1 + i] = NdefRecord.createMime("a/b", id).withId(id);
        }
        records[0] = builder.build().toRecord();
        return new NdefMessage(records);
    }

    // ---- threads

    /** Each thread reads, writes and checks messages of its own and one that all share. */
    private static void threadsAgree(int rounds) throws Exception {
        NdefMessage shared = select(3);
        String expected = shared.links().toString();
        ExecutorService threads = Executors.newFixedThreadPool(THREADS);
        List<Callable<Integer>> tasks = new ArrayList<>();
        for (int i = 0; i < THREADS; i++) {
            String own = "thread " + i + " " + "ü".repeat(i * 100);
            tasks.add(() -> {
                for (int round = 0; round < rounds; round++) {
                    NdefRecord text = NdefRecord.createTextRecord("en", own);
                    byte[] bytes = new NdefMessage(text, NdefRecord.createUri("tel:" + round))
                            .toByteArray(false, 1 + round % 50);
                    NdefRecord[] records = new NdefMessage(bytes).getRecords();
                    Cases.same("text", own, ((TextRecord) records[0].decode()).text());
                    Cases.same("links", expected, shared.links().toString());
                    Cases.same("feed", true, new Checker().feed(ByteBuffer.wrap(bytes)));
                }
                return rounds;
            });
        }
        for (Future<Integer> done : threads.invokeAll(tasks)) {
            Cases.same("rounds", rounds, done.get());
        }
        threads.shutdown();
    }

    /**
     * Threads that feed one checker take turns: the bytes are alike, so whoever feeds them, the check ends as one of them all.
     * A check that two change at once loses some of them. Each call looks long enough at the letters that others begin meanwhile.
     */
    private static void threadsFeed(int rounds) throws Exception {
        int each = 500;
        byte[] head = Cases.unhex("c10100f42403" + "54" + "02656e");
        byte[] letters = Cases.bytes("ü".repeat(2000));
        Limits limits = Limits.defaults().withPayload(16000003);
        ExecutorService threads = Executors.newFixedThreadPool(THREADS);
        CyclicBarrier begin = new CyclicBarrier(THREADS);
        for (int round = 0; round < rounds; round++) {
            Checker checker = new Checker(limits, Profile.STRICT);
            checker.feed(head);
            List<Callable<Integer>> tasks = new ArrayList<>();
            for (int i = 0; i < THREADS; i++) {
                tasks.add(() -> {
                    begin.await();
                    for (int fed = 0; fed < each; fed++) {
                        checker.feed(letters);
                    }
                    return each;
                });
            }
            for (Future<Integer> done : threads.invokeAll(tasks)) {
                done.get();
            }
            Cases.same("fed", head.length + 16000000L, checker.length());
            Cases.same("records", 1, checker.records());
        }
        threads.shutdown();
    }

    // ---- memory

    /** The bytes of the resident pages of this process; -1 where the system doesn't give them. */
    private static long resident() throws Exception {
        Path statm = Path.of("/proc/self/statm");
        return Files.exists(statm) ? Long.parseLong(Files.readString(statm).split(" ")[1]) * 4096 : -1;
    }

    private static long heap() {
        System.gc();
        return ManagementFactory.getMemoryMXBean().getHeapMemoryUsage().getUsed();
    }

    /**
     * Neither the heap nor the process grows in the middle one of five parts of the rounds, by what they grow: by more than 32
     * and 64 KB. What the JVM or a sanitizer takes for itself comes in some of them, and counts in few rounds for more.
     */
    private static void memoryIsFlat(int rounds) throws Exception {
        byte[] good = select(40).toByteArray(true, 7);
        byte[] bad = Arrays.copyOf(good, good.length - 1);
        long[] heapGrown = new long[5];
        long[] grown = new long[5];
        for (int part = 0; part < 5; part++) {
            long heapBefore = heap();
            long before = resident();
            readOften(good, bad, rounds / 5);
            heapGrown[part] = heap() - heapBefore;
            grown[part] = resident() - before;
        }
        Arrays.sort(heapGrown);
        Arrays.sort(grown);
        if (heapGrown[2] > 1 << 15 || grown[2] > (rounds < 10000 ? 1 << 23 : 1 << 16)) {
            throw new AssertionError("in " + rounds / 5 + " rounds the heap has grown by " + Arrays.toString(heapGrown)
                    + " bytes, and the process by " + Arrays.toString(grown));
        }
    }

    private static void readOften(byte[] good, byte[] bad, int rounds) throws Exception {
        byte[] hello = Cases.unhex("d101085402656e48656c6c6f");
        for (int i = 0; i < rounds; i++) {
            Cases.same("text", "Hello", ((TextRecord) new NdefMessage(hello).getRecords()[0].decode()).text());
            if (i % 40 == 0) {
                Cases.same("links", 40, new NdefMessage(good).links().size());
                Cases.same("refused", true, Fields.of(bad).refusal().isPresent());
            }
        }
    }

    // ---- large messages

    private static void largePayload(int length) throws FormatException {
        byte[] payload = new byte[length];
        Arrays.fill(payload, (byte) 7);
        NdefRecord record = NdefRecord.createMime("a/b", payload);
        byte[] bytes = new NdefMessage(record).toByteArray();
        Cases.same("bytes", length + 9, bytes.length);
        Cases.same("record", record, new NdefMessage(bytes).getRecords()[0]);
        String text = "ü".repeat(length / 3);
        Cases.same("text", text, ((TextRecord) NdefRecord.createTextRecord("de", text).decode()).text());
        String uri = "http://" + "x".repeat(length);
        Cases.same("uri", uri, NdefRecord.createUri(uri).toUri().toString());
        Cases.same("fed", true, new Checker().feed(ByteBuffer.allocateDirect(bytes.length).put(bytes).position(0)));
    }

    private static void manyChunks(int count, int size) throws FormatException {
        byte[] payload = new byte[count * size];
        for (int i = 0; i < payload.length; i++) {
            payload[i] = (byte) i;
        }
        NdefMessage message = new NdefMessage(NdefRecord.createMime("a/b", payload));
        byte[] bytes = message.toByteArray(false, size);
        Cases.same("message", message, new NdefMessage(bytes));
        Cases.same("fields", true, Fields.of(bytes).size() > 3 * count);
    }

    static NdefMessage short_(int count) {
        NdefRecord[] records = new NdefRecord[count];
        for (int i = 0; i < count; i++) {
            records[i] = NdefRecord.createUri("tel:" + i);
        }
        return NdefMessage.of(records, Limits.defaults().withRecords(count), Profile.STRICT);
    }

    private static void manyRecords(int count) throws FormatException {
        NdefMessage message = short_(count);
        byte[] bytes = message.toByteArray();
        Limits limits = Limits.defaults().withRecords(count);
        Cases.same("message", message, NdefMessage.parse(bytes, limits, Profile.STRICT));
        Cases.same("fields", 6 * count, Fields.of(bytes, limits, Profile.STRICT).size());
    }

    private static void manyLinks(int count) throws FormatException {
        NdefMessage message = select(count);
        List<Link> links = message.links();
        Cases.same("links", count, links.size());
        for (int i = 0; i < count; i++) {
            Cases.same("link", message.getRecords()[1 + i], links.get(i).record().get());
        }
    }

    static SmartPoster poster(int count) {
        SmartPoster.Builder builder = SmartPoster.builder("http://www.example.com");
        for (int i = 0; i < count; i++) {
            builder.title("l" + i, "title " + i).icon("image/" + i, Cases.bytes("data " + i));
        }
        return builder.build();
    }

    private static void manyTitles(int count) {
        SmartPoster poster = poster(count);
        Cases.same("titles", count, poster.titles().size());
        for (int i = 0; i < count; i++) {
            Cases.same("title", "title " + i, poster.title("L" + i).get().text());
            Cases.same("icon", "image/" + i, poster.icons().get(i).mediaType());
        }
    }

    // ---- growth

    interface Walk {
        void run() throws Exception;
    }

    /** Ten times as many records take some ten times as long: it fails where they take 40 times. */
    private static void timeGrows() throws Exception {
        int[] counts = {100, 1000, 10000};
        Limits limits = Limits.defaults().withRecords(30000);
        double[][] times = new double[5][counts.length];
        for (int i = 0; i < counts.length; i++) {
            NdefMessage message = short_(counts[i]);
            byte[] bytes = message.toByteArray();
            NdefRecord poster = poster(counts[i] / 2).toRecord();
            times[0][i] = least(() -> NdefMessage.parse(bytes, limits, Profile.STRICT));
            times[1][i] = least(message::toByteArray);
            times[2][i] = least(() -> Fields.of(bytes, limits, Profile.STRICT).size());
            times[3][i] = least(() -> ((SmartPoster) poster.decode()).icons());
            times[4][i] = least(() -> NdefMessage.of(message.getRecords(), limits, Profile.STRICT));
        }
        String[] names = {"parse", "toByteArray", "fields", "poster", "of"};
        for (int walk = 0; walk < names.length; walk++) {
            double[] row = times[walk];
            System.out.printf("%s: %.0f, %.0f, %.0f us%n", names[walk], row[0], row[1], row[2]);
            if (row[2] > 40 * row[1]) {
                throw new AssertionError(names[walk] + " is steep");
            }
        }
    }

    /** The least microseconds of processor time of some runs. */
    private static double least(Walk walk) throws Exception {
        ThreadMXBean clock = ManagementFactory.getThreadMXBean();
        double least = Double.MAX_VALUE;
        for (int i = 0; i < 12; i++) {
            long begun = clock.getCurrentThreadCpuTime();
            walk.run();
            least = Math.min(least, (clock.getCurrentThreadCpuTime() - begun) / 1000.0);
        }
        return least;
    }
}
