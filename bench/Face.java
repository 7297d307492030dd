import java.lang.management.ManagementFactory;
import java.lang.management.ThreadMXBean;
import java.nio.file.Files;
import java.nio.file.Path;
import org.simbegyor.ndef.*;

/** Face FOLDER MILLISECONDS: times the module for Java, and a parser by hand: a message, and the same with each value. */
final class Face {
    private static final ThreadMXBean THREADS = ManagementFactory.getThreadMXBean();

    private Face() {
    }

    interface Call {
        int run() throws FormatException;
    }

    /** Calls so often, but not for longer than five measurements, that the JVM has compiled what the call runs; by -Xbatch it waits for that. */
    private static void warm(double milliseconds, Call call) throws FormatException {
        long begun = THREADS.getCurrentThreadCpuTime();
        for (int i = 0; i < 50000 && THREADS.getCurrentThreadCpuTime() - begun < 5e6 * milliseconds; i++) {
            call.run();
        }
    }

    /** Prints the nanoseconds of a call, once it is warm: the least of batches of five milliseconds or of one call. */
    private static void time(String operation, String name, double milliseconds, Call call) throws FormatException {
        warm(milliseconds, call);
        long begun = THREADS.getCurrentThreadCpuTime();
        double least = Double.MAX_VALUE;
        int batch = 1;
        while (THREADS.getCurrentThreadCpuTime() - begun < milliseconds * 1e6) {
            long from = THREADS.getCurrentThreadCpuTime();
            int sum = 0;
            for (int i = 0; i < batch; i++) {
                sum += call.run();
            }
            double took = THREADS.getCurrentThreadCpuTime() - from;
            if (sum == 0) {
                throw new IllegalStateException(name);
            }
            least = Math.min(least, took / batch);
            batch = took < 5e6 ? 2 * batch : batch;
        }
        System.out.printf("%s %s %.1f%n", operation, name, least);
    }

    private static int values(byte[] bytes) throws FormatException {
        int count = 0;
        for (NdefRecord record : new NdefMessage(bytes).getRecords()) {
            count += record.decode() == null ? 0 : 1;
        }
        return count;
    }

    private static int valuesByHand(byte[] bytes) {
        int count = 0;
        for (Hand record : Hand.parse(bytes)) {
            count += record.value() == null ? 0 : 1;
        }
        return count;
    }

    public static void main(String[] words) throws Exception {
        double milliseconds = Double.parseDouble(words[1]);
        for (String name : new String[] {"hello", "uri", "poster", "records-1000", "ascii-1M", "wide-1M"}) {
            byte[] bytes = Files.readAllBytes(Path.of(words[0], name));
            time("read", name, milliseconds, () -> new NdefMessage(bytes).getRecords().length);
            time("value", name, milliseconds, () -> values(bytes));
            time("hand-read", name, milliseconds, () -> Hand.parse(bytes).length);
            time("hand-value", name, milliseconds, () -> valuesByHand(bytes));
        }
    }
}
