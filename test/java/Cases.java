import java.nio.charset.StandardCharsets;

/** What the programs here share: octets in hexadecimal, and counts. */
final class Cases {
    private static int run;
    private static int failed;

    private Cases() {
    }

    /** A check that fails where it throws anything. */
    interface Check {
        void run() throws Exception;
    }

    /** Runs a check, and prints what it throws and the line that it is for. */
    static void check(String line, Check check) {
        run++;
        try {
            check.run();
        } catch (Exception | AssertionError error) {
            failed++;
            System.out.println(line + "\n  " + error);
            if (!(error instanceof AssertionError)) {
                error.printStackTrace(System.out);
            }
        }
    }

    /** Demands that a value is the one that was expected. */
    static void same(String what, Object expected, Object found) {
        if (!expected.equals(found)) {
            throw new AssertionError(what + ": expected " + expected + ", found " + found);
        }
    }

    /** Prints the counts, and ends the program with status 1 where a check failed or none was run. */
    static void finish(String what) {
        System.out.println(what + " " + run + ", failed " + failed);
        System.exit(failed == 0 && run > 0 ? 0 : 1);
    }

    static byte[] bytes(String text) {
        return text.getBytes(StandardCharsets.UTF_8);
    }

    static byte[] unhex(String column) {
        String digits = column.replace(" ", "");
        if (digits.equals("-")) {
            return new byte[0];
        }
        byte[] bytes = new byte[digits.length() / 2];
        for (int i = 0; i < bytes.length; i++) {
            bytes[i] = (byte) Integer.parseInt(digits.substring(2 * i, 2 * i + 2), 16);
        }
        return bytes;
    }

    static String hex(byte[] bytes) {
        StringBuilder digits = new StringBuilder();
        for (byte octet : bytes) {
            digits.append(Character.forDigit(octet >> 4 & 15, 16)).append(Character.forDigit(octet & 15, 16));
        }
        return bytes.length == 0 ? "-" : digits.toString().toUpperCase(java.util.Locale.ROOT);
    }
}
