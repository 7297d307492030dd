package org.simbegyor.ndef;

import java.io.File;
import java.io.FileOutputStream;
import java.io.IOException;
import java.io.InputStream;
import java.io.OutputStream;
import java.util.Locale;

/** Loads the native library: from the jar where that has one for this platform, else from {@code java.library.path}. */
final class Loader {
    private static final String NAME = "simbegyor_ndef_jni";

    private Loader() {
    }

    static void load() {
        String name = System.mapLibraryName(NAME);
        String inside = "META-INF/native/" + platform() + "/" + name;
        Throwable failed = null;
        try (InputStream library = Loader.class.getResourceAsStream("/" + inside)) {
            if (library != null) {
                loadCopy(library, name);
                return;
            }
        } catch (IOException | UnsatisfiedLinkError error) {
            failed = error;
        }
        try {
            System.loadLibrary(NAME);
        } catch (UnsatisfiedLinkError error) {
            throw missing(name, inside, failed, error);
        }
    }

    /** What was looked for, and where. */
    private static UnsatisfiedLinkError missing(String name, String inside, Throwable failed, UnsatisfiedLinkError last) {
        String jar = failed == null ? "the jar has no " + inside
                : "a copy of " + inside + " in the folder " + folder() + " fails: " + failed.getMessage();
        UnsatisfiedLinkError error = new UnsatisfiedLinkError("the native library isn't found: " + jar
                + "; and none of java.library.path serves (" + System.getProperty("java.library.path", "") + "): "
                + last.getMessage() + ". bindings/java/build makes " + name);
        error.initCause(failed == null ? last : failed);
        return error;
    }

    /** The folder of this platform: linux, windows or macos, and the machine, such as {@code linux-x86_64}. */
    private static String platform() {
        String system = System.getProperty("os.name", "").toLowerCase(Locale.ROOT).replace(" ", "");
        String machine = System.getProperty("os.arch", "").toLowerCase(Locale.ROOT);
        if (system.startsWith("windows")) {
            system = "windows";
        } else if (system.startsWith("mac")) {
            system = "macos";
        }
        if (machine.equals("amd64") || machine.equals("x64")) {
            machine = "x86_64";
        } else if (machine.equals("arm64")) {
            machine = "aarch64";
        }
        return system + "-" + machine;
    }

    private static String folder() {
        return System.getProperty("java.io.tmpdir", "");
    }

    /** A library has to be a file, and where the system allows it the file goes as soon as it is loaded. */
    private static void loadCopy(InputStream library, String name) throws IOException {
        File copy = created(name);
        try {
            try (OutputStream to = new FileOutputStream(copy)) {
                library.transferTo(to);
            }
            System.load(copy.getAbsolutePath());
        } finally {
            if (!copy.delete()) {
                copy.deleteOnExit();
            }
        }
    }

    /**
     * A new file that its owner alone may write. No file is taken that is there, so a name that can be guessed will do; the
     * random names of the JDK take most of the time of a first call.
     */
    private static File created(String name) throws IOException {
        File copy;
        do {
            copy = new File(folder(), Long.toHexString(System.nanoTime()) + "-" + name);
        } while (!copy.createNewFile());
        if (!copy.setWritable(false, false) || !copy.setWritable(true, true)) {
            throw new IOException("others may write " + copy);
        }
        return copy;
    }
}
