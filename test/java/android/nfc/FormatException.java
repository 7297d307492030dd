package android.nfc;

/** The signatures of Android's class. */
public class FormatException extends Exception {
    private static final long serialVersionUID = 1;

    public FormatException() {
    }

    public FormatException(String message) {
        super(message);
    }

    public FormatException(String message, Throwable cause) {
        super(message, cause);
    }
}
