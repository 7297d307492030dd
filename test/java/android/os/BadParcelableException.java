package android.os;

/** What the tests use of Android's class. */
public class BadParcelableException extends RuntimeException {
    private static final long serialVersionUID = 1;

    public BadParcelableException(Exception cause) {
        super(cause);
    }
}
