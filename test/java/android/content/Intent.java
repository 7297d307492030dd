package android.content;

import android.net.Uri;

/** What the tests use of Android's class. */
public class Intent {
    public static final String ACTION_VIEW = "android.intent.action.VIEW";

    private final Uri data;

    public Intent(String action, Uri uri) {
        data = uri;
    }

    public Uri getData() {
        return data;
    }
}
