package android.net;

import java.util.Locale;

/** What the tests use of Android's class, and programs with records. */
public abstract class Uri {
    public static Uri parse(String uriString) {
        return new Uri() {
            @Override
            public String getScheme() {
                int colon = uriString.indexOf(':');
                return colon < 0 ? null : uriString.substring(0, colon);
            }

            @Override
            public Uri normalizeScheme() {
                String scheme = getScheme();
                return scheme == null ? this : parse(scheme.toLowerCase(Locale.ROOT) + uriString.substring(scheme.length()));
            }

            @Override
            public String toString() {
                return uriString;
            }
        };
    }

    public abstract String getScheme();

    public abstract Uri normalizeScheme();
}
