package org.simbegyor.ndef;

import java.net.URI;
import java.net.URISyntaxException;
import java.util.Locale;
import java.util.Objects;
import org.jspecify.annotations.Nullable;

/** A URI as a record has it: any text, as {@code android.net.Uri} takes any text. */
public final class Uri {
    private final String text;

    private Uri(String text) {
        this.text = Objects.requireNonNull(text, "the URI is null");
    }

    /**
     * The URI with this text. Nothing is checked.
     *
     * @param text the text
     * @return the URI
     */
    public static Uri parse(String text) {
        return new Uri(text);
    }

    /**
     * The scheme of the URI: what stands before its first colon.
     *
     * @return the scheme, such as https, or null where there is no colon
     */
    public @Nullable String getScheme() {
        int colon = text.indexOf(':');
        return colon < 0 ? null : text.substring(0, colon);
    }

    /**
     * The same URI with its scheme in lower case.
     *
     * @return the URI
     */
    public Uri normalizeScheme() {
        String scheme = getScheme();
        return scheme == null ? this : new Uri(scheme.toLowerCase(Locale.ROOT) + text.substring(scheme.length()));
    }

    /**
     * The URI as the class of the JDK, which is stricter.
     *
     * @return the URI
     * @throws URISyntaxException if the text breaks the syntax of RFC 2396
     */
    public URI toJavaUri() throws URISyntaxException {
        return new URI(text);
    }

    @Override
    public boolean equals(@Nullable Object other) {
        return other instanceof Uri && text.equals(((Uri) other).text);
    }

    @Override
    public int hashCode() {
        return text.hashCode();
    }

    /**
     * The text of the URI.
     *
     * @return the text
     */
    @Override
    public String toString() {
        return text;
    }
}
