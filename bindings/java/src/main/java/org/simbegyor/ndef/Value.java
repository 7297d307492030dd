package org.simbegyor.ndef;

/**
 * How the value of a record lies in its payload, as the library says it, in the four bytes of an int: the form; where the
 * language code of a text begins, or the code of the prefix of a URI; the length of the language code; and where the text
 * or the rest of the URI begins, which goes to the end.
 */
final class Value {
    /** The library is asked for the value. */
    static final int NONE = 0;
    /** The forms that {@code ndef_item} has. */
    static final int UTF8 = 1, URI = 3;

    private static final String[] PREFIXES = new String[256];

    private Value() {
    }

    /** That of a text in UTF-8. */
    static int text(int languageAt, int languageLength, int textAt) {
        return UTF8 | languageAt << 8 | languageLength << 16 | textAt << 24;
    }

    /** That of a URI. */
    static int uri(int code, int restAt) {
        return URI | code << 8 | restAt << 24;
    }

    /** The text in a payload; null where the library is asked for it. */
    static TextRecord text(int value, byte[] payload) {
        if ((value & 0xff) != UTF8) {
            return null;
        }
        String language = Strings.ofUtf8(payload, value >>> 8 & 0xff, value >>> 16 & 0xff);
        return new TextRecord(payload, language, last(value, payload), false);
    }

    /** The URI in a payload; null where the library is asked for it. */
    static UriRecord uri(int value, byte[] payload) {
        if ((value & 0xff) != URI) {
            return null;
        }
        int code = value >>> 8 & 0xff;
        if (PREFIXES[code] == null) {
            PREFIXES[code] = Library.name(Library.URI_PREFIX, code);
        }
        return new UriRecord(payload, PREFIXES[code].concat(last(value, payload)));
    }

    private static String last(int value, byte[] payload) {
        int at = value >>> 24;
        return Strings.ofUtf8(payload, at, payload.length - at);
    }
}
