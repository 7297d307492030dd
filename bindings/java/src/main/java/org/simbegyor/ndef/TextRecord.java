package org.simbegyor.ndef;

/** A text ({@code T}, NFC Forum RTD Text 1.0). */
public final class TextRecord extends Payload {
    private final String language;
    private final String text;
    private final boolean isUtf16;

    TextRecord(byte[] payload) throws FormatException {
        super(Types.TEXT, payload);
        int[] numbers = Library.numbers(Numbers.KIND_TEXT, payload, Profile.STRICT);
        language = Strings.ofUtf8(payload, numbers[0], numbers[1]);
        isUtf16 = numbers[2] != 0;
        text = isUtf16 ? Strings.ofUtf8(Library.bytes(Library.READ_TEXT, payload, null, 0, 0, null))
                : Strings.ofUtf8(payload, numbers[3], numbers[4]);
    }

    TextRecord(byte[] payload, String language, String text, boolean isUtf16) {
        super(Types.TEXT, payload);
        this.language = language;
        this.text = text;
        this.isUtf16 = isUtf16;
    }

    /**
     * Reads the payload of a text.
     *
     * @param payload the payload, its chunks joined
     * @return the text
     * @throws FormatException if it is no such payload
     */
    public static TextRecord parse(byte[] payload) throws FormatException {
        return new TextRecord(payload.clone());
    }

    /**
     * A text in UTF-8.
     *
     * @param language the language code, such as en
     * @param text the text
     * @return the text
     * @throws IllegalArgumentException if the language code has more than 63 characters or is not ASCII, or no UTF-8
     * spells
     *     the text
     */
    public static TextRecord of(String language, String text) {
        return written(language, text, false);
    }

    /**
     * A text in UTF-16.
     *
     * @param language the language code, such as en
     * @param text the text
     * @return the text
     * @throws IllegalArgumentException as {@link #of} does
     */
    public static TextRecord ofUtf16(String language, String text) {
        return written(language, text, true);
    }

    private static TextRecord written(String language, String text, boolean isUtf16) {
        byte[] payload = Library.written("a language code is ASCII and has at most 63 characters", Library.WRITE_TEXT,
                Strings.utf8(language), Strings.utf8(text), isUtf16 ? 1 : 0, 0);
        return new TextRecord(payload, language, text, isUtf16);
    }

    /**
     * The language code.
     *
     * @return a code such as en
     */
    public String language() {
        return language;
    }

    /**
     * The text.
     *
     * @return the text
     */
    public String text() {
        return text;
    }

    /**
     * Whether the record has the text in UTF-16.
     *
     * @return false where it is in UTF-8
     */
    public boolean isUtf16() {
        return isUtf16;
    }

    @Override
    public String toString() {
        return "TextRecord language=" + language + " text=" + text;
    }
}
