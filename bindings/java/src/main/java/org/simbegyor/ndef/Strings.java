package org.simbegyor.ndef;

import java.nio.ByteBuffer;
import java.nio.CharBuffer;
import java.nio.charset.CharacterCodingException;
import java.nio.charset.Charset;
import java.nio.charset.StandardCharsets;

/** Text to bytes, and bytes as they are printed. */
final class Strings {
    private static final char[] DIGITS = "0123456789ABCDEF".toCharArray();
    /** The most bytes whose digits a text has: it may become a part of the message of an exception. */
    private static final int MOST_SPELLED = 1024;

    private Strings() {
    }

    /** The text in UTF-8. Half of a pair of surrogates has none. */
    static byte[] utf8(String text) {
        return encoded(text, StandardCharsets.UTF_8);
    }

    /** The text in Latin-1, a byte for each character. */
    static byte[] latin1(String text) {
        return encoded(text, StandardCharsets.ISO_8859_1);
    }

    /** The text in ASCII. */
    static byte[] ascii(String text) {
        return encoded(text, StandardCharsets.US_ASCII);
    }

    private static byte[] encoded(String text, Charset charset) {
        try {
            ByteBuffer bytes = charset.newEncoder().encode(CharBuffer.wrap(text));
            byte[] array = new byte[bytes.remaining()];
            bytes.get(array);
            return array;
        } catch (CharacterCodingException error) {
            throw new IllegalArgumentException("the text has a character that " + charset + " has not", error);
        }
    }

    /** The text of bytes that the library wrote in UTF-8. */
    static String ofUtf8(byte[] bytes) {
        return new String(bytes, StandardCharsets.UTF_8);
    }

    /** The text of some bytes that the library found to be UTF-8. */
    static String ofUtf8(byte[] bytes, int at, int length) {
        return new String(bytes, at, length, StandardCharsets.UTF_8);
    }

    /** Two hexadecimal digits for each byte. Of many bytes only the first ones have them, and the number of all follows. */
    static String hexadecimal(byte[] bytes) {
        int count = Math.min(bytes.length, MOST_SPELLED);
        char[] digits = new char[2 * count];
        for (int i = 0; i < count; i++) {
            digits[2 * i] = DIGITS[bytes[i] >> 4 & 15];
            digits[2 * i + 1] = DIGITS[bytes[i] & 15];
        }
        return new String(digits) + (count < bytes.length ? ".. (" + bytes.length + " bytes)" : "");
    }
}
