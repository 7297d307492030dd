package org.simbegyor.ndef;

import java.nio.charset.StandardCharsets;
import java.util.Objects;
import java.util.Optional;

/**
 * What was wanted where bytes are refused, and what may help; and what is strange in messages that are accepted: in
 * sentences of English. They are made of the bytes; the sentence of a {@link FormatException} says what its reason means.
 */
public final class Sentences {
    private Sentences() {
    }

    /**
     * What was wanted where bytes are refused within the default limits, with the strict profile.
     *
     * @param bytes the bytes
     * @return the sentence; none where a message begins with the bytes
     */
    public static Optional<String> why(byte[] bytes) {
        return why(bytes, Limits.defaults(), Profile.STRICT);
    }

    /**
     * What was wanted where bytes are refused, or what the reason means where nothing more is known. Payloads are looked
     * into, whatever the limits say.
     *
     * @param bytes the bytes, which no other thread may change meanwhile
     * @param limits how large the message may be
     * @param profile what becomes of reserved values
     * @return the sentence; none where a message begins with the bytes
     */
    public static Optional<String> why(byte[] bytes, Limits limits, Profile profile) {
        return said(Library.WHY, bytes, limits, profile);
    }

    /**
     * What may help where bytes are refused within the default limits, with the strict profile: a sentence that names
     * commands. {@link #findHint(byte[])} says the same to a program.
     *
     * @param bytes the bytes
     * @return the sentence; none where nothing is known to help, or a message begins with the bytes
     */
    public static Optional<String> hint(byte[] bytes) {
        return hint(bytes, Limits.defaults(), Profile.STRICT);
    }

    /**
     * What may help where bytes are refused: they are of a tag, which has these for a message, or a text that spells bytes,
     * the identifier code of a URI may be missing, or {@link Profile#STANDARD} reads them. The sentence names commands;
     * {@link #findHint(byte[], Limits, Profile)} says the same to a program. Payloads are validated, whatever the limits
     * say. It may take 17 times as long as to check the bytes.
     *
     * @param bytes the bytes, which no other thread may change meanwhile
     * @param limits how large the message may be
     * @param profile what becomes of reserved values
     * @return the sentence; none where nothing is known to help, or a message begins with the bytes
     */
    public static Optional<String> hint(byte[] bytes, Limits limits, Profile profile) {
        return said(Library.HINT, bytes, limits, profile);
    }

    /**
     * What may help where bytes are refused within the default limits, with the strict profile, to a program.
     *
     * @param bytes the bytes
     * @return the hint; none where {@link #hint(byte[])} has no sentence
     */
    public static Optional<FoundHint> findHint(byte[] bytes) {
        return findHint(bytes, Limits.defaults(), Profile.STRICT);
    }

    /**
     * What may help where bytes are refused, to a program: its kind, and where a message may begin. The rest is as for
     * {@link #hint(byte[], Limits, Profile)}.
     *
     * @param bytes the bytes, which no other thread may change meanwhile
     * @param limits how large the message may be
     * @param profile what becomes of reserved values
     * @return the hint; none where {@link #hint(byte[], Limits, Profile)} has no sentence
     */
    public static Optional<FoundHint> findHint(byte[] bytes, Limits limits, Profile profile) {
        Objects.requireNonNull(bytes, "the bytes are null");
        return FoundHint.of(Library.hint(bytes, limits.withOpaque(false).words(profile)), bytes.length);
    }

    /**
     * What is strange in a field of a message that is accepted.
     *
     * @param field the field
     * @return the sentence; none where nothing is known to be strange
     */
    public static Optional<String> fieldWarning(Field field) {
        return text(Library.warning(Library.FIELD_WARNING, field.bytes(), field.name().ordinal()));
    }

    /**
     * What is strange in a record of the message with which bytes begin, beside its other records: two titles in one
     * language, a request without an alternative carrier, a reference to no record, an id that another record has too.
     *
     * @param bytes the bytes, which no other thread may change meanwhile
     * @param index the index of the record, from 0
     * @return the sentence; none where nothing is known to be strange, where there is no such record or no message, and
     *     where the message has more than 64 records
     */
    public static Optional<String> recordWarning(byte[] bytes, int index) {
        Objects.requireNonNull(bytes, "the bytes are null");
        if (index < 0) {
            throw new IndexOutOfBoundsException("no record has the index " + index);
        }
        return text(Library.warning(Library.RECORD_WARNING, bytes, index));
    }

    /** The sentence that a call writes of bytes. */
    private static Optional<String> said(int call, byte[] bytes, Limits limits, Profile profile) {
        Objects.requireNonNull(bytes, "the bytes are null");
        return text(Library.sentence(call, bytes, limits.withOpaque(false).words(profile)));
    }

    /** A sentence of ASCII, if there is one. */
    private static Optional<String> text(byte[] sentence) {
        return Optional.ofNullable(sentence).map(it -> new String(it, StandardCharsets.US_ASCII));
    }
}
