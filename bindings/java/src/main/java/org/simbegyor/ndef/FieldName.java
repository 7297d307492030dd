package org.simbegyor.ndef;

/** The name of a field. The numbers and names are those of {@code ndef.h}. */
public enum FieldName {
    /** A name that only a newer library knows. */
    OTHER(0),
    /** The header octet: MB, ME, CF, SR, IL and TNF (NDEF 1.0, record layout). */
    HEADER(1),
    /** TYPE_LENGTH, one octet. */
    TYPE_LENGTH(2),
    /** PAYLOAD_LENGTH, one octet in a short record, else four. */
    PAYLOAD_LENGTH(3),
    /** ID_LENGTH, one octet, there exactly if IL is set. */
    ID_LENGTH(4),
    /** TYPE. */
    TYPE(5),
    /** ID. */
    ID(6),
    /** PAYLOAD, where the standards define no fields of it, or it comes in several chunks. */
    PAYLOAD(7),
    /** The status octet of a text (RTD Text 1.0). */
    STATUS(8),
    /** The language code of a text. */
    LANGUAGE(9),
    /** The byte order mark of a text in UTF-16 (RFC 2781). */
    MARK(10),
    /** A text (RTD Text 1.0). */
    TEXT(11),
    /** The identifier code of a URI (RTD URI 1.0). */
    URI_CODE(12),
    /** The rest of a URI, after the prefix that the code denotes. */
    URI_REST(13),
    /** The recommended action of a smart poster (RTD Smart Poster 1.0). */
    ACTION(14),
    /** The size of the object to which a smart poster refers. */
    SIZE(15),
    /** The media type of the object to which a smart poster refers. */
    MEDIA_TYPE(16),
    /** The version octet of a handover (Connection Handover 1.2). */
    VERSION(17),
    /** The random number of a collision resolution. */
    COLLISION(18),
    /** The octet with the carrier power state (Connection Handover 1.2, Alternative Carrier record). */
    POWER(19),
    /** The length of a carrier data reference. */
    REFERENCE_LENGTH(20),
    /** A carrier data reference. */
    REFERENCE(21),
    /** The number of auxiliary data references that follow. */
    AUXILIARY_COUNT(22),
    /** The length of an auxiliary data reference. */
    AUXILIARY_LENGTH(23),
    /** An auxiliary data reference. */
    AUXILIARY(24),
    /** The reserved octets after the auxiliary data references. */
    AFTER_AUXILIARY(25),
    /** The reason of a handover error. */
    ERROR_REASON(26),
    /** The data of a handover error. */
    ERROR_DATA(27),
    /** The octet with the carrier type format (Connection Handover 1.2, Handover Carrier record). */
    CARRIER_FORMAT(28),
    /** The length of a carrier type. */
    CARRIER_TYPE_LENGTH(29),
    /** A carrier type. */
    CARRIER_TYPE(30),
    /** Carrier data. */
    CARRIER_DATA(31);

    private static final FieldName[] ALL = values();

    private final String text;

    FieldName(int number) {
        text = number == 0 ? "other" : Library.name(Library.FIELD_NAME, number);
    }

    static FieldName of(int number) {
        return number < ALL.length ? ALL[number] : OTHER;
    }

    /**
     * The name as text, as {@code ndef-explain} prints it.
     *
     * @return a name such as TYPE_LENGTH or language code
     */
    @Override
    public String toString() {
        return text;
    }
}
