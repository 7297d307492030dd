package org.simbegyor.ndef;

/** The power state of a carrier (Connection Handover 1.2, Alternative Carrier record). */
public enum PowerState {
    /** It is off. */
    INACTIVE,
    /** It is on. */
    ACTIVE,
    /** It is being switched on. */
    ACTIVATING,
    /** It is not known. */
    UNKNOWN;

    private static final PowerState[] ALL = values();

    static PowerState of(int number) {
        return ALL[number];
    }
}
