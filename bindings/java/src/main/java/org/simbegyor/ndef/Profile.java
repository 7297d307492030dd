package org.simbegyor.ndef;

/** What becomes of values that the standards reserve. */
public enum Profile {
    /** The reserved type name format 7 and URI codes above 0x23 are refused. */
    STRICT(0),
    /** They are read as the standards say. */
    STANDARD(1);

    private final int flags;

    Profile(int flags) {
        this.flags = flags;
    }

    int flags() {
        return flags;
    }
}
