package org.simbegyor.ndef;

/** The types that records are written with. Nobody changes these arrays; those of {@link NdefRecord} are copies. */
final class Types {
    static final byte[] TEXT = {'T'};
    static final byte[] URI = {'U'};
    static final byte[] SMART_POSTER = {'S', 'p'};
    static final byte[] ALTERNATIVE_CARRIER = {'a', 'c'};
    static final byte[] HANDOVER_CARRIER = {'H', 'c'};
    static final byte[] HANDOVER_REQUEST = {'H', 'r'};
    static final byte[] HANDOVER_SELECT = {'H', 's'};
    static final byte[] ACTION = {'a', 'c', 't'};
    static final byte[] SIZE = {'s'};
    static final byte[] MEDIA_TYPE = {'t'};
    static final byte[] COLLISION = {'c', 'r'};
    static final byte[] ERROR = {'e', 'r', 'r'};

    private Types() {
    }
}
