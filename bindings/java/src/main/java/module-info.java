/** NDEF messages (NFC Data Exchange Format) of NFC tags and phone taps, over the proved library for C. */
module org.simbegyor.ndef {
    requires static org.jspecify;

    exports org.simbegyor.ndef;
}
