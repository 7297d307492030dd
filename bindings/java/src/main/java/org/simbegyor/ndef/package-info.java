/**
 * NDEF messages (NFC Data Exchange Format, NFC Forum NDEF 1.0): checked, read and written.
 *
 * <p>{@link org.simbegyor.ndef.NdefMessage} and {@link org.simbegyor.ndef.NdefRecord} have the methods of the classes
 * with these names in {@code android.nfc}. {@link org.simbegyor.ndef.NdefRecord#decode()} gives what a record says,
 * {@link org.simbegyor.ndef.Checker} checks bytes as they arrive, and {@link org.simbegyor.ndef.Fields} says in
 * which field each byte stands. The library for C decides all that has to do with the format.
 *
 * <p>No method takes null unless it says so: it throws {@link java.lang.NullPointerException}. What a value is made
 * of is copied, and so is each array that a method returns. All values are immutable, so threads may share them; a
 * checker takes one call at a time.
 */
@NullMarked
package org.simbegyor.ndef;

import org.jspecify.annotations.NullMarked;
