/** The messages, records and URIs of {@code org.simbegyor.ndef} to and from those of Android. */
@NullMarked
package org.simbegyor.ndef.android;

import org.jspecify.annotations.NullMarked;
