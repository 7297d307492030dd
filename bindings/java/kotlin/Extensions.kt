/** What makes records shorter to read and to write in Kotlin. kotlinc compiles this file with the program that uses it. */
@file:JvmName("Extensions")

package org.simbegyor.ndef.kotlin

import java.util.Optional
import org.simbegyor.ndef.HandoverError
import org.simbegyor.ndef.HandoverSelect
import org.simbegyor.ndef.NdefMessage
import org.simbegyor.ndef.NdefRecord
import org.simbegyor.ndef.Payload
import org.simbegyor.ndef.SmartPoster
import org.simbegyor.ndef.TextRecord
import org.simbegyor.ndef.UriRecord

/** The payload of each record, decoded. */
val NdefMessage.payloads: List<Payload> get() = records.map { it.decode() }

/** The text of a text; null for others. */
val Payload.textOrNull: String? get() = (this as? TextRecord)?.text()

/** The URI of a URI or a smart poster; null for others. */
val Payload.uriOrNull: String?
    get() = when (this) {
        is UriRecord -> uri()
        is SmartPoster -> uri()
        else -> null
    }

/** `val (language, text) = record` */
operator fun TextRecord.component1(): String = language()

operator fun TextRecord.component2(): String = text()

/** The title in a language; null where there is none. */
operator fun SmartPoster.get(language: String): String? = title(language).orNull()?.text()

/** The error of a select; null where there is none. */
val HandoverSelect.errorOrNull: HandoverError? get() = error().orNull()

/** The record of a text. */
fun String.toTextRecord(language: String): NdefRecord = NdefRecord.createTextRecord(language, this)

/** The record of a URI. */
fun String.toUriRecord(): NdefRecord = NdefRecord.createUri(this)

/** The message of two records; more of them follow by `+`. */
operator fun NdefRecord.plus(next: NdefRecord): NdefMessage = NdefMessage(this, next)

operator fun NdefMessage.plus(next: NdefRecord): NdefMessage = NdefMessage(records + next)

private fun <T> Optional<T>.orNull(): T? = orElse(null)
