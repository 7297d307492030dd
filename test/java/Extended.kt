import org.simbegyor.ndef.HandoverError
import org.simbegyor.ndef.HandoverSelect
import org.simbegyor.ndef.NdefMessage
import org.simbegyor.ndef.NdefRecord
import org.simbegyor.ndef.SmartPoster
import org.simbegyor.ndef.TextRecord
import org.simbegyor.ndef.kotlin.*

/** What bindings/java/kotlin/Extensions.kt gives; the compiler finds where something may be null. */
fun main() {
    val poster = SmartPoster.builder("https://a").title("en", "Title").build()
    val message = "Hello".toTextRecord("en") + "tel:1".toUriRecord() + poster.toRecord() + NdefRecord.createMime("a/b", null)
    val payloads = NdefMessage(message.toByteArray()).payloads
    println(payloads.map { it.textOrNull })
    println(payloads.map { it.uriOrNull })
    val (language, text) = payloads[0] as TextRecord
    println("$language $text ${poster["EN"]} ${poster["de"]}")
    val select = HandoverSelect.builder(2)
    println(select.build().errorOrNull)
    println(select.error(HandoverError.ofNumber(1, 64)).build().errorOrNull?.number()?.asLong)
}
