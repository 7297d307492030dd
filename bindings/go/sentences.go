package ndef

// #include "calls.h"
import "C"

// Why returns what was wanted where the strict profile refuses the bytes within the default limits, as the method Why
// of Options does.
func Why(bytes []byte) string {
	sentence, _ := Options{}.Why(bytes)
	return sentence
}

// Hint returns what may help where the strict profile refuses the bytes within the default limits, as the method Hint
// of Options does.
func Hint(bytes []byte) string {
	sentence, _ := Options{}.Hint(bytes)
	return sentence
}

// Why returns what was wanted where the bytes are refused, in a sentence of English, or what the reason means where
// nothing more is known. It is empty where a message begins with the bytes. It takes all bytes of the message, and each
// call looks at them again. The options must not be opaque; ErrLimits is the error for those that are.
func (options Options) Why(bytes []byte) (string, error) {
	limits := options.limits()
	return said(func(buffer *C.uint8_t, most C.ndef_size, count *C.ndef_size) C.uint32_t {
		return C.ndef_refusal_message(first(bytes), size(bytes), &limits, buffer, most, count)
	}, ErrLimits)
}

// Hint returns a sentence of English that may help where the bytes are refused: they are of a tag, which has these for a
// message, or a text that spells bytes, the identifier code of a URI may be missing, or the standard profile reads them. It
// names commands; FindHint says the same to a program. It is empty where nothing is known to help, and where a message
// begins with the bytes. It may take 17 times as long as Check. The rest is as for Why.
func (options Options) Hint(bytes []byte) (string, error) {
	limits := options.limits()
	return said(func(buffer *C.uint8_t, most C.ndef_size, count *C.ndef_size) C.uint32_t {
		return C.ndef_hint(first(bytes), size(bytes), &limits, buffer, most, count)
	}, ErrLimits)
}

// FieldWarning returns what is strange in a field of a message that is accepted, in a sentence of English: by the name of
// a Field and its bytes in the message. It is empty where nothing is known to be strange, and where there is no such
// name.
func FieldWarning(name FieldName, field []byte) string {
	sentence, _ := said(func(buffer *C.uint8_t, most C.ndef_size, count *C.ndef_size) C.uint32_t {
		return C.ndef_field_warning(C.uint32_t(name), first(field), size(field), buffer, most, count)
	}, nil)
	return sentence
}

// RecordWarning returns what is strange in the record with this index of the message with which the bytes begin, beside
// its other records, in a sentence of English: two titles in one language, a request without an alternative carrier, a
// reference to no record, an id that another record has too. It is empty where nothing is known to be strange, where
// there is no such record or no message, and where the message has more than 64 records. Each call looks at the whole
// message.
func RecordWarning(bytes []byte, index int) string {
	sentence, _ := said(func(buffer *C.uint8_t, most C.ndef_size, count *C.ndef_size) C.uint32_t {
		return C.ndef_record_warning(first(bytes), size(bytes), C.ndef_size(index), buffer, most, count)
	}, nil)
	return sentence
}

// said returns the sentence that a call writes, empty where it writes none, or the error where the call answers that an
// argument is bad. A sentence has at most 192 bytes, so the call is made once.
func said(call filling, bad error) (string, error) {
	var count C.ndef_size
	buffer := make([]byte, 192)
	if call(first(buffer), size(buffer), &count) == C.NDEF_BAD_ARGUMENT {
		return "", bad
	}
	return string(buffer[:count]), nil
}
