package ndef

// #include "ndef.h"
import "C"

// FieldName names a field of a message: an ndef_field_names of ndef.h.
type FieldName uint32

// String returns the name as docs/EXPLAIN.md has it, such as "PAYLOAD_LENGTH".
func (name FieldName) String() string { return C.GoString(C.ndef_field_text(C.uint32_t(name))) }

// Field is a field of a message: at least one byte.
type Field struct {
	At, Length int
	Depth      int // 0 in the message itself, 1 in a message within a payload
	Name       FieldName
}

// Fields returns in which field each byte of the message stands with which the bytes begin. The fields follow one
// another without a gap. Where the bytes are refused they are the fields of the bytes before the refused one, and the
// error is a *Refusal. The options must not be opaque; ErrLimits is the error for those that are. FieldWarning says what is
// strange in a field.
func (options Options) Fields(bytes []byte) ([]Field, error) {
	limits := options.limits()
	var why C.ndef_checked
	array, status := elements(func(array *C.ndef_field, most C.ndef_size, count *C.ndef_size) C.uint32_t {
		return C.ndef_fields(first(bytes), size(bytes), &limits, array, most, count, &why)
	})
	if status == C.NDEF_BAD_ARGUMENT {
		return nil, ErrLimits
	}
	fields := make([]Field, 0, len(array))
	for _, field := range array {
		fields = append(fields, Field{At: int(field.at), Length: int(field.length), Depth: int(field.depth),
			Name: FieldName(field.name)})
	}
	if status == C.NDEF_REFUSED {
		return fields, refused(&why)
	}
	return fields, nil
}

// Link is an alternative carrier of a handover, and the record that it refers to.
type Link struct {
	Carrier AlternativeCarrier
	Record  int // the index of the record in its message; -1 where the carrier refers to none
}

// Links returns the links of the handover request or select that is the record with this index, in the order of its
// alternative carriers. ErrPlace is the error where the record is neither.
func (message Message) Links(handover int) ([]Link, error) {
	if handover < 0 || handover >= len(message.Records) || !message.Records[handover].Kind().isHandover() {
		return nil, ErrPlace
	}
	bytes, err := message.EncodeAs(Form{Unchecked: true})
	if err != nil {
		return nil, err
	}
	payload := message.Records[handover].Payload
	array, status := elements(func(array *C.ndef_link, most C.ndef_size, count *C.ndef_size) C.uint32_t {
		return C.ndef_links(first(bytes), size(bytes), first(payload), size(payload), array, most, count)
	})
	if status == C.NDEF_BAD_ARGUMENT {
		return nil, ErrPlace
	}
	links := make([]Link, 0, len(array))
	for _, link := range array {
		carrier, err := alternativeOf(within(payload, link.carrier_at, link.carrier_length))
		if err != nil {
			return nil, err
		}
		record := -1
		if link.has_record == 1 {
			record = int(link.record_index)
		}
		links = append(links, Link{Carrier: carrier, Record: record})
	}
	return links, nil
}
