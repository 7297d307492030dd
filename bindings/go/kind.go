package ndef

// #include "calls.h"
import "C"

// Kind says what a payload is, as the type of its record says: an ndef_kinds of ndef.h.
type Kind uint32

// The kinds of payloads. Value reads those from KindText to KindCarrier.
const (
	KindOther       Kind = C.NDEF_KIND_OTHER
	KindText        Kind = C.NDEF_KIND_TEXT
	KindURI         Kind = C.NDEF_KIND_URI
	KindSmartPoster Kind = C.NDEF_KIND_SMART_POSTER
	KindRequest     Kind = C.NDEF_KIND_REQUEST
	KindSelect      Kind = C.NDEF_KIND_SELECT
	KindCarrier     Kind = C.NDEF_KIND_CARRIER

	kindAlternative Kind = C.NDEF_KIND_ALTERNATIVE
	kindError       Kind = C.NDEF_KIND_ERROR
)

// String returns the name of what the payload is, such as "smart poster", or "Kind(99)" where there is no such kind.
func (kind Kind) String() string {
	return named("Kind", int(kind), "other", "text", "URI", "smart poster", "handover request", "handover select", "handover carrier",
		"action", "size", "media type", "alternative carrier", "collision resolution", "error")
}

func (kind Kind) isHandover() bool { return kind == KindRequest || kind == KindSelect }

// Kind returns what the payload of a record of a message is.
func (record *Record) Kind() Kind { return record.kindWithin(KindOther) }

// kindWithin returns what the payload is of a record of the message within a payload of a kind.
func (record *Record) kindWithin(kind Kind) Kind {
	return Kind(C.go_kind(C.uint32_t(record.TNF), record.Type, C.uint32_t(kind)))
}

// Value is what a payload means: a Text, a URI, a *SmartPoster, a *HandoverRequest, a *HandoverSelect or a
// *HandoverCarrier. Record makes the record of it, with no id.
type Value interface {
	Record() (Record, error)
}

// Value reads the payload by the strict profile. It is nil for a record of KindOther. The error is a *Refusal, whose
// offset counts from the first byte of the payload.
func (record *Record) Value() (Value, error) { return Options{}.Value(record) }

// Value reads the payload as the method Value of the record does, by the profile of the options.
func (options Options) Value(record *Record) (Value, error) {
	value := C.go_value_of(C.uint32_t(record.TNF), record.Type, first(record.Payload), size(record.Payload), options.flags())
	if value.status != C.NDEF_OK {
		return nil, refused(&value.why)
	}
	switch Kind(value.kind) {
	case KindText:
		return valued[Text](textIn(record.Payload, &value.text))
	case KindURI:
		return uriIn(record.Payload, &value.uri), nil
	case KindSmartPoster:
		return valued[*SmartPoster](posterOf(record.Payload, options.flags()))
	case KindRequest:
		return valued[*HandoverRequest](requestOf(record.Payload, options.flags()))
	case KindSelect:
		return valued[*HandoverSelect](selectOf(record.Payload, options.flags()))
	case KindCarrier:
		return valued[*HandoverCarrier](carrierOf(record.Payload))
	default:
		return nil, nil
	}
}

// valued is the value as a Value, or nil with an error.
func valued[T Value](value T, err error) (Value, error) {
	if err != nil {
		return nil, err
	}
	return value, nil
}

// typed makes a record of the NFC Forum's type with the payload that a call writes.
func typed(name, what, why string, call filling) (Record, error) {
	payload, status := filled(nil, call)
	if status != C.NDEF_OK {
		return Record{}, unwritable(what, why)
	}
	return Record{TNF: WellKnown, Type: name, Payload: payload}, nil
}
