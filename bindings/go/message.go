// Package ndef reads, checks and writes messages of the NFC Data Exchange Format (NFC Forum, NDEF 1.0) with the payloads
// of RTD Text, RTD URI, Smart Poster and Connection Handover 1.2.
//
// The proved library for C decides what a message is: this package knows nothing of the format. The library allocates
// no memory and has no state, so all functions may be called by any number of goroutines at once.
package ndef

// #include "calls.h"
import "C"

import (
	"fmt"
	"math"
	"sync"
)

// TNF is a type name format (NDEF 1.0, 3.2.6).
type TNF uint8

// The type name formats of records.
const (
	Empty       TNF = C.NDEF_TNF_EMPTY
	WellKnown   TNF = C.NDEF_TNF_WELL_KNOWN
	Media       TNF = C.NDEF_TNF_MEDIA
	AbsoluteURI TNF = C.NDEF_TNF_ABSOLUTE_URI
	External    TNF = C.NDEF_TNF_EXTERNAL
	Unknown     TNF = C.NDEF_TNF_UNKNOWN
)

// String returns the name of the type name format, such as "well-known", or "TNF(6)" where it has none.
func (tnf TNF) String() string {
	return named("TNF", int(tnf), "empty", "well-known", "media", "absolute URI", "external", "unknown")
}

// named returns the name of a number of a type, or the type and the number where it has none.
func named(kind string, number int, names ...string) string {
	if number < len(names) {
		return names[number]
	}
	return fmt.Sprintf("%s(%d)", kind, number)
}

// Record is a record of a message, its chunks joined. Type and ID hold bytes, whether they are UTF-8 or not.
type Record struct {
	TNF     TNF
	Type    string // at most 255 bytes
	ID      string // at most 255 bytes; empty where the record has no id
	Payload []byte // at most 4294967295 bytes
}

// Message is a message: at least one record.
type Message struct {
	Records []Record
}

// Limits are the most that is read. Longer messages are refused.
type Limits struct {
	Payload uint32 // bytes of payload of one record, 1 to 4294967295
	Records uint32 // records of the message, 1 to 65535
	Chunks  uint32 // chunks of one record, 1 to 65535
}

// DefaultLimits returns limits that suit most tags: 1048576 bytes of payload, 1024 records and 4096 chunks.
func DefaultLimits() Limits {
	var limits C.ndef_limits
	C.ndef_default_limits(&limits)
	return Limits{Payload: uint32(limits.payload), Records: uint32(limits.records), Chunks: uint32(limits.chunks)}
}

// Options say how messages are read. The zero value reads by the strict profile within the default limits.
type Options struct {
	Limits   *Limits // nil for the default limits
	Standard bool    // read reserved values as the standards say; docs/FORMAT.md lists them
	Opaque   bool    // don't look into payloads
}

var usual = DefaultLimits()

// limits are the options as ndef.h has them.
func (options Options) limits() C.ndef_limits {
	chosen := options.Limits
	if chosen == nil {
		chosen = &usual
	}
	return C.ndef_limits{payload: C.uint32_t(chosen.Payload), records: C.uint32_t(chosen.Records),
		chunks: C.uint32_t(chosen.Chunks), flags: options.flags() | flag(options.Opaque)*C.NDEF_OPAQUE}
}

// flags are those for the calls that read a payload.
func (options Options) flags() C.uint32_t { return flag(options.Standard) * C.NDEF_STANDARD }

// Parse reads a message that is all of the bytes. The message keeps none of them. The error is a *Refusal, or a
// *Trailing where other bytes follow the message.
func Parse(bytes []byte) (*Message, error) { return Options{}.Parse(bytes) }

// ParsePrefix reads the message that the bytes begin with, and returns its length too. The error is a *Refusal.
func ParsePrefix(bytes []byte) (*Message, int, error) { return Options{}.ParsePrefix(bytes) }

// Parse reads a message as the function Parse does. Where the limits are out of range the error is ErrLimits.
func (options Options) Parse(bytes []byte) (*Message, error) {
	message, length, err := options.ParsePrefix(bytes)
	if err == nil && length < len(bytes) {
		return nil, &Trailing{Place: length}
	}
	return message, err
}

// ParsePrefix reads a message as the function ParsePrefix does. Where the limits are out of range the error is ErrLimits.
func (options Options) ParsePrefix(bytes []byte) (*Message, int, error) {
	if uint64(len(bytes)) > math.MaxUint32 { // Items have places of 32 bits.
		length, _, err := options.Check(bytes)
		if err != nil {
			return nil, 0, err
		}
		return &Message{Records: recordsOf(append([]byte(nil), bytes[:length]...))}, length, nil
	}
	scratch := taken()
	defer scratch.putBack()
	scratch.limits = options.limits()
	status := scratch.fill(bytes)
	if status == C.NDEF_BUFFER_TOO_SMALL {
		scratch.items = make([]C.ndef_item, scratch.found.records)
		status = scratch.fill(bytes)
	}
	if status != C.NDEF_OK {
		return nil, 0, scratch.wrong(status)
	}
	length := int(scratch.found.place)
	return &Message{Records: scratch.recordsOf(append([]byte(nil), bytes[:length]...))}, length, nil
}

// Check returns the length of the message that the bytes begin with, and the number of its records. It allocates
// nothing where they do. The error is a *Refusal or ErrLimits.
func (options Options) Check(bytes []byte) (length, records int, err error) {
	scratch := taken()
	defer scratch.putBack()
	scratch.limits = options.limits()
	if status := C.ndef_check(first(bytes), size(bytes), &scratch.limits, &scratch.found); status != C.NDEF_OK {
		return 0, 0, scratch.wrong(status)
	}
	return int(scratch.found.place), int(scratch.found.records), nil
}

// A scratch is what a check is given and what it finds. A call of C makes what it is given escape, so a pool keeps some.
type scratch struct {
	limits C.ndef_limits
	found  C.ndef_checked
	items  []C.ndef_item
}

const (
	fewItems  = 8
	mostItems = 1024 // that are kept
)

var pool = sync.Pool{New: func() any { return &scratch{items: make([]C.ndef_item, fewItems)} }}

func taken() *scratch { return pool.Get().(*scratch) }

func (scratch *scratch) putBack() {
	if len(scratch.items) <= mostItems {
		pool.Put(scratch)
	}
}

// fill checks the bytes, and gives the items of their records where there are enough.
func (scratch *scratch) fill(bytes []byte) C.uint32_t {
	return C.ndef_items(first(bytes), size(bytes), &scratch.limits, &scratch.found, &scratch.items[0], C.ndef_size(len(scratch.items)))
}

// wrong is the error for a check that doesn't find a message.
func (scratch *scratch) wrong(status C.uint32_t) error {
	if status == C.NDEF_REFUSED {
		return refused(&scratch.found)
	}
	return ErrLimits
}

// recordsOf returns the records of the message, which the items describe.
func (scratch *scratch) recordsOf(message []byte) []Record {
	records := make([]Record, scratch.found.records)
	for index := range records {
		item, record := &scratch.items[index], &records[index]
		id := item.payload_at - item.id_length
		record.TNF = TNF(item.tnf)
		record.Type = string(message[item.type_at : item.type_at+item.type_length])
		record.ID = string(message[id:item.payload_at])
		if end := item.payload_at + item.payload_length; item.chunks == 1 {
			record.Payload = message[item.payload_at:end:end]
		} else {
			record.Payload = joined(message, C.ndef_size(item.at))
		}
	}
	return records
}

// recordsOf returns the records of a message within a payload, or of one that a reader checked. A record in one chunk shares its payload. It goes
// from record to record, and so takes messages of more than 4 GiB too, which ndef_items doesn't.
func recordsOf(message []byte) []Record {
	var records []Record
	var parts C.ndef_record
	for C.ndef_record_at(first(message), size(message), parts.end, &parts) == C.NDEF_OK {
		records = append(records, Record{TNF: TNF(parts.tnf), Type: string(within(message, parts.type_at, parts.type_length)),
			ID: string(within(message, parts.id_at, parts.id_length)), Payload: payloadOf(message, &parts)})
	}
	return records
}

// payloadOf returns the payload of a record of a message, its chunks joined.
func payloadOf(message []byte, parts *C.ndef_record) []byte {
	if parts.part_length == parts.payload_length {
		return within(message, parts.payload_at, parts.payload_length)
	}
	return joined(message, parts.at)
}

// joined returns the payload of the record at a place, its chunks joined.
func joined(message []byte, at C.ndef_size) []byte {
	payload, _ := filled(nil, func(buffer *C.uint8_t, most C.ndef_size, count *C.ndef_size) C.uint32_t {
		return C.ndef_payload(first(message), size(message), at, buffer, most, count)
	})
	return payload
}
