package ndef

// #include "ndef.h"
import "C"

import "fmt"

// Form says how a message is written. The zero value writes the shortest spelling of a message that the strict profile
// accepts within the default limits.
type Form struct {
	Long      bool    // write payload lengths in four bytes even where one would do
	Chunk     uint32  // the bytes of payload of each chunk but the last; 0 to write each record in one chunk
	Options   Options // what is written has to be a message by these
	Unchecked bool    // write it also where it isn't
}

// RecordError is the error for a record that isn't written. It wraps its Refusal, where it has one.
type RecordError struct {
	Record   int      // the index of the record in the message
	Refusal  *Refusal // where and why the written record is refused, counted from its first byte; nil: it has no spelling
	Sentence string   // what was wanted there, or what is wrong with its parts, in English
	Argument string   // without a refusal the part that is wrong: "id", "payload", "type", "format" or "several"
}

func (wrong *RecordError) Error() string {
	if wrong.Refusal == nil {
		return fmt.Sprintf("record %d: BadArgument: %s", wrong.Record, wrong.Argument)
	}
	return fmt.Sprintf("record %d: %v", wrong.Record, wrong.Refusal)
}

// Unwrap returns the refusal, or nil where there is none.
func (wrong *RecordError) Unwrap() error {
	if wrong.Refusal == nil {
		return nil
	}
	return wrong.Refusal
}

// Encode writes the message in its shortest spelling. The error is as that of EncodeAs.
func (message Message) Encode() ([]byte, error) { return message.EncodeAs(Form{}) }

// EncodeAs writes the message in a form. The error is a *RecordError where a record has no spelling, or where the options
// refuse it; ErrLimits; or that the message has no record.
func (message Message) EncodeAs(form Form) ([]byte, error) {
	if len(message.Records) == 0 {
		return nil, unwritable("a message", "it has no record")
	}
	var bytes []byte
	for index, record := range message.Records {
		how := record.writing(form, positionOf(index, len(message.Records)))
		var status C.uint32_t
		if bytes, status = record.appendTo(bytes, &how); status != C.NDEF_OK {
			return nil, record.withoutSpelling(index)
		}
	}
	if form.Unchecked {
		return bytes, nil
	}
	return form.Options.accepted(bytes)
}

// withoutSpelling is the error for a record with an index that has none.
func (record *Record) withoutSpelling(index int) error {
	return &RecordError{Record: index, Sentence: "its type doesn't fit its type name format, or a part is too long",
		Argument: record.wrongArgument()}
}

// wrongArgument is the part with another of which the library writes the record.
func (record *Record) wrongArgument() string {
	for _, other := range []struct {
		argument string
		record   Record
	}{
		{"id", Record{record.TNF, record.Type, "", record.Payload}},
		{"payload", Record{record.TNF, record.Type, record.ID, nil}},
		{"type", Record{record.TNF, "", record.ID, record.Payload}},
		{"type", Record{record.TNF, "x", record.ID, record.Payload}},
		{"format", Record{WellKnown, record.Type, record.ID, record.Payload}},
		{"format", Record{Unknown, record.Type, record.ID, record.Payload}},
	} {
		if other.record.begun(uint64(len(other.record.Payload)), Form{}, Only) != nil {
			return other.argument
		}
	}
	return "several"
}

// Position says where in its message a record is written.
type Position uint8

// The positions of records.
const (
	Middle Position = 0
	First  Position = C.NDEF_WRITE_FIRST
	Last   Position = C.NDEF_WRITE_LAST
	Only   Position = First | Last
)

// positionOf returns that of the record with an index of some records.
func positionOf(index, records int) Position {
	return Position(flag(index == 0))*First | Position(flag(index == records-1))*Last
}

// writing is how the record is written.
func (record *Record) writing(form Form, position Position) C.ndef_writing {
	return C.ndef_writing{tnf: C.uint32_t(record.TNF), chunk: C.uint32_t(form.Chunk),
		flags: flag(form.Long)*C.NDEF_WRITE_LONG | C.uint32_t(position)}
}

// accepted returns the message that was written, if the options accept it.
func (options Options) accepted(message []byte) ([]byte, error) {
	_, _, err := options.Check(message)
	if err == nil {
		return message, nil
	}
	refusal, is := err.(*Refusal)
	if !is {
		return nil, err
	}
	sentence, _ := options.Why(message)
	if sentence == "" {
		sentence = refusal.Reason.Sentence()
	}
	var parts C.ndef_record
	index := -1
	for int(parts.end) <= refusal.Place && C.ndef_record_at(first(message), size(message), parts.end, &parts) == C.NDEF_OK {
		index++
	}
	return nil, &RecordError{Record: index, Refusal: &Refusal{Place: refusal.Place - int(parts.at), Reason: refusal.Reason},
		Sentence: sentence}
}

// appendTo appends the record to bytes.
func (record *Record) appendTo(bytes []byte, how *C.ndef_writing) ([]byte, C.uint32_t) {
	name, id := []byte(record.Type), []byte(record.ID)
	return filled(bytes, func(buffer *C.uint8_t, most C.ndef_size, count *C.ndef_size) C.uint32_t {
		return C.ndef_write_record(first(name), size(name), first(id), size(id), first(record.Payload), size(record.Payload),
			how, buffer, most, count)
	})
}
