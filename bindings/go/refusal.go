package ndef

// #include "ndef.h"
import "C"

import (
	"errors"
	"fmt"
	"io"
)

// Reason says why bytes are refused: an ndef_reason of ndef.h. docs/FORMAT.md has a rule for each.
type Reason uint32

// The reasons. The method Sentence says what each means.
const (
	ReasonReservedTNF      Reason = C.NDEF_REASON_RESERVED_TNF
	ReasonBeginMissing     Reason = C.NDEF_REASON_BEGIN_MISSING
	ReasonBeginAgain       Reason = C.NDEF_REASON_BEGIN_AGAIN
	ReasonUnchangedOutside Reason = C.NDEF_REASON_UNCHANGED_OUTSIDE
	ReasonChangedInside    Reason = C.NDEF_REASON_CHANGED_INSIDE
	ReasonIDInside         Reason = C.NDEF_REASON_ID_INSIDE
	ReasonChunkAtEnd       Reason = C.NDEF_REASON_CHUNK_AT_END
	ReasonChunkOfEmpty     Reason = C.NDEF_REASON_CHUNK_OF_EMPTY
	ReasonTooManyPieces    Reason = C.NDEF_REASON_TOO_MANY_PIECES
	ReasonTooManyRecords   Reason = C.NDEF_REASON_TOO_MANY_RECORDS
	ReasonTypeNotEmpty     Reason = C.NDEF_REASON_TYPE_NOT_EMPTY
	ReasonTypeEmpty        Reason = C.NDEF_REASON_TYPE_EMPTY
	ReasonEmptyNotEmpty    Reason = C.NDEF_REASON_EMPTY_NOT_EMPTY
	ReasonPayloadTooLarge  Reason = C.NDEF_REASON_PAYLOAD_TOO_LARGE
	ReasonTextBit          Reason = C.NDEF_REASON_TEXT_BIT
	ReasonLanguage         Reason = C.NDEF_REASON_LANGUAGE
	ReasonUTF8             Reason = C.NDEF_REASON_UTF8
	ReasonUTF16            Reason = C.NDEF_REASON_UTF16
	ReasonURICode          Reason = C.NDEF_REASON_URI_CODE
	ReasonURIMissing       Reason = C.NDEF_REASON_URI_MISSING
	ReasonURIAgain         Reason = C.NDEF_REASON_URI_AGAIN
	ReasonVersion          Reason = C.NDEF_REASON_VERSION
	ReasonDoesNotFit       Reason = C.NDEF_REASON_DOES_NOT_FIT
	ReasonEndOfInput       Reason = C.NDEF_REASON_END_OF_INPUT
	ReasonCollisionMissing Reason = C.NDEF_REASON_COLLISION_MISSING
)

// EndOfInput is ReasonEndOfInput: the input ends within a message.
const EndOfInput = ReasonEndOfInput

// String returns the name of the reason, such as "TextBit".
func (reason Reason) String() string { return C.GoString(C.ndef_reason_text(C.uint32_t(reason))) }

// Error returns the name too, so that errors.Is takes a reason, as in errors.Is(err, ReasonURICode).
func (reason Reason) Error() string { return reason.String() }

// Sentence returns what the reason means, as ndef-explain prints it.
func (reason Reason) Sentence() string { return C.GoString(C.ndef_sentence_text(C.uint32_t(reason))) }

// Refusal is the error for bytes that are no message, or for a payload that isn't one of its type. Of the bytes of a
// message Why says what was wanted there, and FindHint what may help.
type Refusal struct {
	Place  int // the first byte after which nothing that follows makes the bytes a message, or the number of bytes
	Reason Reason
}

func (refusal *Refusal) Error() string {
	return fmt.Sprintf("refused at %d: %s: %s", refusal.Place, refusal.Reason, refusal.Reason.Sentence())
}

// Is says that a refusal is its reason, and where the input ends within a message io.ErrUnexpectedEOF.
func (refusal *Refusal) Is(target error) bool {
	return target == refusal.Reason || target == io.ErrUnexpectedEOF && refusal.Reason == ReasonEndOfInput
}

// Trailing is the error of Parse where other bytes follow the message.
type Trailing struct {
	Place int // where the first of them lies
}

func (trailing *Trailing) Error() string {
	return fmt.Sprintf("ndef: other bytes follow the message at byte %d", trailing.Place)
}

// ErrLimits is the error for limits that are out of range. Limits says which are in range.
var ErrLimits = errors.New("ndef: a limit is out of range")

// ErrPlace is the error for an index that isn't that of a handover.
var ErrPlace = errors.New("ndef: the record is no handover of the message")

// refused is the error for what a check or a reading of a payload found.
func refused(found *C.ndef_checked) error {
	return &Refusal{Place: int(found.place), Reason: Reason(found.reason)}
}

// unwritable is the error for a value that can't be written, and why.
func unwritable(what, why string) error {
	return fmt.Errorf("ndef: %s can't be written: %s", what, why)
}
