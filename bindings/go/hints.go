package ndef

// #include "calls.h"
import "C"

import "fmt"

// HintKind says what a hint is about: an ndef_hint_number of ndef.h.
type HintKind uint32

// The kinds of hints.
const (
	HintTLV        HintKind = C.NDEF_HINT_TLV        // an NDEF message TLV of a tag has bytes for a message, or none
	HintAttributes HintKind = C.NDEF_HINT_ATTRIBUTES // a message comes after the attribute block of a Type 3 Tag
	HintFile       HintKind = C.NDEF_HINT_FILE       // a message comes after its length, as in a file of a Type 4 Tag
	HintMessage    HintKind = C.NDEF_HINT_MESSAGE    // a message begins after other bytes
	HintTerminator HintKind = C.NDEF_HINT_TERMINATOR // the terminator of a tag's TLV blocks is in place of a message
	HintDigits     HintKind = C.NDEF_HINT_DIGITS     // the bytes are digits
	HintXxd        HintKind = C.NDEF_HINT_XXD        // the bytes are a dump by xxd
	HintHexdump    HintKind = C.NDEF_HINT_HEXDUMP    // the bytes are a dump by hexdump -C
	HintWords      HintKind = C.NDEF_HINT_WORDS      // the bytes are a dump by od or hexdump of numbers of more than one byte
	HintFlipper    HintKind = C.NDEF_HINT_FLIPPER    // the bytes are an NFC file of a Flipper
	HintProxmark   HintKind = C.NDEF_HINT_PROXMARK   // the bytes are what the client of a Proxmark prints
	HintBase64     HintKind = C.NDEF_HINT_BASE64     // the bytes may be base64
	HintCode       HintKind = C.NDEF_HINT_CODE       // the identifier code of a URI may be missing
	HintStandard   HintKind = C.NDEF_HINT_STANDARD   // a reader of the standard profile accepts the bytes

	// (the library of release 1.0.0 has no names for these)
	HintInterrupted HintKind = 15 // reserved areas of a tag may lie before the end of an NDEF message TLV
	HintUnfinished  HintKind = 16 // a Type 3 Tag is being written: its message is not whole yet
	HintOd          HintKind = 17 // the bytes are a dump by od -tx1
)

// A FoundHint says to a program what may help where bytes are refused.
type FoundHint struct {
	Kind   HintKind
	Place  int // the offset at which a message may begin; 0 where the hint names none
	Length int // the number of bytes that a tag has for that message; 0 where the hint names none
	given  int // the number of bytes that were given
}

// FindHint returns what may help where the strict profile refuses the bytes within the default limits, as the method
// FindHint of Options does.
func FindHint(bytes []byte) *FoundHint {
	found, _ := Options{}.FindHint(bytes)
	return found
}

// FindHint returns what may help where the bytes are refused, by its kind and the place of a message. It is nil where the
// method Hint returns no sentence. The rest is as for Hint.
func (options Options) FindHint(bytes []byte) (*FoundHint, error) {
	var found C.ndef_found
	limits := options.limits()
	switch C.ndef_find_hint(first(bytes), size(bytes), &limits, &found) {
	case C.NDEF_OK:
		return &FoundHint{HintKind(found.hint), int(found.at), int(found.length), len(bytes)}, nil
	case C.NDEF_BAD_ARGUMENT:
		return nil, ErrLimits
	default:
		return nil, nil
	}
}

// inTag returns the sentence for what a tag has for a message, with what surrounds it there.
func (found *FoundHint) inTag(around string) string {
	if found.Length == 0 {
		return "This tag is empty: it has no bytes for a message."
	}
	from, to := found.Place, found.Place+found.Length
	if from > found.given {
		from = found.given
	}
	if to > found.given {
		to = found.given
	}
	return fmt.Sprintf("A message of length %d may begin at byte %d, %s: read `bytes[%d:%d]`.", found.Length, found.Place, around, from, to)
}

// String returns the hint as a sentence of English, which names what a program in Go calls. The function Hint returns one
// that names commands.
func (found *FoundHint) String() string {
	switch found.Kind {
	case HintTLV:
		return found.inTag("in an NDEF TLV of a tag")
	case HintAttributes:
		return found.inTag("after the attribute block of a Type 3 Tag")
	case HintFile:
		return found.inTag("after its length, as in a file of a Type 4 Tag")
	case HintMessage:
		const text = "The bytes may begin with what surrounds a message on a tag; a message begins at byte %d: read `bytes[%d:]`."
		return fmt.Sprintf(text, found.Place, found.Place)
	case HintInterrupted:
		const text = "A message may begin at byte %d, in an NDEF TLV of a tag, but reserved areas may lie before its end: use a reader that skips them."
		return fmt.Sprintf(text, found.Place)
	default:
		return hintTexts[found.Kind]
	}
}

// hintTexts are the sentences that have no numbers.
var hintTexts = map[HintKind]string{
	HintTerminator: "FE (hexadecimal) ends the TLV blocks of a tag.",
	HintDigits:     "These are hexadecimal digits, not the bytes that they spell: decode them first, as `hex.DecodeString` does.",
	HintXxd:        "This is a dump by xxd, not the bytes that it spells: decode its digits first.",
	HintHexdump:    "This is a dump by hexdump, not the bytes that it spells: decode its digits first.",
	HintWords:      "This dump by od or hexdump may show numbers of two bytes, not bytes: decode a dump of single bytes.",
	HintFlipper:    "This is a file of a Flipper, not the bytes: decode the digits of its pages first.",
	HintProxmark:   "This is what a Proxmark prints, not the bytes: decode the digits of its blocks first.",
	HintBase64:     "This may be base64, not the bytes that it spells: decode it first, as `base64.StdEncoding` does.",
	HintCode:       "68 (hexadecimal) is the letter h: was the identifier code left out?",
	HintStandard:   "The standard profile reads this: give `Options{Standard: true}`.",

	HintOd:         "This is a dump by od, not the bytes that it spells: decode its digits first.",
	HintUnfinished: "This Type 3 Tag is being written: its attribute block says that the message is not whole yet.",
}
