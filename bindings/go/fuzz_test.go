package ndef

import "testing"

// FuzzParse reads any bytes: what is read can be written, and is the same when it is read again.
func FuzzParse(f *testing.F) {
	for _, given := range cases(f) {
		f.Add(unhex(f, given.Bytes), given.Answer == "refused")
	}
	f.Fuzz(func(t *testing.T, bytes []byte, isStandard bool) {
		options := Options{Standard: isStandard}
		message, length, err := options.ParsePrefix(bytes)
		fields, fieldsErr := options.Fields(bytes)
		end := 0
		for _, field := range fields {
			if field.At != end {
				t.Fatalf("a field begins at %d and not at %d", field.At, end)
			}
			end += field.Length
		}
		if err != nil {
			if fieldsErr == nil || err.Error() != fieldsErr.Error() {
				t.Fatalf("%v, and for the fields %v", err, fieldsErr)
			}
			return
		}
		if end != length {
			t.Fatalf("the fields end at %d, and the message at %d", end, length)
		}
		encoded, err := message.EncodeAs(Form{Options: options})
		if err != nil || len(encoded) > length {
			t.Fatalf("%d bytes are written of %d: %v", len(encoded), length, err)
		}
		again, err := Options{Standard: true}.Parse(encoded)
		if err != nil || !isSame(again, message) {
			t.Fatalf("%v, %v", again, err)
		}
		for index := range message.Records {
			if _, err := options.Value(&message.Records[index]); err != nil {
				t.Fatalf("record %d is accepted, and its payload refused: %v", index, err)
			}
		}
	})
}
