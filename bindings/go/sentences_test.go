package ndef

import "testing"

// Names and records that are not there, and bytes that are no message.
func TestWarningsOfWhatIsNotThere(t *testing.T) {
	for _, number := range []FieldName{0, 32, 1 << 31} {
		if said := FieldWarning(number, []byte{3}); said != "" {
			t.Errorf("no field has the name %d, and said of it is %q", number, said)
		}
	}
	twice := unhex(t, "9d00000161"+"1d00000162"+"5d00000161")
	for _, index := range []int{-1, 64, 1<<31 - 1} {
		if said := RecordWarning(twice, index); said != "" {
			t.Errorf("there is no record %d, and said of it is %q", index, said)
		}
	}
	if RecordWarning(twice[:14], 0) != "" || RecordWarning(nil, 0) != "" {
		t.Errorf("said of what is no message: %q, %q", RecordWarning(twice[:14], 0), RecordWarning(nil, 0))
	}
}
