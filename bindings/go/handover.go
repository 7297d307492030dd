package ndef

// #include "ndef.h"
import "C"

// Power is the power state of an alternative carrier.
type Power uint8

// The power states (Connection Handover 1.2).
const (
	Inactive     Power = 0
	Active       Power = 1
	Activating   Power = 2
	UnknownPower Power = 3
)

// String returns the name of the power state, such as "active", or "Power(4)" where it has none.
func (power Power) String() string {
	return named("Power", int(power), "inactive", "active", "activating", "unknown")
}

// AlternativeCarrier is an alternative carrier of a handover: how it is powered, and the ids of the records that
// describe it.
type AlternativeCarrier struct {
	Power     Power
	Reference string   // the id of the record that describes the carrier, at most 255 bytes
	Auxiliary []string // the ids of further records, at most 255 of them
}

// HandoverRequest is the payload of a Handover Request record of version 1.Minor.
type HandoverRequest struct {
	Minor     uint8  // 0 to 15
	Collision uint16 // the random number of its Collision Resolution record
	Carriers  []AlternativeCarrier
}

// HandoverSelect is the payload of a Handover Select record of version 1.Minor.
type HandoverSelect struct {
	Minor    uint8 // 0 to 15
	Carriers []AlternativeCarrier
	Error    *HandoverError // its first error; nil where it has none
}

// HandoverError is an error of a handover select.
type HandoverError struct {
	Reason uint8 // the standard defines 1 to 3
	Data   []byte
	Number *uint32 // for the reasons 1 to 3 the number that the data hold, once they are read; writing takes Data
}

// HandoverCarrier is the payload of a Handover Carrier record.
type HandoverCarrier struct {
	Format uint8  // the carrier type format, 0 to 7: what kind of name the carrier type is
	Type   string // at most 255 bytes
	Data   []byte
}

// alternativeOf reads the payload of an Alternative Carrier record.
func alternativeOf(payload []byte) (AlternativeCarrier, error) {
	var parts C.ndef_alternative_parts
	var why C.ndef_checked
	if C.ndef_alternative(first(payload), size(payload), &parts, &why) != C.NDEF_OK {
		return AlternativeCarrier{}, refused(&why)
	}
	array, _ := elements(func(array *C.ndef_part, most C.ndef_size, count *C.ndef_size) C.uint32_t {
		return C.ndef_references(first(payload), size(payload), array, most, count)
	})
	carrier := AlternativeCarrier{Power: Power(parts.power)}
	for index, part := range array {
		reference := string(within(payload, part.at, part.length))
		if index == 0 {
			carrier.Reference = reference
		} else {
			carrier.Auxiliary = append(carrier.Auxiliary, reference)
		}
	}
	return carrier, nil
}

// errorOf reads the payload of an Error record.
func errorOf(payload []byte) (*HandoverError, error) {
	var parts C.ndef_error_parts
	var why C.ndef_checked
	if C.ndef_error(first(payload), size(payload), &parts, &why) != C.NDEF_OK {
		return nil, refused(&why)
	}
	found := &HandoverError{Reason: uint8(parts.reason), Data: within(payload, parts.data_at, parts.data_length)}
	if parts.has_number == 1 {
		number := uint32(parts.number)
		found.Number = &number
	}
	return found, nil
}

// partsOf reads the alternative carriers and the first error of a handover of a kind that was read: what follows its
// version byte is a message.
func partsOf(payload []byte, kind Kind) (carriers []AlternativeCarrier, found *HandoverError, err error) {
	for _, record := range recordsOf(payload[1:]) {
		switch is := record.kindWithin(kind); {
		case is == kindAlternative:
			var carrier AlternativeCarrier
			carrier, err = alternativeOf(record.Payload)
			carriers = append(carriers, carrier)
		case is == kindError && found == nil:
			found, err = errorOf(record.Payload)
		}
		if err != nil {
			return nil, nil, err
		}
	}
	return carriers, found, nil
}

func requestOf(payload []byte, flags C.uint32_t) (*HandoverRequest, error) {
	var parts C.ndef_request_parts
	var why C.ndef_checked
	if C.ndef_request(first(payload), size(payload), flags, &parts, &why) != C.NDEF_OK {
		return nil, refused(&why)
	}
	carriers, _, err := partsOf(payload, KindRequest)
	return &HandoverRequest{Minor: uint8(parts.minor), Collision: uint16(parts.collision), Carriers: carriers}, err
}

func selectOf(payload []byte, flags C.uint32_t) (*HandoverSelect, error) {
	var parts C.ndef_select_parts
	var why C.ndef_checked
	if C.ndef_select(first(payload), size(payload), flags, &parts, &why) != C.NDEF_OK {
		return nil, refused(&why)
	}
	carriers, found, err := partsOf(payload, KindSelect)
	return &HandoverSelect{Minor: uint8(parts.minor), Carriers: carriers, Error: found}, err
}

func carrierOf(payload []byte) (*HandoverCarrier, error) {
	var parts C.ndef_carrier_parts
	var why C.ndef_checked
	if C.ndef_carrier(first(payload), size(payload), &parts, &why) != C.NDEF_OK {
		return nil, refused(&why)
	}
	return &HandoverCarrier{Format: uint8(parts.format), Type: string(within(payload, parts.type_at, parts.type_length)),
		Data: within(payload, parts.data_at, parts.data_length)}, nil
}

// Record makes the record of the carrier.
func (carrier *HandoverCarrier) Record() (Record, error) {
	name := []byte(carrier.Type)
	return typed("Hc", "the carrier", "its format is above 7, or its type has more than 255 bytes",
		func(buffer *C.uint8_t, most C.ndef_size, count *C.ndef_size) C.uint32_t {
			return C.ndef_write_carrier(C.uint32_t(carrier.Format), first(name), size(name), first(carrier.Data),
				size(carrier.Data), buffer, most, count)
		})
}

// laid are alternative carriers as ndef.h takes them: references in an arena, and which of them are a carrier's.
type laid struct {
	arena
	references   []C.ndef_part
	alternatives []C.ndef_alternative_writing
}

func lay(carriers []AlternativeCarrier) *laid {
	laid := new(laid)
	for _, carrier := range carriers {
		laid.alternatives = append(laid.alternatives, C.ndef_alternative_writing{first: C.ndef_size(len(laid.references)),
			references: C.ndef_size(1 + len(carrier.Auxiliary)), power: C.uint32_t(carrier.Power)})
		for _, reference := range append([]string{carrier.Reference}, carrier.Auxiliary...) {
			laid.references = append(laid.references, laid.put(reference))
		}
	}
	return laid
}

// Record makes the record of the request: of its random number, and of the alternative carriers in their order.
func (request *HandoverRequest) Record() (Record, error) {
	laid := lay(request.Carriers)
	return typed("Hr", "the request", carriersWhy, func(buffer *C.uint8_t, most C.ndef_size, count *C.ndef_size) C.uint32_t {
		return C.ndef_write_request(C.uint32_t(request.Minor), C.uint32_t(request.Collision), first(laid.bytes), size(laid.bytes),
			pointer(laid.references), C.ndef_size(len(laid.references)), pointer(laid.alternatives),
			C.ndef_size(len(laid.alternatives)), buffer, most, count)
	})
}

// Record makes the record of the select: of the alternative carriers in their order, and of the error.
func (chosen *HandoverSelect) Record() (Record, error) {
	laid := lay(chosen.Carriers)
	how := C.ndef_select_writing{minor: C.uint32_t(chosen.Minor)}
	if chosen.Error != nil {
		how.has_error, how.reason, how.data = 1, C.uint32_t(chosen.Error.Reason), laid.put(string(chosen.Error.Data))
	}
	why := carriersWhy + ", or the data of its error don't fit the reason"
	return typed("Hs", "the select", why, func(buffer *C.uint8_t, most C.ndef_size, count *C.ndef_size) C.uint32_t {
		return C.ndef_write_select(&how, first(laid.bytes), size(laid.bytes), pointer(laid.references),
			C.ndef_size(len(laid.references)), pointer(laid.alternatives), C.ndef_size(len(laid.alternatives)), buffer, most, count)
	})
}

const carriersWhy = "its minor version is above 15, or a carrier has a power state above 3, " +
	"more than 255 auxiliary references or a reference of more than 255 bytes"
