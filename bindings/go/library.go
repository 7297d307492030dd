package ndef

// #include "calls.h"
import "C"

import "unsafe"

// version is the first two numbers of the version of the library, as one.
const version = C.NDEF_VERSION_MAJOR<<8 | C.NDEF_VERSION_MINOR

// first points to the first of the bytes.
func first(bytes []byte) *C.uint8_t { return (*C.uint8_t)(unsafe.Pointer(pointer(bytes))) }

// pointer points to the first element, and is nil where there is none.
func pointer[T any](array []T) *T {
	if len(array) == 0 {
		return nil
	}
	return &array[0]
}

func size(bytes []byte) C.ndef_size { return C.ndef_size(len(bytes)) }

// within returns the bytes of a part.
func within(bytes []byte, at, length C.ndef_size) []byte { return bytes[at : at+length : at+length] }

// A filling is a call that writes bytes to a buffer and their number to count. It answers NDEF_BUFFER_TOO_SMALL, with the number
// that is needed, where the buffer is too small.
type filling func(buffer *C.uint8_t, size C.ndef_size, count *C.ndef_size) C.uint32_t

// filled appends to bytes what a call writes to a buffer.
func filled(bytes []byte, call filling) ([]byte, C.uint32_t) {
	var count C.ndef_size
	status := call(nil, 0, &count)
	if status != C.NDEF_BUFFER_TOO_SMALL {
		return bytes, status
	}
	at := len(bytes)
	bytes = append(bytes, make([]byte, count)...)
	return bytes, call(first(bytes[at:]), count, &count)
}

// elements returns the array that a call fills, or nil where the call answers another status.
func elements[T any](call func(array *T, size C.ndef_size, count *C.ndef_size) C.uint32_t) ([]T, C.uint32_t) {
	var count C.ndef_size
	status := call(nil, 0, &count)
	if status != C.NDEF_BUFFER_TOO_SMALL {
		return nil, status
	}
	array := make([]T, count)
	return array, call(&array[0], count, &count)
}

// flag is the number for a bool of ndef.h.
func flag(is bool) C.uint32_t {
	if is {
		return 1
	}
	return 0
}
