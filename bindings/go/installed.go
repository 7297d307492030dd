//go:build ndef_installed

package ndef

// The library for C and its header as `make install` leaves them.

// #cgo pkg-config: simbegyor-ndef
// #cgo CFLAGS: -DNDEF_INSTALLED
import "C"
