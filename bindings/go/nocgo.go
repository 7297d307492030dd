//go:build !cgo

package ndef

// Go compiles this file alone where cgo is off, as in a cross build, and prints the name.
var _ = this_package_needs_cgo_and_a_C_compiler_so_set_CGO_ENABLED_to_1_and_CC_to_a_compiler_for_that_machine
