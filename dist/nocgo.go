//go:build !cgo

package keywrap

// Without cgo this is the error of a build: the package compiles keywrap.c.
var _ = keywrap_needs_cgo_and_a_C_compiler
