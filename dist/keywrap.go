// Package keywrap is AES Key Wrap (RFC 3394) and AES Key Wrap with Padding (RFC 5649), by a proved library.
//
// A key-encryption key (KEK) of 16, 24 or 32 bytes wraps a key: plain, of a multiple of 8 bytes from 16 on, or padded,
// of any length from 1 on; both up to [MaxKey] bytes. A wrapped key is refused in the form in which it was not wrapped.
// Every call also takes a [KEK] in the place of a KEK's bytes.
//
// Every error is a [Refusal], or [Refusals] of many keys, except in [NewCipher] and those of a [BlockCipher]. The
// error of many keys whose lengths differ wraps [ErrBadLength]. A result beside an error is nil or
// zero: a caller that ignores the error has no key. A wrapped key that fails its check is [ErrIntegrity].
//
// Any goroutine may make a call. No argument is changed or kept, and a result shares no memory with an argument. The
// caller clears its keys: the garbage collector does not. This package is tested, not proved.
package keywrap

// #cgo CFLAGS: -std=c99
// #include "keywrap.h"
//
// enum { first_len = KEYWRAP_TEXT_LEN(0) };
// static size_t kept_len(size_t kek_len) { return KEYWRAP_KEK_LEN(kek_len < 32 ? kek_len : 32); }
// static size_t plain_len(size_t key_len) { return KEYWRAP_TEXT_LEN(key_len); }
// static size_t padded_len(size_t key_len) { return KEYWRAP_PADDED_TEXT_LEN(key_len); }
// static size_t room(size_t wrapped_len) { return KEYWRAP_ROOM(wrapped_len); }
import "C"

import (
	"fmt"
	"io"
	"unsafe"
)

// The longest key and the longest wrapped key, in bytes.
const (
	MaxKey     = C.KEYWRAP_MAX_KEY
	MaxWrapped = C.KEYWRAP_MAX_TEXT
)

// firstLen is the number of the bytes of a wrapped key before its registers.
const firstLen = C.first_len

// A Refusal is the error of every call. If several apply, it is the first in this list.
type Refusal int32

// The refusals. [errors.Is] finds them in an error.
const (
	ErrBadIV       Refusal = C.KEYWRAP_BAD_IV        // the initial value is not 8 bytes, or begins with a6 59 59 a6
	ErrBadKEK      Refusal = C.KEYWRAP_BAD_KEK       // a KEK is not 16, 24 or 32 bytes, or is cleared
	ErrBadLength   Refusal = C.KEYWRAP_BAD_LENGTH    // the call does not accept a length, or the flags
	ErrIntegrity   Refusal = C.KEYWRAP_INTEGRITY     // another KEK, form or initial value, or damage
	ErrKeyNotPlain Refusal = C.KEYWRAP_KEY_NOT_PLAIN // the wrapped key is genuine, but no plain key has its key's length
)

// Error returns the text of the C library.
func (r Refusal) Error() string {
	var text [80]C.char
	C.keywrap_status_text(C.int32_t(r), &text[0], C.size_t(len(text)))
	return "keywrap: " + C.GoString(&text[0])
}

// A Form is the form of a wrapped key. The zero Form is none.
type Form int

// The two forms.
const (
	Plain Form = iota + 1
	Padded
)

func formOf(padded C.uint32_t) Form {
	if padded == C.KEYWRAP_OLD_PADDED {
		return Padded
	}
	return Plain
}

// String returns "plain" or "padded".
func (f Form) String() string {
	switch f {
	case Plain:
		return "plain"
	case Padded:
		return "padded"
	}
	return "none"
}

// Flags choose the forms of [Rewrap] and of the calls for many keys. The zero Flags are plain.
type Flags uint32

// The flags, to be combined by |. KeepForm excludes the first two. PassNew goes with any.
const (
	OldPadded Flags = C.KEYWRAP_OLD_PADDED // the wrapped key that is given is padded
	NewPadded Flags = C.KEYWRAP_NEW_PADDED // the wrapped key that is returned is padded
	KeepForm  Flags = C.KEYWRAP_KEEP_FORM  // the wrapped key that is given has either form, and keeps it
	PassNew   Flags = C.KEYWRAP_PASS_NEW   // a wrapped key that is new already is returned as it is
)

// at returns a pointer to the first byte, or to another byte if there is none: C takes no NULL. The pointer keeps the
// bytes alive while a call has it.
func at(b []byte) *C.uint8_t {
	if len(b) == 0 {
		return &none
	}
	return (*C.uint8_t)(unsafe.Pointer(&b[0]))
}

var none C.uint8_t

func size(b []byte) C.size_t { return C.size_t(len(b)) }

// plainLen and paddedLen return the length of the wrapped key. roomLen returns the size of the buffer of an unwrap.
func plainLen(keyLen int) int    { return int(C.plain_len(C.size_t(keyLen))) }
func paddedLen(keyLen int) int   { return int(C.padded_len(C.size_t(keyLen))) }
func roomLen(wrappedLen int) int { return int(C.room(C.size_t(wrappedLen))) }

func refusal(status C.int32_t) error {
	if status == C.KEYWRAP_OK {
		return nil
	}
	return Refusal(status)
}

// result returns the bytes if the call succeeded.
func result(bytes []byte, status C.int32_t) ([]byte, error) {
	if status == C.KEYWRAP_OK {
		return bytes, nil
	}
	return nil, Refusal(status)
}

// A KEK is a KEK that is expanded once. Each call takes it in the place of the KEK's bytes. It is as secret as they
// are, and is printed without its bytes. After Clear, calls return [ErrBadKEK].
type KEK []byte

// NewKEK expands a KEK of 16, 24 or 32 bytes, or returns [ErrBadKEK].
func NewKEK(kek []byte) (KEK, error) {
	kept := make([]byte, C.kept_len(size(kek)))
	return result(kept, C.keywrap_kek_init(at(kek), size(kek), at(kept), size(kept)))
}

// Clear clears the KEK, and what was assigned from it: they share their memory. No call may run that uses it.
func (k KEK) Clear() { C.keywrap_kek_clear(at(k), size(k)) }

// Format prints no bytes, whatever the verb.
func (k KEK) Format(to fmt.State, verb rune) { io.WriteString(to, "keywrap.KEK") }

// Wrap returns the plain wrapping of a key, which is 8 bytes longer.
func Wrap(kek, key []byte) ([]byte, error) {
	wrapped := make([]byte, plainLen(len(key)))
	return result(wrapped, C.keywrap_wrap(
		at(kek), size(kek), at(key), size(key), at(wrapped), size(wrapped)))
}

// Unwrap returns the key whose plain wrapping this is.
func Unwrap(kek, wrapped []byte) ([]byte, error) {
	key := make([]byte, roomLen(len(wrapped)))
	return result(key, C.keywrap_unwrap(
		at(kek), size(kek), at(wrapped), size(wrapped), at(key), size(key)))
}

// WrapWithIV is [Wrap] with an initial value of 8 bytes that both ends agreed on (RFC 3394, 2.2.3.2).
func WrapWithIV(kek, iv, key []byte) ([]byte, error) {
	wrapped := make([]byte, plainLen(len(key)))
	return result(wrapped, C.keywrap_wrap_with(
		at(kek), size(kek), at(iv), size(iv), at(key), size(key), at(wrapped), size(wrapped)))
}

// UnwrapWithIV is [Unwrap] with the initial value of [WrapWithIV].
func UnwrapWithIV(kek, iv, wrapped []byte) ([]byte, error) {
	key := make([]byte, roomLen(len(wrapped)))
	return result(key, C.keywrap_unwrap_with(
		at(kek), size(kek), at(iv), size(iv), at(wrapped), size(wrapped), at(key), size(key)))
}

// WrapPadded returns the padded wrapping of a key, which is 8 to 15 bytes longer.
func WrapPadded(kek, key []byte) ([]byte, error) {
	wrapped := make([]byte, paddedLen(len(key)))
	return result(wrapped, C.keywrap_wrap_padded(
		at(kek), size(kek), at(key), size(key), at(wrapped), size(wrapped)))
}

// UnwrapPadded returns the key whose padded wrapping this is.
func UnwrapPadded(kek, wrapped []byte) ([]byte, error) {
	key, length := make([]byte, roomLen(len(wrapped))), C.size_t(0)
	status := C.keywrap_unwrap_padded(
		at(kek), size(kek), at(wrapped), size(wrapped), at(key), size(key), &length)
	return result(key[:length:length], status)
}

// UnwrapAny returns the key whose wrapping this is, in either form, and the form. No wrapped key has both forms.
func UnwrapAny(kek, wrapped []byte) (key []byte, form Form, err error) {
	key = make([]byte, roomLen(len(wrapped)))
	var padded C.uint32_t
	var length C.size_t
	status := C.keywrap_unwrap_any(
		at(kek), size(kek), at(wrapped), size(wrapped), at(key), size(key), &padded, &length)
	if err := refusal(status); err != nil {
		return nil, 0, err
	}
	return key[:length:length], formOf(padded), nil
}

// Kind returns the form of a wrapped key and the length of its key, without the key. For any wrapped key that is not
// valid under the KEK it returns [ErrIntegrity].
func Kind(kek, wrapped []byte) (form Form, keyLen int, err error) {
	scratch := make([]byte, roomLen(len(wrapped)))
	var padded C.uint32_t
	var length C.size_t
	status := C.keywrap_kind(
		at(kek), size(kek), at(wrapped), size(wrapped), at(scratch), size(scratch), &padded, &length)
	if err := refusal(status); err != nil {
		return 0, 0, err
	}
	return formOf(padded), int(length), nil
}

// Rewrap wraps the key of a wrapped key again, under the new KEK. The result is as long as the wrapped key. With
// [PassNew] a wrapped key that is already under the new KEK, in the form of a result, is returned as it is, and already
// is true.
//
// It returns [ErrKeyNotPlain] if the result would be plain and no plain key has the length of the key.
func Rewrap(oldKEK, newKEK, wrapped []byte, flags Flags) (rewrapped []byte, already bool, err error) {
	rewrapped = append(make([]byte, 0, len(wrapped)), wrapped...)
	var isNew C.uint32_t
	status := C.keywrap_rewrap(at(oldKEK), size(oldKEK), at(newKEK), size(newKEK),
		at(rewrapped), size(rewrapped), C.uint32_t(flags), &isNew)
	if err := refusal(status); err != nil {
		return nil, false, err
	}
	return rewrapped, isNew != 0, nil
}

// SelfTest wraps and unwraps the published vectors, and unwraps a damaged wrapped key. It returns [ErrIntegrity] if a
// result is wrong.
func SelfTest() error { return refusal(C.keywrap_self_test()) }
