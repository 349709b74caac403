package keywrap

// #include "keywrap_steps.h"
import "C"

import (
	"crypto/aes"
	"crypto/cipher"
	"errors"
)

// A Cipher wraps and unwraps by a block cipher of the caller, which has the KEK: AES of crypto/aes, of a token or of a
// key management service. The library computes which block is next, and makes every check. As many goroutines may use a
// Cipher as may use its block cipher. A panic of the block cipher reaches the caller, after the key has been cleared.
// Many keys under a KEK in a token take a [ManyCipher].
type Cipher struct {
	block cipher.Block
}

// NewCipher returns a Cipher. The blocks have 16 bytes, else it returns an error.
func NewCipher(block cipher.Block) (*Cipher, error) {
	if block.BlockSize() != aes.BlockSize {
		return nil, errors.New("keywrap: the blocks of the cipher do not have 16 bytes")
	}
	return &Cipher{block}, nil
}

var defaultIV = []byte{0xa6, 0xa6, 0xa6, 0xa6, 0xa6, 0xa6, 0xa6, 0xa6}

// steps is the state of a wrap or an unwrap: the buffer of a wrapped key, its registers, the next block, and the number
// of the steps that are done or left.
type steps struct {
	text, registers, block []byte
	number                 C.uint64_t
	ended                  bool
}

func stepsOf(textLen int) *steps {
	text := make([]byte, textLen)
	return &steps{text: text, registers: text[firstLen:], block: make([]byte, aes.BlockSize)}
}

// clear clears what was not ended. The block cipher may have panicked, for instance without its token.
func (s *steps) clear() {
	if s.ended {
		return
	}
	zero(s.text)
	zero(s.block)
}

func zero(bytes []byte) {
	for i := range bytes {
		bytes[i] = 0
	}
}

// run makes all steps, or undoes them. An end refuses what has not had all steps.
func (c *Cipher) run(s *steps, decrypts bool) {
	status := C.int32_t(C.KEYWRAP_OK)
	for left := C.keywrap_step_count(size(s.registers)); left > 0 && status == C.KEYWRAP_OK; left-- {
		if decrypts {
			c.block.Decrypt(s.block, s.block)
			status = C.keywrap_step_unwrap(at(s.registers), size(s.registers), &s.number, at(s.block))
		} else {
			c.block.Encrypt(s.block, s.block)
			status = C.keywrap_step_wrap(at(s.registers), size(s.registers), &s.number, at(s.block))
		}
	}
}

// wrap makes the steps after a begin with this status.
func (c *Cipher) wrap(s *steps, status C.int32_t) ([]byte, error) {
	defer s.clear()
	if status == C.KEYWRAP_OK {
		c.run(s, false)
		status = C.keywrap_end_wrap(at(s.text), at(s.registers), size(s.registers), s.number, at(s.block))
	}
	s.ended = status == C.KEYWRAP_OK
	return result(s.text, status)
}

// unwrap makes the steps after a begin with this status, and ends them. The key has the length that end returns.
func (c *Cipher) unwrap(s *steps, status C.int32_t, end func() (C.size_t, C.int32_t)) ([]byte, error) {
	defer s.clear()
	length := C.size_t(0)
	if status == C.KEYWRAP_OK {
		c.run(s, true)
		length, status = end()
	}
	s.ended = status == C.KEYWRAP_OK
	return result(s.registers[:length:length], status)
}

// Wrap is the function [Wrap] under the KEK of the block cipher.
func (c *Cipher) Wrap(key []byte) ([]byte, error) { return c.WrapWithIV(defaultIV, key) }

// Unwrap is the function [Unwrap] under the KEK of the block cipher.
func (c *Cipher) Unwrap(wrapped []byte) ([]byte, error) { return c.UnwrapWithIV(defaultIV, wrapped) }

// WrapWithIV is the function [WrapWithIV] under the KEK of the block cipher.
func (c *Cipher) WrapWithIV(iv, key []byte) ([]byte, error) {
	s := stepsOf(plainLen(len(key)))
	copy(s.registers, key)
	return c.wrap(s, C.keywrap_begin_wrap(
		at(iv), size(iv), at(s.registers), size(s.registers), &s.number, at(s.block)))
}

// UnwrapWithIV is the function [UnwrapWithIV] under the KEK of the block cipher.
func (c *Cipher) UnwrapWithIV(iv, wrapped []byte) ([]byte, error) {
	s := stepsOf(plainLen(roomLen(len(wrapped))))
	copy(s.text, wrapped)
	// Refuses what the begin of an unwrap does, and the initial value, which only its end has.
	status := C.keywrap_begin_wrap(at(iv), size(iv), at(s.registers), size(s.registers), &s.number, at(s.block))
	if status == C.KEYWRAP_OK {
		status = C.keywrap_begin_unwrap(
			at(s.text), at(s.registers), size(s.registers), &s.number, at(s.block))
	}
	return c.unwrap(s, status, func() (C.size_t, C.int32_t) {
		return size(s.registers), C.keywrap_end_unwrap(
			at(iv), size(iv), at(s.registers), size(s.registers), s.number, at(s.block))
	})
}

// WrapPadded is the function [WrapPadded] under the KEK of the block cipher.
func (c *Cipher) WrapPadded(key []byte) ([]byte, error) {
	s := stepsOf(paddedLen(len(key)))
	copy(s.registers, key)
	return c.wrap(s, C.keywrap_begin_wrap_padded(
		size(key), at(s.registers), size(s.registers), &s.number, at(s.block)))
}

// UnwrapPadded is the function [UnwrapPadded] under the KEK of the block cipher.
func (c *Cipher) UnwrapPadded(wrapped []byte) ([]byte, error) {
	s := stepsOf(plainLen(roomLen(len(wrapped))))
	copy(s.text, wrapped)
	return c.unwrap(s, C.keywrap_begin_unwrap_padded(
		at(s.text), at(s.registers), size(s.registers), &s.number, at(s.block)),
		func() (length C.size_t, status C.int32_t) {
			status = C.keywrap_end_unwrap_padded(
				at(s.registers), size(s.registers), s.number, at(s.block), &length)
			return length, status
		})
}

// UnwrapAny is the function [UnwrapAny] under the KEK of the block cipher.
func (c *Cipher) UnwrapAny(wrapped []byte) (key []byte, form Form, err error) {
	s := stepsOf(plainLen(roomLen(len(wrapped))))
	copy(s.text, wrapped)
	var padded C.uint32_t
	key, err = c.unwrap(s, C.keywrap_begin_unwrap_padded(
		at(s.text), at(s.registers), size(s.registers), &s.number, at(s.block)),
		func() (length C.size_t, status C.int32_t) {
			status = C.keywrap_end_unwrap_any(
				at(s.registers), size(s.registers), s.number, at(s.block), &padded, &length)
			return length, status
		})
	if err != nil {
		return nil, 0, err
	}
	return key, formOf(padded), nil
}

// Rewrap is the function [Rewrap] from the KEK of this block cipher to the KEK of another one. The new one only
// encrypts, and with [PassNew] also decrypts; this one only decrypts.
func (c *Cipher) Rewrap(newCipher *Cipher, wrapped []byte, flags Flags) (rewrapped []byte, already bool, err error) {
	s := &steps{text: append(make([]byte, 0, len(wrapped)), wrapped...), block: make([]byte, aes.BlockSize)}
	defer s.clear()
	var phase C.uint32_t
	status := C.keywrap_begin_rewrap(
		C.uint32_t(flags), at(s.text), size(s.text), &phase, &s.number, at(s.block))
	for phase != 0 {
		s.registers = s.text[firstLen:]
		next := c
		if phase&C.KEYWRAP_NEW != 0 {
			next = newCipher
		}
		next.run(s, phase&C.KEYWRAP_DECRYPT != 0)
		status = C.keywrap_next_rewrap_from(C.uint32_t(flags), at(wrapped), size(wrapped),
			at(s.text), size(s.text), &phase, &s.number, at(s.block))
	}
	already = status == C.KEYWRAP_ALREADY_NEW
	s.ended = already || status == C.KEYWRAP_OK
	if already {
		return s.text, true, nil
	}
	rewrapped, err = result(s.text, status)
	return rewrapped, false, err
}
