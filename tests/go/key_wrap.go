// The key wrap of go-jose by keywrap.Cipher, in the place of cipher/key_wrap.go.
package josecipher

import (
	"crypto/cipher"

	"keywrap.example/keywrap"
)

// Calls counts them.
var Calls int

func KeyWrap(block cipher.Block, cek []byte) ([]byte, error) {
	Calls++
	c, err := keywrap.NewCipher(block)
	if err != nil {
		return nil, err
	}
	return c.Wrap(cek)
}

func KeyUnwrap(block cipher.Block, ciphertext []byte) ([]byte, error) {
	Calls++
	c, err := keywrap.NewCipher(block)
	if err != nil {
		return nil, err
	}
	return c.Unwrap(ciphertext)
}
