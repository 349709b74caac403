package keywrap_test

import (
	"crypto/aes"
	"encoding/hex"
	"errors"
	"fmt"
	"log"

	"keywrap.example/keywrap"
)

// The KEKs of the examples. Use random bytes.
var (
	exampleKEK, _ = hex.DecodeString("000102030405060708090a0b0c0d0e0f")
	exampleKey, _ = hex.DecodeString("00112233445566778899aabbccddeeff")
)

func Example() {
	wrapped, err := keywrap.Wrap(exampleKEK, exampleKey)
	if err != nil {
		log.Fatal(err)
	}
	fmt.Println(len(wrapped), "bytes")

	key, err := keywrap.Unwrap(exampleKEK, wrapped)
	if err != nil {
		log.Fatal(err)
	}
	fmt.Printf("%x\n", key)

	wrapped[3] ^= 1
	key, err = keywrap.Unwrap(exampleKEK, wrapped)
	fmt.Println(key == nil, errors.Is(err, keywrap.ErrIntegrity))
	// Output:
	// 24 bytes
	// 00112233445566778899aabbccddeeff
	// true true
}

func ExampleRewrap() {
	newKEK, _ := hex.DecodeString("000102030405060708090a0b0c0d0e0f1011121314151617")
	wrapped, _ := keywrap.Wrap(exampleKEK, exampleKey)

	// To start an interrupted rotation again, what is new already is passed.
	flags := keywrap.KeepForm | keywrap.PassNew
	for range []string{"first run", "second run"} {
		rewrapped, already, err := keywrap.Rewrap(exampleKEK, newKEK, wrapped, flags)
		if err != nil {
			log.Fatal(err)
		}
		key, _ := keywrap.Unwrap(newKEK, rewrapped)
		fmt.Printf("%x %v\n", key, already)
		wrapped = rewrapped
	}
	// Output:
	// 00112233445566778899aabbccddeeff false
	// 00112233445566778899aabbccddeeff true
}

func ExampleUnwrapMany() {
	good, _ := keywrap.Wrap(exampleKEK, exampleKey)
	damaged := make([]byte, len(good))

	keys, err := keywrap.UnwrapMany(exampleKEK, [][]byte{good, damaged}, 0)
	var refused keywrap.Refusals
	if err != nil && !errors.As(err, &refused) {
		log.Fatal(err)
	}
	for i, key := range keys {
		if key == nil {
			fmt.Println("refused:", errors.Is(refused[i], keywrap.ErrIntegrity))
			continue
		}
		fmt.Printf("%x\n", key)
	}
	// Output:
	// 00112233445566778899aabbccddeeff
	// refused: true
}

// Go's AES has the KEK. A token may have it, too.
func ExampleNewCipher() {
	block, err := aes.NewCipher(exampleKEK)
	if err != nil {
		log.Fatal(err)
	}
	kek, err := keywrap.NewCipher(block)
	if err != nil {
		log.Fatal(err)
	}
	wrapped, err := kek.Wrap(exampleKey)
	if err != nil {
		log.Fatal(err)
	}
	key, err := keywrap.Unwrap(exampleKEK, wrapped)
	fmt.Printf("%x %v\n", key, err)
	// Output: 00112233445566778899aabbccddeeff <nil>
}
