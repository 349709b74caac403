// The test of a program that uses the module.
package program

import (
	"errors"
	"fmt"
	"testing"

	"keywrap.example/keywrap"
)

func TestProgram(t *testing.T) {
	kek := []byte("0123456789abcdef")
	wrapped, err := keywrap.WrapPadded(kek, []byte("a key of 19 bytes.."))
	if err != nil {
		t.Fatal(err)
	}
	key, err := keywrap.UnwrapPadded(kek, wrapped)
	if fmt.Sprintf("%s, %v", key, err) != "a key of 19 bytes.., <nil>" {
		t.Error(string(key), err)
	}
	wrapped[0] ^= 1
	if key, err := keywrap.UnwrapPadded(kek, wrapped); key != nil || !errors.Is(err, keywrap.ErrIntegrity) {
		t.Error(key, err)
	}
}
