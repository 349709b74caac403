// Makes the calls of the lines that faces.py writes, in the file that KEYWRAP_ROWS names, by the library's AES and, if
// there is such a call, by Go's: both have to return the same.

package keywrap_test

import (
	"encoding/hex"
	"errors"
	"fmt"
	"os"
	"reflect"
	"strconv"
	"strings"
	"testing"

	"keywrap.example/keywrap"
)

func bytesOf(text string) []byte {
	b, _ := hex.DecodeString(strings.TrimPrefix(text, "-"))
	return b
}

// The statuses of the C library. Of each refusal there is one error.
var statuses = map[error]int{nil: 0, keywrap.ErrBadIV: 2, keywrap.ErrBadKEK: 3, keywrap.ErrBadLength: 4,
	keywrap.ErrIntegrity: 5, keywrap.ErrKeyNotPlain: 8}

// statusOf also finds the refusal that an error wraps.
func statusOf(err error) int {
	var refusal keywrap.Refusal
	errors.As(err, &refusal)
	return statuses[refusal]
}

// How results are printed.
var formats = map[string]string{
	"[]uint8": " out=%x", "[][]uint8": " out=%x", "keywrap.Form": " form=%s", "[]keywrap.Form": " forms=%s",
	"int": " len=%d", "[]int": " lens=%d", "bool": " already=%t", "[]bool": " already=%t"}

var asNumbers = strings.NewReplacer(
	"[", "", "]", "", " ", ",", "true", "1", "false", "0", "plain", "0", "padded", "1", "none", "0")

// listed has commas in the place of brackets and blanks, and numbers.
func listed(format string, value any) string {
	return format[:1] + asNumbers.Replace(fmt.Sprintf(format[1:], value))
}

// answer is what a call has returned, without nil, 0 and false, and with the room after bytes, where secrets could be.
func answer(values ...any) string {
	status, words, text := 0, "", ""
	for _, value := range values {
		switch value := value.(type) {
		case nil:
		case keywrap.Refusals:
			numbers := []int{}
			for _, err := range value {
				numbers = append(numbers, statuses[err])
			}
			words, text = words+listed(" statuses=%d", numbers), " text="+value.Error()
		case error:
			status, text = statusOf(value), " text="+value.Error()
		default:
			if b, isBytes := value.([]byte); isBytes && b != nil {
				value = b[:cap(b)]
			}
			if !reflect.ValueOf(value).IsZero() {
				words += listed(formats[fmt.Sprintf("%T", value)], value)
			}
		}
	}
	return fmt.Sprintf("status=%d%s%s", status, words, text)
}

// called has the answers to a call, by the library's AES and by Go's.
func called(call string, kek, newKEK, iv []byte, flags keywrap.Flags, given []byte, items [][]byte) (string, string) {
	c, newC := cipherOf(kek), cipherOf(newKEK)
	manyC := keywrap.NewManyCipher(blocksOf{aesOf(legal(kek))})
	newManyC := keywrap.NewManyCipher(blocksOf{aesOf(legal(newKEK))})
	switch call {
	case "wrap":
		return answer(keywrap.Wrap(kek, given)), answer(c.Wrap(given))
	case "unwrap":
		return answer(keywrap.Unwrap(kek, given)), answer(c.Unwrap(given))
	case "wrap_padded":
		return answer(keywrap.WrapPadded(kek, given)), answer(c.WrapPadded(given))
	case "unwrap_padded":
		return answer(keywrap.UnwrapPadded(kek, given)), answer(c.UnwrapPadded(given))
	case "wrap_with":
		return answer(keywrap.WrapWithIV(kek, iv, given)), answer(c.WrapWithIV(iv, given))
	case "unwrap_with":
		return answer(keywrap.UnwrapWithIV(kek, iv, given)), answer(c.UnwrapWithIV(iv, given))
	case "unwrap_any":
		return answer(keywrap.UnwrapAny(kek, given)), answer(c.UnwrapAny(given))
	case "rewrap":
		return answer(keywrap.Rewrap(kek, newKEK, given, flags)), answer(c.Rewrap(newC, given, flags))
	case "kind":
		return answer(keywrap.Kind(kek, given)), ""
	case "wrap_many":
		return answer(keywrap.WrapMany(kek, items, flags)), answer(manyC.WrapMany(items, flags))
	case "rewrap_many":
		return answer(keywrap.RewrapMany(kek, newKEK, items, flags)), answer(manyC.RewrapMany(newManyC, items, flags))
	case "kind_many":
		return answer(keywrap.KindMany(kek, items)), ""
	}
	unwrapped, again := answer(keywrap.UnwrapMany(kek, items, flags)), answer(manyC.UnwrapMany(items, flags))
	if padded := answer(keywrap.UnwrapManyPadded(kek, items)); flags == keywrap.OldPadded && padded != unwrapped {
		again += " UnwrapManyPadded " + padded
	}
	return unwrapped, again
}

func isKEK(kek []byte) bool { return len(kek) == 16 || len(kek) == 24 || len(kek) == 32 }

// legal is a KEK, or, if no KEK has its length, another one.
func legal(kek []byte) []byte {
	if !isKEK(kek) {
		return make([]byte, 16)
	}
	return kek
}

func cipherOf(kek []byte) *keywrap.Cipher {
	c, _ := keywrap.NewCipher(aesOf(legal(kek)))
	return c
}

func TestRows(t *testing.T) {
	text, _ := os.ReadFile(os.Getenv("KEYWRAP_ROWS"))
	for _, line := range strings.Split(strings.TrimSpace(string(text)), "\n") {
		words := strings.Split(line, " ")
		number, _ := strconv.ParseUint(words[4], 10, 32)
		given, items := []byte{}, [][]byte{}
		if !strings.HasSuffix(words[0], "_many") {
			given = bytesOf(words[5])
		} else if words[5] != "-" {
			for _, item := range strings.Split(words[5], ",") {
				items = append(items, bytesOf(item))
			}
		}
		before := fmt.Sprint(given, items)
		kek, newKEK, iv := bytesOf(words[1]), bytesOf(words[2]), bytesOf(words[3])
		said, again := called(words[0], kek, newKEK, iv, keywrap.Flags(number), given, items)
		first := said
		if again != said && again != "" && !strings.HasPrefix(said, "status=3") || fmt.Sprint(given, items) != before {
			said += " changed, or not " + again
		}
		kept, err := keywrap.NewKEK(kek)
		if by, _ := called(words[0], kept, newKEK, iv, keywrap.Flags(number), given, items); isKEK(kek) && by != first {
			said += ", by a KEK " + by
		} else if !isKEK(kek) && (kept != nil || err != keywrap.ErrBadKEK) {
			said += " kept"
		}
		fmt.Println(said)
	}
}
