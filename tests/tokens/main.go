// Rewraps the keys of 32 bytes in a file by a token, and prints the calls of the token, their blocks, how many keys
// were refused, and how many keys a second of the processor it rewraps.
package main

// #cgo LDFLAGS: -ldl
// #include <stdlib.h>
// #include "ecb.h"
import "C"

import (
	"errors"
	"fmt"
	"os"
	"syscall"
	"unsafe"

	"keywrap.example/keywrap"
)

// kek is a KEK in the token.
type kek C.int

func (k kek) EncryptBlocks(dst, src []byte) error { return crypt(k, 0, dst, src) }
func (k kek) DecryptBlocks(dst, src []byte) error { return crypt(k, 1, dst, src) }

func crypt(k kek, decrypts C.int, dst, src []byte) error {
	from, to := (*C.uint8_t)(unsafe.Pointer(&src[0])), (*C.uint8_t)(unsafe.Pointer(&dst[0]))
	if C.ecb_crypt(C.int(k), decrypts, from, to, C.size_t(len(src))) != 0 {
		return errors.New("the token failed")
	}
	return nil
}

// seconds are those of the processor that this process has used.
func seconds() float64 {
	var used syscall.Rusage
	syscall.Getrusage(syscall.RUSAGE_SELF, &used)
	return float64(used.Utime.Nano()+used.Stime.Nano()) / 1e9
}

func main() {
	C.ecb_open(C.CString(os.Args[1]), C.CString(os.Args[2]))
	all, _ := os.ReadFile(os.Args[3])
	wrapped := [][]byte{}
	for at := 0; at < len(all); at += 40 {
		wrapped = append(wrapped, all[at:at+40])
	}
	begun := seconds()
	rewrapped, _, err := keywrap.NewManyCipher(kek(0)).RewrapMany(keywrap.NewManyCipher(kek(1)), wrapped, 0)
	took := seconds() - begun
	var refusals keywrap.Refusals
	if err != nil && !errors.As(err, &refusals) {
		panic(err)
	}
	refused, out := 0, []byte{}
	for i, one := range rewrapped {
		if one == nil {
			refused++
			one = wrapped[i]
		}
		out = append(out, one...)
	}
	os.WriteFile(os.Args[4], out, 0o600)
	fmt.Println(C.ecb_calls(), C.ecb_blocks(), refused, int(float64(len(wrapped))/took))
}
