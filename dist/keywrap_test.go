package keywrap_test

import (
	"bytes"
	"crypto/aes"
	"crypto/cipher"
	"crypto/des"
	"errors"
	"fmt"
	"strings"
	"testing"

	"keywrap.example/keywrap"
)

// tests/rows.txt, which is not in the module, tests the calls. Here are the types around them, and goroutines.

func aesOf(kek []byte) cipher.Block {
	block, _ := aes.NewCipher(kek)
	return block
}

func TestConstants(t *testing.T) {
	if err := keywrap.SelfTest(); err != nil || keywrap.MaxKey != 1<<20 || keywrap.MaxWrapped != 1<<20+8 {
		t.Error(err, keywrap.MaxKey, keywrap.MaxWrapped)
	}
	if keywrap.Plain.String() != "plain" || keywrap.Padded.String() != "padded" || keywrap.Form(0).String() != "none" {
		t.Error(keywrap.Plain, keywrap.Padded, keywrap.Form(0))
	}
}

// A KEK prints no bytes, and is refused once it is cleared, also where it was assigned.
func TestKEK(t *testing.T) {
	kek, _ := keywrap.NewKEK(make([]byte, 32))
	same, newKEK := kek, make([]byte, 16)
	wrapped, err := keywrap.Wrap(same, newKEK)
	if said := fmt.Sprintf("%v %x %d %#v %s", kek, kek, kek, same, []any{kek}); err != nil ||
		said != strings.Repeat("keywrap.KEK ", 4)+"[keywrap.KEK]" {
		t.Error(said, err)
	}
	kek.Clear()
	_, first := keywrap.Unwrap(same, wrapped)
	_, _, second := keywrap.Rewrap(newKEK, kek, wrapped, 0)
	_, none := keywrap.Wrap(keywrap.KEK{}, newKEK)
	if first != keywrap.ErrBadKEK || second != keywrap.ErrBadKEK || none != keywrap.ErrBadKEK ||
		strings.Trim(string(kek), "\x00") != "" {
		t.Error(first, second, none)
	}
	kek.Clear()
	keywrap.KEK(nil).Clear()
}

// A Refusals finds only what it has. Another error is none. A refused wrapped key has no form.
func TestRefusals(t *testing.T) {
	kek := make([]byte, 16)
	padded, _ := keywrap.WrapPadded(kek, make([]byte, 20))
	_, _, err := keywrap.RewrapMany(kek, kek, [][]byte{padded, make([]byte, 32)}, keywrap.OldPadded)
	var refusals keywrap.Refusals
	if !errors.As(err, &refusals) || len(refusals) != 2 {
		t.Fatal(err)
	}
	for i, other := range []error{keywrap.ErrKeyNotPlain, keywrap.ErrIntegrity, keywrap.ErrBadIV, errors.New(""), nil} {
		if errors.Is(err, other) != (i < 2) {
			t.Error(err, other)
		}
	}
	if forms, _, _ := keywrap.KindMany(kek, [][]byte{make([]byte, 24), padded[:24]}); forms[0] != 0 || forms[1] != 0 {
		t.Error(forms)
	}
}

// failing panics at its sixth call, and keeps what it was given.
type failing struct {
	cipher.Block
	blocks [][]byte
}

func (f *failing) try(dst, src []byte, crypt func(dst, src []byte)) {
	if f.blocks = append(f.blocks, src); len(f.blocks) > 5 {
		panic("no token")
	}
	crypt(dst, src)
}

func (f *failing) Encrypt(dst, src []byte) { f.try(dst, src, f.Block.Encrypt) }
func (f *failing) Decrypt(dst, src []byte) { f.try(dst, src, f.Block.Decrypt) }

// A panic of the block cipher reaches the caller, and the block is cleared. A block cipher of 8 bytes is refused.
func TestBlockCiphers(t *testing.T) {
	kek := make([]byte, 16)
	plain, _ := keywrap.Wrap(kek, kek)
	padded, _ := keywrap.WrapPadded(kek, kek)
	for at, call := range []func(c *keywrap.Cipher){
		func(c *keywrap.Cipher) { c.Wrap(kek) },
		func(c *keywrap.Cipher) { c.WrapPadded(kek) },
		func(c *keywrap.Cipher) { c.Unwrap(plain) },
		func(c *keywrap.Cipher) { c.UnwrapPadded(padded) },
		func(c *keywrap.Cipher) { c.Rewrap(c, plain, 0) },
	} {
		block := &failing{Block: aesOf(kek)}
		c, _ := keywrap.NewCipher(block)
		func() {
			defer func() {
				if reason := recover(); reason != "no token" || !bytes.Equal(block.blocks[5], make([]byte, 16)) {
					t.Errorf("%d: %v, %x", at, reason, block.blocks[5])
				}
			}()
			call(c)
		}()
	}
	block, _ := des.NewCipher(make([]byte, 8))
	if c, err := keywrap.NewCipher(block); c != nil || err == nil {
		t.Error(c, err)
	}
}

// blocksOf encrypts many blocks by Go's AES, as a token does.
type blocksOf struct{ cipher.Block }

func (b blocksOf) EncryptBlocks(dst, src []byte) error { return eachBlock(b.Encrypt, dst, src) }
func (b blocksOf) DecryptBlocks(dst, src []byte) error { return eachBlock(b.Decrypt, dst, src) }

func eachBlock(crypt func(dst, src []byte), dst, src []byte) error {
	for at := 0; at < len(src); at += aes.BlockSize {
		crypt(dst[at:], src[at:at+aes.BlockSize])
	}
	return nil
}

// counted counts its calls and their blocks, and keeps what it was given. The call with the number failAt fails, or
// panics.
type counted struct {
	blocksOf
	calls, blocks, failAt int
	panics                bool
	given                 [][]byte
}

var errNoToken = errors.New("no token")

func (c *counted) try(crypt func(dst, src []byte) error, dst, src []byte) error {
	c.calls, c.blocks, c.given = c.calls+1, c.blocks+len(src)/aes.BlockSize, append(c.given, dst)
	if c.calls == c.failAt && c.panics {
		panic(errNoToken)
	}
	if c.calls == c.failAt {
		return errNoToken
	}
	return crypt(dst, src)
}

func (c *counted) EncryptBlocks(dst, src []byte) error {
	return c.try(c.blocksOf.EncryptBlocks, dst, src)
}
func (c *counted) DecryptBlocks(dst, src []byte) error {
	return c.try(c.blocksOf.DecryptBlocks, dst, src)
}

// thousand is a thousand wrapped keys of 32 bytes. The 500th is damaged, the 501st is under the new KEK.
func thousand(kek, newKEK []byte) [][]byte {
	wrapped := make([][]byte, 1000)
	for i := range wrapped {
		wrapped[i], _ = keywrap.Wrap(kek, bytes.Repeat([]byte{byte(i), byte(i >> 8)}, 16))
	}
	wrapped[500][3] ^= 1
	wrapped[501], _ = keywrap.Wrap(newKEK, make([]byte, 32))
	return wrapped
}

// A call of the block cipher has a block of each key. PassNew gives the new one two keys more, and no others.
func TestManyCipherCalls(t *testing.T) {
	kek, newKEK := make([]byte, 16), make([]byte, 32)
	wrapped := thousand(kek, newKEK)
	for _, row := range []struct {
		flags                              keywrap.Flags
		oldCalls, oldBlocks, calls, blocks int
	}{
		{0, 24, 24 * 1000, 24, 24 * 998},
		{keywrap.KeepForm, 24, 24 * 1000, 24, 24 * 998},
		{keywrap.PassNew, 24, 24 * 1000, 48, 24 * 1000},
	} {
		before := fmt.Sprint(wrapped)
		old, next := &counted{blocksOf: blocksOf{aesOf(kek)}}, &counted{blocksOf: blocksOf{aesOf(newKEK)}}
		rewrapped, already, err := keywrap.NewManyCipher(old).RewrapMany(keywrap.NewManyCipher(next), wrapped, row.flags)
		due, dueAlready, dueErr := keywrap.RewrapMany(kek, newKEK, wrapped, row.flags)
		if fmt.Sprint(rewrapped, already, err) != fmt.Sprint(due, dueAlready, dueErr) || fmt.Sprint(wrapped) != before {
			t.Error(row, err, dueErr)
		}
		if old.calls != row.oldCalls || old.blocks != row.oldBlocks || next.calls != row.calls || next.blocks != row.blocks {
			t.Error(row, old.calls, old.blocks, next.calls, next.blocks)
		}
	}
}

// Keys are wrapped and unwrapped as by the functions, in both forms.
func TestManyCipherResults(t *testing.T) {
	kek, newKEK := make([]byte, 16), make([]byte, 32)
	c, wrapped := keywrap.NewManyCipher(blocksOf{aesOf(kek)}), thousand(kek, newKEK)[498:503]
	for _, form := range []struct{ old, new keywrap.Flags }{{0, 0}, {keywrap.OldPadded, keywrap.NewPadded}} {
		keys, err := c.UnwrapMany(wrapped, form.old)
		due, dueErr := keywrap.UnwrapMany(kek, wrapped, form.old)
		if fmt.Sprint(keys, err) != fmt.Sprint(due, dueErr) {
			t.Error(form, keys, err, due, dueErr)
		}
		wrapped, err = c.WrapMany([][]byte{newKEK, bytes.Repeat([]byte{5}, 32)}, form.new)
		due, dueErr = keywrap.WrapMany(kek, [][]byte{newKEK, bytes.Repeat([]byte{5}, 32)}, form.new)
		if fmt.Sprint(wrapped, err) != fmt.Sprint(due, dueErr) || err != nil {
			t.Error(form, wrapped, err, due, dueErr)
		}
	}
	// These are padded.
	keys, err := c.UnwrapMany(wrapped, keywrap.OldPadded)
	if err != nil || !bytes.Equal(keys[0], newKEK) || !bytes.Equal(keys[1], bytes.Repeat([]byte{5}, 32)) {
		t.Error(keys, err)
	}
}

// The error of a block cipher is returned, and its panic reaches the caller. Then the blocks are cleared, and no key is
// returned.
func TestManyCipherFails(t *testing.T) {
	kek, newKEK := make([]byte, 16), make([]byte, 32)
	wrapped := thousand(kek, newKEK)[498:502]
	for at := 1; at <= 48; at++ {
		for _, panics := range []bool{false, true} {
			cipher := &counted{blocksOf: blocksOf{aesOf(kek)}, failAt: at, panics: panics}
			c := keywrap.NewManyCipher(cipher)
			calls := []func() ([][]byte, error){
				func() ([][]byte, error) { return c.WrapMany([][]byte{newKEK, newKEK}, 0) },
				func() ([][]byte, error) { return c.WrapMany([][]byte{newKEK, newKEK}, keywrap.NewPadded) },
				func() ([][]byte, error) { return c.UnwrapMany(wrapped, 0) },
				func() ([][]byte, error) { return c.UnwrapMany(wrapped, keywrap.OldPadded) },
				func() ([][]byte, error) { all, _, err := c.RewrapMany(c, wrapped, 0); return all, err },
			}
			if at > 24 {
				calls = calls[4:]
			}
			for i, call := range calls {
				cipher.calls, cipher.given = 0, nil
				results, err, reason := tried(call)
				if results != nil || (err == errNoToken) == panics || (reason == errNoToken) != panics {
					t.Error(at, panics, i, results, err, reason)
				}
				for _, given := range cipher.given {
					if strings.Trim(string(given), "\x00") != "" {
						t.Error(at, panics, i, given)
					}
				}
			}
		}
	}
}

func tried(call func() ([][]byte, error)) (results [][]byte, err error, reason any) {
	defer func() { reason = recover() }()
	results, err = call()
	return
}

// Refusals are those of the functions, also of no keys and of keys of many lengths, of which the error has the index.
func TestManyCipherLengths(t *testing.T) {
	kek := make([]byte, 16)
	c := keywrap.NewManyCipher(blocksOf{aesOf(kek)})
	for first := 0; first <= 41; first++ {
		one, other := make([]byte, first), bytes.Repeat([]byte{3}, first)
		for _, items := range [][][]byte{{}, {one}, {one, other}, {one, make([]byte, 16)}} {
			for flags := keywrap.Flags(0); flags < 17; flags++ {
				wrapped, err := c.WrapMany(items, flags)
				keys, second := c.UnwrapMany(items, flags)
				rewrapped, already, third := c.RewrapMany(c, items, flags)
				found := fmt.Sprint(wrapped, err, keys, second, rewrapped, already, third)
				wrapped, err = keywrap.WrapMany(kek, items, flags)
				keys, second = keywrap.UnwrapMany(kek, items, flags)
				rewrapped, already, third = keywrap.RewrapMany(kek, kek, items, flags)
				if due := fmt.Sprint(wrapped, err, keys, second, rewrapped, already, third); found != due {
					t.Error(first, len(items), flags, found, due)
				}
			}
		}
	}
}

// Of keys of many lengths the error says which, if the KEK is not refused.
func TestManyLengths(t *testing.T) {
	items := [][]byte{make([]byte, 24), make([]byte, 24), make([]byte, 32)}
	_, err := keywrap.WrapMany(make([]byte, 16), items, 0)
	_, _, second := keywrap.KindMany(make([]byte, 16), items)
	due := "keywrap: bad length: 32 bytes at index 2, but 24 at index 0"
	if !errors.Is(err, keywrap.ErrBadLength) || err.Error() != due || second.Error() != due {
		t.Error(err, second)
	}
	if _, err := keywrap.UnwrapMany(make([]byte, 15), items, 0); err != keywrap.ErrBadKEK {
		t.Error(err)
	}
}

func TestGoroutines(t *testing.T) {
	kek := make([]byte, 32)
	due, _ := keywrap.Wrap(kek, kek)
	wanted := bytes.Join([][]byte{due, due, due, kek}, nil)
	kept, _ := keywrap.NewKEK(kek)
	c, _ := keywrap.NewCipher(aesOf(kek))
	for n := 0; n < 8; n++ {
		t.Run("", func(t *testing.T) {
			t.Parallel()
			for i := 0; i < 500; i++ {
				one, _ := keywrap.Wrap(kept, kek)
				two, _ := c.Wrap(kek)
				many, _ := keywrap.WrapMany(kek, [][]byte{kek, kek, kek}, 0)
				_ = append(many[1], 1) // It leaves the next one as it is.
				again, _ := keywrap.Unwrap(kek, due)
				_, isNew, _ := keywrap.Rewrap(kek[:16], kek, due, keywrap.PassNew)
				_, isOld, _ := keywrap.Rewrap(kek, kek, due, 0)
				found := bytes.Join([][]byte{one, two, many[2], again}, nil)
				if !bytes.Equal(found, wanted) || !isNew || isOld {
					t.Errorf("%x, not %x, or %v, %v", found, wanted, isNew, isOld)
				}
			}
		})
	}
}
