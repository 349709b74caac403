package keywrap

// #include "keywrap_steps.h"
import "C"

import "crypto/aes"

// A BlockCipher encrypts and decrypts many blocks of 16 bytes, each by itself: the ECB mode of a token or of a key
// management service. The slices have one length, and are the same slice or do not overlap. An error ends the call of
// the [ManyCipher], which returns it.
type BlockCipher interface {
	EncryptBlocks(dst, src []byte) error
	DecryptBlocks(dst, src []byte) error
}

// A ManyCipher wraps, unwraps and rewraps many keys by a block cipher of the caller, which has the KEK. Each call of
// the block cipher has a block of every key: 24 calls wrap any number of keys of 32 bytes, 48 rewrap them. A [Cipher]
// does one key, by a block at a time.
//
// As many goroutines may use a ManyCipher as may use its block cipher. After an error of the block cipher, or a panic,
// no key is returned, and the keys in memory have been cleared.
type ManyCipher struct {
	cipher BlockCipher
}

// NewManyCipher returns a ManyCipher over a block cipher.
func NewManyCipher(cipher BlockCipher) *ManyCipher { return &ManyCipher{cipher} }

// lanes are texts of one length, each a wrapped key or the buffer of one, with the next block of each.
type lanes struct {
	texts, blocks []byte
	textLen       int
	ended         bool
}

func lanesOf(texts []byte, textLen, count int) *lanes {
	return &lanes{texts: texts, blocks: make([]byte, aes.BlockSize*count), textLen: textLen}
}

// lanes returns lanes over these texts, which are those of the slots, or a copy. If the items are shorter than any
// wrapped key, or their lengths differ, it has no text, which is refused.
func (s *slots) lanes(texts []byte) *lanes {
	if s.each < firstLen {
		return lanesOf(nil, s.each, 0)
	}
	return lanesOf(texts, s.each, len(s.statuses))
}

func (l *lanes) count() int { return len(l.blocks) / aes.BlockSize }

func (l *lanes) text(i int) []byte { return l.texts[l.textLen*i : l.textLen*(i+1)] }

func (l *lanes) registers(i int) []byte { return l.text(i)[firstLen:] }

func (l *lanes) block(i int) []byte { return l.blocks[aes.BlockSize*i : aes.BlockSize*(i+1)] }

// clear clears texts that were not ended, and the blocks.
func (l *lanes) clear() {
	zero(l.blocks)
	if !l.ended {
		zero(l.texts)
	}
}

// each makes a call for each text, until one is refused. Of no text it returns [ErrBadLength].
func (l *lanes) each(call func(i int) C.int32_t) C.int32_t {
	status := C.int32_t(C.KEYWRAP_BAD_LENGTH)
	for i := 0; i < l.count(); i++ {
		if status = call(i); status != C.KEYWRAP_OK {
			return status
		}
	}
	return status
}

// step makes the next step of each text, or undoes one. All have made the same number of steps. The library's calls for
// many texts take none that has a single register.
func (l *lanes) step(decrypts bool, number *C.uint64_t) C.int32_t {
	if l.textLen > 2*firstLen && decrypts {
		return C.keywrap_step_unwrap_many(
			at(l.texts), size(l.texts), C.size_t(l.textLen), number, at(l.blocks), size(l.blocks))
	}
	if l.textLen > 2*firstLen {
		return C.keywrap_step_wrap_many(
			at(l.texts), size(l.texts), C.size_t(l.textLen), number, at(l.blocks), size(l.blocks))
	}
	before := *number
	return l.each(func(i int) C.int32_t {
		*number = before
		if decrypts {
			return C.keywrap_step_unwrap(at(l.registers(i)), firstLen, number, at(l.block(i)))
		}
		return C.keywrap_step_wrap(at(l.registers(i)), firstLen, number, at(l.block(i)))
	})
}

// run makes all steps of the texts, or undoes them. An end refuses what has not had all steps.
func (c *ManyCipher) run(l *lanes, decrypts bool, number *C.uint64_t) error {
	crypt := c.cipher.EncryptBlocks
	if decrypts {
		crypt = c.cipher.DecryptBlocks
	}
	for left := C.keywrap_step_count(C.size_t(l.textLen - firstLen)); left > 0; left-- {
		if err := crypt(l.blocks, l.blocks); err != nil {
			return err
		}
		if status := l.step(decrypts, number); status != C.KEYWRAP_OK {
			return Refusal(status)
		}
	}
	return nil
}

// WrapMany is the function [WrapMany] under the KEK of the block cipher.
func (c *ManyCipher) WrapMany(keys [][]byte, flags Flags) ([][]byte, error) {
	slotLen := plainLen
	if flags == NewPadded {
		slotLen = paddedLen
	}
	s := slotsOf(keys, firstLen, slotLen)
	if flags != 0 && flags != NewPadded {
		return s.results(C.KEYWRAP_BAD_LENGTH, 0, s.whole)
	}
	l := s.lanes(s.texts)
	defer l.clear()
	var number C.uint64_t
	status := l.each(func(i int) C.int32_t {
		registers := l.registers(i)
		if flags == NewPadded {
			return C.keywrap_begin_wrap_padded(
				C.size_t(s.itemLen), at(registers), size(registers), &number, at(l.block(i)))
		}
		return C.keywrap_begin_wrap(
			at(defaultIV), size(defaultIV), at(registers), size(registers), &number, at(l.block(i)))
	})
	if status == C.KEYWRAP_OK {
		if err := c.run(l, false, &number); err != nil {
			return nil, err
		}
		status = l.each(func(i int) C.int32_t {
			registers := l.registers(i)
			return C.keywrap_end_wrap(at(l.text(i)), at(registers), size(registers), number, at(l.block(i)))
		})
	}
	l.ended = status == C.KEYWRAP_OK
	return s.results(status, 0, s.whole)
}

// UnwrapMany is the function [UnwrapMany] under the KEK of the block cipher.
func (c *ManyCipher) UnwrapMany(wrapped [][]byte, flags Flags) ([][]byte, error) {
	s := slotsOf(wrapped, 0, same)
	if flags != 0 && flags != OldPadded {
		return s.results(C.KEYWRAP_BAD_LENGTH, 0, s.whole)
	}
	l := s.lanes(s.texts)
	defer l.clear()
	var number C.uint64_t
	status := l.each(func(i int) C.int32_t {
		registers := l.registers(i)
		if flags == OldPadded {
			return C.keywrap_begin_unwrap_padded(
				at(l.text(i)), at(registers), size(registers), &number, at(l.block(i)))
		}
		return C.keywrap_begin_unwrap(at(l.text(i)), at(registers), size(registers), &number, at(l.block(i)))
	})
	if status == C.KEYWRAP_OK {
		if err := c.run(l, true, &number); err != nil {
			return nil, err
		}
		for i := range s.statuses {
			s.statuses[i] = byte(l.endUnwrap(i, flags, number, &s.lengths[i]))
		}
	}
	l.ended = status == C.KEYWRAP_OK
	return s.results(status, firstLen, func(i int) int { return int(s.lengths[i]) })
}

// endUnwrap ends the unwrapping of a text in this form.
func (l *lanes) endUnwrap(i int, flags Flags, left C.uint64_t, length *C.size_t) C.int32_t {
	registers := l.registers(i)
	if flags == OldPadded {
		return C.keywrap_end_unwrap_padded(at(registers), size(registers), left, at(l.block(i)), length)
	}
	*length = size(registers)
	return C.keywrap_end_unwrap(
		at(defaultIV), size(defaultIV), at(registers), size(registers), left, at(l.block(i)))
}

// RewrapMany is the function [RewrapMany] from the KEK of this block cipher to the KEK of another one. The new one only
// encrypts, and with [PassNew] also decrypts, those that are not under the old KEK; this one only decrypts.
func (c *ManyCipher) RewrapMany(
	newCipher *ManyCipher, wrapped [][]byte, flags Flags,
) (rewrapped [][]byte, already []bool, err error) {
	s := slotsOf(wrapped, 0, same)
	r := rewrappingOf(s, flags)
	defer r.work.clear()
	status := r.begin()
	for status == C.KEYWRAP_OK {
		phase, indices := r.nextRun()
		if indices == nil {
			break
		}
		next := c
		if phase&C.KEYWRAP_NEW != 0 {
			next = newCipher
		}
		if err := r.run(next, phase&C.KEYWRAP_DECRYPT != 0, indices); err != nil {
			return nil, nil, err
		}
	}
	if status == C.KEYWRAP_OK {
		copy(s.texts, r.work.texts)
	}
	rewrapped, err = s.results(status, 0, s.whole)
	if rewrapped == nil {
		return nil, nil, err
	}
	return rewrapped, s.already(), err
}

// rewrapping is the rewrapping of many texts of one length in copies. A run is all steps of a wrap or an unwrap. The
// library says for each text, by its phase, which run comes next: texts that have the same one make its steps together.
type rewrapping struct {
	slots   *slots
	work    *lanes
	flags   C.uint32_t
	phases  []C.uint32_t
	numbers []C.uint64_t
}

func rewrappingOf(s *slots, flags Flags) *rewrapping {
	count := len(s.statuses)
	return &rewrapping{
		slots:   s,
		work:    s.lanes(append([]byte(nil), s.texts...)),
		flags:   C.uint32_t(flags),
		phases:  make([]C.uint32_t, count),
		numbers: make([]C.uint64_t, count),
	}
}

// begin begins to rewrap each text. A refusal is that of all. A length that no wrapped key under the old KEK has is
// refused, too: [Rewrap] only asks whether such a wrapped key is new already.
func (r *rewrapping) begin() C.int32_t {
	return r.work.each(func(i int) C.int32_t {
		text := r.work.text(i)
		status := C.keywrap_begin_rewrap(
			r.flags, at(text), size(text), &r.phases[i], &r.numbers[i], at(r.work.block(i)))
		if r.phases[i]&C.KEYWRAP_NEW != 0 {
			return C.KEYWRAP_BAD_LENGTH
		}
		return status
	})
}

// nextRun returns which texts can make their next run together, and what it does. They are none if all have ended.
func (r *rewrapping) nextRun() (kind C.uint32_t, indices []int) {
	const kinds = C.KEYWRAP_DECRYPT | C.KEYWRAP_NEW
	for i, phase := range r.phases {
		if phase == 0 {
			continue
		}
		if indices == nil {
			kind = phase & kinds
		}
		if phase&kinds == kind {
			indices = append(indices, i)
		}
	}
	return kind, indices
}

// run makes all steps of the next run of these texts in copies that lie one behind the other, and has the library end
// the run of each: then its phase is that of the next run, or its status is final.
func (r *rewrapping) run(cipher *ManyCipher, decrypts bool, indices []int) error {
	together := lanesOf(make([]byte, r.work.textLen*len(indices)), r.work.textLen, len(indices))
	defer together.clear()
	for to, from := range indices {
		copy(together.text(to), r.work.text(from))
		copy(together.block(to), r.work.block(from))
	}
	number := r.numbers[indices[0]]
	if err := cipher.run(together, decrypts, &number); err != nil {
		return err
	}
	for from, to := range indices {
		copy(r.work.text(to), together.text(from))
		copy(r.work.block(to), together.block(from))
		r.numbers[to] = number
		r.end(to)
	}
	return nil
}

func (r *rewrapping) end(i int) {
	given := r.slots.texts[r.work.textLen*i : r.work.textLen*(i+1)]
	text := r.work.text(i)
	r.slots.statuses[i] = byte(C.keywrap_next_rewrap_from(r.flags, at(given), size(given),
		at(text), size(text), &r.phases[i], &r.numbers[i], at(r.work.block(i))))
}
