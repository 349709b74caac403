package keywrap

// #include "keywrap.h"
import "C"

import "fmt"

// Refusals is the error of a call for many keys that refused some of them: for each key its [Refusal], or nil.
// [errors.Is] finds each of them in it, and [errors.As] finds the list.
type Refusals []error

// Error returns the first refusal, and how many there are.
func (r Refusals) Error() string {
	text, refused := "keywrap: no refusal", 0
	for i, err := range r {
		if err != nil && refused == 0 {
			text = fmt.Sprintf("%v at index %d", err, i)
		}
		if err != nil {
			refused++
		}
	}
	return fmt.Sprintf("%s; %d of %d refused", text, refused, len(r))
}

// Is reports whether target is the refusal of one of the keys.
func (r Refusals) Is(target error) bool {
	refusal, ok := target.(Refusal)
	for _, err := range r {
		if ok && err == refusal {
			return true
		}
	}
	return false
}

// slots has items of one length in slots of one buffer, with a status and a length of C for each.
type slots struct {
	texts         []byte
	itemLen, each int
	statuses      []byte
	lengths       []C.size_t
	differ        error
}

// slotsOf copies each item to a place in its slot, whose length slotLen computes. If the lengths of the items differ,
// the slots are empty, and C refuses them.
func slotsOf(items [][]byte, place int, slotLen func(itemLen int) int) *slots {
	// There is one length more, since C takes no NULL.
	s := &slots{statuses: make([]byte, len(items)), lengths: make([]C.size_t, len(items)+1)}
	for i, item := range items {
		s.itemLen = len(item)
		if s.itemLen != len(items[0]) {
			s.differ = fmt.Errorf("%w: %d bytes at index %d, but %d at index 0", ErrBadLength, s.itemLen, i, len(items[0]))
			return s
		}
	}
	s.each = slotLen(s.itemLen)
	s.texts = make([]byte, s.each*len(items))
	for i, item := range items {
		copy(s.texts[s.each*i+place:], item)
	}
	return s
}

func same(len int) int { return len }

func (s *slots) count() C.size_t { return C.size_t(len(s.statuses)) }

func (s *slots) isRefused(i int) bool {
	return s.statuses[i] != C.KEYWRAP_OK && s.statuses[i] != C.KEYWRAP_ALREADY_NEW
}

// refusal returns the error of a refused call. If the lengths differ it says where, unless the KEK is refused first.
func (s *slots) refusal(status C.int32_t) error {
	if s.differ != nil && status == C.KEYWRAP_BAD_LENGTH {
		return s.differ
	}
	return Refusal(status)
}

// refusals returns the refusals of the keys, after a call that was not refused.
func (s *slots) refusals() error {
	var refused Refusals
	for i, status := range s.statuses {
		if s.isRefused(i) {
			if refused == nil {
				refused = make(Refusals, len(s.statuses))
			}
			refused[i] = Refusal(status)
		}
	}
	if refused == nil {
		return nil
	}
	return refused
}

// results returns the bytes of each slot from begin on, as many as lengthOf returns, and nil in the place of a refused
// one. An append to one of them does not write to the next.
func (s *slots) results(status C.int32_t, begin int, lengthOf func(i int) int) ([][]byte, error) {
	if status != C.KEYWRAP_OK {
		// The copies may be of keys, and nobody else can clear them.
		zero(s.texts)
		return nil, s.refusal(status)
	}
	results := make([][]byte, len(s.statuses))
	for i := range results {
		if !s.isRefused(i) {
			from := s.each*i + begin
			results[i] = s.texts[from : from+lengthOf(i) : from+lengthOf(i)]
		}
	}
	return results, s.refusals()
}

func (s *slots) whole(int) int { return s.each }

// already tells of each text whether it was new before.
func (s *slots) already() []bool {
	already := make([]bool, len(s.statuses))
	for i, status := range s.statuses {
		already[i] = status == C.KEYWRAP_ALREADY_NEW
	}
	return already
}

// WrapMany wraps keys of one length, each as [Wrap] does, or as [WrapPadded] with [NewPadded]. If the lengths differ,
// or there is no key, the error is [ErrBadLength] by [errors.Is]: of lengths that differ it says which.
//
// The calls for many keys are faster than one call for each. The results share an array. A refused key, of which
// [Refusals] has the reason, has the result nil.
func WrapMany(kek []byte, keys [][]byte, flags Flags) ([][]byte, error) {
	slotLen := plainLen
	if flags == NewPadded {
		slotLen = paddedLen
	}
	s := slotsOf(keys, firstLen, slotLen)
	return s.results(C.keywrap_wrap_many(at(kek), size(kek), at(s.texts), size(s.texts), C.size_t(s.itemLen),
		C.uint32_t(flags), at(s.statuses), s.count()), 0, s.whole)
}

// UnwrapMany unwraps wrapped keys of one length, each as [Unwrap] does, or as [UnwrapPadded] with [OldPadded]. For
// lengths and results see [WrapMany].
func UnwrapMany(kek []byte, wrapped [][]byte, flags Flags) ([][]byte, error) {
	s := slotsOf(wrapped, 0, same)
	return s.results(C.keywrap_unwrap_many(at(kek), size(kek), at(s.texts), size(s.texts), C.uint32_t(flags),
		&s.lengths[0], s.count(), at(s.statuses), s.count()), firstLen, func(i int) int { return int(s.lengths[i]) })
}

// UnwrapManyPadded unwraps padded wrapped keys of one length, each as [UnwrapPadded] does. For lengths and results see
// [WrapMany].
func UnwrapManyPadded(kek []byte, wrapped [][]byte) ([][]byte, error) {
	return UnwrapMany(kek, wrapped, OldPadded)
}

// RewrapMany rewraps wrapped keys of one length, each as [Rewrap] does. For lengths and results see [WrapMany].
func RewrapMany(oldKEK, newKEK []byte, wrapped [][]byte, flags Flags) (rewrapped [][]byte, already []bool, err error) {
	s := slotsOf(wrapped, 0, same)
	rewrapped, err = s.results(C.keywrap_rewrap_many(at(oldKEK), size(oldKEK), at(newKEK), size(newKEK), at(s.texts),
		size(s.texts), C.uint32_t(flags), at(s.statuses), s.count()), 0, s.whole)
	if rewrapped == nil {
		return nil, nil, err
	}
	return rewrapped, s.already(), err
}

// KindMany returns what [Kind] does of wrapped keys of one length, but [ErrBadLength] of a length that no wrapped key
// has. A refused one has the [Form] 0.
func KindMany(kek []byte, wrapped [][]byte) (forms []Form, keyLens []int, err error) {
	s := slotsOf(wrapped, 0, same)
	padded, scratch := make([]byte, len(wrapped)), make([]byte, roomLen(s.each))
	status := C.keywrap_kind_many(at(kek), size(kek), at(s.texts), size(s.texts), at(scratch), size(scratch),
		at(padded), size(padded), &s.lengths[0], s.count(), at(s.statuses), s.count())
	if status != C.KEYWRAP_OK {
		return nil, nil, s.refusal(status)
	}
	forms, keyLens = make([]Form, len(wrapped)), make([]int, len(wrapped))
	for i := range forms {
		if !s.isRefused(i) {
			forms[i], keyLens[i] = formOf(C.uint32_t(padded[i])), int(s.lengths[i])
		}
	}
	return forms, keyLens, s.refusals()
}
