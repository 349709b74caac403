// Tests inside of the module: memory that no caller has.
package keywrap

import (
	"bytes"
	"testing"
)

func TestClear(t *testing.T) {
	for _, ended := range []bool{false, true} {
		s, due := stepsOf(40), byte(0)
		for _, part := range [][]byte{s.text, s.block} {
			copy(part, bytes.Repeat([]byte{7}, len(part)))
		}
		if s.ended = ended; ended {
			due = 7
		}
		s.clear()
		if all := append(s.text, s.block...); !bytes.Equal(all, bytes.Repeat([]byte{due}, 40+16)) {
			t.Errorf("%v: %x", ended, all)
		}
	}
}

// Texts of many keys are cleared if they were not ended, their blocks always.
func TestClearLanes(t *testing.T) {
	for _, ended := range []bool{false, true} {
		l, due := lanesOf(bytes.Repeat([]byte{7}, 2*40), 40, 2), byte(0)
		copy(l.blocks, bytes.Repeat([]byte{7}, len(l.blocks)))
		if l.ended = ended; ended {
			due = 7
		}
		l.clear()
		if !bytes.Equal(l.texts, bytes.Repeat([]byte{due}, 80)) || !bytes.Equal(l.blocks, make([]byte, 32)) {
			t.Errorf("%v: %x, %x", ended, l.texts, l.blocks)
		}
	}
}

// A call for many keys that is refused leaves no copy of them.
func TestClearMany(t *testing.T) {
	s := slotsOf([][]byte{{1, 2}, {3, 4}}, firstLen, plainLen)
	keys, err := s.results(3, 0, s.whole)
	if keys != nil || err != ErrBadKEK || len(s.texts) < 20 || !bytes.Equal(s.texts, make([]byte, len(s.texts))) {
		t.Errorf("%x, %v: %x", keys, err, s.texts)
	}
}
