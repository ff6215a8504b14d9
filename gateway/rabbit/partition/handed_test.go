package partition

import "testing"

// Entries are found by number until they are removed, in any order.
func TestHanded(t *testing.T) {
	var h handed
	entries := map[int64]*entry{}
	for _, number := range []int64{3, 4, 7, 8, 9} {
		entries[number] = &entry{asked: number}
		h.add(entries[number])
	}
	for left, number := range []int64{4, 3, 9, 8} {
		if h.open != 5-left || h.only() != nil {
			t.Errorf("before %d: %d are open", number, h.open)
		}
		h.remove(h.at(number))
	}
	for number := int64(0); number < 12; number++ {
		if due := map[bool]*entry{true: entries[7]}[number == 7]; h.at(number) != due {
			t.Errorf("%d is %v", number, h.at(number))
		}
	}
	if h.only() != entries[7] {
		t.Error("the last one isn't the only one")
	}
	h.remove(entries[7])
	h.add(entries[9])
	if h.only() != entries[9] || h.at(9) != entries[9] || h.at(7) != nil {
		t.Error("after the last one")
	}
}
