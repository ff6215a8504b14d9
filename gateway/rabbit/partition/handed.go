package partition

// A handed has the entries that the engine has and has not answered, by number in its input. The zero value has none.
type handed struct {
	first   int64    // the number of the first entry
	entries []*entry // nil for answered ones, and for what is no entry
	open    int
}

// add adds an entry with a greater number than those before.
func (h *handed) add(e *entry) {
	if h.open == 0 {
		h.first, h.entries = e.asked, nil
	}
	for h.first+int64(len(h.entries)) < e.asked {
		h.entries = append(h.entries, nil)
	}
	h.entries = append(h.entries, e)
	h.open++
}

// at returns the entry with this number, or nil.
func (h *handed) at(number int64) *entry {
	if number < h.first || number >= h.first+int64(len(h.entries)) {
		return nil
	}
	return h.entries[number-h.first]
}

// remove removes an entry.
func (h *handed) remove(e *entry) {
	h.entries[e.asked-h.first] = nil
	h.open--
	for len(h.entries) > 0 && h.entries[0] == nil {
		h.first, h.entries = h.first+1, h.entries[1:]
	}
}

// only returns the only entry, or nil.
func (h *handed) only() *entry {
	if h.open != 1 {
		return nil
	}
	return h.entries[0]
}
