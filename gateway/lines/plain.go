package lines

// A Plain reads a valid JSON text without making anything of it, for what is plain to see in it.
type Plain struct {
	text []byte
	at   int
}

// PlainOf returns a reader of a valid text without blanks around it.
func PlainOf(text []byte) Plain { return Plain{text: text} }

// IsAtEnd reports whether all is read.
func (r *Plain) IsAtEnd() bool { return r.at == len(r.text) }

// Peek returns the next byte; 0 at the end.
func (r *Plain) Peek() byte {
	if r.at < len(r.text) {
		return r.text[r.at]
	}
	return 0
}

func (r *Plain) blanks() {
	for c := r.Peek(); c == ' ' || c == '\n' || c == '\t' || c == '\r'; c = r.Peek() {
		r.at++
	}
}

// Parts reads the parts of a list or object, each with part, which reports whether to continue.
func (r *Plain) Parts(end byte, part func() bool) bool {
	r.at++
	r.blanks()
	if r.Peek() == end {
		r.at++
		return true
	}
	for part() {
		r.blanks()
		c := r.Peek()
		r.at++
		if c != ',' {
			return c == end
		}
		r.blanks()
	}
	return false
}

// Key reads a member up to its value, and returns its key; false if that has an escape.
func (r *Plain) Key() (key []byte, isSeen bool) {
	quoted := r.Scalar()
	if len(quoted) < 2 {
		return nil, false
	}
	r.blanks()
	r.at++
	r.blanks()
	return quoted[1 : len(quoted)-1], true
}

// Scalar reads a string, a number, true, false or null, and returns it as written; nothing if it has an escape.
func (r *Plain) Scalar() []byte {
	start := r.at
	if r.Peek() == '"' {
		for at := start + 1; at < len(r.text) && r.text[at] != '\\'; at++ {
			if r.text[at] == '"' {
				r.at = at + 1
				return r.text[start:r.at]
			}
		}
		return nil
	}
	for isOfWord(r.Peek()) {
		r.at++
	}
	return r.text[start:r.at]
}

// isOfWord reports whether a byte may be in a number, true, false or null.
func isOfWord(c byte) bool {
	return c >= '0' && c <= '9' || c|0x20 >= 'a' && c|0x20 <= 'z' || c == '-' || c == '+' || c == '.'
}
