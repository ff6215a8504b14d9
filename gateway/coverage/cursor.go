package coverage

// A cursor reads compact JSON that an engine wrote. It is lenient: invalid text makes it bad.
type cursor struct {
	text  []byte
	at    int
	isBad bool
}

func (c *cursor) peek() byte {
	if c.at < len(c.text) {
		return c.text[c.at]
	}
	c.isBad = true
	return 0
}

func (c *cursor) take(due byte) {
	if c.peek() != due {
		c.isBad = true
		return
	}
	c.at++
}

// open enters a list or object with these ends, and reports whether it has a part.
func (c *cursor) open(begin, end byte) bool {
	c.take(begin)
	if c.peek() == end {
		c.at++
		return false
	}
	return !c.isBad
}

// more moves past a part of a list or object, and reports whether there is another.
func (c *cursor) more(end byte) bool {
	if c.peek() == ',' && !c.isBad {
		c.at++
		return true
	}
	c.take(end)
	return false
}

// goes skips a text if it comes next, and reports whether it does.
func (c *cursor) goes(text string) bool {
	if end := c.at + len(text); end <= len(c.text) && string(c.text[c.at:end]) == text {
		c.at = end
		return true
	}
	return false
}

// A form has an object's keys in their last order, with quotes and colons: they usually repeat.
type form []string

// key reads an object's key number at, and returns it with its quotes and colon.
func (c *cursor) key(f *form, at int) string {
	if at < len(*f) && c.goes((*f)[at]) {
		return (*f)[at]
	}
	start := c.at
	c.quoted()
	c.take(':')
	if c.isBad {
		return ""
	}
	key := string(c.text[start:c.at])
	if at <= len(*f) {
		*f = append((*f)[:at], key)
	}
	return key
}

// name reads a text in quotes that is usually the last one.
func (c *cursor) name(last *string) {
	if *last == "" || !c.goes(*last) {
		*last = string(c.value())
	}
}

// quoted returns what is in quotes, as written. Most are short: for them a loop is faster than a search.
func (c *cursor) quoted() []byte {
	c.take('"')
	for start, at := c.at, c.at; at < len(c.text); at++ {
		switch c.text[at] {
		case '\\':
			at++
		case '"':
			c.at = at + 1
			return c.text[start:at]
		}
	}
	c.isBad, c.at = true, len(c.text)
	return nil
}

// number returns a non-negative integer.
func (c *cursor) number() int {
	n, start := 0, c.at
	for c.at < len(c.text) && c.text[c.at] >= '0' && c.text[c.at] <= '9' {
		n = n*10 + int(c.text[c.at]-'0')
		c.at++
	}
	c.isBad = c.isBad || c.at == start
	return n
}

// value skips a value, and returns its text.
func (c *cursor) value() []byte {
	start := c.at
	switch c.peek() {
	case '{', '[':
		c.nested()
	case '"':
		c.quoted()
	default:
		for c.at < len(c.text) && !isEnd[c.text[c.at]] {
			c.at++
		}
	}
	c.isBad = c.isBad || start == c.at
	return c.text[start:c.at]
}

// isEnd has what may follow a number, true, false or null.
var isEnd = [256]bool{',': true, '}': true, ']': true}

// nested skips a list or object.
func (c *cursor) nested() {
	depth := 0
	for at := c.at; at < len(c.text); at++ {
		switch c.text[at] {
		case '{', '[':
			depth++
		case '}', ']':
			if depth--; depth == 0 {
				c.at = at + 1
				return
			}
		case '"':
			for at++; at < len(c.text) && c.text[at] != '"'; at++ {
				if c.text[at] == '\\' {
					at++
				}
			}
		}
	}
	c.isBad, c.at = true, len(c.text)
}
