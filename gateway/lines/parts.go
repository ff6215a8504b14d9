package lines

// Parts returns the parts of a valid JSON list or object without blanks, as written: items, or keys and values alternating. It
// takes time proportional to the text's length, and copies nothing.
func Parts(text []byte) (parts [][]byte) {
	EachPart(text, func(part []byte) { parts = append(parts, part) })
	return parts
}

// EachPart calls take with each part.
func EachPart(text []byte, take func(part []byte)) {
	begin, depth := 1, 0
	for at := 0; at < len(text); at++ {
		switch text[at] {
		case '"':
			at = quoteEnd(text, at)
			continue
		case '[', '{':
			depth++
			continue
		case ']', '}':
			depth--
			if depth > 0 {
				continue
			}
		case ',', ':':
			if depth != 1 {
				continue
			}
		default:
			continue
		}
		if begin < at {
			take(text[begin:at])
		}
		begin = at + 1
	}
}

// quoteEnd returns the index of a string's second quote.
func quoteEnd(text []byte, at int) int {
	for at++; at < len(text) && text[at] != '"'; at++ {
		if text[at] == '\\' {
			at++
		}
	}
	return at
}
