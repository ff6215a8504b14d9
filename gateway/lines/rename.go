package lines

import "bytes"

// HasKey reports whether any object of a valid JSON text has a key that is in the table, at any depth. A key with an escape
// counts as one.
func HasKey(text []byte, table map[string]string) bool {
	s := scanner{text: text}
	for {
		quote := bytes.IndexByte(text[s.at:], '"')
		if quote < 0 {
			return false
		}
		s.at += quote
		start := s.at + 1
		if !s.str() {
			return true
		}
		key := text[start : s.at-1]
		if s.blanks(); s.peek() != ':' {
			continue
		}
		if _, is := table[string(key)]; is || bytes.IndexByte(key, '\\') >= 0 {
			return true
		}
	}
}

func has(object map[string]any, key string) bool {
	_, is := object[key]
	return is
}

// Renamed returns a value of Tree with keys renamed. A key is kept if the object has the new one too.
func Renamed(value any, table map[string]string) any {
	switch value := value.(type) {
	case []any:
		for at, item := range value {
			value[at] = Renamed(item, table)
		}
	case map[string]any:
		other := make(map[string]any, len(value))
		for _, key := range Keys(value) {
			name := key
			if to, is := table[key]; is && !has(value, to) {
				name = to
			}
			other[name] = Renamed(value[key], table)
		}
		return other
	}
	return value
}
