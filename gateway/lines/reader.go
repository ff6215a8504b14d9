package lines

import "bytes"

// A Reader reads similar objects one after another, each in one pass. It caches their keys, so most take no memory. Results are
// valid until the next call.
type Reader struct {
	// Within is a key: members of an object under it are returned too.
	Within string
	// Names are searched among the keys of all objects.
	Names  map[string]string
	object Object
	keys   map[string]string
}

// An Object is what a Reader found.
type Object struct {
	// Members has the object's own members, Inner those of the object under the key Within.
	Members, Inner []Member
	// HasName means that HasKey finds one of the names.
	HasName bool
	// Depth is the object's depth, as in Span.
	Depth int
}

// mostKeys limits the cached keys.
const mostKeys = 1000

// Read reads a text as Members does.
func (r *Reader) Read(text []byte, nesting int) (found *Object, other bool, fault *SyntaxFault) {
	it := &r.object
	it.Members, it.Inner, it.HasName, it.Depth = it.Members[:0], it.Inner[:0], false, 1
	s := scanner{text: text, nesting: nesting, reader: r, outermost: nesting - 1}
	s.blanks()
	if s.peek() != '{' {
		_, fault = s.whole()
		return nil, true, fault
	}
	ok := s.object(func(key []byte, value Span) {
		it.Members = append(it.Members, Member{r.key(key), value})
		if it.Depth <= value.Depth {
			it.Depth = value.Depth + 1
		}
	})
	return it, false, s.ended(ok)
}

// key returns the value of a quoted key.
func (r *Reader) key(quoted []byte) string {
	if key, is := r.keys[string(quoted)]; is {
		return key
	}
	key := Text(quoted)
	if r.keys == nil {
		r.keys = map[string]string{}
	}
	if len(r.keys) < mostKeys {
		r.keys[string(quoted)] = key
	}
	return key
}

// noteKey notes whether a key is one of the names, or has an escape.
func (r *Reader) noteKey(quoted []byte) {
	if r.object.HasName || len(r.Names) == 0 {
		return
	}
	key := quoted[1 : len(quoted)-1]
	_, is := r.Names[string(key)]
	r.object.HasName = is || bytes.IndexByte(key, '\\') >= 0
}

// takes reports whether the members under a key of the outermost object are returned.
func (r *Reader) takes(quoted []byte) bool {
	if string(quoted[1:len(quoted)-1]) != r.Within {
		return false
	}
	// Of a repeated key the last counts.
	r.object.Inner = r.object.Inner[:0]
	return true
}

func (r *Reader) takeInner(key []byte, value Span) {
	r.object.Inner = append(r.object.Inner, Member{r.key(key), value})
}
