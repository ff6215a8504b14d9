package lines

import (
	"bytes"
	"encoding/json"
	"sort"
	"strings"
)

// A Document is a JSON text with the places of its values.
type Document struct {
	text []byte
	// spelled is the same text; strings without escapes are slices of it.
	spelled string
	// starts has the offsets of all lines but the first.
	starts []int32
	// parts has the parts of each list and object in a row, for objects keys and values alternating.
	parts []Node
	// open has the parts of lists and objects that are still open.
	open []Node
	// Whole is the whole value.
	Whole Node
}

// A Node is a value in a document.
type Node struct {
	start, end int32
	// first is the index of its first part in the document, count how many it has.
	first, count int32
}

// NewDocument reads a text. It returns nil if the text is not JSON.
func NewDocument(text []byte) *Document {
	d := &Document{}
	if !d.Read(text) {
		return nil
	}
	return d
}

// Read replaces the text, and makes the nodes of the last one invalid. It returns false if the text is not JSON.
func (d *Document) Read(text []byte) bool {
	*d = Document{text: text, starts: d.starts[:0], parts: d.parts[:0], open: d.open[:0]}
	s := scanner{text: text, nesting: MaxNesting}
	s.blanks()
	whole, ok := d.node(&s)
	if s.ended(ok) != nil {
		return false
	}
	d.Whole, d.spelled = whole, string(text)
	for at := 0; ; {
		next := bytes.IndexByte(text[at:], '\n')
		if next < 0 {
			return true
		}
		at += next + 1
		d.starts = append(d.starts, int32(at))
	}
}

// node reads a value and its parts.
func (d *Document) node(s *scanner) (Node, bool) {
	value := Node{start: int32(s.at)}
	ok := false
	switch s.peek() {
	case '{':
		ok = d.nodes(s, &value, '}')
	case '[':
		ok = d.nodes(s, &value, ']')
	case '"':
		ok = s.str()
	case '-', '0', '1', '2', '3', '4', '5', '6', '7', '8', '9':
		_, ok = s.number()
	default:
		ok = s.word()
	}
	value.end = int32(s.at)
	return value, ok
}

// nodes reads the parts of a list or object.
func (d *Document) nodes(s *scanner, value *Node, end byte) bool {
	if !s.enter() {
		return false
	}
	if s.peek() == end {
		s.at++
		s.nesting++
		return true
	}
	before := len(d.open)
	for {
		if end == '}' && !d.keyNode(s) {
			return false
		}
		next, ok := d.node(s)
		if !ok {
			return false
		}
		d.open = append(d.open, next)
		last, ok := s.next(end)
		if !ok {
			return false
		}
		if last {
			value.first, value.count = int32(len(d.parts)), int32(len(d.open)-before)
			d.parts, d.open = append(d.parts, d.open[before:]...), d.open[:before]
			return true
		}
	}
}

// keyNode reads an object's key and the colon.
func (d *Document) keyNode(s *scanner) bool {
	key := Node{start: int32(s.at)}
	if !s.key() {
		return false
	}
	key.end = int32(s.at)
	d.open = append(d.open, key)
	return s.colon()
}

// key skips an object's key.
func (s *scanner) key() bool {
	if s.peek() != '"' {
		return s.fail(reasonKey)
	}
	return s.str()
}

// colon skips the colon after a key, and the blanks around it.
func (s *scanner) colon() bool {
	s.blanks()
	if s.peek() != ':' {
		return s.fail(reasonColon)
	}
	s.at++
	s.blanks()
	return true
}

// Kind returns the first byte of a value: '0' for a number, 't' for true and false, 'n' for null.
func (d *Document) Kind(v Node) byte {
	switch c := d.text[v.start]; c {
	case '{', '[', '"', 'n':
		return c
	case 't', 'f':
		return 't'
	}
	return '0'
}

// Raw returns a value as written.
func (d *Document) Raw(v Node) []byte { return d.text[v.start:v.end] }

// Text returns the value of a string; false for others.
func (d *Document) Text(v Node) (string, bool) {
	if d.Kind(v) != '"' {
		return "", false
	}
	return d.unquoted(v), true
}

// unquoted returns the value of a string.
func (d *Document) unquoted(v Node) string {
	if inner := d.spelled[v.start+1 : v.end-1]; strings.IndexByte(inner, '\\') < 0 {
		return inner
	}
	return Text(d.Raw(v))
}

// partsOf returns a list's items, or an object's keys and values alternating.
func (d *Document) partsOf(v Node) []Node { return d.parts[v.first : v.first+v.count] }

// Keys returns an object's keys and values alternating; false for others.
func (d *Document) Keys(v Node) ([]Node, bool) {
	if d.Kind(v) != '{' {
		return nil, false
	}
	return d.partsOf(v), true
}

// IsText reports whether a string has this value.
func (d *Document) IsText(v Node, text string) bool { return d.unquoted(v) == text }

// Items returns a list's items; nil for others.
func (d *Document) Items(v Node) []Node {
	if d.Kind(v) != '[' {
		return nil
	}
	return d.partsOf(v)
}

// Item returns an item of a list.
func (d *Document) Item(v Node, index int) (Node, bool) {
	items := d.Items(v)
	if index < 0 || index >= len(items) {
		return Node{}, false
	}
	return items[index], true
}

// Member returns the value under a key of an object. If the key is repeated the last counts, as in the engine.
func (d *Document) Member(v Node, key string) (Node, bool) {
	if d.Kind(v) != '{' {
		return Node{}, false
	}
	parts := d.partsOf(v)
	for at := len(parts) - 2; at >= 0; at -= 2 {
		if d.IsText(parts[at], key) {
			return parts[at+1], true
		}
	}
	return Node{}, false
}

// A Keyed is a member of an object.
type Keyed struct {
	Key   string
	Value Node
}

// Members returns an object's members sorted by key; nil for others. Of a repeated key only the last member counts.
func (d *Document) Members(v Node) []Keyed {
	members, _ := d.InOrder(v)
	if len(members) > fewMembers {
		sort.Slice(members, func(i, j int) bool { return members[i].Key < members[j].Key })
		return members
	}
	for at := range members {
		for ; at > 0 && members[at].Key < members[at-1].Key; at-- {
			members[at], members[at-1] = members[at-1], members[at]
		}
	}
	return members
}

// InOrder returns an object's members in text order, of a repeated key only the last, and each repeated key at its second
// place. Both are nil for other values.
func (d *Document) InOrder(v Node) (members, repeated []Keyed) {
	if d.Kind(v) != '{' {
		return nil, nil
	}
	parts := d.partsOf(v)
	members = make([]Keyed, 0, len(parts)/2)
	for at := 0; at < len(parts); at += 2 {
		members = append(members, Keyed{d.unquoted(parts[at]), parts[at+1]})
	}
	if len(members) <= fewMembers && areApart(members) {
		return members, nil
	}
	counts := make(map[string]int32, len(members))
	for at, member := range members {
		if counts[member.Key]++; counts[member.Key] == 2 {
			repeated = append(repeated, Keyed{member.Key, parts[2*at]})
		}
	}
	if len(repeated) == 0 {
		return members, nil
	}
	kept := members[:0]
	for _, member := range members {
		if counts[member.Key]--; counts[member.Key] == 0 {
			kept = append(kept, member)
		}
	}
	return kept, repeated
}

// areApart reports whether all members have different keys.
func areApart(members []Keyed) bool {
	for at := range members {
		for before := 0; before < at; before++ {
			if members[before].Key == members[at].Key {
				return false
			}
		}
	}
	return true
}

// Second returns the second place of a key in an object; false if there is none.
func (d *Document) Second(v Node, key string) (Node, bool) {
	if d.Kind(v) != '{' {
		return Node{}, false
	}
	count := 0
	for at, part := range d.partsOf(v) {
		if at%2 > 0 || d.unquoted(part) != key {
			continue
		}
		if count++; count == 2 {
			return part, true
		}
	}
	return Node{}, false
}

// Position returns the line and column of a value's first byte, both from 1. Columns are bytes.
func (d *Document) Position(v Node) (line, column int) {
	before := sort.Search(len(d.starts), func(i int) bool { return d.starts[i] > v.start })
	start := int32(0)
	if before > 0 {
		start = d.starts[before-1]
	}
	return before + 1, int(v.start-start) + 1
}

// Go returns a value as Tree does.
func (d *Document) Go(v Node) any {
	switch d.Kind(v) {
	case '{':
		parts := d.partsOf(v)
		object := make(map[string]any, len(parts)/2)
		for at := 0; at < len(parts); at += 2 {
			object[d.unquoted(parts[at])] = d.Go(parts[at+1])
		}
		return object
	case '[':
		list := make([]any, v.count)
		for at, item := range d.partsOf(v) {
			list[at] = d.Go(item)
		}
		return list
	case '"':
		return d.unquoted(v)
	case 't':
		return d.text[v.start] == 't'
	case 'n':
		return nil
	}
	return json.Number(d.Raw(v))
}
