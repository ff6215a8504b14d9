package domain

import (
	"encoding/json"
	"strconv"

	"gateway/lines"
)

// A kind is one of the kinds of values.
type kind uint8

const (
	ofNull kind = iota
	ofBoolean
	ofNumber
	ofText
	ofList
	ofContext
)

// A scalar is a value without parts. The number of true is 1, that of false 0.
type scalar struct {
	kind   kind
	number int64
	text   string
}

// A value is one of the engine's. It is a scalar unless its kind is that of lists or contexts.
type value struct {
	scalar
	items   []value
	entries map[string]value
}

var null = value{}

func numberOf(number int64) value { return value{scalar: scalar{kind: ofNumber, number: number}} }

func textOf(text string) value { return value{scalar: scalar{kind: ofText, text: text}} }

func booleanOf(is bool) value {
	if is {
		return value{scalar: scalar{kind: ofBoolean, number: 1}}
	}
	return value{scalar: scalar{kind: ofBoolean}}
}

func listOf(items []value) value { return value{scalar: scalar{kind: ofList}, items: items} }

// valueOf reads what lines.Tree returns; false if it has a number that the engine doesn't take.
func valueOf(tree any) (value, bool) {
	switch tree := tree.(type) {
	case bool:
		return booleanOf(tree), true
	case string:
		return textOf(tree), true
	case json.Number:
		number, err := strconv.ParseInt(tree.String(), 10, 64)
		return numberOf(number), err == nil && lines.IsWhole(tree.String())
	case []any:
		items := make([]value, len(tree))
		for at, item := range tree {
			part, isTaken := valueOf(item)
			if !isTaken {
				return null, false
			}
			items[at] = part
		}
		return listOf(items), true
	case map[string]any:
		entries := make(map[string]value, len(tree))
		for key, entry := range tree {
			part, isTaken := valueOf(entry)
			if !isTaken {
				return null, false
			}
			entries[key] = part
		}
		return value{scalar: scalar{kind: ofContext}, entries: entries}, true
	}
	return null, true
}

// tree is the opposite of valueOf.
func (v value) tree() any {
	switch v.kind {
	case ofBoolean:
		return v.number == 1
	case ofNumber:
		return json.Number(strconv.FormatInt(v.number, 10))
	case ofText:
		return v.text
	case ofList:
		items := make([]any, len(v.items))
		for at, item := range v.items {
			items[at] = item.tree()
		}
		return items
	case ofContext:
		entries := make(map[string]any, len(v.entries))
		for key, entry := range v.entries {
			entries[key] = entry.tree()
		}
		return entries
	}
	return nil
}

// A truth is a truth value of the three-valued logic.
type truth uint8

const (
	no truth = iota
	unknown
	yes
)

func decided(is bool) truth {
	if is {
		return yes
	}
	return no
}

func (t truth) not() truth { return yes - t }

func (t truth) and(other truth) truth {
	if other < t {
		return other
	}
	return t
}

func (t truth) or(other truth) truth {
	if other > t {
		return other
	}
	return t
}

// value returns a truth value as a value.
func (t truth) value() value {
	if t == unknown {
		return null
	}
	return booleanOf(t == yes)
}

// truthOf returns a value as a truth value.
func truthOf(v value) truth {
	if v.kind == ofBoolean {
		return decided(v.number == 1)
	}
	return unknown
}

// equal tells whether two values are equal: null to null alone, and others to those of their kind.
func equal(v, w value) truth {
	switch {
	case v.kind == ofNull || w.kind == ofNull:
		return decided(v.kind == w.kind)
	case v.kind != w.kind:
		return unknown
	case v.kind == ofList:
		return decided(haveEqualItems(v.items, w.items))
	case v.kind == ofContext:
		return decided(haveEqualEntries(v.entries, w.entries))
	}
	return decided(v.scalar == w.scalar)
}

func haveEqualItems(all, others []value) bool {
	if len(all) != len(others) {
		return false
	}
	for at, item := range all {
		if equal(item, others[at]) != yes {
			return false
		}
	}
	return true
}

func haveEqualEntries(all, others map[string]value) bool {
	if len(all) != len(others) {
		return false
	}
	for key, entry := range all {
		other, is := others[key]
		if !is || equal(entry, other) != yes {
			return false
		}
	}
	return true
}

// less tells whether a value is less than another: of two numbers by size, of two texts by code points.
func less(v, w value) truth {
	switch {
	case v.kind == ofNumber && w.kind == ofNumber:
		return decided(v.number < w.number)
	case v.kind == ofText && w.kind == ofText:
		return decided(v.text < w.text)
	}
	return unknown
}

// entry returns the value of an entry: of a context its own or null, of a list those of its members, otherwise null.
func (v value) entry(name string) value {
	switch v.kind {
	case ofContext:
		return v.entries[name]
	case ofList:
		items := make([]value, len(v.items))
		for at, item := range v.items {
			items[at] = item.entry(name)
		}
		return listOf(items)
	}
	return null
}
