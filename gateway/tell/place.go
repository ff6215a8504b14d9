package tell

import (
	"strconv"
	"strings"
)

// A Step leads to a part of a JSON value: a key, or an index if the key is empty.
type Step struct {
	Key   string
	Index int
}

// A Place is the path from a model to one of its parts.
type Place []Step

func key(name string) Step  { return Step{Key: name} }
func index(number int) Step { return Step{Index: number} }

// with returns the place that more steps lead to. It leaves p unchanged.
func (p Place) with(steps ...Step) Place {
	return append(append(make(Place, 0, len(p)+len(steps)), p...), steps...)
}

// Pointer returns the place as a JSON Pointer. The keys of a model need no escape.
func (p Place) Pointer() string {
	var text strings.Builder
	for _, step := range p {
		text.WriteByte('/')
		if step.Key != "" {
			text.WriteString(step.Key)
		} else {
			text.WriteString(strconv.Itoa(step.Index))
		}
	}
	return text.String()
}

// placeOf returns the place of a pointer into a model. It ends before an unknown key.
func placeOf(pointer string) Place {
	var place Place
	for _, part := range strings.Split(pointer, "/")[1:] {
		if number, err := strconv.Atoi(part); err == nil && len(place) > 0 {
			place = append(place, index(number))
			continue
		}
		place = append(place, key(part))
	}
	return place
}

// lastKey returns the last key: for an index, the key of its list.
func (p Place) lastKey() string {
	for at := len(p) - 1; at >= 0; at-- {
		if p[at].Key != "" {
			return p[at].Key
		}
	}
	return ""
}

// endsWithIndex reports whether the place is an element of a list.
func (p Place) endsWithIndex() bool { return len(p) > 0 && p[len(p)-1].Key == "" }

// owner returns the index of the decision or service that a place is in.
func (p Place) owner() int {
	if len(p) < 2 {
		return 0
	}
	return p[1].Index
}

// namesText reports whether the words of a place name the text there: a name, or an item in a list of names or expressions.
func (p Place) namesText() bool {
	if len(p) > 0 && p[len(p)-1].Key == "name" {
		return true
	}
	if !p.endsWithIndex() {
		return false
	}
	switch p.lastKey() {
	case "inputs", "outputs", "needs", "encapsulated", "inputDecisions", "inputData":
		return len(p) > 1 && p[len(p)-2].Key != ""
	}
	return false
}
