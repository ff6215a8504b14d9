package types

import (
	"fmt"

	"gateway/lines"
)

// Keys rename keys of a type's objects. Nil Keys change nothing.
type Keys struct {
	keys  map[string]key
	items *Keys
}

// A key is a key's new name, and the keys within its value.
type key struct {
	to     string
	within *Keys
}

// ToWords turn a file's names into the model's words. A key may be written either way; if one's name is another's word, it is
// the name.
func ToWords(t *Type, names map[string]string) *Keys {
	return newKeys(t, func(of *Keys, word string, within *Keys) {
		if _, isName := of.keys[word]; !isName {
			of.keys[word] = key{word, within}
		}
		if name, is := names[word]; is {
			of.keys[name] = key{word, within}
		}
	})
}

// ToNames turn the model's words into the file's names.
func ToNames(t *Type, names map[string]string) *Keys {
	return newKeys(t, func(of *Keys, word string, within *Keys) {
		to := word
		if name, is := names[word]; is {
			to = name
		}
		of.keys[word] = key{to, within}
	})
}

// newKeys lets add give keys to each property. It returns nil if nothing changes.
func newKeys(t *Type, add func(of *Keys, word string, within *Keys)) *Keys {
	if t == nil {
		return nil
	}
	made := &Keys{keys: map[string]key{}, items: newKeys(t.items, add)}
	changes := made.items != nil
	for _, word := range t.order {
		add(made, word, newKeys(t.properties[word], add))
	}
	for from, it := range made.keys {
		changes = changes || it.to != from || it.within != nil
	}
	if !changes {
		return nil
	}
	return made
}

// Unique returns a value with renamed keys, or says which key of an object is written in two ways.
func (k *Keys) Unique(value any) (any, *lines.ValueFault) { return k.write(value, "", true) }

// Write returns a value with renamed keys. A key is kept if the object has the new one too.
func (k *Keys) Write(value any) any {
	written, _ := k.write(value, "", false)
	return written
}

func (k *Keys) write(value any, pointer string, unique bool) (any, *lines.ValueFault) {
	if k == nil {
		return value, nil
	}
	switch value := value.(type) {
	case []any:
		return k.writeItems(value, pointer, unique)
	case map[string]any:
		if len(k.keys) == 0 {
			return k.items.write(value, pointer, unique)
		}
		return k.writeMembers(value, pointer, unique)
	}
	return value, nil
}

// writeItems does so for a list. One item in place of a list, and a list in place of one item, are treated alike.
func (k *Keys) writeItems(list []any, pointer string, unique bool) (any, *lines.ValueFault) {
	of := k.items
	if of == nil {
		of = k
	}
	for at, item := range list {
		written, fault := of.write(item, fmt.Sprintf("%s/%d", pointer, at), unique)
		if fault != nil {
			return nil, fault
		}
		list[at] = written
	}
	return list, nil
}

func (k *Keys) writeMembers(object map[string]any, pointer string, unique bool) (any, *lines.ValueFault) {
	made := make(map[string]any, len(object))
	from := make(map[string]string, len(object))
	for _, name := range lines.Keys(object) {
		it, is := k.keys[name]
		if !is {
			it.to = name
		}
		other, isTwice := from[it.to]
		if isTwice && unique {
			return nil, &lines.ValueFault{Pointer: pointer + "/" + lines.Token(name), Reason: fmt.Sprintf("%q and %q are the same", other, name)}
		}
		if _, has := object[it.to]; has && it.to != name && !unique {
			it.to = name
		}
		written, fault := it.within.write(object[name], pointer+"/"+lines.Token(name), unique)
		if fault != nil {
			return nil, fault
		}
		made[it.to], from[it.to] = written, name
	}
	return made, nil
}

// Widened returns a type that has these members too, if it doesn't say what they are. For a list they are those of its items.
func (t *Type) Widened(members map[string]*Type) *Type {
	if len(members) == 0 {
		return t
	}
	wide := *t
	if t.items != nil {
		wide.items = t.items.Widened(members)
		return &wide
	}
	all := make(map[string]*Type, len(members)+len(t.properties))
	for name, of := range members {
		all[name] = of
	}
	for name, of := range t.properties {
		all[name] = of
	}
	wide.properties, wide.order = all, Object(all).order
	return &wide
}
