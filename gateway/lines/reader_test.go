package lines

import (
	"reflect"
	"testing"
)

// TestReader checks that a Reader returns what Members and HasKey do, and the inner members in the same pass.
func TestReader(t *testing.T) {
	names := map[string]string{"net price": "net_price"}
	r := Reader{Within: "inputs", Names: names}
	for _, it := range []struct{ text, inner string }{
		{`{"client":"a","inputs":{"a":{"inputs":{"x":1}},"b":[{}]}}`, `{"a":{"inputs":{"x":1}},"b":[{}]}`},
		{` { "inputs" : { "a" : 1.5 } , "other":{"inputs":{"y":2}}} `, `{ "a" : 1.5 }`},
		{`{"inputs":{"a":1},"inputs":{"b":{"net price":2}}}`, `{"b":{"net price":2}}`},
		{`{"inputs":{"a":1},"inputs":[{"b":2}]}`, `{}`},
		{`{"inputs":"x","c":{"d":[1,{"e":"net price"}]}}`, `{}`},
		{`{"a":{"inputs":{"b":1}}}`, `{}`},
		{`{"a":{"b\u0061":1}}`, `{}`},
		{`{}`, `{}`},
		{`{"inputs":{}}`, `{}`},
		{`{"inputs":{"a":1}`, ``},
		{`{"inputs":{"a":1}} x`, ``},
		{`[{"inputs":{"a":1}}]`, ``},
		{`{"inputs":{"a":1}},`, ``},
		{"{\"a\":\"\xff\"}", ``},
	} {
		text := []byte(it.text)
		found, other, fault := r.Read(text, MaxNesting)
		members, otherDue, faultDue := Members(text, MaxNesting)
		if other != otherDue || !reflect.DeepEqual(fault, faultDue) {
			t.Errorf("%s: %v, %v, and due is %v, %v", it.text, other, fault, otherDue, faultDue)
		}
		if other || fault != nil {
			continue
		}
		if len(found.Members) != len(members) || len(members) > 0 && !reflect.DeepEqual(found.Members, members) {
			t.Errorf("%s: %v, and due is %v", it.text, found.Members, members)
		}
		if found.HasName != HasKey(text, names) {
			t.Errorf("%s: %v", it.text, found.HasName)
		}
		if whole, _ := Whole(text, MaxNesting); found.Depth != whole.Depth {
			t.Errorf("%s: %d deep, and due is %d", it.text, found.Depth, whole.Depth)
		}
		inner, _, _ := Members([]byte(it.inner), MaxNesting)
		if len(inner) != len(found.Inner) {
			t.Errorf("%s: %v within, and due is %v", it.text, found.Inner, inner)
			continue
		}
		for at, member := range found.Inner {
			due := inner[at]
			if member.Key != due.Key || member.Value.Nodes != due.Value.Nodes || (member.Value.Bad < 0) != (due.Value.Bad < 0) ||
				it.text[member.Value.Start:member.Value.End] != it.inner[due.Value.Start:due.Value.End] {
				t.Errorf("%s: %v within, and due is %v", it.text, member, due)
			}
		}
	}
}
