package profile

import "gateway/feel"

// asScalars returns a function of scalars what the standard gives it for lists: the member of a list of one, else null.
// A value of unknown type is asked for its member at run time. A list that isn't written out is refused.
func (t *translator) asScalars(n *feel.Call, name string, arguments []phrase) (scalars []phrase, fine bool) {
	test := asNumber
	switch name {
	case "abs", "modulo":
	case "not":
		test = asBoolean
	default:
		if _, rounds := roundings[name]; !rounds {
			return arguments, true
		}
	}
	for i, x := range arguments {
		switch {
		case x.of.kind == listKind && x.members() == nil:
			t.refuse(n, "a list where "+name+" wants a scalar: the standard takes the member of a list of one", "a value that is no list")
			return nil, false
		case len(x.members()) == 1 && x.of.kind == listKind:
			x.members()[0].of = x.of.element
			arguments[i] = x.members()[0]
		case x.of.kind == anyKind && x.number == nil && x.over() == nil:
			arguments[i] = t.scalarOf(x, test, name == "not")
		}
	}
	return arguments, true
}

// scalarOf returns a value, or the member of a list of one, if it is a number or a boolean; else null.
func (t *translator) scalarOf(x phrase, test func(string) string, isBoolean bool) phrase {
	x = t.short(x)
	of := booleanType
	if !isBoolean {
		of = numberOf(uncelled(x.of.within()))
	}
	return t.shallow(phrase{text: test(x.text), rank: rankIf, depth: x.depth + 6, of: of})
}
