package profile

import (
	"fmt"
	"math/big"

	"gateway/feel"
	"gateway/model"
)

// conform checks a value against a declared type. The standard makes null of a value that doesn't conform, turns a list
// of one into its member, and a scalar into a list of one. The engine has no types. So a value that always conforms is
// left as it is, one that can be tested is tested, and all others are refused.
func (t *translator) conform(b *box, of, due *valueType, refuse func(why, instead string)) (*box, *valueType) {
	switch of.fitOf(due) {
	case fits:
		switch {
		case of.kind == refusedKind:
			return b, of
		case t.isForbidden(b, due, of):
			refuse("it gives a literal that is none of the allowed values of its type", "one of these")
			return boxOf(refused), refusedType
		}
		return t.admitted(b, of, due, refuse)
	case never:
		refuse(unfit(of, due)+": the standard makes null of it", "a value of the declared type")
		return b, refusedType
	case single:
		refuse(fmt.Sprintf("it is a list, where %s is declared: the standard takes the member of a list of one, and null "+
			"for others", due), insteadOfList(due))
		return b, refusedType
	}
	switch due.kind {
	case numberKind:
		number, of := t.tested(b, asNumber, numberOf(uncelled(of.within())))
		return t.admitted(number, of, due, refuse)
	case booleanKind:
		boolean, of := t.tested(b, asBoolean, booleanType)
		return t.admitted(boolean, of, due, refuse)
	}
	refuse(fmt.Sprintf("it may be of another type than %s, which is declared: the standard makes null of that", due),
		"a declared type for what it is made of")
	return b, refusedType
}

// insteadOfList says what to write for a list where a scalar is declared.
func insteadOfList(due *valueType) string {
	if due.kind == numberKind && len(due.allowed.nodes()) == 0 {
		return "if count(l) = 1 then sum(l) else null, of a list l of numbers; or a list as the declared type"
	}
	return "a list as the declared type"
}

// unfit says why no value of a type fits the declared one.
func unfit(of, due *valueType) string {
	if of.kind == listKind && due.kind == listKind {
		return "a member: " + unfit(of.element, due.element)
	}
	if of.kind == contextKind && due.kind == contextKind {
		for _, name := range due.order {
			own, found := of.fields[name]
			switch {
			case !found:
				return fmt.Sprintf("it has no component %s, which the declared type has", name)
			case own.fitOf(due.fields[name]) == never:
				return fmt.Sprintf("its component %s: %s", name, unfit(own, due.fields[name]))
			}
		}
	}
	return fmt.Sprintf("it is of the type %s, where %s is declared", of, due)
}

// isForbidden reports whether a value may be a literal that its type forbids.
func (t *translator) isForbidden(b *box, due, of *valueType) bool {
	switch b.kind {
	case listBox:
		for _, member := range b.list {
			if due.kind == listKind && t.isForbidden(member, due.element, of.memberType()) {
				return true
			}
		}
		return false
	case tableBox:
		return t.tableIsForbidden(b.table, due, of)
	case contextBox:
		if b.result != nil {
			return t.isForbidden(b.result, due, of)
		}
		for _, entry := range b.entries {
			if field := t.field(due, entry.word); field != nil && t.isForbidden(entry.value, field, t.fieldOr(of, entry.word)) {
				return true
			}
		}
		return false
	}
	return textIsForbidden(b.value.text, due, of)
}

// memberType returns the type of a list's members; for other types, the type itself.
func (t *valueType) memberType() *valueType {
	if t.kind == listKind {
		return t.element
	}
	return t
}

// fieldOr returns the type of the entry with a word; if there is none, the type itself.
func (t *translator) fieldOr(of *valueType, word string) *valueType {
	if field := t.field(of, word); field != nil {
		return field
	}
	return of
}

// tableIsForbidden is isForbidden for output entries and defaults.
func (t *translator) tableIsForbidden(table *model.Table, due, given *valueType) bool {
	switch table.Hit {
	case "C", "R", "O":
		if due.kind != listKind {
			return false
		}
		due, given = due.element, given.memberType()
	case "C#", "C+":
		return false
	}
	for i, output := range table.Outputs {
		of, own := due, given
		if len(table.Outputs) > 1 {
			of, own = t.field(due, output.Name), t.fieldOr(given, output.Name)
		}
		if of == nil {
			continue
		}
		if output.Default != nil && textIsForbidden(*output.Default, of, own) {
			return true
		}
		for _, rule := range table.Rules {
			if textIsForbidden(rule.Then[i], of, own) {
				return true
			}
		}
	}
	return false
}

// field returns the type of the entry with a word; nil if the type has none.
func (t *translator) field(of *valueType, word string) *valueType {
	return of.fields[feel.Canonical(t.words.names[word])]
}

func textIsForbidden(text string, due, of *valueType) bool {
	if len(due.allowed.nodes()) == 0 && (due.kind != listKind || len(due.element.allowed.nodes()) == 0) {
		return false
	}
	node, fault := feel.Expression(text, nil, nil)
	return fault == nil && literalIsForbidden(node, due, of.within())
}

// literalIsForbidden reports whether a form, a branch or a member of it is a literal that a type forbids. Numbers are
// in units u.
func literalIsForbidden(n feel.Node, due *valueType, u units) bool {
	switch n := n.(type) {
	case *feel.If:
		return literalIsForbidden(n.Then, due, u) || literalIsForbidden(n.Else, due, u)
	case *feel.List:
		for _, item := range n.Items {
			if due.kind == listKind && literalIsForbidden(item, due.element, u) {
				return true
			}
		}
		return false
	}
	return !due.allowed.allows(uncounted(n, u))
}

// uncounted returns the literal for a number counted in units.
func uncounted(n feel.Node, u units) feel.Node {
	value := rational(n)
	if value == nil || u.isPlain() {
		return n
	}
	value.Quo(scaledBy(value, -u.scale), new(big.Rat).SetInt64(u.parts()))
	made := feel.Node(&feel.Number{Text: shortest(new(big.Rat).Abs(value))})
	if value.Sign() < 0 {
		made = &feel.Negation{Operand: made}
	}
	return made
}

// tested wraps a test of its type around a value.
func (t *translator) tested(b *box, test func(x string) string, of *valueType) (*box, *valueType) {
	made := t.framed(func() *box {
		var x phrase
		if b.kind == textBox && b.value.isShort() {
			x = b.value
		} else {
			x = t.hoisted("value", b, anyType)
		}
		return t.boxed(phrase{text: test(x.text), rank: rankIf, depth: x.depth + 6, of: of})
	})
	return made, of
}

// asNumber returns x if it is a number, its member if it is a list of one number, else null.
func asNumber(x string) string {
	return fmt.Sprintf("if %[1]s - %[1]s = 0 then %[1]s else if count(%[1]s) = 1 then sum(%[1]s) else null", x)
}

// asBoolean returns x if it is true or false, its member if it is a list of one of these, else null.
func asBoolean(x string) string {
	return fmt.Sprintf("if %[1]s = true or %[1]s = [true] then true else if %[1]s = false or %[1]s = [false] then false "+
		"else null", x)
}
