package tell

import (
	"gateway/feel"
	"gateway/feel/strict"
)

// A valueName is a name, or an entry of its value.
type valueName struct{ name, entry string }

// eachName calls take with the names in a form, in text order, each with the entry taken of its value.
func eachName(node feel.Node, take func(valueName)) { eachNameOf(node, "", take) }

func eachNameOf(node feel.Node, entry string, take func(valueName)) {
	switch of := node.(type) {
	case *feel.Name:
		take(valueName{of.Name, entry})
	case *strict.Group:
		eachNameOf(of.Inside, entry, take)
	case *feel.Path:
		eachNameOf(of.Operand, of.Name, take)
	default:
		eachPart(node, func(part feel.Node) { eachNameOf(part, "", take) })
	}
}

// eachComparison calls take with the values that a form compares with = or !=, each with the other side.
func eachComparison(node feel.Node, take func(subject valueName, with feel.Node)) {
	if of, ok := node.(*feel.Binary); ok && (of.Operator == "=" || of.Operator == "!=") {
		if subject, ok := subjectOf(of.Left); ok {
			take(subject, of.Right)
		}
		if subject, ok := subjectOf(of.Right); ok {
			take(subject, of.Left)
		}
	}
	eachPart(node, func(part feel.Node) { eachComparison(part, take) })
}

// addsText reports whether a form adds a text in quotes.
func addsText(node feel.Node) bool {
	adds := false
	if of, ok := node.(*feel.Chain); ok {
		for at, operator := range of.Operators {
			adds = adds || operator == "+" && (at == 0 && isText(of.Operands[0]) || isText(of.Operands[at+1]))
		}
	}
	eachPart(node, func(part feel.Node) { adds = adds || addsText(part) })
	return adds
}

// subjectOf returns the named value that an expression is; false if it is none.
func subjectOf(node feel.Node) (valueName, bool) {
	entry := ""
	for {
		switch of := node.(type) {
		case *strict.Group:
			node = of.Inside
		case *feel.Name:
			return valueName{of.Name, entry}, true
		case *feel.Path:
			if entry != "" {
				return valueName{}, false
			}
			node, entry = of.Operand, of.Name
		default:
			return valueName{}, false
		}
	}
}

func isText(node feel.Node) bool {
	if group, ok := node.(*strict.Group); ok {
		return isText(group.Inside)
	}
	_, ok := node.(*feel.String)
	return ok
}

// eachPart calls take with the parts of a form, in text order.
func eachPart(node feel.Node, take func(feel.Node)) {
	switch of := node.(type) {
	case *strict.Group:
		take(of.Inside)
	case *feel.Path:
		take(of.Operand)
	case *feel.Chain:
		eachOf(of.Operands, take)
	case *feel.Binary:
		take(of.Left)
		take(of.Right)
	case *feel.Negation:
		take(of.Operand)
	case *feel.Unary:
		take(of.Operand)
	case *feel.List:
		eachOf(of.Items, take)
	case *feel.Between:
		take(of.Operand)
		take(of.Low)
		take(of.High)
	case *feel.If:
		take(of.Condition)
		take(of.Then)
		take(of.Else)
	case *feel.Range:
		take(of.Low)
		take(of.High)
	case *feel.Call:
		for _, argument := range of.Arguments {
			take(argument.Value)
		}
	}
}

func eachOf(nodes []feel.Node, take func(feel.Node)) {
	for _, node := range nodes {
		take(node)
	}
}
