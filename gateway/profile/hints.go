package profile

import (
	"fmt"
	"strings"
	"unicode/utf8"

	"gateway/feel"
)

// insteadOfCall says what to write in place of a function that the engine lacks. A form that it names means the same.
func (t *translator) insteadOfCall(n *feel.Call, name string) string {
	switch name {
	case "starts with":
		if len(n.Arguments) == 2 {
			return t.insteadOfPrefix(n.Arguments[0].Value, n.Arguments[1].Value)
		}
	case "is defined", "get or else", "odd", "even", "mean":
		if made := t.insteadByArguments(n, name); made != "" {
			return made
		}
	}
	if instead, known := insteadOf[name]; known {
		return instead
	}
	return "a table, or let the request bring the value; business knowledge needs its requirement drawn"
}

// insteadByArguments returns what to write for a function, using the arguments of a call; empty if their number is
// wrong.
func (t *translator) insteadByArguments(n *feel.Call, name string) string {
	texts := make([]string, len(n.Arguments))
	for i, a := range n.Arguments {
		texts[i] = t.operandText(a.Value)
	}
	switch {
	case name == "is defined" && len(texts) == 1:
		return texts[0] + " != null"
	case name == "get or else" && len(texts) == 2:
		return "if " + texts[0] + " = null then " + texts[1] + " else " + texts[0]
	case name == "odd" && len(texts) == 1:
		return "modulo(" + texts[0] + ", 2) > 0"
	case name == "even" && len(texts) == 1:
		return "modulo(" + texts[0] + ", 2) < 1"
	case name == "mean" && len(texts) == 1:
		return fmt.Sprintf("sum(%[1]s) / count(%[1]s), compared or rounded", texts[0])
	case name == "mean":
		return fmt.Sprintf("sum(%s) / %d, compared or rounded", strings.Join(texts, ", "), len(texts))
	}
	return ""
}

// insteadOfPrefix says how to ask for the texts that start with a literal. Texts are ordered by code points, so these
// are the texts from the literal up to the next text of its length.
func (t *translator) insteadOfPrefix(of, prefix feel.Node) string {
	literal, is := prefix.(*feel.String)
	if !is {
		return "let the request bring whether it does so"
	}
	text := t.operandText(of)
	from := text + " >= " + quotedText(literal.Value)
	if end := prefixEnd(literal.Value); end != "" {
		return from + " and " + text + " < " + quotedText(end)
	}
	return from
}

// prefixEnd returns the least text that is greater than all texts with a prefix; empty if there is none.
func prefixEnd(prefix string) string {
	runes := []rune(prefix)
	for last := len(runes) - 1; last >= 0; last-- {
		next := runes[last] + 1
		if next == 0xD800 {
			next = 0xE000
		}
		if next <= utf8.MaxRune {
			return string(append(runes[:last:last], next))
		}
	}
	return ""
}

// operandText returns the text of a form as an operand.
func (t *translator) operandText(n feel.Node) string {
	switch n.(type) {
	case *feel.Name, *feel.Number, *feel.String, *feel.Path, *feel.Call, *feel.Input, *feel.Boolean, *feel.Null:
		span := n.At()
		return t.text.Text[span.Start:span.End]
	}
	return t.slice(n)
}

// insteadOfFor says what to write in place of a for.
func (t *translator) insteadOfFor(n *feel.For) string {
	path, is := n.Result.(*feel.Path)
	if is && len(n.Iterators) == 1 && n.Iterators[0].End == nil {
		if name, is := path.Operand.(*feel.Name); is && name.Name == n.Iterators[0].Name {
			list := t.operandText(n.Iterators[0].List)
			return list + "." + path.Name + ", of a list"
		}
	}
	return "let the request bring the list that it gives"
}
