package profile

import (
	"math/big"
	"strings"

	"gateway/feel"
)

// largestNumber is the greatest number of the model; the least is its negative.
const largestNumber = "9223372036854775807"

// value translates a form of FEEL.
func (t *translator) value(n feel.Node, s *scope) phrase {
	switch n := n.(type) {
	case *feel.Number:
		return t.number(n)
	case *feel.String:
		return constant(quotedText(n.Value), t.kept.textOf(n))
	case *feel.Boolean:
		return constant(literalText(n), booleanType)
	case *feel.Null:
		return constant("null", nullType)
	case *feel.Name:
		return t.name(n, s)
	case *feel.Input:
		return t.input(n)
	case *feel.List:
		return t.list(n, s)
	case *feel.Context:
		made, of := t.contextLiteral(n, s)
		return t.hoisted("context", made, of)
	case *feel.Chain:
		return t.chain(n, s)
	case *feel.Binary:
		return t.binary(n, s)
	case *feel.Negation:
		return t.negation(n, s)
	case *feel.Between:
		x, low, high := t.maybeQuotient(n.Operand, s), t.maybeQuotient(n.Low, s), t.maybeQuotient(n.High, s)
		return t.between(n, x, low, high)
	case *feel.In:
		return t.in(n, s)
	case *feel.Path:
		return t.path(n, s)
	case *feel.Call:
		return t.call(n, s)
	case *feel.If:
		return t.branches(n, s)
	case *feel.AtLiteral:
		return t.atLiteral(n)
	}
	return t.listForm(n, s)
}

// operand translates a form inside another one. It is not a quotient.
func (t *translator) operand(n feel.Node, s *scope) phrase { return t.exact(n, t.maybeQuotient(n, s)) }

// branches translates an if.
func (t *translator) branches(n *feel.If, s *scope) phrase {
	condition := t.operand(n.Condition, s)
	both := []phrase{
		t.under(condition, true, func() phrase { return t.chosen(n.Then, s) }),
		t.under(condition, false, func() phrase { return t.chosen(n.Else, s) }),
	}
	t.together(both, t.refusal(n))
	return choiceOf(t.kept.joined(both[0].of, both[1].of), condition, both[0], both[1])
}

// number translates a numeric literal: 1.0 is 1. Each text is read once.
func (t *translator) number(n *feel.Number) phrase {
	if known, is := t.constants[n.Text]; is {
		t.fractions = t.fractions || !known.of.isPlain()
		return known
	}
	whole := n.Text
	if point := strings.IndexByte(whole, '.'); point >= 0 {
		if strings.Trim(whole[point+1:], "0") != "" {
			return t.fraction(n)
		}
		whole = whole[:point]
	}
	whole = strings.TrimLeft(whole, "0")
	if whole == "" {
		whole = "0"
	}
	if len(whole) > len(largestNumber) || len(whole) == len(largestNumber) && whole > largestNumber {
		return t.refuse(n, "the number is past "+largestNumber, "")
	}
	made := constant(whole, numberType)
	made.number, _ = numberOfText(whole)
	t.constants[n.Text] = made
	return made
}

// name translates a name in scope.
func (t *translator) name(n *feel.Name, s *scope) phrase {
	if !n.Known {
		if found := s.find(n.Name); found != nil && found.member {
			return found.value
		}
		return t.unknown(n)
	}
	if n.Doubtful {
		return t.refuse(n, "it may be one name or a calculation with another one", "parentheses round each name, or the name "+
			"spaced as it was declared")
	}
	found := s.find(n.Name)
	switch {
	case found == nil:
		return t.refuse(n, "it is no name in scope", "")
	case found.function != nil:
		return t.refuse(n, "functions are no values of the profile", "invoke it, with its arguments in parentheses")
	case found.service:
		return t.refuse(n, "decision services are not invoked", "need its output decision")
	case found.free != nil:
		t.node.need(found.free)
		return constant(found.free.word, found.free.of)
	}
	return found.value
}

func (t *translator) input(n *feel.Input) phrase {
	if t.column == nil {
		return t.refuse(n, "? stands for the value of an input column, and there is none here", "the name of the value")
	}
	return *t.column
}

func (t *translator) list(n *feel.List, s *scope) phrase {
	members := make([]phrase, len(n.Items))
	for i, item := range n.Items {
		members[i] = t.chosen(item, s)
	}
	of := nullType
	if len(members) == 1 && members[0].isAsItIs() {
		of = members[0].of
	} else {
		of = t.together(members, t.refusal(n))
	}
	return listing(members, t.kept.listOf(of))
}

// contextLiteral returns the box of {a: 1, b: a}. Each entry sees those before it.
func (t *translator) contextLiteral(n *feel.Context, s *scope) (*box, *valueType) {
	made := &box{kind: contextBox, entries: make([]boxEntry, 0, len(n.Entries))}
	if len(n.Entries) == 1 {
		entry, of := t.literalEntry(n.Entries[0], s)
		made.entries = append(made.entries, entry)
		return made, t.kept.contextOf(n.Entries[0].Key, of)
	}
	of := &valueType{kind: contextKind, fields: map[string]*valueType{}}
	inside := s
	for i, entry := range n.Entries {
		if _, twice := of.fields[entry.Key]; twice {
			t.refuse(n, "duplicate key "+entry.Key, "another key")
			continue
		}
		part, valueOf := t.literalEntry(entry, inside)
		made.entries = append(made.entries, part)
		of.setField(entry.Key, valueOf)
		if i == len(n.Entries)-1 {
			break // No other entry sees it.
		}
		if inside == s {
			inside = s.within()
		}
		inside.bindWord(entry.Key, part.word, valueOf)
	}
	return made, of.bounded(t.refusal(n))
}

// literalEntry returns an entry of a context literal, and its type.
func (t *translator) literalEntry(entry feel.Entry, s *scope) (made boxEntry, of *valueType) {
	value := t.framed(func() (b *box) {
		b, of = t.boxedPart(entry.Value, s)
		return b
	})
	word := t.words.of(entry.Key)
	t.wrote(len(word) + bytesOfEntry)
	return boxEntry{word: word, value: value, of: of}, of
}

// boxedForm translates a whole text, so that a context literal, or a list of them, needs no entry before it.
func (t *translator) boxedForm(n feel.Node, s *scope) (*box, *valueType) {
	switch n := n.(type) {
	case *feel.Context:
		return t.contextLiteral(n, s)
	case *feel.List:
		if holdsContext(n) {
			return t.boxedList(n, s)
		}
	}
	p := t.bounded(n, t.constantQuotient(n, t.value(n, s)))
	return t.boxed(p), p.of
}

// boxedPart translates a part of a context or a list, evaluated before the expression.
func (t *translator) boxedPart(n feel.Node, s *scope) (*box, *valueType) {
	made, of := t.boxedForm(n, s)
	if made.kind == textBox {
		made.value = t.conditioned(made.value)
	}
	return made, of
}

func (t *translator) boxedList(n *feel.List, s *scope) (*box, *valueType) {
	made := &box{kind: listBox, list: []*box{}}
	var all []*valueType
	for _, item := range n.Items {
		var itemOf *valueType
		item := item
		made.list = append(made.list, t.framed(func() *box {
			var b *box
			b, itemOf = t.boxedPart(item, s)
			return b
		}))
		all = append(all, itemOf)
	}
	return made, t.listOfBoxes(made, all, t.refusal(n))
}

func holdsContext(n *feel.List) bool {
	for _, item := range n.Items {
		if _, context := item.(*feel.Context); context {
			return true
		}
	}
	return false
}

func (t *translator) negation(n *feel.Negation, s *scope) phrase {
	inside := t.maybeQuotient(n.Operand, s)
	if inside.of.kind == refusedKind {
		return inside
	}
	if inside.of.isTemporal() {
		return t.refuse(n, "a value of the type "+inside.of.String()+" is negated", "a duration times -1")
	}
	o := inside.within(rankNegation)
	made := phrase{text: "-" + o.text, rank: rankNegation, depth: 1 + o.depth, of: numberOf(uncelled(inside.of.units))}
	if inside.over() != nil {
		made.rare = &rare{over: inside.over()}
	}
	if inside.number != nil {
		made.number = new(big.Rat).Neg(inside.number)
	}
	return made
}

// path translates a.name.
func (t *translator) path(n *feel.Path, s *scope) phrase {
	operand := t.operand(n.Operand, s)
	if operand.of.isTemporal() {
		return t.temporalPart(n, operand)
	}
	of := operand.of.member(n.Name)
	if n.Respelled || of != nil && of.kind == anyKind && !n.Quoted && hasOperator(n.Name) && operand.of.kind == anyKind {
		return t.refuse(n, "after the point it may be one name or a calculation with another one",
			"the type of what is before the point, and the name spaced as it was declared; or parentheses: (a.b) - c")
	}
	if of == nil {
		return t.refuse(n, "a value of the type "+operand.of.String()+" has no component "+n.Name,
			"a component of its type")
	}
	o := operand.within(rankPath)
	return phrase{text: o.text + "." + t.words.of(n.Name), rank: rankPath, depth: 1 + o.depth, of: of}
}

// hasOperator reports whether a name contains an operator sign.
func hasOperator(name string) bool { return strings.ContainsAny(name, "+-*/") }

// between returns x >= low and x <= high.
func between(x, low, high phrase) phrase {
	x, low, high = x.within(rankSum), low.within(rankSum), high.within(rankSum)
	return phrase{text: x.text + " between " + low.text + " and " + high.text, rank: rankComparison,
		depth: 1 + deepest(x, low, high), of: booleanType}
}

// left refuses the forms that the profile lacks.
func (t *translator) left(n feel.Node) phrase {
	switch n := n.(type) {
	case *feel.Filter:
		return t.refuse(n, "there are no filters and no indexes", "let the request bring what is wanted under its own name")
	case *feel.For:
		return t.refuse(n, "there is no for", t.insteadOfFor(n))
	case *feel.Quantified:
		return t.refuse(n, "there is no some and no every of such a list", "let the request bring whether it is so")
	case *feel.Function:
		return t.refuse(n, "functions are no values of the profile", "a business knowledge model")
	case *feel.InstanceOf:
		return t.refuse(n, "there is no instance of this type", "number, string, boolean or list")
	case *feel.Range, *feel.Unary:
		return t.refuse(n, "ranges and tests are no values here", "x between low and high, or a test of a table")
	}
	return t.refuse(n, "it has no meaning here", "")
}
