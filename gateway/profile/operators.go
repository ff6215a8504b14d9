package profile

import (
	"gateway/feel"
)

// chain translates operands joined by operators of one rank.
func (t *translator) chain(n *feel.Chain, s *scope) phrase {
	return t.once(n, n.Operands, func() phrase { return t.chained(n, s) })
}

// A fold is the value of a calculation with literals, the most decimals on the way to it, and whether it needs
// fractions.
type fold struct {
	value     phrase
	finest    int
	fractions bool
}

// once calculates with operands. A calculation with literals only is made once, unless it adds entries, which belong to
// its frame.
func (t *translator) once(n feel.Node, operands []feel.Node, calculate func() phrase) phrase {
	known, is := t.folds[n]
	if !is {
		finest, fractions, written := t.finest, t.fractions, t.written
		t.finest, t.fractions = 0, false
		known = fold{calculate(), t.finest, t.fractions}
		if known.value.number != nil && t.written == written && !t.full && t.areLiterals(operands) {
			t.folds[n] = known
		}
		t.finest, t.fractions = finest, fractions
	}
	t.finest, t.fractions = maximum(t.finest, known.finest), t.fractions || known.fractions
	return known.value
}

// areLiterals reports whether each operand is a literal, or a calculation with literals.
func (t *translator) areLiterals(operands []feel.Node) bool {
	for _, operand := range operands {
		if negation, is := operand.(*feel.Negation); is {
			operand = negation.Operand
		}
		if _, is := operand.(*feel.Number); is {
			continue
		}
		if _, is := t.folds[operand]; !is {
			return false
		}
	}
	return true
}

// chained translates a chain without looking it up.
func (t *translator) chained(n *feel.Chain, s *scope) phrase {
	operands := make([]phrase, len(n.Operands))
	isProduct := n.Operators[0] == "*" || n.Operators[0] == "/"
	for i, operand := range n.Operands {
		operands[i] = t.maybeQuotient(operand, s)
		if !isProduct {
			operands[i] = t.exact(operand, operands[i])
		}
	}
	switch n.Operators[0] {
	case "or":
		return chained(operands, n.Operators, rankOr, booleanType)
	case "and":
		return chained(operands, n.Operators, rankAnd, booleanType)
	case "*", "/":
		if hasTemporals(operands) {
			return t.temporalProduct(n, operands)
		}
		return t.product(n, operands)
	}
	if hasTemporals(operands) {
		return t.temporalSum(n, operands)
	}
	return t.sum(n, operands)
}

func (t *translator) product(n *feel.Chain, operands []phrase) phrase {
	for i, operand := range operands {
		if operand.of.kind == refusedKind {
			return refused
		}
		if operand.isQuotient() || i > 0 && n.Operators[i-1] == "/" {
			t.fractions = true
			return t.productWithQuotients(n, operands)
		}
	}
	for i, operand := range operands {
		operands[i] = t.bounded(n.Operands[i], operand)
	}
	return t.countedProduct(n, operands)
}

// sum translates + and -. For + the standard joins texts, and the engine doesn't.
func (t *translator) sum(n *feel.Chain, operands []phrase) phrase {
	soFar := operands[0].of
	for i, operator := range n.Operators {
		next := operands[i+1].of
		if operator == "+" && soFar.mayBe(textKind) && next.mayBe(textKind) {
			if soFar.kind == textKind && next.kind == textKind {
				return t.refuse(n, "texts are not joined", "a context or a list of the parts, which the caller joins")
			}
			return t.refuse(n, "both sides of + may be texts, which the standard joins and the profile doesn't",
				"the type number for one of them")
		}
		soFar = numberType
	}
	return t.countedSum(n, operands)
}

// binary translates a comparison.
func (t *translator) binary(n *feel.Binary, s *scope) phrase {
	if n.Operator == "**" {
		return t.once(n, []feel.Node{n.Left, n.Right}, func() phrase { return t.powered(n, s) })
	}
	return t.compare(n, t.maybeQuotient(n.Left, s), n.Operator, t.maybeQuotient(n.Right, s))
}

// in translates "x in tests" to comparisons.
func (t *translator) in(n *feel.In, s *scope) phrase {
	x := t.short(t.maybeQuotient(n.Operand, s))
	alternatives := make([]phrase, 0, len(n.Tests))
	for _, test := range n.Tests {
		alternatives = append(alternatives, t.shallow(t.condition(test, x, s)))
	}
	return anyOf(alternatives)
}

// anyOf joins conditions by or.
func anyOf(alternatives []phrase) phrase { return joinedBy("or", alternatives, rankOr) }

// allOf joins conditions by and.
func allOf(conditions []phrase) phrase { return joinedBy("and", conditions, rankAnd) }

func joinedBy(operator string, operands []phrase, rank int32) phrase {
	if len(operands) == 0 {
		return constant("false", booleanType)
	}
	if len(operands) == 1 {
		return operands[0]
	}
	return chained(operands, repeated(operator, len(operands)-1), rank, booleanType)
}

// condition translates a test to a condition on a value x.
func (t *translator) condition(test feel.Node, x phrase, s *scope) phrase {
	switch n := test.(type) {
	case *feel.Anything:
		return constant("true", booleanType)
	case *feel.Unary:
		return t.compare(n, x, n.Operator, t.maybeQuotient(n.Operand, s))
	case *feel.Range:
		return t.inRange(n, x, s)
	case *feel.List:
		return t.oneOf(n, x, s)
	case *feel.NotTests:
		return negated(t.shallow(t.conditions(n.Tests, x, s)))
	}
	if usesInput(test) {
		return t.ownCondition(test, x, s)
	}
	value := t.maybeQuotient(test, s)
	if why := doubtfulTest(test, value); why != "" {
		if made, is := t.contains(test, value, x); is && value.of.kind == listKind {
			return made
		}
		return t.refuse(test, why, "? = "+t.slice(test)+", or a column of its own")
	}
	return t.compare(test, x, "=", value)
}

// conditions joins tests by or.
func (t *translator) conditions(tests []feel.Node, x phrase, s *scope) phrase {
	all := make([]phrase, len(tests))
	for i, test := range tests {
		all[i] = t.shallow(t.condition(test, x, s))
	}
	return anyOf(all)
}

// ownCondition translates a condition over ?.
func (t *translator) ownCondition(test feel.Node, x phrase, s *scope) phrase {
	before := t.column
	t.column = &x
	defer func() { t.column = before }()
	made := t.operand(test, s)
	if made.of.kind != booleanKind && made.of.kind != refusedKind {
		return t.refuse(test, "it has ? and is no condition: it may be compared or be true", "? = and the value")
	}
	return made
}

func (t *translator) inRange(n *feel.Range, x phrase, s *scope) phrase {
	low, high := t.maybeQuotient(n.Low, s), t.maybeQuotient(n.High, s)
	if !n.LowOpen && !n.HighOpen {
		return t.between(n, x, low, high)
	}
	from, to := ">=", "<="
	if n.LowOpen {
		from = ">"
	}
	if n.HighOpen {
		to = "<"
	}
	return allOf([]phrase{t.compare(n, x, from, low), t.compare(n, x, to, high)})
}

// oneOf translates a written-out list as a test: x is one of its members, or is the list itself. It is true or false
// for each x, while = is null for values of different kinds.
func (t *translator) oneOf(n *feel.List, x phrase, s *scope) phrase {
	if holdsTests(n) {
		return t.refuseTests(n)
	}
	all := make([]phrase, 0, len(n.Items)+1)
	for _, item := range n.Items {
		value := t.maybeQuotient(item, s)
		if why := doubtfulTest(item, value); why != "" {
			return t.refuse(item, why, "? = "+t.slice(item)+", or a column of its own")
		}
		made := t.compare(item, x, "=", value)
		if value.of.kind != nullKind && value.of.kind != x.of.kind {
			made = isTrue(made)
		}
		all = append(all, t.shallow(made))
	}
	if x.of.mayBe(listKind) {
		all = append(all, t.shallow(isTrue(t.compare(n, x, "=", t.shallow(t.list(n, s))))))
	}
	return anyOf(all)
}

// isTrue returns a condition that is false if another one is null.
func isTrue(p phrase) phrase {
	return infix(p, "=", constant("true", booleanType), rankComparison, booleanType)
}

// holdsTests reports whether a list has members that are lists or tests. It is then ambiguous whether the value is
// compared with such a member or looked up in it.
func holdsTests(n *feel.List) bool {
	for _, item := range n.Items {
		switch item.(type) {
		case *feel.List, *feel.Range, *feel.Unary:
			return true
		}
		if usesInput(item) {
			return true
		}
	}
	return false
}

func (t *translator) refuseTests(n *feel.List) phrase {
	return t.refuse(n, "a list with a list or a test in it, as a test: its members may be compared with the value, or asked of it",
		"the tests without brackets round them, as 1, [5..7]")
}

// doubtfulTest says why an expression in the place of a test is ambiguous; empty if it isn't.
func doubtfulTest(n feel.Node, value phrase) string {
	if literalType(n) != nil {
		return ""
	}
	switch value.of.kind {
	case booleanKind:
		return "a condition as a test: it may be compared with the value, or be true by itself"
	case anyKind:
		return "it may be a condition or a list, for its type is not known"
	case listKind:
		return "a list that is not written out as a test"
	}
	return ""
}

// slice returns the text of a form.
func (t *translator) slice(n feel.Node) string {
	span := n.At()
	return "(" + t.text.Text[span.Start:span.End] + ")"
}

// usesInput reports whether a form contains ?.
func usesInput(n feel.Node) bool {
	return feel.Any(n, func(n feel.Node) bool { _, is := n.(*feel.Input); return is })
}
