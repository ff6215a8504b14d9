package domain

import (
	"gateway/feel"
	"gateway/feel/strict"
	"gateway/lines"
)

// A Domain is the values that satisfy unary tests of constants.
type Domain struct {
	// isAny means that each value does, isNegated that none of the tests may hold, isBroken that no value does, as a test breaks a limit.
	isAny, isNegated, isBroken bool
	// tests are in the order of the text; orders are those that ask for more than equality.
	tests, orders []test
	// scalars and lists have what a value may be equal to.
	scalars map[scalar]bool
	lists   []value
	// takesLists and takesContexts are true if each list or context surely lies in it.
	takesLists, takesContexts bool
}

// A test asks how a value stands to its ends, or if it has none, whether the value is the constant, or in it.
type test struct {
	ends     []end
	constant value
}

// An end is an order comparison with a constant: <, <=, > or >=.
type end struct {
	operator string
	limit    value
}

// Read reads a domain as the engine does; false if the text is no unary tests, or has a name.
func Read(text string) (*Domain, bool) {
	read, is := strict.ReadTests(text)
	if !is {
		return nil, false
	}
	d := &Domain{isAny: read.Any, isNegated: read.Negated, scalars: map[scalar]bool{}}
	c := &calculator{}
	for _, node := range read.List {
		d.add(testOf(c, node))
	}
	d.isBroken = c.isBroken
	d.takesLists = len(d.lists) == 0 && d.has(listOf(nil))
	d.takesContexts = d.has(value{scalar: scalar{kind: ofContext}})
	return d, !c.isNamed
}

func testOf(c *calculator, node feel.Node) test {
	switch node := node.(type) {
	case *feel.Unary:
		return test{ends: []end{{node.Operator, c.of(node.Operand)}}}
	case *feel.Range:
		low, high := end{">=", c.of(node.Low)}, end{"<=", c.of(node.High)}
		if node.LowOpen {
			low.operator = ">"
		}
		if node.HighOpen {
			high.operator = "<"
		}
		return test{ends: []end{low, high}}
	}
	return test{constant: c.of(node)}
}

func (d *Domain) add(it test) {
	d.tests = append(d.tests, it)
	if it.ends != nil {
		d.orders = append(d.orders, it)
		return
	}
	for _, one := range it.equals() {
		if one.kind == ofList {
			d.lists = append(d.lists, one)
		} else {
			d.scalars[one.scalar] = true
		}
	}
}

// equals are the values that satisfy a test of equality: the constant, and its members if it is a list.
func (t test) equals() []value {
	return append(append([]value(nil), t.constant.items...), t.constant)
}

// IsAny reports whether each value surely lies in the domain, as in one that isn't declared.
func (d *Domain) IsAny() bool { return d == nil || d.isAny }

// Has reports whether a value lies in the domain. It is one that lines.Tree returns; one with a number that the engine doesn't take doesn't.
func (d *Domain) Has(tree any) bool {
	v, isTaken := valueOf(tree)
	return isTaken && d.has(v)
}

func (d *Domain) has(v value) bool {
	switch {
	case d.isAny:
		return true
	case d.isBroken:
		return false
	case d.isNegated:
		return d.answer(v) == no
	}
	return d.answer(v) == yes
}

// answer tells whether a value satisfies one of the tests.
func (d *Domain) answer(v value) truth {
	if d.isEqual(v) {
		return yes
	}
	answer := no
	for at := 0; at < len(d.orders) && answer < yes; at++ {
		answer = answer.or(d.orders[at].answer(v))
	}
	return answer
}

func (d *Domain) isEqual(v value) bool {
	if v.kind < ofList {
		return d.scalars[v.scalar]
	}
	for _, list := range d.lists {
		if equal(v, list) == yes {
			return true
		}
	}
	return false
}

// answer tells how a value stands to all ends.
func (t test) answer(v value) truth {
	answer := yes
	for _, it := range t.ends {
		answer = answer.and(comparison(it.operator, v, it.limit))
	}
	return answer
}

// Example returns a value of the domain, one at a border if there is one; false if none is found.
func (d *Domain) Example() (tree any, isFound bool) {
	var borders []value
	for _, it := range d.tests {
		if it.ends == nil {
			borders = append(borders, it.equals()...)
		}
		for _, one := range it.ends {
			borders = append(borders, one.limit, numberOf(one.limit.number+1), numberOf(one.limit.number-1), textOf(one.limit.text+"a"))
		}
	}
	for _, v := range append(borders, numberOf(1), textOf("text"), booleanOf(true), booleanOf(false), null) {
		if v.number >= -lines.MaxNumber && d.has(v) {
			return v.tree(), true
		}
	}
	return nil, false
}
