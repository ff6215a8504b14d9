package domain

import (
	"math/big"
	"strconv"

	"gateway/feel"
	"gateway/feel/strict"
	"gateway/lines"
)

// A calculator works out expressions that have no name.
type calculator struct {
	// isBroken is true once a value breaks a limit, isNamed once a name is met.
	isBroken, isNamed bool
}

// of works out an expression. Every part is worked out, as in the engine, but what the branch of an `if` that isn't taken breaks doesn't
// count.
func (c *calculator) of(node feel.Node) value {
	switch node := node.(type) {
	case *feel.Boolean:
		return booleanOf(node.Value)
	case *feel.Number:
		number, err := strconv.ParseInt(node.Text, 10, 64)
		c.isBroken = c.isBroken || err != nil
		return numberOf(number)
	case *feel.String:
		return textOf(node.Value)
	case *feel.Name:
		c.isNamed = true
	case *strict.Group:
		return c.of(node.Inside)
	case *feel.List:
		return c.list(node)
	case *feel.Call:
		return c.call(node)
	case *feel.Negation:
		return c.arithmetic("-", numberOf(0), c.of(node.Operand))
	case *feel.Path:
		return c.of(node.Operand).entry(node.Name)
	case *feel.Chain:
		return c.chain(node)
	case *feel.Binary:
		return comparison(node.Operator, c.of(node.Left), c.of(node.Right)).value()
	case *feel.Between:
		v, low, high := c.of(node.Operand), c.of(node.Low), c.of(node.High)
		return comparison(">=", v, low).and(comparison("<=", v, high)).value()
	case *feel.If:
		return c.choice(node)
	}
	return null
}

func (c *calculator) list(node *feel.List) value {
	items := make([]value, len(node.Items))
	for at, item := range node.Items {
		items[at] = c.of(item)
	}
	made := listOf(items)
	c.isBroken = c.isBroken || made.nodes() > lines.MaxNodes
	return made
}

// nodes counts a value and all its parts.
func (v value) nodes() int {
	count := 1
	for _, item := range v.items {
		count += item.nodes()
	}
	return count
}

func (c *calculator) choice(node *feel.If) value {
	condition, before := truthOf(c.of(node.Condition)), c.isBroken
	yesValue := c.of(node.Then)
	yesBroken := c.isBroken
	c.isBroken = before
	noValue := c.of(node.Else)
	if condition == yes {
		c.isBroken = yesBroken
		return yesValue
	}
	return noValue
}

func (c *calculator) chain(node *feel.Chain) value {
	made := c.of(node.Operands[0])
	for at, operator := range node.Operators {
		other := c.of(node.Operands[at+1])
		switch operator {
		case "and":
			made = truthOf(made).and(truthOf(other)).value()
		case "or":
			made = truthOf(made).or(truthOf(other)).value()
		default:
			made = c.arithmetic(operator, made, other)
		}
	}
	return made
}

// arithmetic works out a sum, difference or product; null if an operand is no number.
func (c *calculator) arithmetic(operator string, v, w value) value {
	if v.kind != ofNumber || w.kind != ofNumber {
		return null
	}
	x, y := big.NewInt(v.number), big.NewInt(w.number)
	switch operator {
	case "+":
		return c.whole(x.Add(x, y))
	case "-":
		return c.whole(x.Sub(x, y))
	}
	return c.whole(x.Mul(x, y))
}

// whole returns a number, unless it is past the range.
func (c *calculator) whole(number *big.Int) value {
	if number.CmpAbs(big.NewInt(lines.MaxNumber)) > 0 {
		c.isBroken = true
		return null
	}
	return numberOf(number.Int64())
}

func comparison(operator string, v, w value) truth {
	switch operator {
	case "=":
		return equal(v, w)
	case "!=":
		return equal(v, w).not()
	case "<":
		return less(v, w)
	case "<=":
		return less(w, v).not()
	case ">":
		return less(w, v)
	}
	return less(v, w).not()
}

func (c *calculator) call(node *feel.Call) value {
	given := c.of(node.Arguments[0].Value)
	name, _ := node.Function.(*feel.Name)
	switch name.Name {
	case "not":
		return truthOf(given).not().value()
	case "modulo":
		return modulo(given, c.of(node.Arguments[1].Value))
	case "abs":
		if given.kind == ofNumber && given.number < 0 {
			return numberOf(-given.number)
		}
		if given.kind == ofNumber {
			return given
		}
	case "count":
		if given.kind == ofList {
			return numberOf(int64(len(given.items)))
		}
	case "sum", "min", "max":
		return c.fold(name.Name, given)
	}
	return null
}

// fold works out the sum, the least or the greatest of a list of numbers; null for other values and the empty list.
func (c *calculator) fold(name string, list value) value {
	if list.kind != ofList || len(list.items) == 0 {
		return null
	}
	made := new(big.Int)
	for at, item := range list.items {
		if item.kind != ofNumber {
			return null
		}
		number := big.NewInt(item.number)
		switch order := number.Cmp(made); {
		case name == "sum":
			made.Add(made, number)
		case at == 0, name == "min" && order < 0, name == "max" && order > 0:
			made = number
		}
	}
	return c.whole(made)
}

// modulo returns x - y * floor(x / y); null if y is 0.
func modulo(x, y value) value {
	if x.kind != ofNumber || y.kind != ofNumber || y.number == 0 {
		return null
	}
	rest := x.number % y.number
	if rest != 0 && (rest < 0) != (y.number < 0) {
		rest += y.number
	}
	return numberOf(rest)
}
