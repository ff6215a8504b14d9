package export

import (
	"math/big"

	"gateway/feel"
)

// standard evaluates the part of FEEL that is written here, as DMN 1.3 means it. A value is nil, a bool, a *big.Int, a string,
// a []any or a map[string]any. It is only for tests, and independent of the engine.
type standard struct {
	bound map[string]any
	// input is the value of "?".
	input any
}

func (s standard) value(node feel.Node) any {
	switch e := node.(type) {
	case *feel.Number:
		n, _ := new(big.Int).SetString(e.Text, 10)
		return n
	case *feel.String:
		return e.Value
	case *feel.Boolean:
		return e.Value
	case *feel.Name:
		return s.bound[e.Name]
	case *feel.Input:
		return s.input
	case *feel.Negation:
		return numbers(s.value(e.Operand), new(big.Int), func(a, _ *big.Int) any { return new(big.Int).Neg(a) })
	case *feel.List:
		list := []any{}
		for _, item := range e.Items {
			list = append(list, s.value(item))
		}
		return list
	case *feel.If:
		if s.value(e.Condition) == true {
			return s.value(e.Then)
		}
		return s.value(e.Else)
	case *feel.Path:
		return entry(s.value(e.Operand), e.Name)
	case *feel.Chain:
		return s.chain(e)
	case *feel.Binary:
		return compared(s.value(e.Left), e.Operator, s.value(e.Right))
	case *feel.Between:
		x := s.value(e.Operand)
		return both(compared(x, ">=", s.value(e.Low)), compared(x, "<=", s.value(e.High)))
	case *feel.InstanceOf:
		_, list := s.value(e.Operand).([]any)
		return list
	case *feel.Call:
		return s.call(e)
	}
	return nil
}

func numbers(a, b any, operate func(a, b *big.Int) any) any {
	x, first := a.(*big.Int)
	y, second := b.(*big.Int)
	if !first || !second {
		return nil
	}
	return operate(x, y)
}

func entry(of any, name string) any {
	switch v := of.(type) {
	case map[string]any:
		return v[name]
	case []any:
		list := []any{}
		for _, member := range v {
			list = append(list, entry(member, name))
		}
		return list
	}
	return nil
}

func (s standard) chain(e *feel.Chain) any {
	left := s.value(e.Operands[0])
	for i, operator := range e.Operators {
		left = operated(left, operator, s.value(e.Operands[i+1]))
	}
	return left
}

func operated(a any, operator string, b any) any {
	switch operator {
	case "and":
		return both(a, b)
	case "or":
		return negation(both(negation(a), negation(b)))
	case "+":
		x, first := a.(string)
		y, second := b.(string)
		if first && second {
			return x + y
		}
		return numbers(a, b, func(a, b *big.Int) any { return new(big.Int).Add(a, b) })
	case "-":
		return numbers(a, b, func(a, b *big.Int) any { return new(big.Int).Sub(a, b) })
	}
	return numbers(a, b, func(a, b *big.Int) any { return new(big.Int).Mul(a, b) })
}

func both(a, b any) any {
	switch {
	case a == false || b == false:
		return false
	case a == true && b == true:
		return true
	}
	return nil
}

func negation(a any) any {
	if yes, ok := a.(bool); ok {
		return !yes
	}
	return nil
}

// compared returns a comparison, or nil if the standard says null.
func compared(a any, operator string, b any) any {
	switch operator {
	case "=":
		return equal(a, b)
	case "!=":
		return negation(equal(a, b))
	}
	order := 0
	switch x := a.(type) {
	case *big.Int:
		y, ok := b.(*big.Int)
		if !ok {
			return nil
		}
		order = x.Cmp(y)
	case string:
		y, ok := b.(string)
		if !ok {
			return nil
		}
		order = len([]byte(x[:commonPrefix(x, y)]))
		order = orderOf(x[order:], y[order:])
	default:
		return nil
	}
	switch operator {
	case "<":
		return order < 0
	case "<=":
		return order <= 0
	case ">":
		return order > 0
	}
	return order >= 0
}

func commonPrefix(a, b string) int {
	n := 0
	for n < len(a) && n < len(b) && a[n] == b[n] {
		n++
	}
	return n
}

func orderOf(a, b string) int {
	switch {
	case a == b:
		return 0
	case a < b:
		return -1
	}
	return 1
}

// equal reports whether two values are equal; nil if their kinds differ and neither is null.
func equal(a, b any) any {
	if a == nil || b == nil {
		return a == nil && b == nil
	}
	switch x := a.(type) {
	case *big.Int:
		if y, ok := b.(*big.Int); ok {
			return x.Cmp(y) == 0
		}
	case string:
		if y, ok := b.(string); ok {
			return x == y
		}
	case bool:
		if y, ok := b.(bool); ok {
			return x == y
		}
	case []any:
		if y, ok := b.([]any); ok {
			return equalLists(x, y)
		}
	case map[string]any:
		if y, ok := b.(map[string]any); ok {
			return equalContexts(x, y)
		}
	}
	return nil
}

func equalLists(a, b []any) bool {
	if len(a) != len(b) {
		return false
	}
	for i := range a {
		if equal(a[i], b[i]) != true {
			return false
		}
	}
	return true
}

func equalContexts(a, b map[string]any) bool {
	if len(a) != len(b) {
		return false
	}
	for name, value := range a {
		other, found := b[name]
		if !found || equal(value, other) != true {
			return false
		}
	}
	return true
}

func (s standard) call(e *feel.Call) any {
	var values []any
	for _, argument := range e.Arguments {
		values = append(values, s.value(argument.Value))
	}
	switch function(e) {
	case "not":
		return negation(values[0])
	case "abs":
		return numbers(values[0], new(big.Int), func(a, _ *big.Int) any { return new(big.Int).Abs(a) })
	case "modulo":
		return numbers(values[0], values[1], modulo)
	case "list contains":
		list, ok := values[0].([]any)
		return ok && contains(list, values[1])
	}
	list, ok := values[0].([]any)
	switch {
	case values[0] == nil:
		return nil
	case !ok:
		// A single value counts as a list of one.
		list = values
	}
	if function(e) == "count" {
		return big.NewInt(int64(len(list)))
	}
	return aggregated(function(e), list)
}

func modulo(a, b *big.Int) any {
	if b.Sign() == 0 {
		return nil
	}
	rest := new(big.Int).Mod(a, b)
	if rest.Sign() != 0 && b.Sign() < 0 {
		rest.Add(rest, b)
	}
	return rest
}

func contains(list []any, value any) bool {
	for _, member := range list {
		if equal(member, value) == true {
			return true
		}
	}
	return false
}

// aggregated returns the sum of numbers, or the least or greatest of numbers or texts.
func aggregated(called string, list []any) any {
	var found any
	for i, member := range list {
		switch {
		case i == 0 && called == "sum":
			found = numbers(member, new(big.Int), func(a, _ *big.Int) any { return a })
		case i == 0:
			found = member
		case called == "sum":
			found = numbers(found, member, func(a, b *big.Int) any { return new(big.Int).Add(a, b) })
		default:
			sign := map[string]string{"min": "<", "max": ">"}[called]
			switch compared(member, sign, found) {
			case true:
				found = member
			case nil:
				return nil
			}
		}
		if found == nil {
			return nil
		}
	}
	switch found.(type) {
	case *big.Int, string:
		return found
	}
	return nil
}

// meets reports whether the input meets one of the tests; nil if that is unknown.
func (s standard) meets(tests []feel.Node) any {
	var met any = false
	for _, test := range tests {
		met = operated(met, "or", s.test(test))
	}
	return met
}

func (s standard) test(test feel.Node) any {
	switch e := test.(type) {
	case *feel.Anything:
		return true
	case *feel.NotTests:
		return negation(s.meets(e.Tests))
	case *feel.Unary:
		return compared(s.input, e.Operator, s.value(e.Operand))
	case *feel.Range:
		low, high := ">=", "<="
		if e.LowOpen {
			low = ">"
		}
		if e.HighOpen {
			high = "<"
		}
		return both(compared(s.input, low, s.value(e.Low)), compared(s.input, high, s.value(e.High)))
	case *feel.Boolean:
		return equal(s.input, e.Value)
	}
	value := s.value(test)
	if feel.Any(test, func(n feel.Node) bool { _, is := n.(*feel.Input); return is }) {
		return value
	}
	if list, ok := value.([]any); ok {
		return contains(list, s.input) || equal(s.input, value) == true
	}
	if value == true {
		return true
	}
	return equal(s.input, value)
}
