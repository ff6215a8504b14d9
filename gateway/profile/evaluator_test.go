package profile_test

import (
	"encoding/json"
	"sort"
	"strings"

	"gateway/feel"
)

// The evaluator of the tests implements FEEL by the standard, over whole numbers (int64), texts, booleans, null (nil),
// lists and contexts. Translations are checked against it. It knows nothing of the engine's language.
type evaluator map[string]interface{}

type context map[string]interface{}

// with returns the evaluator with one more name.
func (e evaluator) with(name string, value interface{}) evaluator {
	inside := evaluator{}
	for key, v := range e {
		inside[key] = v
	}
	inside[name] = value
	return inside
}

func (e evaluator) value(n feel.Node) interface{} {
	switch n := n.(type) {
	case *feel.Number:
		var number int64
		if json.Unmarshal([]byte(strings.TrimLeft(strings.SplitN(n.Text, ".", 2)[0], "0")), &number) != nil {
			return int64(0)
		}
		return number
	case *feel.String:
		return n.Value
	case *feel.Boolean:
		return n.Value
	case *feel.Name:
		return e[n.Name]
	case *feel.Input:
		return e["?"]
	case *feel.List:
		return e.values(n.Items)
	case *feel.Context:
		return e.context(n)
	case *feel.Negation:
		return arithmetic("-", int64(0), e.value(n.Operand))
	case *feel.Chain:
		return e.chain(n)
	case *feel.Binary:
		return compared(n.Operator, e.value(n.Left), e.value(n.Right))
	case *feel.Between:
		x := e.value(n.Operand)
		return conjunction(compared(">=", x, e.value(n.Low)), compared("<=", x, e.value(n.High)))
	case *feel.In:
		return e.anyTest(n.Tests, e.value(n.Operand))
	case *feel.If:
		if e.value(n.Condition) == true {
			return e.value(n.Then)
		}
		return e.value(n.Else)
	case *feel.Path:
		return member(e.value(n.Operand), n.Name)
	case *feel.Call:
		return e.call(n)
	}
	return nil
}

func (e evaluator) values(nodes []feel.Node) []interface{} {
	all := make([]interface{}, len(nodes))
	for i, n := range nodes {
		all[i] = e.value(n)
	}
	return all
}

func (e evaluator) context(n *feel.Context) interface{} {
	made := context{}
	for _, entry := range n.Entries {
		made[entry.Key] = e.value(entry.Value)
		e = e.with(entry.Key, made[entry.Key])
	}
	return made
}

func (e evaluator) chain(n *feel.Chain) interface{} {
	soFar := e.value(n.Operands[0])
	for i, operator := range n.Operators {
		next := e.value(n.Operands[i+1])
		switch operator {
		case "and":
			soFar = conjunction(soFar, next)
		case "or":
			soFar = negation(conjunction(negation(soFar), negation(next)))
		default:
			soFar = arithmetic(operator, soFar, next)
		}
	}
	if len(n.Operators) > 0 && (n.Operators[0] == "and" || n.Operators[0] == "or") {
		if _, is := soFar.(bool); !is {
			return nil
		}
	}
	return soFar
}

func arithmetic(operator string, a, b interface{}) interface{} {
	x, fine := a.(int64)
	y, also := b.(int64)
	if !fine || !also {
		first, isText := a.(string)
		second, alsoText := b.(string)
		if operator == "+" && isText && alsoText {
			return first + second
		}
		return nil
	}
	switch operator {
	case "+":
		return x + y
	case "-":
		return x - y
	}
	return x * y
}

func negation(a interface{}) interface{} {
	if truth, is := a.(bool); is {
		return !truth
	}
	return nil
}

func conjunction(a, b interface{}) interface{} {
	switch {
	case a == false || b == false:
		return false
	case a == true && b == true:
		return true
	}
	return nil
}

func compared(operator string, a, b interface{}) interface{} {
	switch operator {
	case "=":
		return equal(a, b)
	case "!=":
		return negation(equal(a, b))
	case ">":
		return less(b, a)
	case "<=":
		return negation(less(b, a))
	case ">=":
		return negation(less(a, b))
	}
	return less(a, b)
}

func less(a, b interface{}) interface{} {
	switch x := a.(type) {
	case int64:
		if y, is := b.(int64); is {
			return x < y
		}
	case string:
		if y, is := b.(string); is {
			return x < y
		}
	}
	return nil
}

func equal(a, b interface{}) interface{} {
	if a == nil || b == nil {
		return a == nil && b == nil
	}
	switch x := a.(type) {
	case []interface{}:
		y, is := b.([]interface{})
		if !is {
			return nil
		}
		same := len(x) == len(y)
		for i := 0; same && i < len(x); i++ {
			same = equal(x[i], y[i]) == true
		}
		return same
	case context:
		y, is := b.(context)
		if !is {
			return nil
		}
		same := len(x) == len(y)
		for key, value := range x {
			other, found := y[key]
			same = same && found && equal(value, other) == true
		}
		return same
	case int64:
		if y, is := b.(int64); is {
			return x == y
		}
	case string:
		if y, is := b.(string); is {
			return x == y
		}
	case bool:
		if y, is := b.(bool); is {
			return x == y
		}
	}
	return nil
}

func member(of interface{}, name string) interface{} {
	switch v := of.(type) {
	case context:
		return v[name]
	case []interface{}:
		all := make([]interface{}, len(v))
		for i, item := range v {
			all[i] = member(item, name)
		}
		return all
	}
	return nil
}

// anyTest reports whether one of the tests holds for a value.
func (e evaluator) anyTest(tests []feel.Node, x interface{}) interface{} {
	var any interface{} = false
	for _, test := range tests {
		any = negation(conjunction(negation(any), negation(e.test(test, x))))
	}
	return any
}

func (e evaluator) test(n feel.Node, x interface{}) interface{} {
	switch n := n.(type) {
	case *feel.Anything:
		return true
	case *feel.NotTests:
		return negation(e.anyTest(n.Tests, x))
	case *feel.Unary:
		return compared(n.Operator, x, e.value(n.Operand))
	case *feel.Range:
		from, to := ">=", "<="
		if n.LowOpen {
			from = ">"
		}
		if n.HighOpen {
			to = "<"
		}
		return conjunction(compared(from, x, e.value(n.Low)), compared(to, x, e.value(n.High)))
	case *feel.List:
		// A list may contain the value or equal it: the test is true or false.
		for _, item := range n.Items {
			if equal(x, e.value(item)) == true {
				return true
			}
		}
		return equal(x, e.value(n)) == true
	}
	if feel.Any(n, func(n feel.Node) bool { _, is := n.(*feel.Input); return is }) {
		return e.with("?", x).value(n)
	}
	return equal(x, e.value(n))
}

func (e evaluator) call(n *feel.Call) interface{} {
	name := n.Function.(*feel.Name).Name
	var arguments []interface{}
	for _, a := range n.Arguments {
		arguments = append(arguments, e.value(a.Value))
	}
	switch name {
	case "g":
		// g(n, m), the business knowledge of the fuzzed files, is n * 2 - m.
		if n.Arguments[0].Name == "m" {
			arguments[0], arguments[1] = arguments[1], arguments[0]
		}
		return arithmetic("-", arithmetic("*", arguments[0], int64(2)), arguments[1])
	case "not":
		return negation(arguments[0])
	case "abs":
		if x, is := arguments[0].(int64); is && x < 0 {
			return -x
		} else if is {
			return x
		}
		return nil
	case "modulo":
		return modulo(arguments[0], arguments[1])
	}
	list := arguments
	if len(arguments) == 1 {
		if one, is := arguments[0].([]interface{}); is {
			list = one
		} else if arguments[0] == nil {
			return nil
		}
	}
	return aggregate(name, list)
}

func modulo(a, b interface{}) interface{} {
	x, fine := a.(int64)
	y, also := b.(int64)
	if !fine || !also || y == 0 {
		return nil
	}
	rest := x % y
	if rest != 0 && (rest < 0) != (y < 0) {
		rest += y
	}
	return rest
}

// aggregate returns sum, min, max or count of a list.
func aggregate(name string, list []interface{}) interface{} {
	if name == "count" {
		return int64(len(list))
	}
	if len(list) == 0 {
		return nil
	}
	if name == "sum" {
		sum := interface{}(int64(0))
		for _, x := range list {
			if _, number := x.(int64); !number {
				return nil
			}
			sum = arithmetic("+", sum, x)
		}
		return sum
	}
	best := list[0]
	for _, x := range list {
		smaller, comparable := less(x, best).(bool)
		if !comparable {
			return nil
		}
		if smaller == (name == "min") && equal(x, best) == false {
			best = x
		}
	}
	if _, comparable := less(best, best).(bool); !comparable {
		return nil
	}
	return best
}

// jsonOf returns a value as the engine writes it.
func jsonOf(value interface{}) string {
	switch v := value.(type) {
	case []interface{}:
		parts := make([]string, len(v))
		for i, x := range v {
			parts[i] = jsonOf(x)
		}
		return "[" + strings.Join(parts, ",") + "]"
	case context:
		keys := make([]string, 0, len(v))
		for key := range v {
			keys = append(keys, key)
		}
		sort.Strings(keys)
		for i, key := range keys {
			keys[i] = jsonOf(strings.ReplaceAll(key, " ", "_")) + ":" + jsonOf(v[key])
		}
		return "{" + strings.Join(keys, ",") + "}"
	}
	text, err := json.Marshal(value)
	if err != nil {
		return err.Error()
	}
	return string(text)
}
