package profile_test

import (
	"math/big"
	"sort"
	"strings"
	"time"

	"gateway/feel"
)

// The evaluator of decimals implements FEEL by the standard, over decimals of 34 digits (*big.Rat), texts, booleans,
// null (nil), lists and contexts. It knows nothing of units.
type decimals map[string]any

type record map[string]any

func (e decimals) with(name string, value any) decimals {
	inside := decimals{}
	for key, v := range e {
		inside[key] = v
	}
	inside[name] = value
	return inside
}

// rounded34 rounds a number to 34 significant digits, half even.
func rounded34(x *big.Rat) *big.Rat {
	if x.Sign() == 0 {
		return x
	}
	abs := new(big.Rat).Abs(x)
	shift := 0
	limit := new(big.Rat).SetInt(tenTo(34))
	low := new(big.Rat).SetInt(tenTo(33))
	ten := big.NewRat(10, 1)
	for abs.Cmp(limit) >= 0 {
		abs.Quo(abs, ten)
		shift++
	}
	for abs.Cmp(low) < 0 {
		abs.Mul(abs, ten)
		shift--
	}
	whole := new(big.Rat).SetInt(toEven(abs))
	if shift >= 0 {
		whole.Mul(whole, new(big.Rat).SetInt(tenTo(shift)))
	} else {
		whole.Quo(whole, new(big.Rat).SetInt(tenTo(-shift)))
	}
	if x.Sign() < 0 {
		whole.Neg(whole)
	}
	return whole
}

func tenTo(n int) *big.Int { return new(big.Int).Exp(big.NewInt(10), big.NewInt(int64(n)), nil) }

// toEven rounds a non-negative number to the nearest whole one, halves to the even one.
func toEven(x *big.Rat) *big.Int {
	floor := new(big.Int).Quo(x.Num(), x.Denom())
	rest := new(big.Rat).Sub(x, new(big.Rat).SetInt(floor))
	switch rest.Cmp(big.NewRat(1, 2)) {
	case 1:
		return floor.Add(floor, big.NewInt(1))
	case 0:
		if floor.Bit(0) == 1 {
			return floor.Add(floor, big.NewInt(1))
		}
	}
	return floor
}

// roundedTo rounds to a number of decimals, in the way of "decimal", "floor", "ceiling" and so on.
func roundedTo(way string, x *big.Rat, digits int) *big.Rat {
	unit := new(big.Rat).SetInt(tenTo(abs(digits)))
	if digits < 0 {
		unit.Inv(unit)
	}
	at := new(big.Rat).Mul(x, unit)
	size := new(big.Rat).Abs(at)
	floor := new(big.Int).Quo(size.Num(), size.Denom())
	rest := new(big.Rat).Sub(size, new(big.Rat).SetInt(floor))
	half := rest.Cmp(big.NewRat(1, 2))
	isNegative := at.Sign() < 0
	up := false
	switch way {
	case "decimal":
		up = half > 0 || half == 0 && floor.Bit(0) == 1
	case "floor":
		up = isNegative && rest.Sign() > 0
	case "ceiling":
		up = !isNegative && rest.Sign() > 0
	case "round up":
		up = rest.Sign() > 0
	case "round half up":
		up = half >= 0
	case "round half down":
		up = half > 0
	}
	if up {
		floor.Add(floor, big.NewInt(1))
	}
	if isNegative {
		floor.Neg(floor)
	}
	return new(big.Rat).Quo(new(big.Rat).SetInt(floor), unit)
}

func abs(n int) int {
	if n < 0 {
		return -n
	}
	return n
}

func (e decimals) value(n feel.Node) any {
	switch n := n.(type) {
	case *feel.Number:
		number, _ := new(big.Rat).SetString(n.Text)
		return number
	case *feel.String:
		return n.Value
	case *feel.Boolean:
		return n.Value
	case *feel.Name:
		return e[n.Name]
	case *feel.Input:
		return e["?"]
	case *feel.AtLiteral:
		switch {
		case strings.Contains(n.Text, "P"):
			return readDuration(n.Text)
		case strings.Contains(n.Text, "T"):
			return readStamp(n.Text)
		case strings.Contains(n.Text, ":"):
			return readHour(n.Text)
		}
		return readDate(n.Text)
	case *feel.List:
		return e.values(n.Items)
	case *feel.Context:
		made := record{}
		for _, entry := range n.Entries {
			made[entry.Key] = e.value(entry.Value)
			e = e.with(entry.Key, made[entry.Key])
		}
		return made
	case *feel.Negation:
		return calculated("-", new(big.Rat), e.value(n.Operand))
	case *feel.Chain:
		return e.chain(n)
	case *feel.Binary:
		if n.Operator == "**" {
			return e.power(n)
		}
		return ordered(n.Operator, e.value(n.Left), e.value(n.Right))
	case *feel.Between:
		x := e.value(n.Operand)
		return conjunction(ordered(">=", x, e.value(n.Low)), ordered("<=", x, e.value(n.High)))
	case *feel.In:
		return e.anyTest(n.Tests, e.value(n.Operand))
	case *feel.If:
		if e.value(n.Condition) == true {
			return e.value(n.Then)
		}
		return e.value(n.Else)
	case *feel.Path:
		return entryOf(e.value(n.Operand), n.Name)
	case *feel.Call:
		return e.call(n)
	case *feel.Filter:
		return e.filtered(n)
	case *feel.Quantified:
		for _, item := range e.value(n.Iterators[0].List).([]any) {
			if e.with(n.Iterators[0].Name, item).value(n.Condition) == true {
				return true
			}
		}
		return false
	}
	return nil
}

func (e decimals) power(n *feel.Binary) any {
	base, exponent := e.value(n.Left), e.value(n.Right).(*big.Rat)
	made := any(big.NewRat(1, 1))
	for i := int64(0); i < exponent.Num().Int64(); i++ {
		made = calculated("*", made, base)
	}
	return made
}

func (e decimals) values(nodes []feel.Node) []any {
	all := make([]any, len(nodes))
	for i, n := range nodes {
		all[i] = e.value(n)
	}
	return all
}

func (e decimals) chain(n *feel.Chain) any {
	soFar := e.value(n.Operands[0])
	for i, operator := range n.Operators {
		next := e.value(n.Operands[i+1])
		switch operator {
		case "and":
			soFar = conjunction(soFar, next)
		case "or":
			soFar = negation(conjunction(negation(soFar), negation(next)))
		default:
			soFar = calculated(operator, soFar, next)
		}
	}
	if n.Operators[0] == "and" || n.Operators[0] == "or" {
		if _, is := soFar.(bool); !is {
			return nil
		}
	}
	return soFar
}

func calculated(operator string, a, b any) any {
	if made, is := calculatedDates(operator, a, b); is {
		return made
	}
	x, fine := a.(*big.Rat)
	y, also := b.(*big.Rat)
	if !fine || !also {
		return nil
	}
	made := new(big.Rat)
	switch operator {
	case "+":
		made.Add(x, y)
	case "-":
		made.Sub(x, y)
	case "*":
		made.Mul(x, y)
	default:
		if y.Sign() == 0 {
			return nil
		}
		made.Quo(x, y)
	}
	return rounded34(made)
}

func ordered(operator string, a, b any) any {
	switch operator {
	case "=":
		return same(a, b)
	case "!=":
		return negation(same(a, b))
	case ">":
		return before(b, a)
	case "<=":
		return negation(before(b, a))
	case ">=":
		return negation(before(a, b))
	}
	return before(a, b)
}

func before(a, b any) any {
	switch x := a.(type) {
	case *big.Rat:
		if y, is := b.(*big.Rat); is {
			return x.Cmp(y) < 0
		}
	case string:
		if y, is := b.(string); is {
			return x < y
		}
	case time.Time:
		if y, is := b.(time.Time); is {
			return x.Before(y)
		}
	case stamp:
		if y, is := b.(stamp); is {
			return x.Before(y.Time)
		}
	case hour:
		if y, is := b.(hour); is {
			return x < y
		}
	case span:
		if y, is := b.(span); is {
			return x < y
		}
	case term:
		if y, is := b.(term); is {
			return x < y
		}
	}
	return nil
}

func same(a, b any) any {
	if a == nil || b == nil {
		return a == nil && b == nil
	}
	switch x := a.(type) {
	case *big.Rat:
		if y, is := b.(*big.Rat); is {
			return x.Cmp(y) == 0
		}
	case []any:
		y, is := b.([]any)
		if !is {
			return nil
		}
		equal := len(x) == len(y)
		for i := 0; equal && i < len(x); i++ {
			equal = same(x[i], y[i]) == true
		}
		return equal
	case record:
		y, is := b.(record)
		if !is {
			return nil
		}
		equal := len(x) == len(y)
		for key, value := range x {
			other, found := y[key]
			equal = equal && found && same(value, other) == true
		}
		return equal
	case string:
		if y, is := b.(string); is {
			return x == y
		}
	case bool:
		if y, is := b.(bool); is {
			return x == y
		}
	case time.Time:
		if y, is := b.(time.Time); is {
			return x.Equal(y)
		}
	case stamp:
		if y, is := b.(stamp); is {
			return x.Equal(y.Time)
		}
	case hour:
		if y, is := b.(hour); is {
			return x == y
		}
	case span:
		if y, is := b.(span); is {
			return x == y
		}
	case term:
		if y, is := b.(term); is {
			return x == y
		}
	}
	return nil
}

func entryOf(of any, name string) any {
	switch v := of.(type) {
	case time.Time, stamp, hour, span, term:
		return partOfDate(of, name)
	case record:
		return v[name]
	case []any:
		all := make([]any, len(v))
		for i, item := range v {
			all[i] = entryOf(item, name)
		}
		return all
	}
	return nil
}

func (e decimals) anyTest(tests []feel.Node, x any) any {
	var any any = false
	for _, test := range tests {
		any = negation(conjunction(negation(any), negation(e.test(test, x))))
	}
	return any
}

func (e decimals) test(n feel.Node, x any) any {
	switch n := n.(type) {
	case *feel.Anything:
		return true
	case *feel.NotTests:
		return negation(e.anyTest(n.Tests, x))
	case *feel.Unary:
		return ordered(n.Operator, x, e.value(n.Operand))
	case *feel.Range:
		from, to := ">=", "<="
		if n.LowOpen {
			from = ">"
		}
		if n.HighOpen {
			to = "<"
		}
		return conjunction(ordered(from, x, e.value(n.Low)), ordered(to, x, e.value(n.High)))
	case *feel.List:
		for _, item := range n.Items {
			if same(x, e.value(item)) == true {
				return true
			}
		}
		return same(x, e.value(n)) == true
	}
	if feel.Any(n, func(n feel.Node) bool { _, is := n.(*feel.Input); return is }) {
		return e.with("?", x).value(n)
	}
	value := e.value(n)
	if list, is := value.([]any); is {
		return contained(list, x)
	}
	return same(x, value)
}

func (e decimals) call(n *feel.Call) any {
	name := n.Function.(*feel.Name).Name
	var arguments []any
	for _, a := range n.Arguments {
		arguments = append(arguments, e.value(a.Value))
	}
	switch name {
	case "g":
		// g(n, m), the business knowledge of the tests' files, is decimal(n * 1.19, 2) - m.
		net, is := calculated("*", arguments[0], big.NewRat(119, 100)).(*big.Rat)
		if !is {
			return nil
		}
		return calculated("-", roundedTo("decimal", net, 2), arguments[1])
	case "not":
		return negation(arguments[0])
	case "date", "time", "date and time", "duration", "years and months duration", "list contains":
		return calledDates(name, arguments)
	case "abs":
		if x, is := arguments[0].(*big.Rat); is {
			return new(big.Rat).Abs(x)
		}
		return nil
	case "modulo":
		return remainder(arguments[0], arguments[1])
	case "sum", "min", "max", "count":
		return aggregated(name, arguments)
	}
	x, is := arguments[0].(*big.Rat)
	if !is {
		return nil
	}
	digits := 0
	if len(arguments) == 2 {
		digits = int(arguments[1].(*big.Rat).Num().Int64())
	}
	return roundedTo(name, x, digits)
}

func remainder(a, b any) any {
	x, fine := a.(*big.Rat)
	y, also := b.(*big.Rat)
	if !fine || !also || y.Sign() == 0 {
		return nil
	}
	quotient := new(big.Rat).Quo(x, y)
	floor := new(big.Rat).SetInt(new(big.Int).Div(quotient.Num(), quotient.Denom()))
	return new(big.Rat).Sub(x, floor.Mul(floor, y))
}

func aggregated(name string, arguments []any) any {
	list := arguments
	if len(arguments) == 1 {
		if one, is := arguments[0].([]any); is {
			list = one
		} else if arguments[0] == nil {
			return nil
		}
	}
	if name == "count" {
		return new(big.Rat).SetInt64(int64(len(list)))
	}
	if len(list) == 0 {
		return nil
	}
	if made, is := extremeDate(name, list); is {
		return made
	}
	soFar, is := list[0].(*big.Rat)
	for _, item := range list[1:] {
		x, also := item.(*big.Rat)
		if !is || !also {
			return nil
		}
		switch {
		case name == "sum":
			soFar = rounded34(new(big.Rat).Add(soFar, x))
		case (x.Cmp(soFar) < 0) == (name == "min") && x.Cmp(soFar) != 0:
			soFar = x
		}
	}
	if !is {
		return nil
	}
	return soFar
}

// decimalText writes a value as JSON, with numbers in their shortest form.
func decimalText(value any) string {
	switch v := value.(type) {
	case time.Time, stamp, hour, span, term:
		return jsonOf(dateText(v))
	case *big.Rat:
		text := v.FloatString(60)
		text = strings.TrimSuffix(strings.TrimRight(text, "0"), ".")
		if text == "-0" {
			return "0"
		}
		return text
	case []any:
		parts := make([]string, len(v))
		for i, x := range v {
			parts[i] = decimalText(x)
		}
		return "[" + strings.Join(parts, ",") + "]"
	case record:
		keys := make([]string, 0, len(v))
		for key := range v {
			keys = append(keys, key)
		}
		sort.Strings(keys)
		for i, key := range keys {
			keys[i] = jsonOf(strings.ReplaceAll(key, " ", "_")) + ":" + decimalText(v[key])
		}
		return "{" + strings.Join(keys, ",") + "}"
	}
	return jsonOf(value)
}
