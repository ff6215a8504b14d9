package profile

import (
	"fmt"
	"math/big"
	"strings"

	"gateway/feel"
)

// A builtin is a FEEL function that the engine has.
type builtin struct {
	// parameters are their names in named arguments.
	parameters []string
	// variadic is true if the arguments may replace one list.
	variadic bool
	// quotients is true if the first argument may be a quotient, constants if all may be quotients by constants.
	quotients, constants bool
	make                 func(t *translator, n *feel.Call, arguments []phrase) phrase
}

var builtins = map[string]builtin{
	"abs":    {parameters: []string{"n"}, constants: true, make: absCall},
	"modulo": {parameters: []string{"dividend", "divisor"}, make: moduloCall},
	"not":    {parameters: []string{"negand"}, make: plainCall("not", booleanType)},
	"sum":    {parameters: []string{"list"}, variadic: true, make: sumCall},
	"min":    {parameters: []string{"list"}, variadic: true, constants: true, make: extremeCall("min")},
	"max":    {parameters: []string{"list"}, variadic: true, constants: true, make: extremeCall("max")},
	"count":  {parameters: []string{"list"}, make: countCall},
}

// insteadOf says what to write in place of functions that the engine lacks.
var insteadOf = map[string]string{
	"day of week": "d.weekday, which is 1 for Monday", "month of year": "d.month",
	"list contains": "a list of numbers, texts or booleans by its declared type, and a value of theirs",
}

// call translates an invocation of business knowledge or of a FEEL function.
func (t *translator) call(n *feel.Call, s *scope) phrase {
	name, isName := n.Function.(*feel.Name)
	if !isName {
		return t.refuse(n, "functions are no values of the profile", "a business knowledge model, invoked by its name")
	}
	if name.Known {
		return t.callKnown(n, name, s)
	}
	if _, rounds := roundings[name.Name]; rounds {
		return t.roundedCall(n, name.Name, s)
	}
	if made, is := t.listCall(n, name.Name, s); is {
		return made
	}
	if made, is := t.temporalCall(n, name.Name, s); is {
		return made
	}
	function, found := builtins[name.Name]
	if !found {
		return t.refuse(n, "there is no function "+name.Name, t.insteadOfCall(n, name.Name))
	}
	arguments, why := t.arranged(n, function, s)
	if why != "" {
		return t.refuse(n, why, "")
	}
	for _, a := range arguments {
		if a.of.kind == refusedKind {
			return refused
		}
	}
	if why, instead := withoutTemporals(name.Name, arguments); why != "" {
		return t.refuse(n, why, instead)
	}
	if arguments, isFine := t.asScalars(n, name.Name, arguments); isFine {
		return function.make(t, n, arguments)
	}
	return refused
}

// callKnown invokes a name of the model.
func (t *translator) callKnown(n *feel.Call, name *feel.Name, s *scope) phrase {
	found := s.find(name.Name)
	switch {
	case found != nil && found.service:
		return t.refuse(n, "decision services are not invoked", "need its output decision")
	case found == nil || found.function == nil:
		return t.refuse(n, "it is a value of the model, and no function", "another name for the value")
	}
	arguments := make([]argument, len(n.Arguments))
	for i, a := range n.Arguments {
		value := t.bounded(a.Value, t.constantQuotient(a.Value, t.value(a.Value, s)))
		arguments[i] = argument{name: a.Name, value: t.boxed(t.conditioned(value)), of: value.of}
	}
	refuse := func(why, instead string) { t.refuse(n, why, instead) }
	made, of := t.invoked(found.function, arguments, refuse)
	if made == nil {
		return refused
	}
	return t.inFront(t.words.local(found.function.name), made, of)
}

// arranged translates the arguments of a FEEL function, in the order of its parameters. Why says what is wrong with
// their number or names.
func (t *translator) arranged(n *feel.Call, function builtin, s *scope) (arguments []phrase, why string) {
	due := len(function.parameters)
	if len(n.Arguments) != due && !(function.variadic && len(n.Arguments) > due) {
		return nil, fmt.Sprintf("%d arguments, where %d are due: %s", len(n.Arguments), due,
			strings.Join(function.parameters, ", "))
	}
	arguments = make([]phrase, len(n.Arguments))
	filled := make([]bool, len(n.Arguments))
	for i, a := range n.Arguments {
		place := i
		if a.Name != "" {
			place = indexOf(function.parameters, a.Name)
		}
		if place < 0 || filled[place] {
			return nil, fmt.Sprintf("the argument %q is not one of %s, or is given twice", a.Name,
				strings.Join(function.parameters, ", "))
		}
		filled[place] = true
		switch {
		case function.quotients && place == 0:
			arguments[place] = t.maybeQuotient(a.Value, s)
		case function.constants:
			arguments[place] = t.chosen(a.Value, s)
		default:
			arguments[place] = t.operand(a.Value, s)
		}
	}
	return arguments, ""
}

func indexOf(all []string, one string) int {
	for i, s := range all {
		if s == one {
			return i
		}
	}
	return -1
}

// absCall translates abs, which also takes a quotient.
func absCall(t *translator, _ *feel.Call, arguments []phrase) phrase {
	x := arguments[0]
	made := call("abs", numberOf(uncelled(t.within(x.of))), x)
	if x.number != nil {
		made.number = new(big.Rat).Abs(x.number)
	}
	return made
}

// moduloCall translates modulo, whose operands are brought to one unit.
func moduloCall(t *translator, n *feel.Call, arguments []phrase) phrase {
	u := unitsOf(arguments)
	for i, a := range arguments {
		arguments[i] = t.recountedOr(n, a, u)
	}
	return call("modulo", numberOf(u), arguments...)
}

func plainCall(name string, of *valueType) func(*translator, *feel.Call, []phrase) phrase {
	return func(_ *translator, _ *feel.Call, arguments []phrase) phrase { return call(name, of, arguments...) }
}

// gathered returns the arguments of sum, min or max as one list.
func (t *translator) gathered(n *feel.Call, arguments []phrase) phrase {
	if len(arguments) == 1 {
		return arguments[0]
	}
	return listing(arguments, listOf(t.together(arguments, t.refusal(n))))
}

// sumCall translates sum. The sum of one value that isn't a list is that value, unlike in the engine.
func sumCall(t *translator, n *feel.Call, arguments []phrase) phrase {
	list := t.gathered(n, arguments)
	of := numberOf(uncelled(t.within(list.of)))
	switch {
	case list.of.hasQuotient():
		return t.refuse(n, "a sum of quotients: each is rounded to 34 digits in the standard", quotientInstead)
	case list.of.kind == listKind:
		return call("sum", of, list)
	case list.of.kind != anyKind:
		return call("sum", of, listing([]phrase{list}, listOf(list.of)))
	}
	list = t.short(list)
	isList := infix(call("count", numberType, list), ">=", constant("0", numberType), rankComparison, booleanType)
	return choice(isList, call("sum", of, list), call("sum", of, listing([]phrase{list}, listOf(anyType))))
}

// extremeCall translates min and max of numbers. The standard has them for texts too.
func extremeCall(name string) func(*translator, *feel.Call, []phrase) phrase {
	return func(t *translator, n *feel.Call, arguments []phrase) phrase {
		list := t.gathered(n, arguments)
		if list.of.isScalar() {
			list = listing([]phrase{list}, listOf(list.of))
		}
		if list.of.kind == listKind {
			switch element := list.of.element; {
			case element.kind == numberKind || element.isNothing():
				return call(name, numberOf(uncelled(t.within(list.of))), list)
			case element.isTemporal():
				return call(name, &valueType{kind: element.kind, sort: element.sort}, list)
			}
		}
		return t.refuse(n, fmt.Sprintf("%s of what may be no numbers: the standard has a %s of texts, the profile has not",
			name, name), "the type number for what it is taken of")
	}
}

// countCall translates count, of lists only.
func countCall(t *translator, n *feel.Call, arguments []phrase) phrase {
	if arguments[0].of.kind != listKind {
		return t.refuse(n, "count of what may be no list: the standard makes a list of it, the profile doesn't",
			"a list type for it")
	}
	return call("count", numberType, arguments[0])
}
