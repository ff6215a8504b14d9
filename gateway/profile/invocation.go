package profile

import (
	"fmt"
	"strings"

	"gateway/feel"
)

// An argument is one of an invocation; name is empty for a positional argument.
type argument struct {
	name  string
	value *box
	of    *valueType
}

// mostActive is how deeply invocations may nest.
const mostActive = 1000

// invoked translates an invocation of business knowledge to a context. Its entries are the arguments, under fresh words
// for the parameters; its result is the body, which sees only these. It is nil if the invocation is refused.
func (t *translator) invoked(k *knowledge, arguments []argument, refuse func(why, instead string)) (*box, *valueType) {
	k.used = true
	t.wrote(bytesOfEntry)
	switch {
	case t.full:
		return nil, refusedType
	case len(t.active) == mostActive:
		refuse(fmt.Sprintf("invocations nest over %d levels deep", mostActive), "decisions in their place")
		return nil, refusedType
	case t.active[k]:
		refuse(fmt.Sprintf("%s invokes itself", k.name), "a chain of decisions, one for each step")
		return nil, refusedType
	case k.Logic == nil || k.Logic.Body == nil || k.Logic.Kind != "FEEL":
		return nil, refusedType
	}
	placed, why := placedArguments(k, arguments)
	if why != "" {
		refuse(why, "an argument for each parameter")
		return nil, refusedType
	}
	inside, entries := t.bound(k, placed, refuse)
	t.active[k] = true
	before, column, near := t.types, t.column, t.near
	t.types, t.column, t.near = k.types, nil, k.Element
	body, of := t.expression(k.Logic.Body, inside)
	t.checkReturned(k, body, of)
	t.types, t.column, t.near = before, column, near
	delete(t.active, k)
	if len(entries) == 0 {
		return body, of
	}
	return &box{kind: contextBox, entries: entries, result: body}, of
}

// checkReturned checks the type of a body against that of the variable, which some tools take for the type of the
// result, and others for that of the function.
func (t *translator) checkReturned(k *knowledge, body *box, of *valueType) {
	if k.Variable == nil || t.types.isFunction(k.Variable.TypeRef) {
		return
	}
	due := t.types.resolve(k.Variable.Element, k.Variable.TypeRef)
	if due == nil {
		return
	}
	switch fit := of.fitOf(due); {
	case fit == never || fit == single:
		t.refusals.refuse(k.Variable.Element, "", fmt.Sprintf("the body is of the type %s, where %s is declared", of, due),
			"the type of the body, or none")
	case of.kind != refusedKind && due.isNarrow() && !t.isSure(body, of, due):
		t.refusals.refuse(k.Variable.Element, "", "the body may be none of the allowed values of its declared type",
			"this type at the expression of the body, where what is none becomes null")
	}
}

// bound returns the scope of a body with its parameters bound to fresh words, and the entries for these.
func (t *translator) bound(k *knowledge, placed []argument, refuse func(why, instead string)) (*scope, []boxEntry) {
	inside := k.scope()
	entries := make([]boxEntry, len(placed))
	for i, parameter := range k.Logic.Parameters {
		a := placed[i]
		if due := k.types.resolve(parameter.Element, parameter.TypeRef); due != nil {
			a.value, a.of = t.conform(a.value, a.of, due, func(why, instead string) {
				refuse(fmt.Sprintf("the argument for %s: %s", parameter.Name(), why), instead)
			})
		}
		word := t.words.local(parameter.Name())
		t.wrote(len(word) + bytesOfEntry)
		entries[i] = boxEntry{word: word, value: a.value, of: a.of}
		inside.bindWord(parameter.Name(), word, a.of)
	}
	return inside, entries
}

// scope returns what a body sees besides its parameters: the business knowledge that it requires.
func (k *knowledge) scope() *scope {
	if k.names == nil {
		k.names = newScope(nil)
		for _, known := range k.known {
			k.names.bind(known.name, &binding{function: known})
		}
	}
	return newScope(k.names)
}

// placedArguments puts arguments in the order of the parameters. Why says what is wrong with their number or names.
func placedArguments(k *knowledge, arguments []argument) (placed []argument, why string) {
	parameters := make([]string, len(k.Logic.Parameters))
	places := make(map[string]int, len(parameters))
	for i, p := range k.Logic.Parameters {
		parameters[i] = feel.Canonical(p.Name())
		places[parameters[i]] = i
	}
	if len(arguments) != len(parameters) {
		return nil, fmt.Sprintf("%d arguments, where %s has %d parameters: %s", len(arguments), k.name, len(parameters),
			strings.Join(parameters, ", "))
	}
	placed = make([]argument, len(arguments))
	filled := make([]bool, len(arguments))
	for i, a := range arguments {
		at, found := i, true
		if a.name != "" {
			at, found = places[a.name]
		}
		if !found || filled[at] {
			return nil, fmt.Sprintf("the argument %q is no parameter of %s, or is given twice", a.name, k.name)
		}
		filled[at], placed[at] = true, a
	}
	return placed, ""
}
