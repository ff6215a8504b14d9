package profile

import (
	"fmt"
	"math/big"
	"strings"

	"gateway/calendar"
	"gateway/feel"
	"gateway/feel/strict"
)

// domains are unary tests of constants, by the paths of inputs and components: which values each may have, counted as the engine counts.
// Values that no such test says are left out, so that a domain may have more than the file says, and never less.
func domains(all []promise, tick calendar.Tick) map[string]string {
	made := map[string]string{}
	for _, it := range all {
		w := domainWriter{of: it.of, tick: tick}
		text := w.domain(it.takesNull)
		if _, ok := strict.ReadTests(text); ok {
			made[it.path] = text
		}
	}
	return made
}

// A domainWriter writes the values of a type as unary tests.
type domainWriter struct {
	of   *valueType
	tick calendar.Tick
}

// domain are the tests of a type; empty where it may have each value.
func (w domainWriter) domain(takesNull bool) string {
	tests, isKnown := w.listed()
	if !isKnown {
		tests = w.ofKind()
	}
	switch {
	case len(tests) == 0 && (takesNull || w.of.kind == anyKind || w.of.kind == nullKind || w.of.kind == refusedKind):
		return ""
	case len(tests) == 0:
		return "not(null)"
	case takesNull:
		tests = append(tests, "null")
	}
	return strings.Join(tests, ", ")
}

// ofKind are the values of a type of which none are listed; nil where tests can't say them.
func (w domainWriter) ofKind() []string {
	switch {
	case w.of.kind == textKind:
		return []string{`>= ""`}
	case w.of.kind == booleanKind:
		return []string{"true", "false"}
	case w.of.kind == dateKind:
		return []string{fmt.Sprintf("[%d..%d]", calendar.FirstDay, calendar.LastDay)}
	case w.of.kind == numberKind, w.of.isTemporal():
		return []string{">= " + leastNumber.String()}
	}
	return nil
}

// promised are the allowed values of a type, or else the input values of a column that callers promise.
func (t *valueType) promised() valueList {
	if len(t.allowed.nodes()) == 0 && isSchema(t.noted.nodes()) {
		return t.noted
	}
	return t.allowed
}

// listsNull tells whether null is written among the values.
func (v valueList) listsNull() bool {
	for _, n := range v.nodes() {
		if _, is := n.(*feel.Null); is {
			return true
		}
	}
	return false
}

// listed are the allowed values of a type, but null, where tests say all of them; of the input values of a column those that callers
// promise.
func (w domainWriter) listed() (tests []string, isKnown bool) {
	for _, n := range w.of.promised().nodes() {
		if _, isNull := n.(*feel.Null); isNull {
			continue
		}
		test, is := w.test(n)
		if !is {
			return nil, false
		}
		if test != "" {
			tests = append(tests, test)
		}
	}
	return tests, len(tests) > 0
}

// test is one of the allowed values as a test; empty where the engine has no such value.
func (w domainWriter) test(n feel.Node) (test string, is bool) {
	switch n := n.(type) {
	case *feel.Range:
		low, isLow := w.bound(lowSign(n.LowOpen), n.Low)
		high, isHigh := w.bound(highSign(n.HighOpen), n.High)
		return low.lowEnd() + ".." + high.highEnd(), isLow && isHigh
	case *feel.Unary:
		end, is := w.bound(n.Operator, n.Operand)
		return end.operator + " " + end.limit, is
	}
	if number, is := w.number(n); is {
		if !number.IsInt() || !isNumber(number.Num()) {
			return "", true
		}
		return number.Num().String(), true
	}
	switch n.(type) {
	case *feel.String, *feel.Boolean:
		return literalText(n), w.of.kind != numberKind && !w.of.isTemporal()
	}
	return "", false
}

// A domainEnd is an end of a range as the engine writes it.
type domainEnd struct{ operator, limit string }

func (e domainEnd) lowEnd() string {
	if e.operator == ">" {
		return "(" + e.limit
	}
	return "[" + e.limit
}

func (e domainEnd) highEnd() string {
	if e.operator == "<" {
		return e.limit + ")"
	}
	return e.limit + "]"
}

func lowSign(isOpen bool) string {
	if isOpen {
		return ">"
	}
	return ">="
}

func highSign(isOpen bool) string {
	if isOpen {
		return "<"
	}
	return "<="
}

// bound is an order comparison with a literal, in the engine's units.
func (w domainWriter) bound(operator string, n feel.Node) (domainEnd, bool) {
	switch operator {
	case "<", "<=", ">", ">=":
	default:
		return domainEnd{}, false
	}
	if number, is := w.number(n); is {
		operator, limit := boundIn(operator, number, units{})
		return domainEnd{operator, limit.String()}, true
	}
	text, is := n.(*feel.String)
	if !is || w.of.kind != textKind {
		return domainEnd{}, false
	}
	return domainEnd{operator, quotedText(text.Value)}, true
}

// number is a literal number, date, time or duration of the type, in the engine's units.
func (w domainWriter) number(n feel.Node) (*big.Rat, bool) {
	if w.of.kind == numberKind {
		number := rational(n)
		if number == nil {
			return nil, false
		}
		return inUnits(number, w.of.units), true
	}
	text, is := momentText(n)
	read := w.reader()
	if !is || read == nil {
		return nil, false
	}
	number, err := read(text)
	return new(big.Rat).SetInt64(number), err == nil
}

// reader reads a date, time or duration of the type; nil of other types, and of times with an offset.
func (w domainWriter) reader() func(text string) (int64, error) {
	switch w.of.kind {
	case dateKind:
		return calendar.Day
	case dayDurationKind:
		return w.tick.Duration
	case monthDurationKind:
		return calendar.Months
	case timeKind:
		return calendar.Sorted(w.tick.Time, false)
	case dateTimeKind:
		return calendar.Sorted(w.tick.DateTime, false)
	}
	return nil
}
