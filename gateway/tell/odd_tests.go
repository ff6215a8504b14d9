package tell

import (
	"math"
	"sort"

	"gateway/feel"
	"gateway/feel/strict"
)

// The least and the greatest number.
const (
	least    = -math.MaxInt64
	greatest = math.MaxInt64
)

// A span holds the numbers from low to high, both included; none if low is greater.
type span struct{ low, high int64 }

// bounded returns the numbers that compare so with a number.
func bounded(operator string, number int64) span {
	switch {
	case operator == "<":
		return span{least, number - 1}
	case operator == "<=":
		return span{least, number}
	case operator == ">=":
		return span{number, greatest}
	case number == greatest:
		return span{1, 0}
	}
	return span{number + 1, greatest}
}

func (s span) isEmpty() bool { return s.low > s.high }

// haveAllNumbers reports whether each number is in one of the spans.
func haveAllNumbers(spans []span) bool {
	sort.Slice(spans, func(i, j int) bool { return spans[i].low < spans[j].low })
	next := int64(least)
	for _, s := range spans {
		switch {
		case s.low > next:
			return false
		case s.high == greatest:
			return true
		case s.high >= next:
			next = s.high + 1
		}
	}
	return false
}

// A literalTest is a test of literals.
type literalTest struct {
	kind  literalKind
	isMet bool
	// isNumbers means that these numbers meet the test.
	isNumbers bool
	numbers   span
}

func testOfNumbers(numbers span) literalTest {
	return literalTest{numberKind, !numbers.isEmpty(), true, numbers}
}

// literalTestOf returns a test whose values are known; false for others.
func literalTestOf(test feel.Node) (literalTest, bool) {
	switch test := test.(type) {
	case *feel.Unary:
		value, ok := known(test.Operand)
		return orderTest(test.Operator, value), ok
	case *feel.Range:
		low, isLow := known(test.Low)
		high, isHigh := known(test.High)
		return intervalTest(test, low, high), isLow && isHigh
	}
	value, ok := known(test)
	if number, isNumber := value.(int64); isNumber {
		return testOfNumbers(span{number, number}), ok
	}
	return literalTest{kind: kindOfValue(value), isMet: true}, ok
}

func orderTest(operator string, value strict.Value) literalTest {
	switch value := value.(type) {
	case int64:
		return testOfNumbers(bounded(operator, value))
	case string:
		return literalTest{kind: textKind, isMet: operator != "<" || value != ""}
	}
	return literalTest{kind: kindOfValue(value)}
}

func intervalTest(test *feel.Range, low, high strict.Value) literalTest {
	if first, ok := low.(int64); ok {
		if last, ok := high.(int64); ok {
			return testOfNumbers(between(test, first, last))
		}
	}
	if first, ok := low.(string); ok {
		if last, ok := high.(string); ok {
			isClosed := !test.LowOpen && !test.HighOpen
			return literalTest{kind: textKind, isMet: first < last || isClosed && first == last}
		}
	}
	kind := kindOfValue(low)
	if kind != kindOfValue(high) {
		kind = noKind
	}
	return literalTest{kind: kind}
}

// between returns the numbers of an interval.
func between(test *feel.Range, low, high int64) span {
	above, below := bounded(">=", low), bounded("<=", high)
	if test.LowOpen {
		above = bounded(">", low)
	}
	if test.HighOpen {
		below = bounded("<", high)
	}
	s := above
	if below.low > s.low {
		s.low = below.low
	}
	if below.high < s.high {
		s.high = below.high
	}
	return s
}

// literalTests returns the kind of an entry whose tests are all literals of one kind, and whether some value meets them. ok is
// false for others.
func literalTests(tests strict.Tests) (kind literalKind, areMet, ok bool) {
	if tests.Any {
		return noKind, false, false
	}
	isMixed := false
	for _, test := range tests.List {
		literal, ok := literalTestOf(test)
		if !ok {
			return noKind, false, false
		}
		areMet = areMet || literal.isMet
		if literal.kind != noKind {
			isMixed = isMixed || kind != noKind && kind != literal.kind
			kind = literal.kind
		}
	}
	if isMixed {
		kind = noKind
	}
	if tests.Negated {
		areMet = !leaveNothing(tests.List)
	}
	return kind, areMet, true
}

// leaveNothing reports whether no value fails all of the tests: comparisons are only false for numbers, and every number meets a
// test.
func leaveNothing(tests []feel.Node) bool {
	var spans []span
	goBySize := false
	for _, test := range tests {
		bySize := isBySize(test)
		literal, ok := literalTestOf(test)
		switch {
		case !ok, bySize && !literal.isNumbers:
			return false
		case literal.isNumbers:
			spans = append(spans, literal.numbers)
		}
		goBySize = goBySize || bySize
	}
	return goBySize && haveAllNumbers(spans)
}

// isBySize reports whether a test is one of order.
func isBySize(test feel.Node) bool {
	switch test.(type) {
	case *feel.Unary, *feel.Range:
		return true
	}
	return false
}
