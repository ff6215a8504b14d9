package domain

import (
	"strings"

	"gateway/lines"
)

// Words says what the domain allows, as in "it has to be at least 0". Constants are worded as show returns them: as callers write them.
func (d *Domain) Words(show func(tree any) any) string {
	w := wording{show}
	switch {
	case d.isAny:
		return "any value"
	case d.isBroken:
		return "a value of its domain, which has none: a test breaks a limit"
	case d.isNegated:
		return w.noneOf(d.tests)
	}
	var all []string
	for _, it := range d.tests {
		all = append(all, w.test(it)...)
	}
	return listed(all, " or ")
}

// A wording words constants as callers write them.
type wording struct{ show func(tree any) any }

// listed joins texts with commas, and the last two with a word.
func listed(all []string, word string) string {
	last := len(all) - 1
	if last < 1 {
		return strings.Join(all, "")
	}
	return strings.Join(all[:last], ", ") + word + all[last]
}

func (w wording) constant(v value) string { return string(lines.Compact(nil, w.show(v.tree()))) }

// test words what a test allows: alternatives.
func (w wording) test(it test) []string {
	switch len(it.ends) {
	case 0:
		return w.constants(it)
	case 1:
		return []string{w.end(it.ends[0])}
	}
	low, high := it.ends[0], it.ends[1]
	if low.operator == ">=" && high.operator == "<=" {
		return []string{"from " + w.constant(low.limit) + " to " + w.constant(high.limit)}
	}
	return []string{w.end(low) + " and " + w.end(high)}
}

func (w wording) constants(it test) (all []string) {
	for _, one := range it.equals() {
		all = append(all, w.constant(one))
	}
	return all
}

func (w wording) end(it end) string {
	words := map[string]string{"<": "less than ", "<=": "at most ", ">": "more than ", ">=": "at least "}
	switch {
	case it.operator == ">=" && it.limit.scalar == numberOf(-lines.MaxNumber).scalar:
		return "a number"
	case it.operator == ">=" && it.limit.scalar == textOf("").scalar:
		return "a text"
	}
	return words[it.operator] + w.constant(it.limit)
}

// opposites has the comparison that holds where another doesn't.
var opposites = map[string]string{"<": ">=", "<=": ">", ">": "<=", ">=": "<"}

// noneOf words what is allowed if no test may hold. Since a comparison may not be unknown either, its opposite has to hold.
func (w wording) noneOf(tests []test) string {
	var all, others []string
	for _, it := range tests {
		var ends []string
		for _, one := range it.ends {
			ends = append(ends, w.end(end{opposites[one.operator], one.limit}))
		}
		if ends != nil {
			all = append(all, strings.Join(ends, " or "))
		} else {
			others = append(others, w.constants(it)...)
		}
	}
	switch {
	case len(others) == 0:
	case len(all) == 0:
		all = []string{"anything but " + listed(others, " or ")}
	default:
		all = append(all, "not "+listed(others, " or "))
	}
	return listed(all, ", and ")
}
