package tell

import (
	"fmt"

	"gateway/feel/strict"
	"gateway/model"
)

// A ruleOrder is what is known of a table's rules, one after another.
type ruleOrder struct {
	table *model.Table
	// all is the first rule that hits whatever the inputs are, counted from 1, or 0. Under P it gives the highest output.
	all int
	// seen maps tests to rules. areSpelled means that tests are compared.
	seen       map[string]int
	areSpelled bool
}

// areCompared reports whether the hit policy depends on which rules have the same tests.
func areCompared(table *model.Table) bool {
	switch table.Hit {
	case "U", "F", "C+", "C#":
		return len(table.Rules) > 1
	}
	return false
}

// rule looks at the current rule.
func (w *walk) rule(rules *ruleOrder, at int, tests ruleTests) {
	switch rules.table.Hit {
	case "U":
		if len(rules.table.Rules) > 1 {
			w.uniqueRule(rules, at, tests)
		}
	case "F":
		w.firstRule(rules, at, tests)
	case "C+", "C#":
		w.sameRule(rules, at, tests)
	case "P":
		if rules.all > 0 {
			w.neverDecides(rules.all, true)
		} else if tests.takeAll && givesHighest(rules.table, at) {
			rules.all = at + 1
		}
	}
}

// sameBefore returns the earlier rule with the same tests, counted from 1, or 0.
func (r *ruleOrder) sameBefore(at int, tests ruleTests) int {
	if first := r.seen[tests.spelling]; first > 0 {
		return first
	}
	r.seen[tests.spelling] = at + 1
	return 0
}

func (w *walk) uniqueRule(rules *ruleOrder, at int, tests ruleTests) {
	if tests.takeAll && rules.all == 0 {
		rules.all = at + 1
		w.note(oddHits, nil, func() string { return "it takes everything, so where another rule hits too the result is null" })
	}
	if first := rules.sameBefore(at, tests); first > 0 {
		w.note(oddHits, nil, func() string { return earlierRule(first, false) + ", so where both hit the result is null" })
	}
}

func (w *walk) firstRule(rules *ruleOrder, at int, tests ruleTests) {
	switch {
	case rules.all > 0:
		w.neverDecides(rules.all, true)
	case tests.takeAll:
		rules.all = at + 1
	default:
		if first := rules.sameBefore(at, tests); first > 0 {
			w.neverDecides(first, false)
		}
	}
}

func (w *walk) neverDecides(first int, takesAll bool) {
	w.note(oddNever, nil, func() string { return earlierRule(first, takesAll) + ", so this one never decides" })
}

func earlierRule(number int, takesAll bool) string {
	if takesAll {
		return fmt.Sprintf("rule %d takes everything", number)
	}
	return fmt.Sprintf("rule %d has the same tests", number)
}

// givesHighest reports whether a rule gives the first listed value in each column that lists values.
func givesHighest(table *model.Table, rule int) bool {
	for at, output := range table.Outputs {
		if len(output.Values) == 0 || at >= len(table.Rules[rule].Then) {
			continue
		}
		highest, isKnown := literalText(output.Values[0])
		given, isGiven := literalText(table.Rules[rule].Then[at])
		if !isKnown || !isGiven || highest != given {
			return false
		}
	}
	return true
}

// policy checks the outputs against the hit policy.
func (w *walk) policy(table *model.Table) {
	switch table.Hit {
	case "P", "O":
		if len(table.Rules) > 1 && !listsValues(table) {
			w.note(oddPriority, []Step{key("hit")}, func() string {
				return "under " + table.Hit + " the listed output values have priority, and no column lists any"
			})
		}
	case "C+", "C<", "C>":
		w.numbers(table)
	}
}

func listsValues(table *model.Table) bool {
	for _, output := range table.Outputs {
		if len(output.Values) > 0 {
			return true
		}
	}
	return false
}

// numbers notes output entries that are not numbers.
func (w *walk) numbers(table *model.Table) {
	for at, rule := range table.Rules {
		if len(rule.Then) == 0 {
			continue
		}
		text := rule.Then[0]
		value, ok := strict.ReadLiteral(text)
		if _, isNumber := value.(int64); ok && !isNumber {
			w.note(oddNumber, []Step{key("rules"), index(at), key("then"), index(0)}, func() string {
				return text + " is no number, so where this rule hits the result is null"
			})
		}
	}
}

// output notes listed values of an output column that nothing gives, and literals that aren't listed.
func (w *walk) output(table *model.Table, at int) {
	output := table.Outputs[at]
	if len(output.Values) == 0 {
		return
	}
	listed, given, givesOther := set{}, set{}, false
	for _, text := range output.Values {
		if literal, ok := literalText(text); ok {
			listed[literal] = true
		}
	}
	look := func(text string, steps ...Step) {
		literal, ok := literalText(text)
		if !ok {
			givesOther = true
			return
		}
		if literal != "null" && !listed[literal] {
			w.note(oddUnlisted, steps, func() string { return text + " is not among the listed values" })
		}
		given[literal] = true
	}
	if output.Default != nil {
		look(*output.Default, key("outputs"), index(at), key("default"))
	}
	for rule, of := range table.Rules {
		if at < len(of.Then) {
			look(of.Then[at], key("rules"), index(rule), key("then"), index(at))
		}
	}
	if !givesOther {
		w.ungiven(output.Values, given, at)
	}
}

func (w *walk) ungiven(values []string, given set, at int) {
	for number, text := range values {
		literal, ok := literalText(text)
		if ok && !given[literal] {
			w.note(oddUngiven, []Step{key("outputs"), index(at), key("values"), index(number)}, func() string { return "no rule gives " + text })
		}
	}
}
