package tell

import (
	"fmt"
	"strings"

	"gateway/model"
)

// sameRule notes a rule that counts twice under C+ or C#: an earlier rule has its tests and outputs.
func (w *walk) sameRule(rules *ruleOrder, at int, tests ruleTests) {
	gives := []string{tests.spelling}
	for _, text := range rules.table.Rules[at].Then {
		if literal, ok := literalText(text); ok {
			text = literal
		}
		gives = append(gives, strings.Join(strings.Fields(text), " "))
	}
	tests.spelling = strings.Join(gives, "\x00")
	if first := rules.sameBefore(at, tests); first > 0 {
		w.note(oddSame, nil, func() string {
			return fmt.Sprintf("rule %d has the same tests and gives the same, so it counts twice", first)
		})
	}
}

// unusedColumns notes inputs that every rule accepts whatever they are.
func (w *walk) unusedColumns(table *model.Table, columns []*column) {
	for at, column := range columns {
		if len(table.Rules) > 1 && column.any == len(table.Rules) {
			w.note(oddColumn, []Step{key("inputs"), index(at)}, func() string { return "each rule takes everything here, so it decides nothing" })
		}
	}
}

// mostReached limits the names visited, for all services together, in the search for input decisions that aren't needed.
// Services past the limit are skipped.
const mostReached = 200_000

// services notes input decisions that a service lists and none of its outputs needs.
func (w *walk) services() {
	needs := map[string][]string{}
	for _, decision := range w.model.Decisions {
		needs[decision.Name] = decision.Needs
	}
	gone := 0
	for at, service := range w.model.Services {
		if len(service.InputDecisions) == 0 || gone > mostReached {
			continue
		}
		reached := reachedBy(service, needs)
		gone += len(reached)
		for number, name := range service.InputDecisions {
			if !reached[name] {
				steps := []Step{key("services"), index(at), key("inputDecisions"), index(number)}
				w.note(oddService, steps, func() string { return "no output of the service needs it" })
			}
		}
	}
}

// reachedBy returns the names that a service's outputs need, directly or through decisions that aren't brought.
func reachedBy(service model.Service, needs map[string][]string) set {
	brought := setOf(service.InputDecisions)
	reached := set{}
	waiting := append([]string(nil), service.Outputs...)
	for len(waiting) > 0 {
		last := waiting[len(waiting)-1]
		waiting = waiting[:len(waiting)-1]
		if brought[last] {
			continue
		}
		for _, need := range needs[last] {
			if !reached[need] {
				reached[need] = true
				waiting = append(waiting, need)
			}
		}
	}
	return reached
}
