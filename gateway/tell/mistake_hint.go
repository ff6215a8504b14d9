package tell

import (
	"fmt"
	"strings"

	"gateway/feel/strict"
	"gateway/model"
)

// mostWalks limits the places of a fault for which the model is searched for a hint.
const mostWalks = 10

// hint returns a hint for a place with this fault, or "". before is how many were reported before it. A text without a reading
// is handled elsewhere.
func (f *file) hint(fault, said string, place Place, before int) string {
	text, _ := f.text(place)
	switch fault {
	case "name":
		return nameHint(text)
	case "unknown":
		return orNear("", nearInModel(f.model, text))
	case "cycle":
		if before < mostWalks {
			return ringHint(f.model, place.owner())
		}
	case "service":
		if before < mostWalks {
			return f.serviceHint(said, place)
		}
	case "table":
		return f.tableHint(said, place)
	}
	return ""
}

// orNear is a sentence with a name that may be meant.
func orNear(said, near string) string {
	switch {
	case near == "":
		return said
	case said == "":
		return "is it " + near + "?"
	}
	return said + "; is it " + near + "?"
}

// nameHint returns a hint about a text that can't be a name.
func nameHint(text string) string {
	switch {
	case text == "":
		return "a name has 1 to 64 bytes"
	case contains(keywords, text):
		return "it is a key word of FEEL"
	case len(text) > 64:
		return "a name has at most 64 bytes"
	}
	name := strings.NewReplacer(" ", "_", "-", "_", ".", "_").Replace(text)
	if strict.IsWordByte(text[0]) && !strict.IsDigit(text[0]) && word(name) == name {
		return "a name has letters, digits and _ alone: " + name
	}
	return "a name has the letters A-Z and a-z, digits and _ alone, and begins with no digit"
}

func contains(texts []string, text string) bool {
	for _, other := range texts {
		if other == text {
			return true
		}
	}
	return false
}

func (f *file) tableHint(said string, place Place) string {
	switch said {
	case saidHit:
		if hit, ok := f.text(place.with(key("hit"))); ok {
			return policyHint(hit)
		}
	case saidRule:
		return f.ruleHint(place)
	}
	return ""
}

// meantPolicies are the words that DMN tools use for policies.
var meantPolicies = map[string]string{
	"unique": "U", "any": "A", "priority": "P", "first": "F", "rule order": "R", "output order": "O", "collect": "C",
	"u": "U", "a": "A", "p": "P", "f": "F", "r": "R", "o": "O", "c": "C",
}

func policyHint(hit string) string {
	hint := quoted(hit) + " is none of U, A, P, F, R, O, C, C+, C<, C> and C#"
	small := strings.ToLower(hit)
	policy := meantPolicies[small]
	if policy == "" || hit != small && hit != strings.ToUpper(hit) && hit != strings.ToUpper(small[:1])+small[1:] {
		return hint
	}
	return orNear(hint, policy)
}

// ruleHint says how many entries a rule has, and how many columns its table.
func (f *file) ruleHint(place Place) string {
	if len(place) < 2 {
		return ""
	}
	table := f.table(place[:len(place)-2])
	index := place[len(place)-1].Index
	if table == nil || index >= len(table.Rules) {
		return ""
	}
	rule := table.Rules[index]
	return fmt.Sprintf("it has %d input entries for %d columns, and %d output entries for %d",
		len(rule.When), len(table.Inputs), len(rule.Then), len(table.Outputs))
}

// mostNames limits the names in a hint.
const mostNames = 10

// joined joins names with commas; of many, the first ten and two dots.
func joined(names []string) string {
	if len(names) > mostNames {
		names = append(append([]string(nil), names[:mostNames]...), "..")
	}
	return strings.Join(names, ", ")
}

// ringHint returns the shortest cycle of needs from a decision back to itself.
func ringHint(m *model.Model, start int) string {
	indexes := map[string]int{}
	for at, decision := range m.Decisions {
		indexes[decision.Name] = at
	}
	neededBy := make([]int, len(m.Decisions))
	met := []int{start}
	for at := 0; at < len(met); at++ {
		for _, need := range m.Decisions[met[at]].Needs {
			next, known := indexes[need]
			if !known || neededBy[next] > 0 {
				continue
			}
			neededBy[next] = met[at] + 1
			met = append(met, next)
			if next == start {
				return "each needs the next: " + joined(wayBack(m, neededBy, start))
			}
		}
	}
	return ""
}

// wayBack returns the names from a decision back to itself, along neededBy.
func wayBack(m *model.Model, neededBy []int, start int) []string {
	back := []string{m.Decisions[start].Name}
	for at := neededBy[start] - 1; ; at = neededBy[at] - 1 {
		back = append(back, m.Decisions[at].Name)
		if at == start {
			break
		}
	}
	for i, j := 0, len(back)-1; i < j; i, j = i+1, j-1 {
		back[i], back[j] = back[j], back[i]
	}
	return back
}

func (f *file) serviceHint(said string, place Place) string {
	service := f.service(place)
	switch said {
	case saidStranger:
		return "no decision of the model, or in inputData no input: " + joined(strangers(f.model, service))
	case saidShared:
		return "an input decision, and also an output or encapsulated: " + joined(shared(service))
	case saidUnlisted:
		return "reached, and not listed: " + joined(unlisted(f.model, service))
	}
	return ""
}

func setOf(lists ...[]string) map[string]bool {
	set := map[string]bool{}
	for _, list := range lists {
		for _, name := range list {
			set[name] = true
		}
	}
	return set
}

// strangers returns the names in a service that are not decisions, or in inputData not inputs.
func strangers(m *model.Model, service *model.Service) []string {
	var found []string
	add := func(known map[string]bool, names []string) {
		for _, name := range names {
			if !known[name] {
				found = append(found, name)
			}
		}
	}
	decisions := map[string]bool{}
	for _, decision := range m.Decisions {
		decisions[decision.Name] = true
	}
	add(decisions, service.Outputs)
	add(decisions, service.Encapsulated)
	add(decisions, service.InputDecisions)
	add(setOf(m.Inputs), service.InputData)
	return found
}

// shared returns a service's input decisions that are also outputs or encapsulated.
func shared(service *model.Service) []string {
	inner := setOf(service.Outputs, service.Encapsulated)
	var found []string
	for _, name := range service.InputDecisions {
		if inner[name] {
			found = append(found, name)
		}
	}
	return found
}

// unlisted returns the decisions and inputs that a service reaches and doesn't list.
func unlisted(m *model.Model, service *model.Service) []string {
	listed := setOf(service.Outputs, service.Encapsulated, service.InputDecisions, service.InputData)
	decisions := map[string]*model.Decision{}
	for at := range m.Decisions {
		decisions[m.Decisions[at].Name] = &m.Decisions[at]
	}
	known := setOf(service.InputDecisions)
	var met, found []string
	meet := func(names []string) {
		for _, name := range names {
			if known[name] {
				continue
			}
			known[name] = true
			met = append(met, name)
			if !listed[name] {
				found = append(found, name)
			}
		}
	}
	meet(service.Outputs)
	for at := 0; at < len(met); at++ {
		if decision := decisions[met[at]]; decision != nil {
			meet(decision.Needs)
		}
	}
	return found
}
