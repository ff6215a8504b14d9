package tell

import (
	"strings"

	"gateway/model"
)

// A reportedRules has the rules about which findings report something, by table pointer.
type reportedRules map[string]map[int]set

// reportedByTables returns, for each rule, the kinds of warnings that table findings repeat.
func (r *report) reportedByTables() reportedRules {
	reported := reportedRules{}
	for _, table := range r.facts.tables {
		rules := map[int]set{}
		add := func(rule int, kind string) {
			if rules[rule] == nil {
				rules[rule] = set{}
			}
			rules[rule][kind] = true
		}
		for _, finding := range table.findings {
			switch {
			case len(finding.Rules) == 0:
			case finding.Finding == "never":
				add(finding.Rules[0], oddUnmet)
			case finding.Finding == "masked":
				add(finding.Rules[0], oddNever)
			case finding.Finding == "overlap" && len(finding.Rules) > 1:
				add(finding.Rules[1], oddHits)
				add(finding.Rules[0], oddHits)
			}
		}
		reported[table.Table] = rules
	}
	return reported
}

// has reports whether table findings repeat a warning.
func (t reportedRules) has(it oddity) bool {
	pointer := it.place.Pointer()
	before, _, ok := strings.Cut(pointer, "/rules/")
	if !ok || len(t) == 0 {
		return false
	}
	rules := t[before]
	for at, step := range it.place {
		if step.Key == "rules" && at+1 < len(it.place) {
			return rules[it.place[at+1].Index+1][it.kind]
		}
	}
	return false
}

const oddDefault = "unused default"

// unusedDefaults warns of defaults in tables where some rule always hits. A default that is not taken for what can come alone is no
// fault: it is there for other values.
func (r *report) unusedDefaults() {
	reported := 0
	for _, facts := range r.facts.tables {
		place := placeOf(facts.Table)
		table := r.file.table(place)
		if table == nil || !isTrue(facts.Complete) || facts.Comes && !hasOpenRule(table) {
			continue
		}
		for at, output := range table.Outputs {
			if output.Default == nil {
				continue
			}
			if reported++; reported <= mostPlaces {
				place := place.with(key("outputs"), index(at), key("default"))
				r.warning(oddDefault, place, r.file.position(place), "some rule hits in each case, so the default is never taken")
			}
		}
	}
	r.moreWarnings(oddDefault, reported-mostPlaces)
}

// hasOpenRule reports whether some rule hits whatever its columns are.
func hasOpenRule(table *model.Table) bool {
	for at := range table.Rules {
		if isOpen(table.Rules[at].When) {
			return true
		}
	}
	return false
}

func isOpen(tests []string) bool {
	for _, test := range tests {
		if strings.TrimSpace(test) != "-" {
			return false
		}
	}
	return true
}
