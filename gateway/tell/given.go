package tell

import (
	"strings"

	"gateway/model"
)

// A set holds texts.
type set map[string]bool

// A gift is what a decision may give: one value, or a context of entries. The set is nil for a value that is not known to be
// one of some literals.
type gift struct {
	value   set
	entries map[string]set
	// isNumber means a number, or null.
	isNumber bool
}

// A given holds what needed decisions may give, as far as it is known. No request brings their values.
type given struct {
	decisions map[string]*gift
	// numbers caches which values may be numbers.
	numbers map[valueName]bool
	// texts caches the literals of a value that are texts.
	texts map[valueName][]string
	// entries caches the names of a decision's entries.
	entries map[string][]string
}

func givenIn(m *model.Model) *given {
	brought, needed := set{}, set{}
	for _, service := range m.Services {
		for _, name := range service.InputDecisions {
			brought[name] = true
		}
	}
	for _, decision := range m.Decisions {
		for _, name := range decision.Needs {
			needed[name] = true
		}
	}
	g := &given{map[string]*gift{}, map[valueName]bool{}, map[valueName][]string{}, map[string][]string{}}
	for _, decision := range m.Decisions {
		if brought[decision.Name] || !needed[decision.Name] {
			continue
		}
		if gives := giftOf(decision.Expr); gives != nil {
			g.decisions[decision.Name] = gives
		}
	}
	return g
}

func giftOf(logic model.Expression) *gift {
	switch logic := logic.(type) {
	case *model.Table:
		return giftOfTable(logic)
	case model.Context:
		if logic.Result != nil {
			return nil
		}
		entries := map[string]set{}
		for _, entry := range logic.Entries {
			entries[entry.Name] = nil
		}
		return &gift{entries: entries}
	}
	return nil
}

func giftOfTable(table *model.Table) *gift {
	switch table.Hit {
	case "U", "A", "P", "F":
	case "C+", "C<", "C>", "C#":
		return &gift{isNumber: true}
	default:
		return nil
	}
	if len(table.Outputs) == 1 {
		return &gift{value: columnLiterals(table, 0)}
	}
	entries := map[string]set{}
	for at, output := range table.Outputs {
		entries[output.Name] = columnLiterals(table, at)
	}
	return &gift{entries: entries}
}

// columnLiterals returns the literals that an output column gives; nil if it gives anything else too.
func columnLiterals(table *model.Table, column int) set {
	literals := set{}
	add := func(text string) bool {
		literal, ok := literalText(text)
		if ok {
			literals[literal] = true
		}
		return ok
	}
	if fallback := table.Outputs[column].Default; fallback != nil && !add(*fallback) {
		return nil
	}
	for _, rule := range table.Rules {
		if column < len(rule.Then) && !add(rule.Then[column]) {
			return nil
		}
	}
	return literals
}

// literals returns the literals that a value may be; nil if not known.
func (g *given) literals(of valueName) set {
	gives := g.decisions[of.name]
	switch {
	case gives == nil:
		return nil
	case of.entry == "":
		return gives.value
	}
	return gives.entries[of.entry]
}

// lacks reports whether a decision never gives a context with this entry.
func (g *given) lacks(decision, entry string) bool {
	gives := g.decisions[decision]
	if gives == nil || gives.entries == nil {
		return gives != nil && (gives.value != nil || gives.isNumber)
	}
	_, has := gives.entries[entry]
	return !has
}

// near returns the first similar entry of what a decision gives, by bytes.
func (g *given) near(decision, entry string) string {
	names, isKept := g.entries[decision]
	if !isKept {
		for name := range g.decisions[decision].entries {
			names = append(names, name)
		}
		g.entries[decision] = names
	}
	nearest := ""
	for _, name := range names {
		if isNear(name, entry) && (nearest == "" || name < nearest) {
			nearest = name
		}
	}
	return nearest
}

// nearLiteral returns the first literal of a value that differs from a text by one letter or in letter case.
func (g *given) nearLiteral(of valueName, literal string) string {
	if !strings.HasPrefix(literal, `"`) {
		return ""
	}
	texts, isKept := g.texts[of]
	if !isKept {
		for known := range g.literals(of) {
			if strings.HasPrefix(known, `"`) {
				texts = append(texts, known)
			}
		}
		g.texts[of] = texts
	}
	nearest, other := "", literal[1:len(literal)-1]
	for _, known := range texts {
		if further := len(known) - len(literal); further < -1 || further > 1 {
			continue
		}
		one := known[1 : len(known)-1]
		if (equalASCII(one, other) || isNear(one, other)) && (nearest == "" || known < nearest) {
			nearest = known
		}
	}
	return nearest
}

// equalASCII reports whether two texts are equal but for ASCII letter case.
func equalASCII(one, other string) bool {
	if len(one) != len(other) {
		return false
	}
	small := func(c byte) byte {
		if 'A' <= c && c <= 'Z' {
			return c + 'a' - 'A'
		}
		return c
	}
	for at := range []byte(one) {
		if small(one[at]) != small(other[at]) {
			return false
		}
	}
	return true
}
