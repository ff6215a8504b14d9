package profile

import "fmt"

// facts are what is known of the scalars in values of a type.
type facts struct {
	// temporal: one is a date or a duration. numbers: one may be a number. units: one is known to be counted.
	// quotients: one is a quotient by a constant.
	temporal, numbers, units, quotients bool
	// parts is how many parts a type has (a list has those of its members), up to a limit.
	parts int
	// loose counts the changes of a type with parts from an input without a declared type; nil if there are none.
	loose *changes
}

// changes counts how often the type of an undeclared input became another or got an entry, over all inputs of a run.
type changes struct{ count int }

// knownFacts keeps the facts of a context, which may have thousands of entries.
type knownFacts struct {
	facts
	// of is the context of the facts, size how many entries it had then. A copy of the context finds its own facts.
	of   *valueType
	size int
	// changes is how many changes there were then.
	changes int
}

func (f facts) and(other facts) facts {
	both := facts{temporal: f.temporal || other.temporal, numbers: f.numbers || other.numbers, units: f.units || other.units,
		quotients: f.quotients || other.quotients, loose: f.loose, parts: minimum(f.parts+other.parts, mostCalculatedParts+1)}
	if both.loose == nil {
		both.loose = other.loose
	}
	return both
}

// mostCalculatedParts is how many parts a calculated type may have. A context that has another one twice has twice as
// many.
const mostCalculatedParts = 100_000

// bounded returns a calculated type, and refuses it if it has too many parts.
func (t *valueType) bounded(refuse func(why, instead string)) *valueType {
	if t.facts().parts <= mostCalculatedParts {
		return t
	}
	refuse(fmt.Sprintf("the value has over %d parts", mostCalculatedParts), "fewer entries, or smaller ones")
	return refusedType
}

// facts returns the facts of a type.
func (t *valueType) facts() facts {
	if t = t.innermost(); t.kind == contextKind {
		return t.contextFacts()
	}
	found := facts{parts: 1, temporal: t.isTemporal(), numbers: t.kind == numberKind || t.kind == anyKind, units: t.units != (units{}),
		quotients: t.units.per > 1}
	if t.open && t.kind == anyKind {
		found.loose = t.changes
	}
	return found
}

func (t *valueType) contextFacts() facts {
	if t.known != nil && t.known.of == t && t.known.size == t.size() && t.known.changes == t.known.loose.now() {
		return t.known.facts
	}
	all := facts{parts: 1}
	t.eachEntry(func(part *valueType) bool {
		all = all.and(part.facts())
		return true
	})
	t.known = &knownFacts{facts: all, of: t, size: t.size(), changes: all.loose.now()}
	return all
}

// now returns the number of changes so far; 0 if there can't be any.
func (c *changes) now() int {
	if c == nil {
		return 0
	}
	return 1 + c.count
}

// add counts one more.
func (c *changes) add() {
	if c != nil {
		c.count++
	}
}

// changed returns the number of changes so far that may concern a type; 0 if none can.
func (t *valueType) changed() int { return t.facts().loose.now() }

// size returns how many entries a context has.
func (t *valueType) size() int { return len(t.fields) + len(t.more) }

// eachEntry calls goesOn with the types of a context's entries, ordered ones first, until it returns false.
func (t *valueType) eachEntry(goesOn func(*valueType) bool) {
	for _, name := range t.order {
		if !goesOn(t.fields[name]) {
			return
		}
	}
	for _, part := range t.more {
		if !goesOn(part) {
			return
		}
	}
}

// some reports whether a scalar in values of a type meets a condition.
func (t *valueType) some(is func(*valueType) bool) bool {
	switch t.kind {
	case listKind:
		return t.element.some(is)
	case contextKind:
		found := false
		t.eachEntry(func(part *valueType) bool {
			found = part.some(is)
			return !found
		})
		return found
	}
	return is(t)
}

// hasTemporal reports whether values of a type are or contain dates or durations.
func (t *valueType) hasTemporal() bool { return t.facts().temporal }

// hasUnits reports whether it is known how some numbers in values of a type are counted.
func (t *valueType) hasUnits() bool { return t.facts().units }

// hasNumbers reports whether values of a type may have numbers.
func (t *valueType) hasNumbers() bool { return t.facts().numbers }
