package tell

import (
	"gateway/feel"
	"gateway/feel/strict"
	"gateway/model"
)

// The kinds of warnings, in the order in which the counts of further ones are reported.
const (
	oddUnbound    = "unbound"
	oddUnneeded   = "unneeded"
	oddUnreached  = "unreached"
	oddNeed       = "unused need"
	oddEntry      = "unused entry"
	oddUngiven    = "ungiven value"
	oddUnlisted   = "unlisted value"
	oddUnmet      = "unmet tests"
	oddKind       = "other kind"
	oddNever      = "never decides"
	oddHits       = "two hits"
	oddPriority   = "no priority"
	oddNumber     = "no number"
	oddTruth      = "truth in cell"
	oddList       = "list for interval"
	oddCut        = "cut number"
	oddAdded      = "added text"
	oddNeverGiven = "never given"
	oddNoEntry    = "no entry"
)

var oddKinds = []string{
	oddUnbound, oddUnneeded, oddUnreached, oddNeed, oddEntry, oddUngiven, oddUnlisted, oddUnmet, oddKind, oddNever, oddHits, oddPriority,
	oddNumber, oddTruth, oddList, oddCut, oddAdded, oddNeverGiven, oddNoEntry,
}

// An oddity is valid, and usually a mistake.
type oddity struct {
	kind  string
	place Place
	said  string
}

// A walk goes once through a model and notes oddities.
type walk struct {
	model *model.Model
	scope *scope
	given *given
	// needs is how many of the bindings in scope are the decision's needs.
	needs int
	place Place
	found []oddity
	// counts is how many there are of each kind.
	counts map[string]int
	// texts is how many texts were looked at. noted has, for each unbound name, the last text for which it was noted.
	texts int
	noted map[string]int
}

// oddities returns the first 100 oddities of each kind in a valid model, and how many there are of each kind. The time is
// proportional to the length of the model, times the logarithm of its number of names.
func oddities(m *model.Model) ([]oddity, map[string]int) {
	w := &walk{model: m, scope: newScope(), given: givenIn(m), counts: map[string]int{}, noted: map[string]int{}}
	w.values()
	w.services()
	w.within(key("decisions"), func() {
		for at := range m.Decisions {
			w.within(index(at), func() { w.decision(&m.Decisions[at]) })
		}
	})
	return w.found, w.counts
}

// within looks at the part that a step leads to.
func (w *walk) within(step Step, look func()) {
	w.place = append(w.place, step)
	look()
	w.place = w.place[:len(w.place)-1]
}

// note keeps an oddity at the place that these steps lead to, unless there are enough of its kind.
func (w *walk) note(kind string, steps []Step, said func() string) {
	w.counts[kind]++
	if w.counts[kind] <= mostPlaces {
		w.found = append(w.found, oddity{kind, w.place.with(steps...), said()})
	}
}

func (w *walk) decision(decision *model.Decision) {
	for _, need := range decision.Needs {
		w.scope.bind(need)
	}
	w.needs = len(decision.Needs)
	w.within(key("expr"), func() { w.logic(decision.Expr) })
	for at := range decision.Needs {
		if !w.scope.isUsed(at) {
			w.note(oddNeed, []Step{key("needs"), index(at)}, func() string { return "it is needed, and no text of the decision uses it" })
		}
	}
	w.scope.unbind(len(decision.Needs))
}

func (w *walk) logic(logic model.Expression) {
	switch logic := logic.(type) {
	case model.Literal:
		w.expression(nil, string(logic), false)
	case *model.Table:
		w.within(key("table"), func() { w.table(logic) })
	case model.List:
		w.within(key("list"), func() {
			for at, member := range logic {
				w.within(index(at), func() { w.logic(member) })
			}
		})
	case model.Context:
		w.context(logic)
	}
}

func (w *walk) context(context model.Context) {
	first := len(w.scope.bindings)
	w.within(key("context"), func() {
		for at, entry := range context.Entries {
			w.within(index(at), func() {
				w.within(key("expr"), func() { w.logic(entry.Expr) })
			})
			w.scope.bind(entry.Name)
		}
	})
	if context.Result != nil {
		w.within(key("result"), func() { w.logic(context.Result) })
		w.unusedEntries(context, first)
	}
	w.scope.unbind(len(context.Entries))
}

func (w *walk) unusedEntries(context model.Context, first int) {
	for at := range context.Entries {
		if !w.scope.isUsed(first + at) {
			w.note(oddEntry, []Step{key("context"), index(at)}, func() string { return "neither a later entry nor the result uses it" })
		}
	}
}

// expression looks at the text of an expression. Names in a cell are usually texts without quotes.
func (w *walk) expression(steps []Step, text string, isCell bool) {
	if node, ok := strict.ReadExpression(text); ok {
		w.look(steps, text, isCell, node)
		w.slips(steps, text, node)
	}
}

// look looks at the names, comparisons and sums of a text.
func (w *walk) look(steps []Step, text string, isCell bool, nodes ...feel.Node) {
	w.texts++
	for _, node := range nodes {
		eachName(node, func(used valueName) {
			switch {
			case w.scope.use(used.name):
				w.entryOf(steps, used)
			case w.noted[used.name] < w.texts:
				w.noted[used.name] = w.texts
				w.unbound(steps, used.name, isCell)
			}
		})
	}
	adds := false
	for _, node := range nodes {
		eachComparison(node, func(subject valueName, with feel.Node) {
			if w.isKnown(subject) {
				w.askedFor(steps, subject, with)
			}
		})
		adds = adds || addsText(node)
	}
	if adds {
		w.note(oddAdded, steps, func() string { return "+ adds numbers, and what it makes of a text is null: " + text })
	}
}

// unbound notes an unbound name.
func (w *walk) unbound(steps []Step, name string, isCell bool) {
	w.note(oddUnbound, steps, func() string {
		near := w.scope.near(name)
		if near == "" {
			near = nearInModel(w.model, name)
		}
		said := orNear(quoted(name)+" is not needed here, so it is null", near)
		if constant := inSmall([]string{"true", "false", "null"}, name); constant != "" {
			return said + "; write " + constant
		}
		if isCell || near == "" {
			said += "; a text stands in quotes"
		}
		return said
	})
}

// entryOf notes an entry that the value of a needed decision never has.
func (w *walk) entryOf(steps []Step, used valueName) {
	if used.entry == "" || !w.isNeed(used.name) || !w.given.lacks(used.name, used.entry) {
		return
	}
	w.note(oddNoEntry, steps, func() string {
		return orNear(used.name+" has no entry "+used.entry+", so it is null", w.given.near(used.name, used.entry))
	})
}

// isNeed reports whether a name is a need here that no entry hides.
func (w *walk) isNeed(name string) bool {
	number, bound := w.scope.numbers[name]
	return bound && number < w.needs
}

// isKnown reports whether it is known which literals a value may be.
func (w *walk) isKnown(subject valueName) bool {
	return w.isNeed(subject.name) && w.given.literals(subject) != nil
}

// askedFor notes a literal that a value is compared with and never is.
func (w *walk) askedFor(steps []Step, subject valueName, with feel.Node) {
	value, ok := known(with)
	if !ok || value == nil {
		return
	}
	literals, text := w.given.literals(subject), jsonText(value)
	if literals == nil || literals[text] {
		return
	}
	w.note(oddNeverGiven, steps, func() string {
		return orNear(subject.name+" never is "+text, w.given.nearLiteral(subject, text))
	})
}
