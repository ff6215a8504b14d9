package profile

import "gateway/feel"

// A guard is a condition under which an expression counts: a branch is taken, a rule hits. Entries before the
// expression are always evaluated, and may exceed a limit, so they carry the condition.
type guard struct {
	// outer is the guard around it; nil for none.
	outer *guard
	// frame gets the entry of the condition; word is its name once it is there.
	frame *frame
	word  string
	// make adds the condition to the frame: an entry that is true if the expression counts.
	make func(frame *frame, outer string) string
}

// guardWord returns the word of the entry that is true if the guarded expression counts; empty if it always counts.
func (t *translator) guardWord(g *guard) string {
	if g == nil {
		return ""
	}
	if g.word == "" {
		outer := t.guardWord(g.outer)
		g.word = g.make(g.frame, outer)
	}
	return g.word
}

// under translates a branch of a condition.
func (t *translator) under(condition phrase, isThen bool, translate func() phrase) phrase {
	if !t.counts {
		return translate()
	}
	before := t.guard
	defer func() { t.guard = before }()
	t.guard = &guard{outer: before, frame: t.frame, make: func(f *frame, outer string) string {
		text := "if " + condition.text + " then true else false"
		if !isThen {
			text = "if " + condition.text + " then false else true"
		}
		if outer != "" {
			text = "if " + outer + " then (" + text + ") else false"
		}
		return t.entryIn(f, "branch", boxOf(phrase{text: text, rank: rankIf, depth: condition.depth + 3, of: booleanType}))
	}}
	return translate()
}

// entryIn makes a box an entry of a frame, and returns its word.
func (t *translator) entryIn(f *frame, base string, b *box) string {
	word := t.words.fresh(base)
	if b.kind == textBox {
		t.wrote(len(b.value.text))
	}
	f.entries = append(f.entries, boxEntry{word: word, value: b})
	t.wrote(len(word) + bytesOfEntry)
	return word
}

// step makes a text an entry before the expression, under the condition of its branch.
func (t *translator) step(base, text string, of *valueType) phrase {
	if t.full {
		return constant("null", of)
	}
	p := phrase{text: text, rank: rankIf, depth: depthOfStep, of: of}
	return t.hoisted(base, t.boxed(t.conditioned(p)), of)
}

// depthOfStep is the greatest depth of a step's text.
const depthOfStep = 16

// conditioned returns a phrase that is null if its branch isn't taken.
func (t *translator) conditioned(p phrase) phrase {
	if !t.counts || t.full {
		return p
	}
	word := t.guardWord(t.guard)
	if word == "" {
		return p
	}
	inside := p.within(rankOr)
	return phrase{text: "if " + word + " then " + inside.text + " else null", rank: rankIf, depth: inside.depth + 1, of: p.of}
}

// maybeQuotient translates a form that may be a quotient.
func (t *translator) maybeQuotient(n feel.Node, s *scope) phrase { return t.shallow(t.value(n, s)) }

// chosen translates a form that may be a quotient by a constant, but not by a variable.
func (t *translator) chosen(n feel.Node, s *scope) phrase {
	return t.bounded(n, t.constantQuotient(n, t.maybeQuotient(n, s)))
}

// constantQuotient refuses a quotient by a variable.
func (t *translator) constantQuotient(n feel.Node, p phrase) phrase {
	if p.over() == nil {
		return p
	}
	return t.exact(n, p)
}
