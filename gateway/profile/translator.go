package profile

import (
	"fmt"
	"unicode/utf8"

	"gateway/dmn"
	"gateway/feel"
)

// MostLine is the most bytes of a line of the engine, into which a model has to fit.
const MostLine = 1 << 20

// bytesOfEntry is about what an entry of a context takes besides its text.
const bytesOfEntry = 24

// A translator makes one pass over the files.
type translator struct {
	words    *words
	refusals *refusals
	// types are those of the current file, members the names that may follow a point.
	types   *types
	members *feel.Scope
	// trees keeps the trees of texts, as the scope of a text has the same names each time.
	trees map[*dmn.Text]*tree
	frame *frame
	// text is the current one, column the value of ? in it; nil outside of input entries.
	text   *dmn.Text
	column *phrase
	// near is the element of the current decision or business knowledge.
	near *dmn.Element
	// free are the undeclared names, node is the current decision; nil in business knowledge that nothing invokes.
	free *freeNames
	node *node
	// clock has the inputs that a clock fills.
	clock *clock
	// gone counts the members of lists that were gone through, writtenOut the bytes written out for them.
	gone, writtenOut int
	// inCell is true while an output entry is checked against its types: what it needs goes before the table.
	inCell bool
	// active is the business knowledge being invoked, nested.
	active map[*knowledge]bool
	// counts is true if numbers are counted in units, fractions if the files need that: for decimals, a division, a
	// power, a rounding.
	counts, fractions bool
	// said are the decimals given for names; nil if nothing is counted.
	said *cells
	// finest is the most decimals of a number in the current decision.
	finest int
	// guard is the condition of the current branch or rule; nil if there is none.
	guard *guard
	// offsets have the units of times.
	offsets *offsets
	// constants are the numbers that were read, by their texts.
	constants map[string]phrase
	// folds are the calculations with literals only: business knowledge may have long ones, and be invoked many times.
	folds map[feel.Node]fold
	// kept has what was found about contexts.
	kept *kept
	// civils are the parts of dates that were needed.
	civils map[civilKey]*civil
	// written counts the bytes of the model so far.
	written int
	full    bool
}

// A tree is the parsed form of a text.
type tree struct {
	nodes []feel.Node
	fault *feel.Fault
	// why is the fault and its place; empty without one.
	why string
}

// framed translates with a frame of its own, and puts the frame's entries before the result.
func (t *translator) framed(translate func() *box) *box {
	before := t.frame
	t.frame = &frame{}
	defer func() { t.frame = before }()
	made := translate()
	return t.frame.around(made)
}

// hoisted makes a box an entry before the expression, and returns its word.
func (t *translator) hoisted(base string, b *box, of *valueType) phrase {
	if t.full {
		return constant(base, of)
	}
	return t.inFront(t.words.fresh(base), b, of)
}

// inFront makes a box the entry of a word before the expression. A model that is longer than a line gets no more of
// them.
func (t *translator) inFront(word string, b *box, of *valueType) phrase {
	if t.full {
		return constant(word, of)
	}
	t.frame.entries = append(t.frame.entries, boxEntry{word: word, value: b})
	t.wrote(len(word) + bytesOfEntry)
	return constant(word, of)
}

// short returns a phrase that may be written more than once.
func (t *translator) short(p phrase) phrase {
	if p.isShort() || p.number != nil && t.counts || p.moment() != nil {
		return p
	}
	return t.part(p)
}

// part makes a phrase an entry before the expression, under the condition of its branch.
func (t *translator) part(p phrase) phrase {
	made := constant("part", p.of)
	if !t.full {
		made = t.hoisted("part", t.boxed(t.conditioned(p)), p.of)
	}
	made.number = p.number
	if p.over() != nil || p.branches() != nil || p.inDays() != nil {
		made.rare = &rare{over: p.over(), branches: p.branches(), inDays: p.inDays()}
	}
	return made
}

// shallow returns a phrase that may be inside another one.
func (t *translator) shallow(p phrase) phrase {
	if p.depth <= mostOperandDepth {
		return p
	}
	return t.part(p)
}

// boxed returns the box of a phrase, and counts its text.
func (t *translator) boxed(p phrase) *box {
	t.wrote(len(p.text))
	return boxOf(p)
}

// wrote counts bytes of the model. It refuses the first text past a line, and nothing more is invoked from then on.
func (t *translator) wrote(bytes int) {
	t.written += bytes
	if t.written <= MostLine || t.full {
		return
	}
	t.full = true
	at := t.near
	if t.text != nil {
		at = t.text.Element
	}
	t.refusals.refuse(at, "", fmt.Sprintf("from here on the model is longer than a line of %d bytes; "+
		"each invocation takes what it invokes along", MostLine), "fewer invocations, or a decision in place of one")
}

// refuse refuses a form of the current text.
func (t *translator) refuse(n feel.Node, why, instead string) phrase {
	span := n.At()
	text := t.text.Text
	if span.Start >= 0 && span.End <= len(text) && span.Start < span.End {
		text = text[span.Start:span.End]
	}
	t.refusals.refuse(t.text.Element, text, why, instead)
	return refused
}

// read returns the tree of a text, or refuses it and returns nil.
func (t *translator) read(text *dmn.Text, s *scope, asTests bool) []feel.Node {
	kept := t.trees[text]
	if kept == nil {
		kept = readTree(text, s, t.members, asTests)
		t.trees[text] = kept
	}
	if kept.fault != nil {
		t.refusals.refuse(text.Element, text.Text, kept.why, kept.fault.Instead)
		return nil
	}
	return kept.nodes
}

func readTree(text *dmn.Text, s *scope, members *feel.Scope, asTests bool) *tree {
	made := &tree{}
	if asTests {
		made.nodes, made.fault = feel.Tests(text.Text, s.reads, members)
	} else {
		node, fault := feel.Expression(text.Text, s.reads, members)
		made.nodes, made.fault = []feel.Node{node}, fault
	}
	if made.fault != nil {
		made.why = fmt.Sprintf("at character %d %s", 1+utf8.RuneCountInString(text.Text[:made.fault.Offset]), made.fault.Why)
	}
	return made
}

// at translates with another current text.
func (t *translator) at(text *dmn.Text, translate func()) {
	before := t.text
	t.text = text
	defer func() { t.text = before }()
	translate()
}
