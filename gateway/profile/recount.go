package profile

import (
	"gateway/dmn"
	"gateway/feel"
)

// listOfBoxes aligns the members of a list, and returns its type.
func (t *translator) listOfBoxes(made *box, all []*valueType, refuse func(why, instead string)) *valueType {
	of := nullType
	for _, member := range all {
		if refuseMixed(of, member, refuse) {
			return refusedType
		}
		of = joined(of, member)
	}
	for i, member := range all {
		made.list[i] = t.alignedBox(made.list[i], member, of, refuse)
	}
	return listOf(of)
}

// alignedBox returns a box whose value is counted as values of another type.
func (t *translator) alignedBox(b *box, of, to *valueType, refuse func(why, instead string)) *box {
	switch {
	case !t.counts || !t.isCounted(of) && !t.isCounted(to) || of.kind == refusedKind:
		return b
	case b.kind == textBox:
		p := b.value
		p.of = of
		aligned := *b
		aligned.value = t.aligned(p, to, refuse)
		return &aligned
	case b.kind == contextBox && b.result != nil:
		aligned := *b
		aligned.result = t.alignedBox(b.result, of, to, refuse)
		return &aligned
	case b.isRow && to.kind == contextKind:
		return t.alignedRow(b, of, to, refuse)
	case of.kind == numberKind:
		word := t.words.fresh("value")
		result := boxOf(t.aligned(constant(word, of), to, refuse))
		return &box{kind: contextBox, entries: []boxEntry{{word: word, value: b}}, result: result}
	}
	if why := countedAlike(of, to); why != "" {
		refuse(why, "as many decimals for all of them")
	}
	return b
}

// alignedRow returns the row of a relation, whose entries don't see each other.
func (t *translator) alignedRow(b *box, of, to *valueType, refuse func(why, instead string)) *box {
	aligned := *b
	aligned.entries = append([]boxEntry(nil), b.entries...)
	for i, entry := range aligned.entries {
		name := feel.Canonical(t.words.names[entry.word])
		if own, due := of.fields[name], to.fields[name]; own != nil && due != nil {
			aligned.entries[i].value = t.alignedBox(entry.value, own, due, refuse)
		}
	}
	return &aligned
}

// underRule translates an output entry, which counts if its rule hits.
func (r *tableReader) underRule(entry *dmn.Text, due *valueType, rules []int, isHit bool) phrase {
	if !r.counts {
		return r.cell(entry, due)
	}
	before := r.guard
	defer func() { r.guard = before }()
	r.guard = &guard{outer: before, frame: r.frame, make: func(f *frame, outer string) string {
		hits := r.hitTable(rules)
		word := r.entryIn(f, "rule", hits)
		text := "if " + word + " = true then true else false"
		if !isHit {
			text = "if " + word + " = true then false else true"
		}
		if outer != "" {
			text = "if " + outer + " then (" + text + ") else false"
		}
		return r.entryIn(f, "branch", boxOf(phrase{text: text, rank: rankIf, depth: 5, of: booleanType}))
	}}
	return r.cell(entry, due)
}
