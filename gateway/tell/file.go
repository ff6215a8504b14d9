package tell

import (
	"fmt"
	"strings"

	"gateway/lines"
	"gateway/model"
)

// A file is the text of a model, with its parts by place.
type file struct {
	doc *lines.Document
	// root is the model: the value under the key "model", or the whole value.
	root lines.Node
	// model is the same as Go values; nil if it doesn't have the form of a model.
	model *model.Model
	// origins is that of CheckOptions. isSpread means that they are in several files.
	origins  map[string]Spot
	isSpread bool
}

// newFile reads a text; nil if it is not JSON.
func newFile(text []byte) *file {
	doc := lines.NewDocument(text)
	if doc == nil {
		return nil
	}
	f := &file{doc: doc, root: doc.Whole}
	if under, ok := doc.Member(doc.Whole, "model"); ok {
		f.root = under
	}
	f.model = modelOf(doc, f.root)
	return f
}

// part returns what a place leads to.
func (f *file) part(place Place) (lines.Node, bool) {
	part, ok := f.root, true
	for _, step := range place {
		if part, ok = f.step(part, step); !ok {
			return part, false
		}
	}
	return part, true
}

func (f *file) step(part lines.Node, step Step) (lines.Node, bool) {
	if step.Key != "" {
		return f.doc.Member(part, step.Key)
	}
	return f.doc.Item(part, step.Index)
}

// text returns the text at a place; false if there is none.
func (f *file) text(place Place) (string, bool) {
	part, ok := f.part(place)
	if !ok {
		return "", false
	}
	return f.doc.Text(part)
}

// position returns where a place begins. If its last steps lead nowhere, the steps before them count. In an imported model it
// is the start of the nearest enclosing part with a known origin.
func (f *file) position(place Place) Spot {
	if f.origins != nil {
		return f.origin(place)
	}
	part := f.root
	for _, step := range place {
		next, ok := f.step(part, step)
		if !ok {
			break
		}
		part = next
	}
	return f.spot(part)
}

// spot returns where a part of the text begins.
func (f *file) spot(part lines.Node) Spot {
	line, column := f.doc.Position(part)
	return Spot{Line: line, Column: column}
}

func (f *file) origin(place Place) Spot {
	for ; len(place) > 0; place = place[:len(place)-1] {
		if spot, ok := f.origins[place.Pointer()]; ok {
			return spot
		}
	}
	return f.origins[""]
}

// whole returns the spot of the whole file.
func (f *file) whole() Spot { return Spot{File: f.origins[""].File} }

// isSpread reports whether spots are in several files.
func isSpread(origins map[string]Spot) bool {
	first := origins[""].File
	for _, spot := range origins {
		if spot.File != first {
			return true
		}
	}
	return false
}

// spotWords returns a spot for people.
func (f *file) spotWords(spot Spot) string {
	words := fmt.Sprintf("line %d, column %d: ", spot.Line, spot.Column)
	if f.isSpread {
		return spot.File + ": " + words
	}
	return words
}

// at returns where a place begins, for people.
func (f *file) at(place Place) string {
	return f.spotWords(f.position(place))
}

// A way follows a place and words what it passes.
type way struct {
	file  *file
	said  []string
	part  lines.Node
	isAny bool
	// table is the last table passed.
	table    lines.Node
	hasTable bool
	key      string
}

// words returns a place for people, such as `decisions[3] "discount", rule 9, input 3 "age"`. Decisions, services and inputs of
// the model have JSON's index in brackets, from 0. Parts of a decision or service are counted from 1. The whole model is "".
func (f *file) words(place Place) string {
	w := way{file: f, part: f.root, isAny: true}
	for at, step := range place {
		if w.isAny {
			w.part, w.isAny = f.step(w.part, step)
		}
		if step.Key != "" {
			w.goTo(step.Key, at == len(place)-1)
		} else {
			w.goToElement(step.Index)
		}
	}
	return strings.Join(w.said, ", ")
}

func (w *way) goTo(key string, isLast bool) {
	w.key = key
	switch key {
	case "table":
		w.table, w.hasTable = w.part, w.isAny
		if isLast {
			w.say("table")
		}
	case "default", "result":
		w.say(key)
	case "hit":
		w.say("hit policy")
	}
}

func (w *way) say(text string) { w.said = append(w.said, text) }

// named returns a part's name after a blank and in quotes, if it has one: the text itself, or the value under "name".
func (w *way) named(part lines.Node, is bool) string {
	if !is {
		return ""
	}
	if under, ok := w.file.doc.Member(part, "name"); ok {
		part = under
	}
	if name, ok := w.file.doc.Text(part); ok {
		return " " + quoted(name)
	}
	return ""
}

// columnOf names the table column under a key.
func (w *way) columnOf(key string, index int) string {
	if !w.hasTable {
		return ""
	}
	columns, _ := w.file.doc.Member(w.table, key)
	column, ok := w.file.doc.Item(columns, index)
	return w.named(column, ok)
}

// counted are the elements that are counted from 1 and have a name.
var counted = map[string]string{
	"inputs": "input", "outputs": "output", "needs": "need", "encapsulated": "encapsulated", "inputDecisions": "input decision",
	"inputData": "input data",
}

// plain are the elements that only have a number.
var plain = map[string]string{"rules": "rule", "values": "value", "list": "member"}

func (w *way) goToElement(index int) {
	word, isCounted := counted[w.key]
	own := func() string { return w.named(w.part, w.isAny) }
	switch {
	case w.key == "decisions", w.key == "services", w.key == "inputs" && !w.hasTable:
		w.say(fmt.Sprintf("%s[%d]%s", w.key, index, own()))
	case isCounted:
		w.say(fmt.Sprintf("%s %d%s", word, index+1, own()))
	case w.key == "when":
		w.say(fmt.Sprintf("input %d%s", index+1, w.columnOf("inputs", index)))
	case w.key == "then":
		w.say(fmt.Sprintf("output %d%s", index+1, w.columnOf("outputs", index)))
	case w.key == "context":
		w.say("entry" + own())
	case plain[w.key] != "":
		w.say(fmt.Sprintf("%s %d", plain[w.key], index+1))
	}
}
