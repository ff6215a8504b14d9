// Package export writes a model as a DMN 1.3 file with a diagram.
//
// The file means the same in the standard as here, or the place is refused. A text that means something else in the standard is
// rewritten: a comparison with the input becomes "? = (e)", a plus of two possible texts "- -", sum, min, max and count of a
// possible single value get a condition, and a priority without output values becomes FIRST. Two things can't be written: the
// limits of values (an answer "limit" here is a greater value, or none, elsewhere), and what the standard leaves open.
//
// The model must be valid. Check that with the engine (desk check).
package export

import (
	"encoding/json"
	"fmt"
	"strconv"

	"gateway/model"
)

// A Source is a model to export, and what an import of it reported.
type Source struct {
	Model *model.Model
	// Names maps a word to its spelling in the file. Other words are spelled as they are.
	Names map[string]string
	// File has the texts of the first file. If IsWritten is set they are written instead of the model's, which count in units.
	File      model.Spelling
	IsWritten bool
	// Types has the JSON Schemas of inputs and decisions, by word.
	Types map[string]Schema
	// Counted lists the inputs and decisions that the model counts in units. With IsWritten, it lists those that have whole
	// numbers of units in the file.
	Counted []string
	// Title is the name of the model; it may be empty.
	Title string
	// Imported means that the model came from a file.
	Imported bool
	// Typed means that decisions and outputs get their known types too, not just inputs.
	Typed bool
}

// A Refusal is a place of the model that can't be written with the same meaning in the standard.
type Refusal struct {
	// Pointer is the place, as a JSON Pointer into the model.
	Pointer string
	// Text is what is there; it may be empty.
	Text string
	// Why gives the reason, Instead says what to do; Instead may be empty.
	Why, Instead string
}

func (r Refusal) String() string {
	line := r.Pointer
	if r.Text != "" {
		line += ": " + strconv.Quote(r.Text)
	}
	line += ": " + r.Why
	if r.Instead != "" {
		line += "; instead: " + r.Instead
	}
	return line
}

// Read reads a model, {"model":M}, or an import's output.
func Read(data []byte) (Source, error) {
	var whole struct {
		Model  json.RawMessage   `json:"model"`
		Names  map[string]string `json:"names"`
		Locals map[string]string `json:"locals"`
		Places json.RawMessage   `json:"places"`
		Types  map[string]Schema `json:"types"`
	}
	if err := json.Unmarshal(data, &whole); err != nil {
		return Source{}, fmt.Errorf("reading the model: %w", err)
	}
	source := Source{Names: whole.Names, Types: whole.Types, Imported: whole.Names != nil, Typed: true}
	source.findUnits()
	var err error
	if source.File, err = model.ReadSpelling(whole.Names, whole.Locals, whole.Places); err != nil {
		return Source{}, err
	}
	source.IsWritten = len(source.File.Texts) > 0
	if whole.Model == nil {
		whole.Model = data
	}
	source.Model, err = model.Parse(whole.Model)
	return source, err
}

// File returns the model as a file. It is nil if there are refusals.
func File(source Source) ([]byte, []Refusal) {
	p := newPage(source)
	root := p.definitions()
	if len(p.refusals) > 0 {
		return nil, p.refusals
	}
	return root.file(), nil
}

// Namespaces of DMN 1.3, and that of the written model.
const (
	modelSpace   = "https://www.omg.org/spec/DMN/20191111/MODEL/"
	diagramSpace = "https://www.omg.org/spec/DMN/20191111/DMNDI/"
	boundsSpace  = "http://www.omg.org/spec/DMN/20180521/DC/"
	lineSpace    = "http://www.omg.org/spec/DMN/20180521/DI/"
	ownSpace     = "urn:colkuzai:model"
)

// A requirement is an informationRequirement: what needs what.
type requirement struct{ id, needed, by string }

// A page is a file being written.
type page struct {
	Source
	// decisions has the model's decisions by word.
	decisions map[string]*model.Decision
	services  []model.Service
	shapes    map[string]shape
	words     *dictionary
	ids       ids
	counts    map[string]int

	requirements []requirement
	knowledge    []*knowledge
	types        []*element
	refusals     []Refusal
}

func newPage(source Source) *page {
	p := &page{Source: source, services: source.Model.Services, decisions: map[string]*model.Decision{},
		shapes: map[string]shape{}, words: newDictionary(source.Names), counts: map[string]int{}}
	if !p.IsWritten {
		p.Types = source.wholeTypes()
	}
	if p.Title == "" {
		p.Title = "Model"
	}
	p.ids = newIDs(source.Model)
	for i := range p.Model.Decisions {
		p.decisions[p.Model.Decisions[i].Name] = &p.Model.Decisions[i]
	}
	for _, input := range p.Model.Inputs {
		p.shapes[input] = anything
	}
	for word, schema := range p.Types {
		if s := schema.shape(); s.kinds != isAnything {
			p.shapes[word] = s
		}
	}
	return p
}

func (p *page) refuse(pointer, text, why, instead string) {
	p.refusals = append(p.refusals, Refusal{pointer, text, why, instead})
}

// id returns an id of a kind, numbered from 1.
func (p *page) id(kind string) string {
	p.counts[kind]++
	return kind + "_" + strconv.Itoa(p.counts[kind])
}

func (p *page) definitions() *element {
	root := tag("definitions", "xmlns", modelSpace, "xmlns:dmndi", diagramSpace, "xmlns:dc", boundsSpace, "xmlns:di",
		lineSpace, "id", "definitions", "name", p.Title, "namespace", ownSpace, "exporter", "desk")
	p.checkNames()
	var parts []*element
	for _, input := range p.Model.Inputs {
		parts = append(parts, p.input(input))
	}
	for i := range p.Model.Decisions {
		parts = append(parts, p.decision(i))
	}
	for _, k := range p.knowledge {
		parts = append(parts, p.business(k))
	}
	if !p.servesByDefault() {
		for _, service := range p.services {
			parts = append(parts, p.service(service))
		}
	} else {
		p.services = nil
	}
	return root.add(p.types...).add(parts...).add(p.diagram())
}

func (p *page) spell(word string) string { return p.words.spell(word) }

func (p *page) input(word string) *element {
	variable := tag("variable", "id", p.id("variable"), "name", p.spell(word), "typeRef", p.typeOf(word))
	return tag("inputData", "id", p.ids.node(word), "name", p.spell(word)).add(variable)
}

func (p *page) decision(index int) *element {
	d := p.Model.Decisions[index]
	typeRef := p.typeOf(d.Name)
	if typeRef == "" {
		typeRef = p.scalar(p.shape(d.Name))
	}
	if !p.Typed {
		typeRef = ""
	}
	variable := tag("variable", "id", p.id("variable"), "name", p.spell(d.Name), "typeRef", typeRef)
	e := tag("decision", "id", p.ids.node(d.Name), "name", p.spell(d.Name)).add(variable)
	place := newScope(p.words)
	for _, need := range d.Needs {
		place.bind(need, p.shape(need))
		e.add(p.requires(need, d.Name))
	}
	pointer := fmt.Sprintf("/decisions/%d/expr", index)
	return e.add(p.requiresKnowledge(p.calls(pointer, d.Expr), d.Name)...).add(p.boxed(pointer, d.Expr, place))
}

func (p *page) requires(needed, by string) *element {
	r := requirement{p.id("requirement"), needed, by}
	p.requirements = append(p.requirements, r)
	kind := "requiredInput"
	if p.decisions[needed] != nil {
		kind = "requiredDecision"
	}
	return tag("informationRequirement", "id", r.id).add(tag(kind, "href", "#"+p.ids.node(needed)))
}

// shape returns what is known of the value of an input or decision.
func (p *page) shape(word string) shape {
	if s, known := p.shapes[word]; known {
		return s
	}
	d := p.decisions[word]
	if d == nil {
		return anything
	}
	p.shapes[word] = anything
	bound := newNames(nil)
	for _, need := range d.Needs {
		bound.bind(need, p.shape(need))
	}
	p.shapes[word] = bound.ofBoxed(d.Expr)
	return p.shapes[word]
}

func (p *page) service(s model.Service) *element {
	e := tag("decisionService", "id", p.ids.of("service", s.Name), "name", p.spell(s.Name))
	e.add(tag("variable", "id", p.id("variable"), "name", p.spell(s.Name)))
	for _, list := range []struct {
		kind  string
		words []string
	}{
		{"outputDecision", s.Outputs}, {"encapsulatedDecision", s.Encapsulated}, {"inputDecision", s.InputDecisions},
		{"inputData", s.InputData},
	} {
		p.references(e, list.kind, list.words)
	}
	return e
}

func (p *page) references(e *element, kind string, words []string) {
	for _, word := range words {
		e.add(tag(kind, "href", "#"+p.ids.node(word)))
	}
}
