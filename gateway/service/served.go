package service

import (
	"context"
	"encoding/json"
	"errors"
	"fmt"
	"time"

	"gateway/domain"
	"gateway/engine"
	"gateway/lines"
	"gateway/tell"
	"gateway/types"
)

// A served is a model with what the service knows about it.
type served struct {
	source   *Source
	engine   *engine.Model
	lawful   *engine.Lawful
	warnings []engine.Place
	// services are by their words and by their names in the file.
	services map[string]*decisionService
	// words has the model's word for each name in the file that differs from it.
	words map[string]string
	// types has the types that the file gives to inputs and decisions, by their words; toNames writes the keys of their
	// values with the file's names.
	types   map[string]*types.Type
	toNames map[string]*types.Keys
	// clocks has the inputs that the clock fills, by their words and names; now is the time.
	clocks map[string]string
	now    func() time.Time
	// counts is true if some number is counted in a unit: requests and results have decimals.
	counts bool
	// parts say how values at JSON Pointers into the model are counted, pointers where the expression of a decision is,
	// and fromFile what the file has. isTranslated is true if the model has parts that the file doesn't have.
	parts        map[string]countedPart
	pointers     map[string]string
	fromFile     map[string]bool
	isTranslated bool
	// isStrict is true if the types of the inputs are known, and unknown inputs are refused. isKnown has the known
	// ones. An input of another service is ignored.
	isStrict bool
	isKnown  map[string]bool
	// isLenient is true if what is missing is null, whatever the domains say.
	isLenient bool
	// required has the inputs that callers have to give by what the file says, needs the components of inputs.
	required []string
	needs    map[string]*types.Needs
	// domains has the values that inputs and their components may have, by the words of the inputs; needed has the inputs that have to be
	// there by them.
	domains map[string]*domain.Place
	needed  map[string]need
	// origin says where the model came from, and since when it is in force.
	origin string
	since  time.Time
	// wholeSum is the sum of all that decides, and sum the header with it.
	wholeSum string
	sum      []string
	// rules has what the file says about rules, by their pointers; recorded is what each journal line says about the
	// model.
	rules    map[string]ruleNote
	recorded []byte
	by       *recorder
	// analysis is what was found about its tables.
	analysis analysis
}

// A decisionService is one service of a model.
type decisionService struct {
	word, name string
	// inputs are the words of its parameters that requests bring, in the model's order; clocks are those that the clock
	// fills.
	inputs, clocks []string
	// required are the inputs whose types don't admit null.
	required []string
	// strict is the service as callers see it, which also requires what the file does; nil if that is no more. isStrict is true of it.
	strict   *decisionService
	isStrict bool
	// notNull has the required inputs whose types admit null all the same.
	notNull map[string]bool
	// needed are the inputs that have to be there by their domains alone.
	needed []string
	// outputs are the words of its output decisions.
	outputs    []string
	parameters map[string]bool
	// result is the type of its results if their numbers are counted, else nil.
	result *types.Type
	// toWords and toNames translate the keys of its inputs and its results.
	toWords, toNames *types.Keys
	// tail is what follows the inputs on the line of a request.
	tail []byte
}

// room returns space for the lines of that many requests, with that many bytes of inputs in all.
func (d *decisionService) room(requests, bytes int) []byte {
	return make([]byte, 0, bytes+requests*(len(inputsKey)+len(d.tail)))
}

// read asks the engine about a model. If it has a fault the error is an *engine.FaultyModel.
func (s *Service) read(ctx context.Context, source *Source, origin string) (*served, error) {
	lawful, warnings, err := s.check(ctx, source.Text)
	if err != nil {
		return nil, err
	}
	it := &served{
		source: source, engine: engine.NewModel(source.Text), lawful: lawful, warnings: warnings,
		services: map[string]*decisionService{}, words: map[string]string{}, types: map[string]*types.Type{}, origin: origin,
		since: time.Now(), now: time.Now, clocks: map[string]string{}, isStrict: len(source.Types) > 0 && !s.options.Lenient,
		isLenient: s.options.Lenient,
	}
	line := len(it.engine.AppendLine(nil)) - 1
	if line > lines.MaxLine {
		return nil, fmt.Errorf("%w: its line would have %d bytes, and at most %d are read", errLongModel, line, lines.MaxLine)
	}
	it.wholeSum = source.Sum()
	it.sum = []string{it.wholeSum}
	if err := it.index(); err != nil {
		return nil, err
	}
	if s.recorder != nil {
		if err := it.noteRules(); err != nil {
			return nil, err
		}
		it.remember(s.recorder)
	}
	return it, engine.Try(ctx, s.options.Engine, s.options.Memory, it.engine)
}

// check asks the engine about a model, and words what it found. Findings that can't be worded stay as the engine wrote
// them.
func (s *Service) check(ctx context.Context, text []byte) (*engine.Lawful, []engine.Place, error) {
	lawful, found, err := engine.Check(ctx, s.options.Engine, s.options.Memory, text)
	var faulty *engine.FaultyModel
	if err != nil && !errors.As(err, &faulty) {
		return nil, nil, err
	}
	fault := ""
	if faulty != nil {
		fault, found = faulty.Fault, faulty.Places
	}
	worded, failed := tell.Findings(text, fault, found)
	if failed != nil {
		s.options.Log("wording what was found in a model: %v", failed)
		worded = found
	}
	if faulty != nil {
		return nil, nil, &engine.FaultyModel{Fault: fault, Places: worded}
	}
	return lawful, worded, nil
}

// index makes the tables by which names, types and services are found.
func (m *served) index() (err error) {
	for word, name := range m.source.Names {
		if word != name {
			m.words[name] = word
		}
	}
	for word, text := range m.source.Types {
		if m.types[word], err = types.Read(text); err != nil {
			return fmt.Errorf("%w: the type of %s: %v", ErrNoModel, word, err)
		}
	}
	for _, form := range m.lawful.Services {
		service := &decisionService{word: form.Name, name: m.nameOf(form.Name), parameters: map[string]bool{}}
		for _, parameter := range form.Parameters {
			service.parameters[parameter] = true
			m.addInput(service, parameter)
		}
		service.tail = append(lines.AppendQuoted([]byte(`,"service":`), form.Name), '}')
		m.services[service.word] = service
		m.services[service.name] = service
	}
	m.counts = m.isCounted()
	m.require()
	if err := m.declare(); err != nil {
		return err
	}
	m.needByDomains()
	if err := m.countParts(); err != nil {
		return err
	}
	return m.describe()
}

// nameOf returns the name in the file of a word.
func (m *served) nameOf(word string) string {
	if name, is := m.source.Names[word]; is {
		return name
	}
	if name, is := m.source.Locals[word]; is {
		return name
	}
	return word
}

// serviceNames returns the names of the services, in the model's order.
func (m *served) serviceNames() []string {
	names := []string{}
	for _, form := range m.lawful.Services {
		names = append(names, m.nameOf(form.Name))
	}
	return names
}

// A modelPage is the answer of GET /v1/model.
type modelPage struct {
	Sum      string                     `json:"sha256"`
	TextSum  string                     `json:"textSha256"`
	Release  *Release                   `json:"release,omitempty"`
	Engine   string                     `json:"engine"`
	Origin   string                     `json:"origin"`
	Since    time.Time                  `json:"since"`
	Inputs   []string                   `json:"inputs"`
	Decision []decisionPage             `json:"decisions"`
	Services []servicePage              `json:"services"`
	Types    map[string]json.RawMessage `json:"types,omitempty"`
	Warnings []json.RawMessage          `json:"warnings"`
}

type decisionPage struct {
	Name string `json:"name"`
	Kind string `json:"kind"`
}

type servicePage struct {
	Name       string   `json:"name"`
	Parameters []string `json:"parameters"`
	Path       string   `json:"path"`
}

func (m *served) page(version string) *modelPage {
	page := &modelPage{
		Sum: m.wholeSum, TextSum: m.engine.Sum, Release: m.source.Release, Engine: version, Origin: m.origin, Since: m.since.UTC(), Inputs: m.names(m.lawful.Inputs),
		Decision: []decisionPage{}, Warnings: m.warnings,
	}
	if page.Warnings == nil {
		page.Warnings = []json.RawMessage{}
	}
	for _, decision := range m.lawful.Decisions {
		page.Decision = append(page.Decision, decisionPage{m.nameOf(decision.Name), decision.Kind})
	}
	page.Services = m.servicePages()
	if len(m.source.Types) > 0 {
		page.Types = map[string]json.RawMessage{}
		for word := range m.source.Types {
			page.Types[m.nameOf(word)] = m.schema(word)
		}
	}
	return page
}

// servicePages describes the services, in the model's order.
func (m *served) servicePages() []servicePage {
	pages := []servicePage{}
	for _, form := range m.lawful.Services {
		name := m.nameOf(form.Name)
		pages = append(pages, servicePage{name, m.names(m.services[form.Name].inputs), servicePath(name)})
	}
	return pages
}

// schema returns the JSON Schema of an input with the file's names; nil if the file has none.
func (m *served) schema(word string) json.RawMessage {
	text := m.source.Types[word]
	if text == nil || len(m.words) == 0 {
		return text
	}
	tree, err := lines.Tree(text)
	if err != nil {
		return text
	}
	m.renameProperties(tree)
	return lines.Compact(nil, tree)
}

// resultSchema returns the JSON Schema of a service's results with the file's names; nil if the file has none.
func (m *served) resultSchema(word string) json.RawMessage {
	outputs := m.services[word].outputs
	if len(outputs) == 1 {
		return m.schema(outputs[0])
	}
	properties := map[string]json.RawMessage{}
	for _, output := range outputs {
		if properties[m.nameOf(output)] = m.schema(output); properties[m.nameOf(output)] == nil {
			properties[m.nameOf(output)] = json.RawMessage("{}")
		}
	}
	text, err := plainJSON(map[string]any{"type": "object", "properties": properties})
	if err != nil {
		return nil
	}
	return text
}

// renameProperties gives the properties within a schema the file's names.
func (m *served) renameProperties(schema any) {
	parts, _ := schema.(map[string]any)
	if parts["items"] != nil {
		m.renameProperties(parts["items"])
	}
	properties, is := parts["properties"].(map[string]any)
	if !is {
		return
	}
	renamed := make(map[string]any, len(properties))
	for word, part := range properties {
		m.renameProperties(part)
		renamed[m.nameOf(word)] = part
	}
	parts["properties"] = renamed
}

func (m *served) names(words []string) []string {
	names := make([]string, len(words))
	for at, word := range words {
		names[at] = m.nameOf(word)
	}
	return names
}
