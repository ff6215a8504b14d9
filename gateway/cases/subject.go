package cases

import (
	"encoding/json"
	"fmt"
	"strings"

	"gateway/lines"
	"gateway/model"
	"gateway/near"
	"gateway/service"
)

// A Subject is a model with the names that files use for its parts: those of its file, or its words.
type Subject struct {
	source *service.Source
	form   modelForm
	// inputs and decisions map names and words to words; places has each decision's index.
	inputs, decisions map[string]string
	places            map[string]int
	// parsed is the model with its logic, written has its file's tables by pointer; nil until needed.
	parsed  *model.Model
	written map[string]*model.Table
}

// A modelForm is the part of a model used here. Whether the model is valid is up to the engine.
type modelForm struct {
	Inputs    []string
	Decisions []struct {
		Name  string
		Needs []string
		Expr  json.RawMessage
	}
	Services []struct {
		Name                                             string
		Outputs, Encapsulated, InputDecisions, InputData []string
	}
}

// NewSubject reads a model's names.
func NewSubject(source *service.Source) (*Subject, error) {
	s := &Subject{source: source, inputs: map[string]string{}, decisions: map[string]string{}, places: map[string]int{}}
	if err := json.Unmarshal(source.Text, &s.form); err != nil {
		return nil, fmt.Errorf("%w: %v", service.ErrNoModel, err)
	}
	for _, word := range s.form.Inputs {
		s.inputs[canonical(s.Name(word))], s.inputs[word] = word, word
	}
	for at, decision := range s.form.Decisions {
		word := decision.Name
		s.decisions[canonical(s.Name(word))], s.decisions[word], s.places[word] = word, word, at
	}
	return s, nil
}

// Name returns a word's name in the file.
func (s *Subject) Name(word string) string {
	if name, is := s.source.Names[word]; is {
		return name
	}
	return word
}

// Decision returns the word of the decision with a name or word.
func (s *Subject) Decision(name string) (word string, is bool) {
	word, is = s.decisions[canonical(name)]
	return word, is
}

// IsInput reports whether a name or word is an input's.
func (s *Subject) IsInput(name string) bool {
	_, is := s.inputs[canonical(name)]
	return is
}

// Decisions returns the words of all decisions, in model order.
func (s *Subject) Decisions() (words []string) {
	for _, decision := range s.form.Decisions {
		words = append(words, decision.Name)
	}
	return words
}

// NameOf returns the name of the table of some borders.
func (s *Subject) NameOf(b *Borders) string {
	words := strings.Split(b.Name, ".")
	for at := range words {
		words[at] = s.partName(words[at])
	}
	return strings.Join(words, ".")
}

// service returns the index of the service with a name or word, or -1.
func (s *Subject) service(name string) int {
	for at, it := range s.form.Services {
		if it.Name == name || canonical(s.Name(it.Name)) == canonical(name) {
			return at
		}
	}
	return -1
}

// Outputs returns the decisions answered by the service or decision with this name. Without a name they are those of the only
// service, or with several services all decisions that no other needs.
func (s *Subject) Outputs(name string) ([]string, error) {
	if name == "" && len(s.form.Services) == 1 {
		return s.form.Services[0].Outputs, nil
	}
	if name == "" {
		return s.last(), nil
	}
	if at := s.service(name); at >= 0 {
		return s.form.Services[at].Outputs, nil
	}
	if word, is := s.decisions[canonical(name)]; is {
		return []string{word}, nil
	}
	var names []string
	for _, it := range s.form.Services {
		names = append(names, s.Name(it.Name))
	}
	return nil, fmt.Errorf("%w: no service and no decision is called %q%s", ErrForm, name, meant(name, append(names, s.decisionNames()...)))
}

// answers reports whether a service answers a decision. It is true for an unknown service, so that the request is refused.
func (s *Subject) answers(service, word string) bool {
	at := s.service(service)
	if at < 0 {
		return true
	}
	for _, output := range s.form.Services[at].Outputs {
		if output == word {
			return true
		}
	}
	return false
}

// last returns the decisions that no other needs, in model order.
func (s *Subject) last() (words []string) {
	isNeeded := map[string]bool{}
	for _, decision := range s.form.Decisions {
		for _, need := range decision.Needs {
			isNeeded[need] = true
		}
	}
	for _, decision := range s.form.Decisions {
		if !isNeeded[decision.Name] {
			words = append(words, decision.Name)
		}
	}
	return words
}

func (s *Subject) decisionNames() (names []string) {
	for _, decision := range s.form.Decisions {
		names = append(names, s.Name(decision.Name))
	}
	return names
}

func (s *Subject) inputNames() (names []string) {
	for _, word := range s.form.Inputs {
		names = append(names, s.Name(word))
	}
	return names
}

// Asking returns the model with one more service with these outputs, and that service's word. Requests bring the values of the
// given decisions that it needs. The model's services stay if there is room for them.
func (s *Subject) Asking(outputs, given []string) (*service.Source, string, error) {
	tree, err := lines.Tree(s.source.Text)
	model, is := tree.(map[string]any)
	if err != nil || !is {
		return nil, "", service.ErrNoModel
	}
	own, word := s.ownService(outputs, given)
	services, _ := model["services"].([]any)
	model["services"] = append(services, own)
	source := *s.source
	source.Text = lines.Compact(nil, model)
	if len(source.Text) > lines.MaxLine-len(`{"model":}`) {
		model["services"] = []any{own}
		source.Text = lines.Compact(nil, model)
	}
	return &source, word, nil
}

// ownService returns a service that answers decisions, with all their needs.
func (s *Subject) ownService(outputs, given []string) (own map[string]any, word string) {
	word = "asked"
	for s.decisions[word] != "" || s.inputs[word] != "" || s.service(word) >= 0 {
		word += "_"
	}
	isSeen := map[string]bool{}
	encapsulated, decisions, inputs, all := []any{}, []any{}, []any{}, []any{}
	for _, output := range outputs {
		isSeen[output] = true
		all = append(all, output)
	}
	for next := append([]string(nil), outputs...); len(next) > 0; next = next[1:] {
		at, is := s.places[next[0]]
		if !is {
			continue
		}
		for _, need := range s.form.Decisions[at].Needs {
			if isSeen[need] {
				continue
			}
			isSeen[need] = true
			if contains(given, need) {
				decisions = append(decisions, need)
			} else if _, is := s.places[need]; is {
				encapsulated, next = append(encapsulated, need), append(next, need)
			} else {
				inputs = append(inputs, need)
			}
		}
	}
	return map[string]any{"name": word, "outputs": all, "encapsulated": encapsulated, "inputDecisions": decisions, "inputData": inputs}, word
}

// members returns the names of a decision's members: the columns of a table with several, if one rule decides.
func (s *Subject) members(word string) (names []string) {
	var expr struct {
		Table struct {
			Hit     string
			Outputs []struct{ Name string }
		}
	}
	if json.Unmarshal(s.form.Decisions[s.places[word]].Expr, &expr) != nil || len(expr.Table.Outputs) < 2 {
		return nil
	}
	if !strings.Contains("UAPF", expr.Table.Hit) {
		return nil
	}
	for _, output := range expr.Table.Outputs {
		names = append(names, output.Name)
	}
	return names
}

// partName returns a part's name in the file.
func (s *Subject) partName(word string) string {
	if name, is := s.source.Locals[word]; is {
		return name
	}
	return s.Name(word)
}

// meant suggests the name nearest to an unknown one.
func meant(name string, names []string) string {
	if best := near.To(name, names); best != "" {
		return fmt.Sprintf("; did you mean %q?", best)
	}
	return ""
}
