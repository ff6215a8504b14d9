package profile

import (
	"fmt"

	"gateway/dmn"
	"gateway/feel"
	"gateway/model"
)

// services makes the decision services of the files.
type services struct {
	graph *graph
	names map[string]bool
	// written counts about how many bytes the services take in the model.
	written int
}

// A service is one of the model, with its element; nil for one that the files don't have.
type service struct {
	model.Service
	name   string
	origin *dmn.Element
	// nodes are what it lists, and what those need.
	nodes []*node
}

func newServices(g *graph) *services { return &services{graph: g, names: map[string]bool{}} }

// all returns the services of the files; with a name only the service of that name, or else that of the decision.
func (s *services) all(only string) []service {
	var made []service
	for _, source := range s.graph.sources {
		for _, d := range source.file.Services {
			name := nameOf(d.Element, d.Variable)
			if only != "" && !s.graph.isCalled(name, only) {
				continue
			}
			made = append(made, s.declared(source, d, name))
			if s.written > MostLine {
				s.graph.refusals.refuse(d.Element, name, fmt.Sprintf("with this service the model is longer than a line of %d bytes",
					MostLine), "fewer services, or --service NAME")
				return made
			}
		}
	}
	if only == "" || len(made) > 0 {
		return made
	}
	for _, n := range s.graph.decisions {
		if s.graph.isCalled(n.name, only) {
			return []service{s.graph.serviceOf(n)}
		}
	}
	s.graph.refusals.refuse(s.graph.sources[0].file.Root, only, noSuchService, "one of the names of the files")
	return nil
}

const noSuchService = "no decision service and no decision has this name"

// isCalled reports whether asked is a name, or its word.
func (g *graph) isCalled(name, asked string) bool {
	return feel.Canonical(name) == feel.Canonical(asked) || g.words.of(name) == asked
}

// declared translates a decisionService.
func (s *services) declared(source *source, d *dmn.DecisionService, name string) service {
	made := service{Service: model.Service{Name: s.graph.words.of(name)}, name: name, origin: d.Element}
	if s.names[made.Name] || name == "" {
		s.graph.refusals.refuse(d.Element, name, "the service has no name of its own", "another name")
	}
	s.names[made.Name] = true
	outputs := s.decisions(source, d.Outputs)
	encapsulated := s.decisions(source, d.Encapsulated)
	given := s.decisions(source, d.Decisions)
	inputs := s.inputs(source, d.Input)
	if len(outputs) == 0 {
		s.graph.refusals.refuse(d.Element, name, "the service has no output decision", "an outputDecision")
	}
	further, free := s.unlisted(d.Element, outputs, encapsulated, given, inputs)
	encapsulated, inputs = append(encapsulated, further...), append(inputs, free...)
	made.Outputs, made.Encapsulated = wordsOf(outputs), wordsOf(encapsulated)
	made.InputDecisions, made.InputData = wordsOf(given), wordsOf(inputs)
	for _, list := range [][]string{{made.Name}, made.Outputs, made.Encapsulated, made.InputDecisions, made.InputData} {
		for _, word := range list {
			s.written += len(word) + 3
		}
	}
	listed := append(append(append([]*node(nil), outputs...), encapsulated...), given...)
	made.nodes = append(s.graph.reach(listed, nil), inputs...)
	return made
}

// unlisted finds the decisions that a service reaches without listing them: they are evaluated all the same. It refuses
// an unlisted input, which no request would bring, unless it is undeclared; and a decision that is both given and
// evaluated.
func (s *services) unlisted(e *dmn.Element, outputs, encapsulated, given, inputs []*node) (further, free []*node) {
	isGiven, isListed := setOf(given), setOf(outputs, encapsulated, given, inputs)
	for _, n := range append(append([]*node(nil), outputs...), encapsulated...) {
		if isGiven[n] {
			s.graph.refusals.refuse(e, n.name, "it is an input decision, and an output or encapsulated too", "one of these")
		}
	}
	for _, n := range s.graph.reach(outputs, isGiven) {
		switch {
		case isListed[n]:
		case n.free:
			free = append(free, n)
		case n.input != nil:
			s.graph.refusals.refuse(e, n.name, "the service needs this input, and doesn't list it", "it among its inputData")
		default:
			further = append(further, n)
		}
	}
	return further, free
}

func setOf(lists ...[]*node) map[*node]bool {
	set := map[*node]bool{}
	for _, list := range lists {
		for _, n := range list {
			set[n] = true
		}
	}
	return set
}

// decisions finds the decisions that a service lists.
func (s *services) decisions(source *source, references []*dmn.Reference) []*node {
	return s.listed(source, references, func(n *node) bool { return n.decision != nil }, "it is no decision")
}

func (s *services) inputs(source *source, references []*dmn.Reference) []*node {
	return s.listed(source, references, func(n *node) bool { return n.input != nil }, "it is no input")
}

func (s *services) listed(source *source, references []*dmn.Reference, is func(*node) bool, why string) []*node {
	var all []*node
	listed := map[*node]bool{}
	for _, r := range references {
		part := s.graph.referred(source, r)
		n, isNode := part.(*node)
		if part != nil && (!isNode || !is(n)) {
			s.graph.refusals.refuse(r.Element, r.Href, why, "")
			continue
		}
		if n != nil && !listed[n] {
			listed[n] = true
			all = append(all, n)
		}
	}
	return all
}

// reach returns what some decisions reach, without what only the given ones need.
func (g *graph) reach(outputs []*node, given map[*node]bool) []*node {
	g.walks++
	var all []*node
	open := append([]*node(nil), outputs...)
	for len(open) > 0 {
		n := open[0]
		open = open[1:]
		if n.seen == g.walks {
			continue
		}
		n.seen = g.walks
		all = append(all, n)
		if !given[n] {
			open = append(open, n.needs...)
		}
	}
	return all
}

// serviceOf returns the service that answers one decision, on the inputs that it needs.
func (g *graph) serviceOf(n *node) service {
	made := service{Service: model.Service{Name: n.word, Outputs: []string{n.word}, Encapsulated: []string{},
		InputDecisions: []string{}, InputData: []string{}}, name: n.name, nodes: g.reach([]*node{n}, nil)}
	for _, reached := range made.nodes {
		switch {
		case reached.input != nil:
			made.InputData = append(made.InputData, reached.word)
		case reached != n:
			made.Encapsulated = append(made.Encapsulated, reached.word)
		}
	}
	return made
}

// defaultServices gives a model without services one for each decision that no other needs, then one for each other
// decision while the model fits in a line. It notes those left out.
func defaultServices(g *graph, result *Result) {
	line, err := Line(&result.Model)
	if err != nil {
		return
	}
	size := len(line)
	for _, needed := range []bool{false, true} {
		for _, n := range g.decisions {
			if n.needed != needed {
				continue
			}
			one := g.serviceOf(n).Service
			text, err := (&model.Model{Services: []model.Service{one}}).JSON()
			// What surrounds the service in this text is longer than the comma after it.
			if err != nil || size+len(text) > MostLine {
				result.LeftOut = append(result.LeftOut, n.name)
				continue
			}
			size += len(text)
			result.Model.Services = append(result.Model.Services, one)
		}
	}
}

// Line returns the line that puts a model in force, {"model":M}, without a newline.
func Line(m *model.Model) ([]byte, error) {
	text, err := m.JSON()
	if err != nil {
		return nil, err
	}
	return []byte(`{"model":` + string(text) + `}`), nil
}

func wordsOf(nodes []*node) []string {
	all := make([]string, len(nodes))
	for i, n := range nodes {
		all[i] = n.word
	}
	return all
}
