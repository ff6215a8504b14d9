package tck

import (
	"fmt"

	"gateway/dmn"
	"gateway/feel"
	"gateway/near"
)

// A Fault is a node of a cases file whose name is not in the .dmn file.
type Fault struct {
	Path  string
	Place Place
	// Node is the tag: resultNode or inputNode. Near is a similar name, or "".
	Node, Name, Near string
}

func (f Fault) String() string {
	line := fmt.Sprintf("%s:%d:%d: %s %q: ", f.Path, f.Place.Line, f.Place.Column, f.Node, f.Name)
	if f.Node == "inputNode" {
		line += "no input and no decision has this name"
	} else {
		line += "no decision and no service has this name"
	}
	if f.Near != "" {
		line += fmt.Sprintf("; instead: %q", f.Near)
	}
	return line
}

// Faults returns the nodes whose names are not in a file. free are the names of undeclared inputs.
func Faults(file *dmn.File, cases *Cases, free []string) []Fault {
	inputs, decisions := namesOf(file, free)
	var all []Fault
	for _, c := range cases.Cases {
		known := inputs
		if c.Type == "bkm" {
			known = nil
		}
		for _, input := range c.Inputs {
			if known != nil && !known.has(input.Name) {
				all = append(all, Fault{cases.Path, input.Place, "inputNode", input.Name, known.near(input.Name)})
			}
		}
		for _, result := range c.Results {
			if asked := c.asked(result.Name); !decisions.has(asked) {
				all = append(all, Fault{cases.Path, result.Place, "resultNode", asked, decisions.near(asked)})
			}
		}
	}
	return all
}

// asked returns the name of the decision, service or business knowledge model that a result node tests.
func (c *Case) asked(node string) string {
	if c.Type == "decisionService" && c.Invocable != "" {
		return c.Invocable
	}
	return node
}

// Only keeps the result nodes that a service answers: a decision service, or a decision. It returns how many are left out, and
// whether there is such a service.
func (c *Cases) Only(file *dmn.File, service string) (left int, found bool) {
	answers := names{}
	if s := serviceNamed(file, service); s != nil {
		answers.add(s.Name())
		for _, reference := range s.Outputs {
			if decision := decisionOf(file, reference); decision != nil {
				answers.add(decision.Name())
			}
		}
	} else if decision := decisionNamed(file, service); decision != nil {
		answers.add(decision.Name())
	}
	for i := range c.Cases {
		one := &c.Cases[i]
		kept := one.Results[:0:0]
		for _, result := range one.Results {
			if answers.has(one.asked(result.Name)) {
				kept = append(kept, result)
			}
		}
		left += len(one.Results) - len(kept)
		one.Results = kept
	}
	return left, len(answers) > 0
}

// A names maps canonical names to the names of a file's parts.
type names map[string]string

func (n names) add(name string) { n[feel.Canonical(name)] = name }

func (n names) has(name string) bool {
	_, found := n[feel.Canonical(name)]
	return found
}

func (n names) near(name string) string {
	all := make([]string, 0, len(n))
	for _, one := range n {
		all = append(all, one)
	}
	return near.To(name, all)
}

// namesOf returns the names that may have values, and those that may have results.
func namesOf(file *dmn.File, free []string) (inputs, results names) {
	inputs, results = names{}, names{}
	for _, name := range free {
		inputs.add(name)
	}
	for _, input := range file.Inputs {
		inputs.add(input.Name())
	}
	for _, decision := range file.Decisions {
		inputs.add(decision.Name())
		results.add(decision.Name())
	}
	for _, service := range file.Services {
		results.add(service.Name())
	}
	for _, knowledge := range file.Knowledge {
		results.add(knowledge.Name())
	}
	return inputs, results
}
