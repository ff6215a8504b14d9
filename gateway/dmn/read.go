package dmn

import (
	"fmt"
	"io"
	"strings"
)

// versions maps the namespaces of DMN to its versions.
var versions = map[string]string{
	"http://www.omg.org/spec/DMN/20151101/dmn.xsd":   "1.1",
	"http://www.omg.org/spec/DMN/20151101/dmn11.xsd": "1.1",
	"http://www.omg.org/spec/DMN/20180521/MODEL/":    "1.2",
	"https://www.omg.org/spec/DMN/20191111/MODEL/":   "1.3",
	"https://www.omg.org/spec/DMN/20211108/MODEL/":   "1.4",
	"https://www.omg.org/spec/DMN/20230324/MODEL/":   "1.5",
}

// Read reads one file, named path. It returns a *Fault if the file is not DMN, and the reader's error if reading fails.
func Read(path string, from io.Reader) (*File, error) {
	raw, err := io.ReadAll(io.LimitReader(from, MostBytes+1))
	if err != nil {
		return nil, fmt.Errorf("reading %s: %w", path, err)
	}
	if len(raw) > MostBytes {
		return nil, &Fault{Place: placeIn(raw, MostBytes), Why: fmt.Sprintf("the file has over %d bytes", MostBytes),
			Instead: "a model has to fit in a line of 1048576 bytes: make several files of it"}
	}
	root, fault := parse(raw)
	if fault != nil {
		if fault.Place == (Place{}) {
			fault.Place = Place{Line: 1, Column: 1}
		}
		return nil, fault
	}
	file := &File{Path: path, Version: versions[root.Space], Namespace: root.Attribute("namespace"), Root: root}
	(&reader{file: file}).definitions()
	return file, nil
}

// parse returns the root element of a DMN file.
func parse(raw []byte) (*Element, *Fault) {
	text, fault := asUTF8(raw)
	if fault != nil {
		return nil, fault
	}
	root, fault := readTree(text)
	if fault != nil {
		return nil, fault
	}
	if root.Tag == "definitions" && versions[root.Space] != "" {
		return root, nil
	}
	fault = &Fault{Place: root.Place, Element: root, Text: root.Tag, Why: "the file is no DMN"}
	switch {
	case strings.Contains(root.Space, "/BPMN/"):
		fault.Why = "the file is BPMN, a process and no decisions"
	case strings.Contains(root.Space, "/DMN/"):
		fault.Text, fault.Why = root.Space, "the namespace is none of DMN 1.1 to 1.5"
		fault.Instead = "save it as DMN 1.3"
	}
	return nil, fault
}

// A reader reads the elements of a file.
type reader struct{ file *File }

func (r *reader) fault(e *Element, text, why, instead string) {
	r.file.Faults = append(r.file.Faults, &Fault{Place: e.Place, Element: e, Text: text, Why: why, Instead: instead})
}

// A part reads a child with one tag; nil if the child changes no answer and is skipped.
type part func(child *Element)

// once are the parts that an element has at most once.
var once = map[string]bool{"variable": true, "text": true, "typeRef": true, "allowedValues": true, "typeConstraint": true,
	"functionItem": true, "inputExpression": true, "inputValues": true, "outputValues": true, "defaultOutputEntry": true,
	"encapsulatedLogic": true, "parameter": true, "if": true, "then": true, "else": true, "requiredInput": true,
	"requiredDecision": true, "requiredKnowledge": true}

// parts passes each child to the part of its tag. Faults are: unknown children of DMN, children of other namespaces outside
// extensionElements, repeated children that may be there once, and stray characters.
func (r *reader) parts(e *Element, known map[string]part) {
	if stray := strings.TrimSpace(e.Text); stray != "" {
		r.fault(e, stray, fmt.Sprintf("characters stand in %s, outside of an element for them", e.Tag),
			"<text> round an expression")
	}
	var seen map[string]bool
	for _, child := range e.Children {
		if child.Tag == "extensionElements" || child.Tag == "description" || child.Tag == "DMNDI" {
			continue
		}
		take, found := known[child.Tag]
		switch {
		case !found || child.Space != r.file.Root.Space:
			r.fault(child, child.Tag, fmt.Sprintf("the element is not known in %s", e.Tag), "")
		case seen[child.Tag]:
			r.fault(child, child.Tag, fmt.Sprintf("the element stands twice in %s", e.Tag), "one of them")
		case take != nil:
			take(child)
		}
		if once[child.Tag] {
			if seen == nil {
				seen = map[string]bool{}
			}
			seen[child.Tag] = true
		}
	}
}

// truth returns an attribute that is true or false, written also as 1 or 0; false by default.
func (r *reader) truth(e *Element, name string) bool {
	switch value := e.Attribute(name); value {
	case "true", "1":
		return true
	case "", "false", "0":
	default:
		r.fault(e, value, fmt.Sprintf("%s is neither true nor false", name), "true or false")
	}
	return false
}

// definitions reads the parts of the model.
func (r *reader) definitions() {
	f := r.file
	r.parts(f.Root, map[string]part{
		"import":         func(e *Element) { f.Imports = append(f.Imports, e) },
		"itemDefinition": func(e *Element) { f.Types = append(f.Types, r.itemDefinition(e)) },
		"inputData":      func(e *Element) { f.Inputs = append(f.Inputs, r.inputData(e)) },
		"decision":       func(e *Element) { f.Decisions = append(f.Decisions, r.decision(e)) },
		"businessKnowledgeModel": func(e *Element) {
			f.Knowledge = append(f.Knowledge, r.knowledge(e))
		},
		"decisionService":    func(e *Element) { f.Services = append(f.Services, r.service(e)) },
		"knowledgeSource":    nil,
		"organizationUnit":   nil,
		"organisationUnit":   nil,
		"organizationalUnit": nil, "performanceIndicator": nil,
		"businessContextElement": nil, "elementCollection": nil,
		"textAnnotation": nil, "association": nil, "group": nil, "artifact": nil,
	})
}

func (r *reader) itemDefinition(e *Element) *ItemDefinition {
	item := &ItemDefinition{Element: e, Collection: r.truth(e, "isCollection")}
	r.parts(e, map[string]part{
		"typeRef": func(c *Element) {
			item.TypeRef = strings.TrimSpace(c.Text)
			r.alone(c)
		},
		"allowedValues":  func(c *Element) { item.Allowed = r.text(c) },
		"typeConstraint": func(c *Element) { item.Allowed = r.text(c) },
		"itemComponent":  func(c *Element) { item.Components = append(item.Components, r.itemDefinition(c)) },
		"functionItem":   func(c *Element) { item.Function = true },
	})
	return item
}

// variable reads an element with a name and a type.
func variable(e *Element) *Variable { return &Variable{Element: e, TypeRef: e.Type()} }

func (r *reader) inputData(e *Element) *InputData {
	input := &InputData{Element: e}
	r.parts(e, map[string]part{"variable": func(c *Element) { input.Variable = variable(c) }})
	return input
}

func (r *reader) decision(e *Element) *Decision {
	d := &Decision{Element: e}
	known := r.expressions(func(x Expression) { d.Logic = r.only(e, d.Logic, x) })
	known["variable"] = func(c *Element) { d.Variable = variable(c) }
	known["informationRequirement"] = func(c *Element) {
		r.parts(c, map[string]part{
			"requiredInput":    func(h *Element) { d.Inputs = append(d.Inputs, reference(h)) },
			"requiredDecision": func(h *Element) { d.Decisions = append(d.Decisions, reference(h)) },
		})
	}
	known["knowledgeRequirement"] = r.knowledgeRequirement(&d.Knowledge)
	passOver(known)
	r.parts(e, known)
	return d
}

func (r *reader) knowledge(e *Element) *BusinessKnowledge {
	k := &BusinessKnowledge{Element: e}
	known := map[string]part{
		"variable":             func(c *Element) { k.Variable = variable(c) },
		"encapsulatedLogic":    func(c *Element) { k.Logic = r.function(c) },
		"knowledgeRequirement": r.knowledgeRequirement(&k.Knowledge),
	}
	passOver(known)
	r.parts(e, known)
	return k
}

func (r *reader) knowledgeRequirement(to *[]*Reference) part {
	return func(c *Element) {
		r.parts(c, map[string]part{"requiredKnowledge": func(h *Element) { *to = append(*to, reference(h)) }})
	}
}

// passOver adds parts of a decision that change no answer.
func passOver(known map[string]part) {
	for _, tag := range []string{"question", "allowedAnswers", "authorityRequirement", "decisionMaker", "decisionOwner",
		"supportedObjective", "impactedPerformanceIndicator", "usingProcess", "usingTask"} {
		known[tag] = nil
	}
}

func (r *reader) service(e *Element) *DecisionService {
	s := &DecisionService{Element: e}
	r.parts(e, map[string]part{
		"variable":             func(c *Element) { s.Variable = variable(c) },
		"outputDecision":       func(c *Element) { s.Outputs = append(s.Outputs, reference(c)) },
		"encapsulatedDecision": func(c *Element) { s.Encapsulated = append(s.Encapsulated, reference(c)) },
		"inputDecision":        func(c *Element) { s.Decisions = append(s.Decisions, reference(c)) },
		"inputData":            func(c *Element) { s.Input = append(s.Input, reference(c)) },
	})
	return s
}

func reference(e *Element) *Reference { return &Reference{Element: e, Href: e.Attribute("href")} }

// only returns the expression of a place that takes one: a second one is a fault.
func (r *reader) only(e *Element, before, x Expression) Expression {
	if before != nil {
		r.fault(x.At(), x.At().Tag, fmt.Sprintf("a second expression in %s", e.Tag), "")
	}
	return x
}
