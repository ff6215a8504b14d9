// Package tck runs test cases of the DMN Technology Compatibility Kit (namespace http://www.omg.org/spec/DMN/20160719/testcase)
// against a .dmn file. It evaluates nothing: the file is imported, and the engine answers.
package tck

import (
	"encoding/xml"
	"errors"
	"fmt"
	"io"
)

// Space is the namespace of test cases.
const Space = "http://www.omg.org/spec/DMN/20160719/testcase"

const instanceSpace = "http://www.w3.org/2001/XMLSchema-instance"

// Cases is a file of test cases.
type Cases struct {
	XMLName xml.Name `xml:"http://www.omg.org/spec/DMN/20160719/testcase testCases"`
	// Path is the name under which the file was read.
	Path string `xml:"-"`
	// Model is the name of the tested file; it may be empty.
	Model string `xml:"modelName"`
	Cases []Case `xml:"testCase"`
}

// A Case is a test case: input values and expected results.
type Case struct {
	ID string `xml:"id,attr"`
	// Type is what is tested: "decision" (the default), "decisionService" or "bkm".
	Type string `xml:"type,attr"`
	// Invocable is the tested service or business knowledge model.
	Invocable string   `xml:"invocableName,attr"`
	Inputs    []Input  `xml:"inputNode"`
	Results   []Result `xml:"resultNode"`
}

// A Place is a line and a column of the file of cases, both from 1.
type Place struct{ Line, Column int }

// An Input is the value of an input or decision.
type Input struct {
	Name  string `xml:"name,attr"`
	Place Place  `xml:"-"`
	Value
}

// A Result is the expected result of a decision or service.
type Result struct {
	Name  string `xml:"name,attr"`
	Place Place  `xml:"-"`
	// Error means that no value is expected: the answer is null.
	Error    bool   `xml:"errorResult,attr"`
	Expected *Value `xml:"expected"`
}

// A Value is a scalar, a list or components; with none of them it is null.
type Value struct {
	Nil        bool        `xml:"http://www.w3.org/2001/XMLSchema-instance nil,attr"`
	Scalar     *Scalar     `xml:"value"`
	List       *List       `xml:"list"`
	Components []Component `xml:"component"`
}

// A Scalar is a text with the name of its type.
type Scalar struct {
	Nil  bool   `xml:"http://www.w3.org/2001/XMLSchema-instance nil,attr"`
	Type string `xml:"http://www.w3.org/2001/XMLSchema-instance type,attr"`
	Text string `xml:",chardata"`
}

// A List is a list of values.
type List struct {
	Nil   bool    `xml:"http://www.w3.org/2001/XMLSchema-instance nil,attr"`
	Items []Value `xml:"item"`
}

// A Component is an entry of a context.
type Component struct {
	Name string `xml:"name,attr"`
	Value
}

// mostBytes limits the bytes of a file of test cases.
const mostBytes = 16 << 20

// Read reads a file of test cases, named path. An error names the line.
func Read(path string, from io.Reader) (*Cases, error) {
	limited := &io.LimitedReader{R: from, N: mostBytes + 1}
	decoder := xml.NewDecoder(limited)
	var cases Cases
	tokens := &plainTokens{decoder: decoder}
	err := xml.NewTokenDecoder(tokens).Decode(&cases)
	if limited.N == 0 {
		return nil, fmt.Errorf("%s: the file has over %d bytes", path, mostBytes)
	}
	if err != nil {
		line, column := decoder.InputPos()
		return nil, fmt.Errorf("%s:%d:%d: no test cases: %w", path, line, column, err)
	}
	cases.Path = path
	tokens.place(&cases)
	return &cases, nil
}

// A plainTokens returns a decoder's tokens, and refuses document type declarations. It notes the places of test cases' nodes.
type plainTokens struct {
	decoder         *xml.Decoder
	depth           int
	inputs, results []Place
}

// depthOfNodes is the depth of a test case's nodes: testCases, testCase, inputNode.
const depthOfNodes = 3

func (p *plainTokens) Token() (xml.Token, error) {
	line, column := p.decoder.InputPos()
	token, err := p.decoder.RawToken()
	switch token := token.(type) {
	case xml.Directive:
		return nil, errors.New("a document type or entities of its own are not read")
	case xml.StartElement:
		p.depth++
		if p.depth == depthOfNodes && token.Name.Local == "inputNode" {
			p.inputs = append(p.inputs, Place{line, column})
		} else if p.depth == depthOfNodes && token.Name.Local == "resultNode" {
			p.results = append(p.results, Place{line, column})
		}
	case xml.EndElement:
		p.depth--
	}
	return token, err
}

// place sets the places of test cases' nodes, noted in file order.
func (p *plainTokens) place(cases *Cases) {
	for i := range cases.Cases {
		c := &cases.Cases[i]
		for j := range c.Inputs {
			p.inputs = taken(p.inputs, &c.Inputs[j].Place)
		}
		for j := range c.Results {
			p.results = taken(p.results, &c.Results[j].Place)
		}
	}
}

// taken takes the first place.
func taken(places []Place, into *Place) []Place {
	if len(places) == 0 {
		return nil
	}
	*into = places[0]
	return places[1:]
}
