package model

import (
	"errors"
	"testing"
)

// everyForm has each form of a model once, in the documented spelling.
const everyForm = `{"inputs":["a"],"decisions":[` +
	`{"name":"d","needs":["a"],"expr":"a < 1"},` +
	`{"name":"l","needs":[],"expr":{"list":["1",{"list":[]}]}},` +
	`{"name":"c","needs":["a"],"expr":{"context":[{"name":"x","expr":"a"}]}},` +
	`{"name":"r","needs":["a"],"expr":{"context":[],"result":"2"}},` +
	`{"name":"t","needs":["a"],"expr":{"table":{"hit":"P","inputs":["a"],` +
	`"outputs":[{"name":"o","values":["\"é\"","\"<\""],"default":"\"<\""},{"name":"p"}],` +
	`"rules":[{"when":["> 1"],"then":["\"<\"","1"]}]}}}],` +
	`"services":[{"name":"s","outputs":["d"],"encapsulated":[],"inputDecisions":["l"],"inputData":["a"]}]}`

func TestEveryFormIsReadAndWrittenAgain(t *testing.T) {
	m, err := Parse([]byte(everyForm))
	if err != nil {
		t.Fatal(err)
	}
	written, err := m.JSON()
	if err != nil {
		t.Fatal(err)
	}
	if string(written) != everyForm {
		t.Errorf("written %s\n    due %s", written, everyForm)
	}
}

func TestListsThatAreNilAreWrittenAsEmpty(t *testing.T) {
	m := &Model{Decisions: []Decision{{Name: "d", Expr: Context{}}}, Services: []Service{{Name: "s"}}}
	written, err := m.JSON()
	due := `{"inputs":[],"decisions":[{"name":"d","needs":[],"expr":{"context":[]}}],` +
		`"services":[{"name":"s","outputs":[],"encapsulated":[],"inputDecisions":[],"inputData":[]}]}`
	if err != nil || string(written) != due {
		t.Errorf("written %s, %v\n    due %s", written, err, due)
	}
}

func TestMisshapesAreReportedWithTheirPlaces(t *testing.T) {
	for text, pointer := range map[string]string{
		`[]`:                           "",
		`{"inputs":[],"decisions":[]}`: "",
		`{"inputs":[],"decisions":[],"services":[],"more":1}`:                                                              "",
		`{"inputs":[1],"decisions":[],"services":[]}`:                                                                      "/inputs/0",
		`{"inputs":[],"decisions":[{"name":"d","needs":[],"expr":1}],"services":[]}`:                                       "/decisions/0/expr",
		`{"inputs":[],"decisions":[{"name":"d","needs":[],"expr":{"list":["1",null]}}],"services":[]}`:                     "/decisions/0/expr/list/1",
		`{"inputs":[],"decisions":[{"name":"d","needs":[],"expr":{"context":[],"result":null}}],"services":[]}`:            "/decisions/0/expr/result",
		`{"inputs":[],"decisions":[{"name":"d","needs":[],"expr":{"table":{"hit":"U","inputs":[]}}}],"services":[]}`:       "/decisions/0/expr/table",
		`{"inputs":[],"decisions":[],"services":[{"name":"s","outputs":{}}]}`:                                              "/services/0",
		`{"inputs":[],"decisions":[{"name":"d","needs":[],"expr":{"list":[],"context":[]}}],"services":[]}`:                "/decisions/0/expr",
		`{"inputs":[],"decisions":[{"name":"d","needs":[],"expr":{"context":[{"name":"e"}],"result":"1"}}],"services":[]}`: "/decisions/0/expr/context/0",
	} {
		_, err := Parse([]byte(text))
		var shape *ShapeError
		if !errors.As(err, &shape) || shape.Pointer != pointer {
			t.Errorf("%s: %v, due at %q", text, err, pointer)
		}
	}
}

func TestWhatIsNoJSONIsRefused(t *testing.T) {
	for _, text := range []string{"", "{", everyForm + "{}"} {
		if _, err := Parse([]byte(text)); err == nil {
			t.Errorf("%q is read", text)
		}
	}
}
