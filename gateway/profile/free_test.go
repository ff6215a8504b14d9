package profile_test

import (
	"fmt"
	"strings"
	"testing"
	"time"

	"gateway/dmn"
	"gateway/profile"
)

// run translates a file with options.
func run(t testing.TB, options profile.Options, files ...string) *profile.Report {
	t.Helper()
	var read []*dmn.File
	for i, text := range files {
		file, err := dmn.Read(fmt.Sprintf("%d.dmn", i), strings.NewReader(text))
		if err != nil {
			t.Fatalf("the file is not read: %v\n%s", err, text)
		}
		read = append(read, file)
	}
	return profile.Run(read, options)
}

var free = profile.Options{FreeInputs: true}

// said returns the lines of refusals.
func said(refusals []profile.Refusal) string {
	var lines []string
	for _, r := range refusals {
		lines = append(lines, r.String())
	}
	return strings.Join(lines, "\n")
}

// fine is a table over undeclared columns.
var fine = table(`hitPolicy="FIRST"`, []column{{text: "speed over", of: "number"}, {text: "zone", of: "string"}},
	[]column{{text: "fine", of: "number"}}, []string{"<= 3", "-", "0"}, []string{"> 3", `"town"`, "30"}, []string{"-", "-", "20"})

func TestColumnsThatNothingDeclaresAreInputs(t *testing.T) {
	report := run(t, free, definitions(decision("Fine", "", fine)))
	if report.Result == nil {
		t.Fatal(said(report.Refusals))
	}
	if got := strings.Join(report.Result.Model.Inputs, " "); got != "speed_over zone" {
		t.Errorf("the inputs are %s", got)
	}
	if got := string(report.Result.Types["speed_over"]); got != `{"type":["integer","null"]}` {
		t.Errorf("its type is %s", got)
	}
	if got := report.Result.Names["speed_over"]; got != "speed over" {
		t.Errorf("its name is %q", got)
	}
	if got := said(report.Result.Notes); strings.Count(got, "\n") != 2 ||
		!strings.Contains(got, "speed over is declared nowhere: it is an input of the type number") {
		t.Errorf("the notes are\n%s", got)
	}
	d := startDesk(t)
	d.model(report.Result)
	for _, pair := range [][2]string{{`{"speed_over":3,"zone":"town"}`, "0"}, {`{"speed_over":4,"zone":"town"}`, "30"},
		{`{"speed_over":4,"zone":"road"}`, "20"}, {`{"speed_over":null,"zone":"town"}`, "20"}} {
		if got := d.ask("Fine", pair[0]); got != pair[1] {
			t.Errorf("of %s came %s, due %s", pair[0], got, pair[1])
		}
	}
}

// TestFreeNames gives, for decisions, the inputs of the model, or words of the only refusal.
func TestFreeNames(t *testing.T) {
	on := func(columns ...column) string {
		row := []string{}
		for range columns {
			row = append(row, "-")
		}
		return table("", columns, []column{{text: "r"}}, append(row, "1"))
	}
	one := func(name, of string) string { return on(column{text: name, of: of}) }
	unscoped := "no name in scope"
	for _, c := range []struct {
		name, file, inputs, refusal string
	}{
		{"one name in two decisions", decision("d", "", one("x", "number")) + decision("e", "", one("x", "number")), "x", ""},
		{"spaced otherwise", decision("d", "", one("a  b", "number")) + decision("e", "", one("a b", "number")), "a_b", ""},
		{"in another text too", decision("d", "", one("x", "number")) + decision("e", "", literal("x + 1")), "x", ""},
		{"only an operand has the name", decision("d", "", one("x + 1", "number")), "", "no column that is this name alone"},
		{"a path", decision("d", "", one("x.y", "number")), "", "no column that is this name alone"},
		{"no type", decision("d", "", one("x", "")), "", "no column that is this name alone"},
		{"the type Any", decision("d", "", one("x", "Any")), "", "no column that is this name alone"},
		{"no type and a type", decision("d", "", on(column{text: "x"}, column{text: "x", of: "string"})), "x", ""},
		{"two names of one type", decision("d", "", on(column{text: "x", of: "integer"}, column{text: "x", of: "long"})), "x", ""},
		{"a decision that isn't required", decision("x", "", literal("1")) + decision("e", "", one("x", "number")), "", unscoped},
		{"an input that isn't required", input("x", "number") + decision("e", "", one("x", "number")), "", unscoped},
		{"the id of a decision", `<decision id="x" name="y">` + literal("1") + `</decision>` + decision("e", "", one("x", "number")),
			"", unscoped},
		{"another decision's output", decision("d", "", table("", nil, []column{{text: "x"}}, []string{"1"})) +
			decision("e", "", one("x", "number")), "", unscoped},
		{"its own output", decision("d", "", table("", []column{{text: "x", of: "number"}}, []column{{text: "x"}},
			[]string{"-", "1"})), "x", ""},
		{"in business knowledge", knowledge("k", nil, one("x", "number")) + decision("d", "", literal("k()"), "k:k"), "", unscoped},
		{"between backticks", decision("d", "", one("`x`", "number")), "", "no column that is this name alone"},
		{"an entry of a context", decision("d", "", `<context><contextEntry><variable name="x"/>`+literal("5")+
			`</contextEntry><contextEntry>`+one("x", "number")+`</contextEntry></context>`), "", ""},
		{"a list type", `<itemDefinition name="t" isCollection="true"><typeRef>number</typeRef></itemDefinition>` +
			decision("d", "", one("x", "t")+"") + decision("e", "", literal("sum(x)")), "x", ""},
	} {
		t.Run(c.name, func(t *testing.T) {
			report := run(t, free, definitions(c.file))
			if c.refusal != "" {
				if len(report.Refusals) != 1 || !strings.Contains(report.Refusals[0].Why, c.refusal) {
					t.Errorf("refused is %s", said(report.Refusals))
				}
				return
			}
			if report.Result == nil {
				t.Fatal(said(report.Refusals))
			}
			if got := strings.Join(report.Result.Model.Inputs, " "); got != c.inputs {
				t.Errorf("the inputs are %q", got)
			}
		})
	}
	report := run(t, free, definitions(decision("d", "", one("x", "number")), decision("e", "", one("x", "string"))))
	if len(report.Refusals) != 2 || !strings.Contains(said(report.Refusals), "give it the types number and string") {
		t.Errorf("of two types: %s", said(report.Refusals))
	}
}

// TestWithoutTheOptionItIsNamed checks that the refusal of such a column mentions the option, and that of another name
// doesn't.
func TestWithoutTheOptionItIsNamed(t *testing.T) {
	refused := refusedWith(t, definitions(decision("d", "", table("", []column{{text: "x", of: "number"}},
		[]column{{text: "r"}}, []string{"-", "1"}))), "no name in scope")
	if !strings.Contains(refused.Instead, "--free-inputs") {
		t.Errorf("instead: %s", refused.Instead)
	}
	refused = refusedWith(t, definitions(decision("d", "", literal("Summer"))), "no name in scope")
	if strings.Contains(refused.Instead, "--free-inputs") {
		t.Errorf("instead: %s", refused.Instead)
	}
}

// TestAServiceTakesInputsThatNothingDeclares asks a service, which can't list undeclared inputs.
func TestAServiceTakesInputsThatNothingDeclares(t *testing.T) {
	service := `<decisionService id="s" name="s"><outputDecision href="#Fine"/></decisionService>`
	report := run(t, free, definitions(decision("Fine", "", fine), service))
	if report.Result == nil {
		t.Fatal(said(report.Refusals))
	}
	if got := fmt.Sprint(report.Result.Model.Services); got != "[{s [Fine] [] [] [speed_over zone]}]" {
		t.Errorf("the services are %s", got)
	}
}

// TestManyFreeNames tests as many undeclared columns, and as many decisions, as a model may have.
func TestManyFreeNames(t *testing.T) {
	var parts []string
	for i := 0; i < 900; i++ {
		columns, row := []column{}, []string{}
		for j := 0; j < 10; j++ {
			columns, row = append(columns, column{text: fmt.Sprintf("x%d", i*10+j), of: "number"}), append(row, "-")
		}
		parts = append(parts, decision(fmt.Sprintf("d%d", i), "", table("", columns, []column{{text: "r"}}, append(row, "1"))))
	}
	before := time.Now()
	report := run(t, free, definitions(parts...))
	if report.Result == nil || len(report.Result.Model.Inputs) != 9000 {
		t.Fatal(said(report.Refusals))
	}
	t.Logf("%d inputs of %d decisions took %v", len(report.Result.Model.Inputs), len(parts), time.Since(before))
}
