package command

import (
	"bytes"
	"strings"
	"testing"

	"gateway/export"
)

// TestOneAwkwardNameDropsNoOther has a name that another one makes ambiguous.
func TestOneAwkwardNameDropsNoOther(t *testing.T) {
	file := header + `<inputData id="a" name="net price"/><inputData id="b" name="if 1"/><inputData id="c" name="x"/><decision id="d" name="Gross Price">` +
		`<informationRequirement><requiredInput href="#a"/></informationRequirement><informationRequirement><requiredInput href="#b"/>` +
		`</informationRequirement><informationRequirement><requiredInput href="#c"/></informationRequirement><literalExpression>` +
		`<text>net price * 2</text></literalExpression></decision></definitions>`
	source, err := export.Read(brought(t, "f.dmn", file))
	if err != nil {
		t.Fatal(err)
	}
	// Two words with one name.
	source.Names["x"] = "net  price"
	var messages bytes.Buffer
	exported, refusals := fileOf(source, &messages)
	if len(refusals) > 0 || !bytes.Contains(exported, []byte(`name="Gross Price"`)) || !bytes.Contains(exported, []byte(`name="if 1"`)) {
		t.Errorf("%v %s\n%s", refusals, messages.String(), exported)
	}
	if strings.Count(messages.String(), "\n") != 1 || !strings.Contains(messages.String(), "is written as") {
		t.Errorf("told is %s", messages.String())
	}
}

// TestAllowedValuesMakeARoundTrip has values that are tested against allowed values: the exported file has their types, and
// importing it gives the same model.
func TestAllowedValuesMakeARoundTrip(t *testing.T) {
	file := header + `<itemDefinition name="tTen"><typeRef>number</typeRef><allowedValues><text>[0..10]</text></allowedValues></itemDefinition>` +
		`<itemDefinition name="tOffer"><itemComponent name="rate"><typeRef>tTen</typeRef></itemComponent></itemDefinition>` +
		`<inputData id="x" name="x"><variable name="x" typeRef="number"/></inputData>` +
		`<decision id="d" name="a ten"><variable name="a ten" typeRef="tTen"/><informationRequirement><requiredInput href="#x"/>` +
		`</informationRequirement><literalExpression><text>x * 2</text></literalExpression></decision>` +
		`<decision id="f" name="an offer"><variable name="an offer" typeRef="tOffer"/><informationRequirement><requiredInput href="#x"/>` +
		`</informationRequirement><literalExpression><text>{rate: x * 2}</text></literalExpression></decision></definitions>`
	source, err := export.Read(brought(t, "f.dmn", file))
	if err != nil {
		t.Fatal(err)
	}
	var messages bytes.Buffer
	exported, refusals := fileOf(source, &messages)
	if len(refusals) > 0 || messages.Len() > 0 || strings.Count(string(exported), "<allowedValues") != 2 {
		t.Errorf("%v %s\n%s", refusals, messages.String(), exported)
	}
}

// TestDecimalsMakeARoundTrip exports models of files with decimals: the exported files have the same texts, and importing them
// gives the same models.
func TestDecimalsMakeARoundTrip(t *testing.T) {
	inputs := `<itemDefinition name="tOffer"><itemComponent name="net price"><typeRef>number</typeRef></itemComponent></itemDefinition>` +
		`<itemDefinition name="tTen"><typeRef>number</typeRef><allowedValues><text>[0..10.5]</text></allowedValues></itemDefinition>` +
		`<inputData id="x" name="x"><variable name="x" typeRef="number"/></inputData><inputData id="y" name="a y"><variable name="a y" typeRef="number"/></inputData>` +
		`<inputData id="o" name="my offer"><variable name="my offer" typeRef="tOffer"/></inputData>`
	needs := `<informationRequirement><requiredInput href="#x"/></informationRequirement><informationRequirement><requiredInput href="#y"/>` +
		`</informationRequirement><informationRequirement><requiredInput href="#o"/></informationRequirement>`
	knowledge := `<businessKnowledgeModel id="g" name="gross of"><encapsulatedLogic><formalParameter name="n" typeRef="number"/>` +
		`<literalExpression><text>decimal(n * 1.19, 2)</text></literalExpression></encapsulatedLogic></businessKnowledgeModel>` +
		`<businessKnowledgeModel id="h" name="twice"><encapsulatedLogic><formalParameter name="p" typeRef="number"/><formalParameter name="n"/>` +
		`<literalExpression><text>gross of(p) * 2 + n</text></literalExpression></encapsulatedLogic><knowledgeRequirement><requiredKnowledge href="#g"/>` +
		`</knowledgeRequirement></businessKnowledgeModel>`
	needs += `<knowledgeRequirement><requiredKnowledge href="#g"/></knowledgeRequirement><knowledgeRequirement><requiredKnowledge href="#h"/></knowledgeRequirement>`
	table := func(input, output string, cells ...string) string {
		made := `<decisionTable hitPolicy="FIRST"><input><inputExpression><text>` + input + `</text></inputExpression></input>` + output
		for at := 0; at < len(cells); at += 2 {
			made += `<rule><inputEntry><text>` + cells[at] + `</text></inputEntry><outputEntry><text>` + cells[at+1] + `</text></outputEntry></rule>`
		}
		return made + `</decisionTable>`
	}
	literal := func(text string) string { return `<literalExpression><text>` + text + `</text></literalExpression>` }
	for name, row := range map[string]struct {
		of, logic string
		due       []string
	}{
		"a product":                {"number", literal("x * 0.19"), []string{"x * 0.19"}},
		"a rounding":               {"number", literal("decimal(a y * 1.015, 2)"), []string{"decimal(a y * 1.015, 2)"}},
		"a rounding by a quotient": {"number", literal("decimal(x / a y, 2)"), []string{"decimal(x / a y, 2)"}},
		"a quotient":               {"number", literal("x * 0.05 / 12"), []string{"x * 0.05 / 12"}},
		"a ratio":                  {"boolean", literal("x / a y &gt; 0.36"), []string{"x / a y &gt; 0.36"}},
		"a component":              {"number", literal("my offer.net price * 1.5"), []string{"my offer.net price * 1.5", `name="net price"`}},
		"a context":                {"", literal(`{"net price": x * 0.5, b: a y}`), []string{`{"net price": x * 0.5, b: a y}`}},
		"a boxed context": {"", `<context><contextEntry><variable name="an entry"/>` + literal("decimal(x * 0.125, 1)") + `</contextEntry><contextEntry>` +
			literal("an entry + 0.5") + `</contextEntry></context>`, []string{`name="an entry"`, "decimal(x * 0.125, 1)", "an entry + 0.5"}},
		"cells":                  {"", table("x", `<output name="r"/>`, "&lt;= 2.5", "0.1", "(2.5..7.25]", "x * 0.2", "-", "null"), []string{"(2.5..7.25]", "x * 0.2", ">0.1<"}},
		"cells of a quotient":    {"", table("x / a y", `<output name="r"/>`, "&lt;= 0.36", `"low"`, "-", `"high"`), []string{"x / a y", "&lt;= 0.36"}},
		"cells that are rounded": {"", table("x", `<output name="r"/>`, "1.5", "floor(x * 2.5)", "-", "0"), []string{"floor(x * 2.5)"}},
		"a default":              {"", table("x", `<output name="r"><defaultOutputEntry><text>0.75</text></defaultOutputEntry></output>`, "1.5", "2"), []string{"0.75"}},
		"output values":          {"", strings.ReplaceAll(table("x", `<output name="r"><outputValues><text>2.5, 0.5</text></outputValues></output>`, "1.5", "0.5", "&gt; 1", "2.5"), "FIRST", "PRIORITY"), []string{"2.5, 0.5"}},
		"a value that is tested": {"tTen", literal("x * 0.5"), []string{"x * 0.5", "[0..10.5]"}},
		"a table that is tested": {"tTen", table("x", `<output name="r"/>`, "&lt; 1.5", "x * 20.5", "-", "x * 0.5"), []string{"x * 0.5", "&lt; 1.5", "[0..10.5]"}},
		"a call":                 {"number", literal("gross of(x) + gross of(a y * 0.5)"), []string{"gross of(x) + gross of(a y * 0.5)", `name="gross of"`, "decimal(n * 1.19, 2)"}},
		"a call in a branch":     {"number", literal("if x &gt; 1.5 then gross of(a y) else 0.5"), []string{"then gross of(a y) else 0.5", `name="gross of"`}},
		"a call of a call":       {"number", literal("twice(x, gross of(0.5))"), []string{"twice(x, gross of(0.5))", `name="twice"`, "gross of(p) * 2 + n", `name="gross of"`}},
		"cells that call":        {"", table("x", `<output name="r"/>`, "&lt;= 2.5", "gross of(x)", "-", "0.5"), []string{"&lt;= 2.5", "gross of(x)", `name="gross of"`}},
		"an integer divided":     {"boolean", literal("x / 3 &gt; 1"), []string{"x / 3 &gt; 1"}},
	} {
		of := ""
		if row.of != "" {
			of = ` typeRef="` + row.of + `"`
		}
		file := header + inputs + knowledge + `<decision id="d" name="the d"><variable name="the d"` + of + `/>` + needs + row.logic + `</decision></definitions>`
		source, err := export.Read(brought(t, "f.dmn", file))
		if err != nil {
			t.Fatalf("%s: %v", name, err)
		}
		var messages bytes.Buffer
		exported, refusals := fileOf(source, &messages)
		if len(refusals) > 0 || messages.Len() > 0 {
			t.Errorf("%s: %v %s\n%s", name, refusals, messages.String(), exported)
		}
		for _, due := range append(row.due, `name="the d"`, `name="a y"`, `typeRef="number"`) {
			if !strings.Contains(string(exported), due) {
				t.Errorf("%s: %s is not there:\n%s", name, due, exported)
			}
		}
	}
}

// TestWhatCantBeWrittenBackIsReported has an invocation whose function's name is not in the model.
func TestWhatCantBeWrittenBackIsReported(t *testing.T) {
	file := header + `<inputData id="x" name="x"><variable name="x" typeRef="number"/></inputData><businessKnowledgeModel id="b" name="gross">` +
		`<encapsulatedLogic><formalParameter name="net" typeRef="number"/><literalExpression><text>net * 1.19</text></literalExpression></encapsulatedLogic>` +
		`</businessKnowledgeModel><decision id="d" name="the d"><informationRequirement><requiredInput href="#x"/></informationRequirement>` +
		`<knowledgeRequirement><requiredKnowledge href="#b"/></knowledgeRequirement><invocation><literalExpression><text>gross</text></literalExpression>` +
		`<binding><parameter name="net"/><literalExpression><text>x</text></literalExpression></binding></invocation></decision></definitions>`
	source, err := export.Read(brought(t, "f.dmn", file))
	if err != nil {
		t.Fatal(err)
	}
	var messages bytes.Buffer
	exported, refusals := fileOf(source, &messages)
	lines := strings.Split(strings.TrimSpace(messages.String()), "\n")
	if len(refusals) > 0 || len(lines) != 2 || !strings.Contains(lines[0], `can't be written back: exported.dmn`) || !strings.Contains(lines[0], `"net"`) ||
		!strings.Contains(lines[1], "whole numbers, which count units of the first file: of the d, x") || !strings.Contains(string(exported), "net_1 * 119") {
		t.Errorf("%v %s\n%s", refusals, messages.String(), exported)
	}
}
