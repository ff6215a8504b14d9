package tck

import (
	"context"
	"strings"
	"sync/atomic"
	"testing"

	"gateway/dmn"
	"gateway/model"
)

const head = `<testCases xmlns="` + Space + `" xmlns:xsi="` + instanceSpace + `" xmlns:xsd="http://www.w3.org/2001/XMLSchema">`

// file has an input "Full Price" and two decisions; the second needs the first.
const file = `<definitions xmlns="https://www.omg.org/spec/DMN/20191111/MODEL/" name="m" namespace="n">
<inputData id="i" name="Full Price"/>
<decision id="a" name="Net Price"><informationRequirement><requiredInput href="#i"/></informationRequirement>
<literalExpression><text>Full Price - 1</text></literalExpression></decision>
<decision id="b" name="All"><informationRequirement><requiredDecision href="#a"/></informationRequirement>
<context><contextEntry><variable name="Net Price"/><literalExpression><text>Net Price</text></literalExpression></contextEntry></context></decision>
<decision id="c" name="Half"><informationRequirement><requiredInput href="#i"/></informationRequirement>
<literalExpression><text>Full Price / 2</text></literalExpression></decision>
</definitions>`

// translate returns the translation of the file above, made by hand.
func translate(part *dmn.File) Translation {
	t := Translation{Model: &model.Model{Inputs: []string{"Full_Price"}}, Names: map[string]string{
		"Full_Price": "Full Price", "Net_Price": "Net Price", "All": "All"}}
	for _, d := range part.Decisions {
		switch d.Name() {
		case "Net Price":
			t.Model.Decisions = append(t.Model.Decisions,
				model.Decision{Name: "Net_Price", Needs: []string{"Full_Price"}, Expr: model.Literal("Full_Price - 1")})
		case "All":
			entry := model.Entry{Name: "Net_Price", Expr: model.Literal("Net_Price")}
			t.Model.Decisions = append(t.Model.Decisions,
				model.Decision{Name: "All", Needs: []string{"Net_Price"}, Expr: model.Context{Entries: []model.Entry{entry}}})
		default:
			return Translation{Refusals: []string{"file:8:1: division"}}
		}
	}
	return t
}

func verdicts(t *testing.T, cases string) []string {
	t.Helper()
	read, err := dmn.Read("file", strings.NewReader(file))
	if err != nil {
		t.Fatal(err)
	}
	parsed, err := Read("cases", strings.NewReader(head+cases+"</testCases>"))
	if err != nil {
		t.Fatal(err)
	}
	all, err := Run(context.Background(), read, parsed, translate, new(atomic.Int64))
	if err != nil {
		t.Fatal(err)
	}
	var lines []string
	for _, v := range all {
		lines = append(lines, v.String())
	}
	return lines
}

const price = `<inputNode name="Full Price"><value xsi:type="xsd:decimal">`

func TestEachResultNodeHasAVerdict(t *testing.T) {
	for cases, due := range map[string]string{
		`<testCase id="1">` + price + `10.00</value></inputNode><resultNode name="Net Price"><expected>` +
			`<value xsi:type="xsd:decimal">9</value></expected></resultNode></testCase>`: "1/Net Price PASS",
		`<testCase id="2">` + price + `10</value></inputNode><resultNode name="Net  Price"><expected>` +
			`<value xsi:type="xsd:string">9</value></expected></resultNode></testCase>`: `2/Net  Price FAIL due "9", came 9`,
		`<testCase id="3">` + price + `10</value></inputNode><resultNode name="All"><expected>` +
			`<component name="Net Price"><value xsi:type="xsd:decimal">9.0</value></component></expected></resultNode></testCase>`: "3/All PASS",
		`<testCase id="4">` + price + `10.5</value></inputNode><resultNode name="All"><expected>` +
			`<value xsi:nil="true"/></expected></resultNode></testCase>`: "4/All UNSUPPORTED input Full Price: 10.5 is not whole, and it is not rounded",
		`<testCase id="5"><inputNode name="Net Price"><value xsi:type="xsd:integer">3</value></inputNode><resultNode name="All">` +
			`<expected><component name="Net Price"><value xsi:type="xsd:decimal">3</value></component></expected></resultNode></testCase>`: "5/All PASS",
		`<testCase id="6">` + price + `10</value></inputNode><resultNode name="Half"><expected>` +
			`<value xsi:type="xsd:decimal">5</value></expected></resultNode></testCase>`: "6/Half UNSUPPORTED file:8:1: division",
		`<testCase id="7"><resultNode name="Net Price" errorResult="true"><expected/></resultNode></testCase>`: "7/Net Price PASS",
		`<testCase id="8">` + price + `10</value></inputNode><resultNode name="Net Price"><expected>` +
			`<value xsi:type="xsd:decimal">9.5</value></expected></resultNode></testCase>`: `8/Net Price FAIL due 9.5, came 9`,
		`<testCase id="9">` + price + `9223372036854775808</value></inputNode><resultNode name="All"><expected/></resultNode></testCase>`:         "9/All UNSUPPORTED input Full Price: 9223372036854775808 is past the range: from -9223372036854775807 to 9223372036854775807 are taken",
		`<testCase id="10">` + price + `-9223372036854775807</value></inputNode><resultNode name="Net Price"><expected/></resultNode></testCase>`: "10/Net Price FAIL due null, came a value past the limits",
		`<testCase id="11" type="bkm" invocableName="f"><resultNode name="f"><expected/></resultNode></testCase>`:                                 "11/f UNSUPPORTED a business knowledge model is not asked by itself",
		`<testCase id="12"><inputNode name="Full Price"><list><item><value xsi:type="xsd:date">2020-01-01</value></item></list></inputNode>` +
			`<resultNode name="All"><expected/></resultNode></testCase>`: "12/All UNSUPPORTED input Full Price: item 1: the profile has no values of the type date",
		`<testCase id="13">` + price + `1e999999999</value></inputNode><resultNode name="All"><expected/></resultNode></testCase>`: `13/All UNSUPPORTED input Full Price: "1e999999999" is no number`,
		`<testCase id="14">` + price + `1.0E1</value></inputNode><resultNode name="Net Price"><expected>` +
			`<value xsi:type="xsd:double">9.0e0</value></expected></resultNode></testCase>`: "14/Net Price PASS",
	} {
		if got := verdicts(t, cases); len(got) != 1 || got[0] != due {
			t.Errorf("%q\n due %q", got, due)
		}
	}
}

// TestWhatCantComeFails has expected results that no answer can have.
func TestWhatCantComeFails(t *testing.T) {
	for due, said := range map[string]string{
		`<value xsi:type="xsd:date">2020-01-01</value>`:                        `due "2020-01-01", came 9`,
		`<value xsi:type="xsd:decimal">9.000001</value>`:                       `due 9.000001, came 9`,
		`<value xsi:type="xsd:decimal">1e-300</value>`:                         `due "1e-300", came 9`,
		`<value xsi:type="xsd:decimal">nine</value>`:                           `due "nine", came 9`,
		`<value xsi:type="xsd:duration">P1D</value>`:                           `due "P1D", came 9`,
		`<list><item><value xsi:type="xsd:date">x</value></item></list>`:       `due ["x"], came 9`,
		`<component name="a"><value xsi:type="xsd:time">1</value></component>`: `due {"a":"1"}, came 9`,
	} {
		got := verdicts(t, `<testCase id="1">`+price+`10</value></inputNode><resultNode name="Net Price"><expected>`+due+
			`</expected></resultNode></testCase>`)
		if len(got) != 1 || got[0] != "1/Net Price FAIL "+said {
			t.Errorf("%q, due %s", got, said)
		}
	}
}

// TestUnknownNodesAreFaultsOfTheCases has nodes whose names are not in the file.
func TestUnknownNodesAreFaultsOfTheCases(t *testing.T) {
	read, err := dmn.Read("file", strings.NewReader(file))
	if err != nil {
		t.Fatal(err)
	}
	text := head + "\n" + `<testCase id="1"><inputNode name="full price"><value>1</value></inputNode>` + "\n" +
		` <inputNode name="Net Price"><value>1</value></inputNode><resultNode name="Net Prise"/><resultNode name="All"/></testCase>` +
		"\n" + `<testCase id="2" type="bkm"><inputNode name="x"/><resultNode name="f"/></testCase>` +
		`<testCase id="3" type="decisionService" invocableName="Half"><resultNode name="whatever"/></testCase>` +
		`<testCase id="4"><inputNode name="Free"/><resultNode name="Elsewhere"/></testCase></testCases>`
	cases, err := Read("c.xml", strings.NewReader(text))
	if err != nil {
		t.Fatal(err)
	}
	var lines []string
	for _, fault := range Faults(read, cases, []string{"Free"}) {
		lines = append(lines, fault.String())
	}
	due := []string{
		`c.xml:2:18: inputNode "full price": no input and no decision has this name; instead: "Full Price"`,
		`c.xml:3:58: resultNode "Net Prise": no decision and no service has this name; instead: "Net Price"`,
		`c.xml:4:50: resultNode "f": no decision and no service has this name`,
		`c.xml:4:225: resultNode "Elsewhere": no decision and no service has this name`,
	}
	if strings.Join(lines, "\n") != strings.Join(due, "\n") {
		t.Errorf("%s\ndue\n%s", strings.Join(lines, "\n"), strings.Join(due, "\n"))
	}
}

func TestWhatIsNoFileOfCasesIsRefusedWithItsLine(t *testing.T) {
	for text, due := range map[string]string{
		"<testCases/>": "c:1:13:",
		"<!DOCTYPE a [<!ENTITY e 'x'>]>\n" + head + "</testCases>": "c:1:31:",
		head + "\n<testCase>": "c:2:11:",
	} {
		_, err := Read("c", strings.NewReader(text))
		if err == nil || !strings.HasPrefix(err.Error(), due) {
			t.Errorf("%s: %v, due %s", text, err, due)
		}
	}
}
