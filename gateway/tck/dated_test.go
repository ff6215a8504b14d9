package tck

import (
	"context"
	"encoding/json"
	"strings"
	"sync/atomic"
	"testing"

	"gateway/dmn"
	"gateway/model"
)

// datedFile has a date, a decision on it, and one on the day of a clock.
const datedFile = `<definitions xmlns="https://www.omg.org/spec/DMN/20191111/MODEL/" name="m" namespace="n">
<inputData id="i" name="Day"/><inputData id="j" name="Count"/>
<decision id="a" name="Next"><informationRequirement><requiredInput href="#i"/></informationRequirement><literalExpression><text>Day</text></literalExpression></decision>
<decision id="b" name="Late"><informationRequirement><requiredInput href="#i"/></informationRequirement><literalExpression><text>Day</text></literalExpression></decision>
<decision id="c" name="Parts"><informationRequirement><requiredInput href="#i"/></informationRequirement><literalExpression><text>Day</text></literalExpression></decision>
</definitions>`

func translateDated(part *dmn.File) Translation {
	date, text := json.RawMessage(`{"type":["string","null"],"format":"date"}`), json.RawMessage(`{"type":["string","null"],"format":"duration","unit":"second"}`)
	t := Translation{Model: &model.Model{Inputs: []string{"Day", "Count", "today"}}, Names: map[string]string{"Day": "Day", "Count": "Count", "today": "today()",
		"Next": "Next", "Late": "Late", "Parts": "Parts"},
		Types: map[string]json.RawMessage{"Day": date, "Count": json.RawMessage(`{"type":["integer","null"]}`), "Next": date,
			"today": json.RawMessage(`{"type":["string","null"],"format":"date","clock":"UTC"}`), "Late": json.RawMessage(`{"type":["boolean","null"]}`),
			"Parts": json.RawMessage(`{"type":["object","null"],"properties":{"day":` + string(date) + `,"long":` + string(text) + `}}`)}}
	for _, d := range part.Decisions {
		expr := model.Expression(model.Literal("Day + 1"))
		switch d.Name() {
		case "Late":
			expr = model.Literal("today > Day")
		case "Parts":
			expr = model.Context{Entries: []model.Entry{{Name: "day", Expr: model.Literal("Day")}, {Name: "long", Expr: model.Literal("86400 + 3600")}}}
		}
		t.Model.Decisions = append(t.Model.Decisions, model.Decision{Name: d.Name(), Needs: []string{"Day", "today"}, Expr: expr})
	}
	return t
}

// TestDatesOfCases has cases with dates in XML Schema's form.
func TestDatesOfCases(t *testing.T) {
	day := func(name, kind, text string) string {
		return `<inputNode name="` + name + `"><value xsi:type="xsd:` + kind + `">` + text + `</value></inputNode>`
	}
	due := func(name, expected string) string {
		return `<resultNode name="` + name + `"><expected>` + expected + `</expected></resultNode>`
	}
	for cases, verdict := range map[string]string{
		day("Day", "date", "2024-02-28") + due("Next", `<value xsi:type="xsd:date">2024-02-29</value>`):                                      "1/Next PASS",
		day("Day", "date", "2024-02-28") + due("Next", `<value xsi:type="xsd:date">2024-03-01</value>`):                                      `1/Next FAIL due "2024-03-01", came "2024-02-29"`,
		day("Day", "date", "2024-02-30") + due("Next", `<value xsi:type="xsd:date">2024-03-01</value>`):                                      `1/Next UNSUPPORTED input Day: "2024-02-30" is no date: February 2024 has 29 days`,
		day("Count", "date", "2024-02-28") + due("Next", `<value xsi:nil="true"/>`):                                                          `1/Next UNSUPPORTED input Count: the profile has no values of the type date`,
		day("Day", "date", "2024-02-28") + day("today()", "date", "2024-02-29") + due("Late", `<value xsi:type="xsd:boolean">true</value>`):  "1/Late PASS",
		day("Day", "date", "2024-02-28") + day("today()", "date", "2024-02-28") + due("Late", `<value xsi:type="xsd:boolean">false</value>`): "1/Late PASS",
		day("Day", "date", "2020-01-01") + due("Late", `<value xsi:type="xsd:boolean">true</value>`):                                         "1/Late PASS",
		day("Day", "date", "2024-02-28") + due("Parts", `<component name="day"><value xsi:type="xsd:date">2024-02-28</value></component>`+
			`<component name="long"><value xsi:type="xsd:duration">PT25H</value></component>`): "1/Parts PASS",
		day("Day", "date", "2024-02-28") + due("Parts", `<component name="day"><value xsi:type="xsd:date">2024-02-28</value></component>`+
			`<component name="long"><value xsi:type="xsd:duration">P1D</value></component>`): `1/Parts FAIL due {"day":"2024-02-28","long":"P1D"}, came {"day":"2024-02-28","long":"P1DT1H"}`,
		due("Next", `<value xsi:nil="true"/>`): "1/Next PASS",
	} {
		read, err := dmn.Read("file", strings.NewReader(datedFile))
		if err != nil {
			t.Fatal(err)
		}
		parsed, err := Read("cases", strings.NewReader(head+`<testCase id="1">`+cases+"</testCase></testCases>"))
		if err != nil {
			t.Fatal(err)
		}
		all, err := Run(context.Background(), read, parsed, translateDated, new(atomic.Int64))
		if err != nil {
			t.Fatal(err)
		}
		if len(all) != 1 || all[0].String() != verdict {
			t.Errorf("%s: due %q, came %v", cases, verdict, all)
		}
	}
}
