package profile_test

import (
	"fmt"
	"strings"
	"testing"
	"time"

	"gateway/profile"
)

// narrowTypes are types with allowed values.
const narrowTypes = `<itemDefinition name="tTen"><typeRef>number</typeRef><allowedValues><text>[0..10]</text></allowedValues></itemDefinition>` +
	`<itemDefinition name="tRisk"><typeRef>string</typeRef><allowedValues><text>"HIGH", "LOW"</text></allowedValues></itemDefinition>` +
	`<itemDefinition name="tOpen"><typeRef>number</typeRef><allowedValues><text>(0..10), 20, &gt; 100</text></allowedValues></itemDefinition>` +
	`<itemDefinition name="tAny"><allowedValues><text>"A", 5</text></allowedValues></itemDefinition>` +
	`<itemDefinition name="tOffer"><itemComponent name="rate"><typeRef>tTen</typeRef></itemComponent>` +
	`<itemComponent name="risk"><typeRef>tRisk</typeRef></itemComponent></itemDefinition>` +
	`<itemDefinition name="tOuter"><itemComponent name="an offer"><typeRef>tOffer</typeRef></itemComponent></itemDefinition>` +
	`<itemDefinition name="tTens" isCollection="true"><typeRef>tTen</typeRef></itemDefinition>` +
	`<itemDefinition name="tCent"><typeRef>number</typeRef><allowedValues><text>[0..1]</text></allowedValues></itemDefinition>`

// TestAllowedValuesOfWhatIsComputed asks decisions whose values may not be allowed. The expected answers, null for such
// a value, are worked out by hand.
func TestAllowedValuesOfWhatIsComputed(t *testing.T) {
	entry := func(of, text, result string) string {
		return `<context><contextEntry><variable name="e" typeRef="` + of + `"/>` + literal(text) + `</contextEntry><contextEntry>` +
			literal(result) + `</contextEntry></context>`
	}
	outputs := func(attributes, of, values string, rows ...[]string) string {
		return table(attributes, []column{{text: "x", of: "number"}}, []column{{text: "r", of: of, values: values}}, rows...)
	}
	for _, c := range []struct {
		name, of, logic string
		due             [][2]string
	}{
		{"a range", "tTen", literal("x * 2"), [][2]string{{"9", "null"}, {"5", "10"}, {"0", "0"}, {"-1", "null"}, {"null", "null"}}},
		{"ranges, numbers and tests", "tOpen", literal("x * 2"), [][2]string{{"0", "null"}, {"1", "2"}, {"5", "null"}, {"10", "20"}, {"50", "null"},
			{"51", "102"}}},
		{"texts", "tRisk", literal(`if x > 1 then s else "LOW"`), [][2]string{{"0", `"LOW"`}, {"2", "null"}}},
		{"of no type", "tAny", literal(`if x = 1 then "A" else if x = 2 then x + 3 else x`), [][2]string{{"1", `"A"`}, {"2", "5"}, {"3", "null"}}},
		{"a component", "tOffer", literal(`{rate: x * 2, risk: "LOW"}`), [][2]string{{"5", `{"rate":10,"risk":"LOW"}`}, {"6", "null"},
			{"null", `{"rate":null,"risk":"LOW"}`}}},
		{"two components", "tOffer", literal(`{rate: x, risk: s}`), [][2]string{{"5", "null"}}},
		{"a component of a component", "tOuter", literal(`{an offer: {rate: x, risk: "LOW"}}`),
			[][2]string{{"10", `{"an_offer":{"rate":10,"risk":"LOW"}}`}, {"11", "null"}}},
		{"a list that is written out", "tTens", literal(`[x, 3, x + 1]`), [][2]string{{"9", "[9,3,10]"}, {"10", "null"}, {"null", "[null,3,null]"}}},
		{"a boxed list", "tTens", `<list>` + literal("x") + literal("4") + `</list>`, [][2]string{{"9", "[9,4]"}, {"11", "null"}}},
		{"a list of a scalar alone", "tTens", literal(`[x]`), [][2]string{{"10", "[10]"}, {"11", "null"}}},
		{"an entry", "", entry("tTen", "x * 2", "e"), [][2]string{{"5", "10"}, {"6", "null"}}},
		{"an entry that is used", "", entry("tTen", "x * 2", "if e = null then 0 else e + 1"), [][2]string{{"5", "11"}, {"6", "0"}}},
		{"an expression's own type", "", `<literalExpression typeRef="tTen"><text>x * 2</text></literalExpression>`, [][2]string{{"5", "10"}, {"6", "null"}}},
		{"a conditional", "tTen", `<conditional><if>` + literal("x > 5") + `</if><then>` + literal("x + 5") + `</then><else>` + literal("1") +
			`</else></conditional>`, [][2]string{{"6", "null"}, {"5", "1"}}},
		{"a relation", "", `<relation><column name="c" typeRef="tTen"/><row>` + literal("x * 2") + `</row></relation>`,
			[][2]string{{"5", `[{"c":10}]`}, {"6", `[{"c":null}]`}}},
		{"an output's type", "", outputs("", "tTen", "", []string{"-", "x * 2"}), [][2]string{{"5", "10"}, {"6", "null"}}},
		{"output values", "", outputs("", "number", "[0..10]", []string{"-", "x * 2"}), [][2]string{{"5", "10"}, {"6", "null"}}},
		{"output values that are listed", "", outputs("", "number", "1, 2, 3", []string{"-", "x * 2"}), [][2]string{{"1", "2"}, {"2", "null"}}},
		{"output values under a sum", "", outputs(`hitPolicy="COLLECT" aggregation="SUM"`, "number", "[0..10]", []string{"-", "x * 2"},
			[]string{"-", "1"}), [][2]string{{"5", "11"}, {"6", "null"}}},
		{"output values of hits that are counted", "", outputs(`hitPolicy="COLLECT" aggregation="COUNT"`, "number", "[0..10]",
			[]string{"-", "x * 2"}), [][2]string{{"5", "1"}}},
		{"a table's value", "tTen", outputs("", "number", "", []string{"-", "x * 2"}), [][2]string{{"5", "10"}, {"6", "null"}}},
		{"a default", "tTen", table("", []column{{text: "x", of: "number"}}, []column{{text: "r", fallback: "x * 2"}}, []string{"1", "7"}),
			[][2]string{{"1", "7"}, {"2", "4"}, {"6", "null"}}},
		{"outputs", "tOffer", table("", []column{{text: "x", of: "number"}}, []column{{text: "rate"}, {text: "risk"}},
			[]string{"-", "x * 2", `"LOW"`}), [][2]string{{"5", `{"rate":10,"risk":"LOW"}`}, {"6", "null"}}},
		{"input values", "", table("", []column{{text: "x + 0", of: "number", values: "[0..10]"}}, []column{{text: "r"}}, []string{"null", `"none"`},
			[]string{"> 5", `"great"`}, []string{"<= 5", `"small"`}), [][2]string{{"6", `"great"`}, {"5", `"small"`}, {"11", `"none"`}, {"-1", `"none"`}}},
		{"a column's type", "", table("", []column{{text: "x", of: "tTen"}}, []column{{text: "r"}}, []string{"null", `"none"`},
			[]string{"> 5", `"great"`}), [][2]string{{"6", `"great"`}, {"11", `"none"`}}},
		{"a condition over such a column", "", table("", []column{{text: "x", of: "tTen"}}, []column{{text: "r"}}, []string{"? > 5 and ? < 8", `"in"`},
			[]string{"null", `"none"`}), [][2]string{{"6", `"in"`}, {"11", `"none"`}}},
		// Here x is counted in hundredths: 4.00 / 4 is 1.0, 4.20 / 4 is 1.05, half even 1.0, and 4.21 / 4 is 1.1.
		{"after a rounding", "tCent", literal("decimal(x / 4, 1)"), [][2]string{{"400", "10"}, {"420", "10"}, {"421", "null"}, {"200", "5"},
			{"-20", "0"}, {"-21", "null"}}},
		{"a quotient", "tCent", literal("x / 3"), [][2]string{{"300", "300"}, {"301", "null"}, {"200", "200"}, {"-1", "null"}}},
		{"what is refused by null", "tTen", literal("if x > 5 then null else 3"), [][2]string{{"6", "null"}, {"1", "3"}}},
	} {
		t.Run(c.name, func(t *testing.T) {
			for i := range c.due {
				c.due[i][0] = `{"x":` + c.due[i][0] + `,"s":"MIDDLE"}`
			}
			answers(t, definitions(narrowTypes, input("x", "number"), input("s", "string"), decision("d", c.of, c.logic, "x", "s")), "d", c.due)
		})
	}
}

// TestParametersHaveAllowedValues tests a parameter of a type with allowed values.
func TestParametersHaveAllowedValues(t *testing.T) {
	file := definitions(narrowTypes, input("x", "number"), knowledge("k", []string{"p:tTen"}, literal("if p = null then -1 else p")),
		decision("d", "", literal("k(x * 2)"), "x", "k:k"))
	answers(t, file, "d", [][2]string{{`{"x":5}`, "10"}, {`{"x":6}`, "-1"}})
	invoked := `<invocation>` + literal("k") + `<binding><parameter name="p"/>` + literal("x * 2") + `</binding></invocation>`
	file = definitions(narrowTypes, input("x", "number"), knowledge("k", []string{"p:tTen"}, literal("if p = null then -1 else p")),
		decision("d", "", invoked, "x", "k:k"))
	answers(t, file, "d", [][2]string{{`{"x":5}`, "10"}, {`{"x":6}`, "-1"}})
}

// TestWhatCantBeTestedIsRefused tests values that can't be checked against allowed values.
func TestWhatCantBeTestedIsRefused(t *testing.T) {
	list := `<itemDefinition name="tList" isCollection="true"><typeRef>number</typeRef></itemDefinition>`
	priority := func(policy, cell string) string {
		return table(`hitPolicy="`+policy+`"`, []column{{text: "x", of: "number"}}, []column{{text: "r", of: "string", values: `"HIGH", "LOW"`}},
			[]string{"-", cell})
	}
	for _, c := range []struct{ name, of, logic, why string }{
		{"members of a list", "tTens", literal("l"), "can't be tested of a list"},
		{"hits", "tTens", table(`hitPolicy="COLLECT"`, []column{{text: "x"}}, []column{{text: "r"}}, []string{"-", "x"}), "can't be tested of a list"},
		{"under PRIORITY", "", priority("PRIORITY", "s"), "none of the output values, by which the hit policy goes"},
		{"under OUTPUT ORDER", "", priority("OUTPUT ORDER", "if x > 1 then s else \"LOW\""), "by which the hit policy goes"},
		{"a quotient by a variable", "tCent", literal("x / y"), ""},
	} {
		t.Run(c.name, func(t *testing.T) {
			refusedWith(t, definitions(list, narrowTypes, input("x", "number"), input("y", "number"), input("s", "string"), input("l", "tList"),
				decision("d", c.of, c.logic, "x", "y", "s", "l")), c.why)
		})
	}
}

// TestWhatIsSurelyAllowedIsLeft tests values that need no check: the model is the same as without allowed values.
func TestWhatIsSurelyAllowedIsLeft(t *testing.T) {
	for _, c := range []struct{ of, logic, due string }{
		{"tTen", literal("7"), `"7"`},
		{"tTen", literal("if x > 1 then 3 else null"), `"if x > 1 then 3 else null"`},
		{"tTen", literal("a"), `"a"`},
		{"tRisk", literal(`if x > 1 then r else "LOW"`), `"if x > 1 then r else \"LOW\""`},
		{"tRisk", literal(`if x > 1 then r else q`), `"if x > 1 then r else q"`},
		{"tTens", literal("[a, 5]"), `"[a, 5]"`},
		{"tOffer", literal("{rate: a, risk: r}"), `{"context":[{"name":"rate","expr":"a"},{"name":"risk","expr":"r"}]}`},
		{"tRisk", table("", nil, []column{{text: "o"}}, []string{`"LOW"`}), `{"table":{"hit":"U","inputs":[],"outputs":[{"name":"o"}],` +
			`"rules":[{"when":[],"then":["\"LOW\""]}]}}`},
		{"", table(`hitPolicy="PRIORITY"`, nil, []column{{text: "o", values: `"HIGH", "LOW"`}}, []string{"r"}),
			`{"table":{"hit":"P","inputs":[],"outputs":[{"name":"o","values":["\"HIGH\"","\"LOW\""]}],"rules":[{"when":[],"then":["r"]}]}}`},
		{"tTen", literal("if x >= 0 and x <= 10 then x else null"), ""},
		{"tTen", literal("if x between 0 and 10 then x else null"), `"if x between 0 and 10 then x else null"`},
	} {
		result := taken(t, definitions(narrowTypes, input("x", "number"), input("a", "tTen"), input("r", "tRisk"), input("q", "tRisk"),
			decision("d", c.of, c.logic, "x", "a", "r", "q")))
		if got := logicOf(t, result, "d"); c.due != "" && !strings.Contains(got, `"expr":`+c.due+"}") {
			t.Errorf("%s is due, and it is %s", c.due, got)
		}
	}
}

// TestBodiesOfATypeWithAllowedValues tests business knowledge whose variable has such a type, perhaps the type of the
// result.
func TestBodiesOfATypeWithAllowedValues(t *testing.T) {
	file := func(body string) string {
		return definitions(narrowTypes, input("x", "number"), strings.Replace(knowledge("k", []string{"p:number"}, body), `<variable name="k"/>`,
			`<variable name="k" typeRef="tTen"/>`, 1), decision("d", "", literal("k(x)"), "x", "k:k"))
	}
	refusedWith(t, file(literal("p * 2")), "may be none of the allowed values")
	typed := `<literalExpression typeRef="tTen"><text>p * 2</text></literalExpression>`
	answers(t, file(typed), "d", [][2]string{{`{"x":5}`, "10"}, {`{"x":6}`, "null"}})
	answers(t, file(literal("if p > 5 then 10 else 3")), "d", [][2]string{{`{"x":5}`, "3"}, {`{"x":6}`, "10"}})
}

// TestValuesThatSurelyAreAmongOthers tests columns over decisions whose outputs are all among the columns' input
// values.
func TestValuesThatSurelyAreAmongOthers(t *testing.T) {
	season := table("", []column{{text: "x", of: "number"}}, []column{{text: "o", of: "string"}}, []string{"< 5", `"cold"`}, []string{">= 5", `"warm"`})
	computed := table("", []column{{text: "x", of: "number"}}, []column{{text: "o", values: `"cold", "warm"`}}, []string{"-", "s"})
	for _, logic := range []string{season, computed} {
		for values, due := range map[string]string{`"warm", "cold"`: `"inputs":["Season"]`, `"warm", "mild"`: `"inputs":["if Season = `,
			`-`: `"inputs":["Season"]`} {
			on := table("", []column{{text: "Season", of: "string", values: values}}, []column{{text: "r"}}, []string{"-", "1"})
			result := taken(t, definitions(input("x", "number"), input("s", "string"), decision("Season", "", logic, "x", "s"),
				decision("d", "", on, "d:Season")))
			if got := logicOf(t, result, "d"); !strings.Contains(got, due) {
				t.Errorf("of %s: it is %s", values, got)
			}
		}
	}
}

// TestInputValuesOfAnInput: input values are a promise of the caller if all columns have the same, and are checked
// otherwise.
func TestInputValuesOfAnInput(t *testing.T) {
	on := func(values string) string {
		return table("", []column{{text: "x", of: "number", values: values}}, []column{{text: "r"}}, []string{"null", `"none"`}, []string{"-", `"some"`})
	}
	file := definitions(input("x", "number"), decision("d", "", on("[0..10]"), "x"), decision("e", "", on("[0..10]"), "x"))
	if got := string(taken(t, file).Types["x"]); !strings.Contains(got, `"maximum":10`) {
		t.Errorf("the type is %s", got)
	}
	// The schema leaves out several ranges, and tests.
	for _, values := range []string{"[0..10], [20..30]", "> 5"} {
		file = definitions(input("x", "number"), decision("d", "", on(values), "x"))
		if got := logicOf(t, taken(t, file), "d"); !strings.Contains(got, `"inputs":["if x`) {
			t.Errorf("of %s: it is %s", values, got)
		}
	}
	file = definitions(input("x", "number"), decision("d", "", on("[0..10]"), "x"), decision("e", "", on("[0..20]"), "x"))
	result := taken(t, file)
	if got := string(result.Types["x"]); strings.Contains(got, "maximum") {
		t.Errorf("the type is %s", got)
	}
	d := startDesk(t)
	d.model(result)
	for _, c := range [][3]string{{"d", "11", "null"}, {"d", "10", `"some"`}, {"e", "11", `"some"`}, {"e", "21", "null"}} {
		// Null matches both rules, and their values differ.
		if got := d.ask(c[0], `{"x":`+c[1]+`}`); got != c[2] {
			t.Errorf("%s of %s: %s is due, and %s came", c[0], c[1], c[2], got)
		}
	}
}

// TestListsWhereScalarsAreDue tests that a list of one counts as its member, as in the standard.
func TestListsWhereScalarsAreDue(t *testing.T) {
	for text, due := range map[string]string{
		"abs([-1])": "1", "abs([-1, 2])": "null", "abs([])": "null", "modulo([7], 4)": "3", "modulo(7, [4])": "3", "not([true])": "false",
		"not([1])": "null", "abs([[-1]])": "null", "abs([null])": "null",
	} {
		answers(t, definitions(decision("d", "", literal(text))), "d", [][2]string{{"{}", due}})
	}
	parts := []string{input("x", "")}
	for text, due := range map[string][][2]string{
		"abs(x)":       {{"-1", "1"}, {"[-1]", "1"}, {"[-1,2]", "null"}, {`"a"`, "null"}, {"null", "null"}, {"[]", "null"}},
		"modulo(x, 4)": {{"7", "3"}, {"[7]", "3"}, {`["a"]`, "null"}},
		"not(x)":       {{"true", "false"}, {"[false]", "true"}, {"[true,true]", "null"}, {"1", "null"}, {"null", "null"}},
		"floor(x)":     {{"750", "7"}, {"[750]", "7"}, {"null", "null"}, {"[]", "null"}, {`"a"`, "null"}, {"[750,1]", "null"}},
	} {
		for i := range due {
			due[i][0] = `{"x":` + due[i][0] + `}`
		}
		answers(t, definitions(append(parts, decision("d", "", literal(text), "x"))...), "d", due)
	}
	list := `<itemDefinition name="tList" isCollection="true"><typeRef>number</typeRef></itemDefinition>`
	for _, text := range []string{"abs(l)", "modulo(l, 2)", "modulo(2, l)", "not(l)"} {
		refusedWith(t, definitions(list, input("l", "tList"), decision("d", "", literal(text), "l")), "wants a scalar")
	}
}

// TestElementsInATextAreRefused tests texts with elements, which would be lost.
func TestElementsInATextAreRefused(t *testing.T) {
	for _, text := range []string{"x <b>+ 1</b>", "<b/>x", `x<i xmlns="other"> + 1</i>`} {
		refusedWith(t, definitions(input("x", "number"), decision("d", "", "<literalExpression><text>"+text+"</text></literalExpression>", "x")),
			"an element stands in text")
	}
	answers(t, definitions(input("x", "number"), decision("d", "", "<literalExpression><text>x <!-- one --><![CDATA[+ 1]]></text></literalExpression>", "x")),
		"d", [][2]string{{`{"x":1}`, "2"}})
}

// TestManyAllowedValues tests as many allowed values and computed entries as fit.
func TestManyAllowedValues(t *testing.T) {
	var values []string
	for i := 0; i < 3000; i++ {
		values = append(values, fmt.Sprint(i))
	}
	var rows [][]string
	for i := 0; i < 3000; i++ {
		rows = append(rows, []string{fmt.Sprint(i), "x + 1"})
	}
	file := definitions(input("x", "number"), decision("d", "", table("", []column{{text: "x"}}, []column{{text: "r", values: strings.Join(values, ", ")}},
		rows...), "x"))
	before := time.Now()
	report := run(t, profile.Options{}, file)
	if report.Result != nil || !strings.Contains(said(report.Refusals), "longer than a line") {
		t.Errorf("%.300s", said(report.Refusals))
	}
	t.Logf("%d bytes took %v", len(file), time.Since(before))
}
