package profile_test

import (
	"strings"
	"testing"
)

// Each test of this file is about a place that can be read, or that a file may spell, in two ways.

func TestAListWithinAListAsATest(t *testing.T) {
	for _, list := range []string{"[[1, 2]]", "[3, [1, 2]]", "[[1..3]]", "[< 3]"} {
		refusedWith(t, expression("a in "+list, "", input("a", "number")), "a list with a list or a test in it")
		refusedWith(t, expression("a in (5, "+list+")", "", input("a", "number")), "a list with a list or a test in it")
		for _, entry := range []string{list, "5, " + list, "not(" + list + ")"} {
			for _, of := range []string{"number", ""} {
				refusedWith(t, definitions(input("a", of), decision("d", "", table("", []column{{text: "a", of: of}},
					[]column{{text: "r"}}, []string{entry, "1"}), "a")), "a list with a list or a test in it")
			}
		}
	}
}

func TestAListAsATestOfAList(t *testing.T) {
	// A list as a test contains the value, or equals it.
	due := [][2]string{{`{"a":1}`, "true"}, {`{"a":2}`, "true"}, {`{"a":[1,2]}`, "true"}, {`{"a":[1]}`, "false"},
		{`{"a":[2,1]}`, "false"}, {`{"a":"x"}`, "false"}, {`{"a":null}`, "false"}, {`{"a":[]}`, "false"}}
	answers(t, expression("a in [1, 2]", "", input("a", "")), "d", due)
	for _, policy := range []string{"[1, 2]", "3, [1, 2]"} {
		logic := table("", []column{{text: "a"}}, []column{{text: "r", fallback: "false"}}, []string{policy, "true"})
		answers(t, definitions(input("a", ""), decision("d", "", logic, "a")), "d", due)
	}
	logic := table("", []column{{text: "a"}}, []column{{text: "r", fallback: "true"}}, []string{"not([1, 2])", "false"})
	answers(t, definitions(input("a", ""), decision("d", "", logic, "a")), "d", due)
	numbers := `<itemDefinition name="tL" isCollection="true"><typeRef>number</typeRef></itemDefinition>`
	logic = table("", []column{{text: "a"}}, []column{{text: "r", fallback: "false"}}, []string{"[1, 2]", "true"})
	answers(t, definitions(numbers, input("a", "tL"), decision("d", "", logic, "a")), "d",
		[][2]string{{`{"a":[1,2]}`, "true"}, {`{"a":[1]}`, "false"}})
}

func TestAListOfValuesOfAnotherKindSaysFalse(t *testing.T) {
	parts := []string{input("a", ""), input("n", "number"), input("s", "string")}
	answers(t, expression("a in [n, s]", "", parts...), "d", [][2]string{{`{"a":"x","n":1,"s":"y"}`, "false"},
		{`{"a":1,"n":1,"s":"y"}`, "true"}, {`{"a":"y","n":1,"s":"y"}`, "true"}, {`{"a":true,"n":1,"s":"y"}`, "false"}})
	answers(t, expression("not(a in [n])", "", parts...), "d", [][2]string{{`{"a":"x","n":1}`, "true"}})
	// Tests without brackets are joined by or. For another kind the result is unknown.
	answers(t, expression("a in (n, s)", "", parts...), "d", [][2]string{{`{"a":true,"n":1,"s":"y"}`, "null"}})
}

func TestACollectionSpelledByANumber(t *testing.T) {
	numbers := `<itemDefinition name="tL" isCollection="1"><typeRef>number</typeRef></itemDefinition>`
	answers(t, expression("sum(l)", "", numbers, input("l", "tL")), "d", [][2]string{{`{"l":[1,2]}`, "3"}})
}

func TestTheLanguageOfTheFile(t *testing.T) {
	in, out := []column{{text: "a", of: "number"}}, []column{{text: "r"}}
	for _, language := range []string{"http://www.ecma-international.org/ecma-262", "feelings", "urn:groovy"} {
		file := func(logic string) string {
			return strings.Replace(definitions(input("a", "number"), decision("d", "", logic, "a")), `name="m"`,
				`name="m" expressionLanguage="`+language+`"`, 1)
		}
		refusedWith(t, file(literal("a + 1")), "not FEEL")
		_, refusals := imported(t, file(table("", in, out, []string{"5", "1"})))
		if len(refusals) != 3 {
			t.Errorf("three texts are in another language, and the refusals are %v", refusals)
		}
		own := strings.Replace(file(literal("a + 1")), "<literalExpression>", `<literalExpression expressionLanguage="FEEL">`, 1)
		answers(t, own, "d", [][2]string{{`{"a":1}`, "2"}})
	}
	for _, language := range []string{"http://www.omg.org/spec/FEEL/20140401", "https://www.omg.org/spec/DMN/20191111/FEEL/",
		"http://www.omg.org/spec/DMN/20180521/FEEL/", "feel", "FEEL"} {
		file := strings.Replace(expression("a + 1", "", input("a", "number")), `name="m"`,
			`name="m" expressionLanguage="`+language+`"`, 1)
		answers(t, file, "d", [][2]string{{`{"a":1}`, "2"}})
	}
}

func TestFunctionsOfOneName(t *testing.T) {
	f := knowledge("f", []string{"x:number"}, literal("x + 1"))
	other := strings.Replace(knowledge("f", []string{"x:number"}, literal("x + 2")), `id="f"`, `id="g"`, 1)
	refusedWith(t, definitions(f, other, decision("d", "", literal("f(1)"), "k:f", "k:g")), "its name is that of")
	value := strings.Replace(input("f", "number"), `id="f"`, `id="v"`, 1)
	refusedWith(t, definitions(f, value, decision("d", "", literal("1"), "k:f", "v")), "a value and a function of this name")
	twice := knowledge("h", []string{"x:number", "x:number"}, literal("x"))
	refusedWith(t, definitions(twice, decision("d", "", literal("h(1, 2)"), "k:h")), "duplicate parameter name")
}

func TestADifferenceBehindAPoint(t *testing.T) {
	order := `<itemDefinition name="tO"><itemComponent name="a"><typeRef>number</typeRef></itemComponent>` +
		`<itemComponent name="a-b"><typeRef>number</typeRef></itemComponent></itemDefinition>`
	parts := []string{order, input("o", "tO"), input("b", "number")}
	request := `{"o":{"a":7,"a_b":50},"b":3}`
	answers(t, expression("o.a-b", "", parts...), "d", [][2]string{{request, "50"}})
	answers(t, expression("(o.a) - b", "", parts...), "d", [][2]string{{request, "4"}})
	answers(t, expression("o.a - (b)", "", parts...), "d", [][2]string{{request, "4"}})
	refusedWith(t, expression("o.a - b", "", parts...), "one name or a calculation")
	// If the type of what precedes the point isn't known, either may be meant.
	unknown := []string{order, input("u", ""), input("b", "number")}
	refusedWith(t, expression("u.a-b", "", unknown...), "one name or a calculation")
	answers(t, expression("u.`a-b`", "", unknown...), "d", [][2]string{{`{"u":{"a":7,"a_b":50},"b":3}`, "50"}})
	answers(t, expression("(u.a) - b", "", unknown...), "d", [][2]string{{`{"u":{"a":7,"a_b":50},"b":3}`, "4"}})
}

func TestADifferenceOfNamesOfTwoWords(t *testing.T) {
	parts := []string{input("net price-tax", "number"), input("net price", "number"), input("tax", "number")}
	request := `{"net_price_tax":50,"net_price":7,"tax":3}`
	answers(t, expression("net price-tax", "", parts...), "d", [][2]string{{request, "50"}})
	refusedWith(t, expression("net price - tax", "", parts...), "one name or a calculation")
	answers(t, expression("(net price) - tax", "", parts...), "d", [][2]string{{request, "4"}})
}

func TestLiteralsAgainstTheAllowedValuesOfTheirType(t *testing.T) {
	risk := `<itemDefinition name="tRisk"><typeRef>string</typeRef><allowedValues><text>"HIGH", "LOW"</text></allowedValues>` +
		`</itemDefinition>`
	risks := `<itemDefinition name="tRisks" isCollection="true"><typeRef>tRisk</typeRef></itemDefinition>`
	case1 := `<itemDefinition name="tCase"><itemComponent name="the risk"><typeRef>tRisk</typeRef></itemComponent></itemDefinition>`
	entry := func(logic string) string {
		return `<context><contextEntry><variable name="the risk"/>` + logic + `</contextEntry></context>`
	}
	f := knowledge("f", []string{"x:tRisk"}, literal("x"))
	const why = "none of the allowed values"
	parts := []string{risk, risks, case1, f, input("a", "number")}
	file := func(of, logic string) string {
		return definitions(append(parts, decision("d", of, logic, "a", "k:f"))...)
	}
	for _, c := range [][2]string{
		{"tRisk", literal(`"MIDDLE"`)},
		{"tRisk", literal(`if a > 1 then "HIGH" else "MIDDLE"`)},
		{"tRisks", literal(`["LOW", "MIDDLE"]`)},
		{"tRisks", "<list>" + literal(`"LOW"`) + literal(`"MIDDLE"`) + "</list>"},
		{"tCase", entry(literal(`"MIDDLE"`))},
		{"", literal(`f("MIDDLE")`)},
		{"tRisk", table("", nil, []column{{text: "r"}}, []string{`"MIDDLE"`})},
		{"tRisk", table("", nil, []column{{text: "r", fallback: `"MIDDLE"`}}, []string{`"LOW"`})},
		{"tRisk", table("", nil, []column{{text: "r", of: "tRisk"}}, []string{`if a > 1 then "HIGH" else "MIDDLE"`})},
		{"tRisks", table(`hitPolicy="COLLECT"`, nil, []column{{text: "r"}}, []string{`"MIDDLE"`})},
	} {
		refusedWith(t, file(c[0], c[1]), why)
	}
	for _, c := range [][3]string{
		{"tRisk", literal(`if a > 1 then "HIGH" else null`), `"HIGH"`},
		{"tRisks", literal(`["LOW", "HIGH"]`), `["LOW","HIGH"]`},
		{"tCase", entry(literal(`"LOW"`)), `{"the_risk":"LOW"}`},
		{"", literal(`f("LOW")`), `"LOW"`},
		{"tRisks", table(`hitPolicy="COLLECT"`, nil, []column{{text: "r"}}, []string{`"LOW"`}), `["LOW"]`},
	} {
		answers(t, file(c[0], c[1]), "d", [][2]string{{`{"a":2}`, c[2]}})
	}
}

func TestBareWordsAmongValues(t *testing.T) {
	in, out := []column{{text: "a", of: "string", values: "Summer, Winter"}}, []column{{text: "r"}}
	refusedWith(t, definitions(input("a", "string"), decision("d", "", table("", in, out, []string{"-", "1"}), "a")),
		"Summer is no value")
	item := `<itemDefinition name="tS"><typeRef>string</typeRef><allowedValues><text>Summer, Winter</text></allowedValues>` +
		`</itemDefinition>`
	refusedWith(t, definitions(item, input("a", "tS"), decision("d", "", literal("a"), "a")), "Summer is no value")
}

// TestRefusedParts tests an element for each part of DMN that the profile lacks, with words of the reason.
func TestRefusedParts(t *testing.T) {
	functionOf := func(kind string) string {
		return strings.Replace(knowledge("f", []string{"x:number"}, `<context><contextEntry><variable name="class"/>`+
			literal(`"java.lang.Math"`)+"</contextEntry></context>"), "<encapsulatedLogic>", `<encapsulatedLogic kind="`+kind+`">`, 1)
	}
	called := decision("d", "", literal("f(1)"), "k:f")
	service := `<decisionService id="s" name="s"><outputDecision href="#e"/></decisionService>`
	function := "<functionDefinition>" + literal("1") + "</functionDefinition>"
	for why, file := range map[string]string{
		"functions of Java and of PMML are not called": definitions(functionOf("Java"), called),
		"of Java and of PMML are not called":           definitions(functionOf("PMML"), called),
		"functions are no values":                      definitions(decision("d", "", function)),
		"functions are no values of the profile":       expression(`function(x) external {java: {class: "a", method signature: "b(int)"}}`, ""),
		"there is no boxed filter":                     definitions(decision("d", "", "<filter><in/><match/></filter>")),
		"there is no boxed for":                        definitions(decision("d", "", `<for iteratorVariable="x"><in/><return/></for>`)),
		"there is no boxed every":                      definitions(decision("d", "", `<every iteratorVariable="x"><in/></every>`)),
		"there is no boxed some":                       definitions(decision("d", "", `<some iteratorVariable="x"><in/></some>`)),
		"imports of other files are not followed": definitions(`<import name="o" namespace="other" importType="`+
			`https://www.omg.org/spec/DMN/20191111/MODEL/"/>`, decision("d", "", literal("1"))),
		"the expression language is not FEEL": definitions(decision("d", "", `<literalExpression expressionLanguage="juel"><text>`+
			"${a}</text></literalExpression>")),
		"decision services are not invoked": definitions(service, decision("e", "", literal("1")),
			decision("d", "", literal("s()"), "k:s")),
		"functions are no values of": definitions(`<itemDefinition name="tF"><functionItem/></itemDefinition>`, input("a", "tF"),
			decision("d", "", literal("1"))),
		"the decision has no logic":        definitions(decision("d", "", "")),
		"values of another file":           definitions(decision("d", "", `<literalExpression><text>1</text><importedValues locationURI="a"/></literalExpression>`)),
		"it is no type of this file":       definitions(input("a", "tNone"), decision("d", "", literal("1"))),
		"no part of the model has this id": definitions(decision("d", "", literal("1"), "nobody")),
		"the id stands twice":              definitions(input("a", ""), strings.Replace(input("b", ""), `id="b"`, `id="a"`, 1), decision("d", "", literal("1"))),
		"there is no decision":             definitions(input("a", "")),
	} {
		t.Run(why, func(t *testing.T) { refusedWith(t, file, why) })
	}
}

func TestTheTypeOfAnOutputEntry(t *testing.T) {
	out := []column{{text: "r"}}
	logic := table("", nil, out, []string{"5"})
	refusedWith(t, definitions(decision("d", "", strings.Replace(logic, "<outputEntry>", `<outputEntry typeRef="string">`, 1))),
		"where string is declared")
	answers(t, definitions(decision("d", "", strings.Replace(logic, "<outputEntry>", `<outputEntry typeRef="number">`, 1))), "d",
		[][2]string{{"{}", "5"}})
}

func TestTheTypeOfTheVariableOfBusinessKnowledge(t *testing.T) {
	item := `<itemDefinition name="tF"><functionItem outputTypeRef="number"><parameters name="x" typeRef="number"/></functionItem>` +
		`</itemDefinition>`
	of := func(ref string) string {
		f := strings.Replace(knowledge("f", []string{"x:number"}, literal("x + 1")), `<variable name="f"/>`,
			`<variable name="f" typeRef="`+ref+`"/>`, 1)
		return definitions(item, f, decision("d", "", literal("f(1) + f(2)"), "k:f"))
	}
	for _, ref := range []string{"number", "tF", "Any", "function<number>->number"} {
		answers(t, of(strings.ReplaceAll(ref, "<", "&lt;")), "d", [][2]string{{"{}", "5"}})
	}
	refusedWith(t, of("string"), "where string is declared")
}
