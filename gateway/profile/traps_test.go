package profile_test

import (
	"strings"
	"testing"
)

// Each test of this file is a trap: a place where a literal translation silently decides differently from the file.

func expression(text, of string, parts ...string) string {
	var needs []string
	for _, part := range parts {
		for _, name := range strings.Split(part, `inputData id="`)[1:] {
			needs = append(needs, strings.ReplaceAll(name[:strings.IndexByte(name, '"')], "&quot;", `"`))
		}
	}
	return definitions(append(parts, decision("d", of, literal(text), needs...))...)
}

func TestPlusWhereBothMayBeTexts(t *testing.T) {
	refusedWith(t, expression("a + b", "", input("a", ""), input("b", "")), "may be texts")
	refusedWith(t, expression("a + b", "", input("a", "string"), input("b", "")), "may be texts")
	refusedWith(t, expression(`a + "x"`, "", input("a", "string")), "texts are not joined")
	refusedWith(t, expression(`sum([1]) + 1 + ("a" + b)`, "", input("b", "string")), "texts are not joined")
	answers(t, expression("a + b + c", "", input("a", "number"), input("b", ""), input("c", "")), "d", [][2]string{
		{`{"a":1,"b":2,"c":3}`, "6"}, {`{"a":1,"b":"x","c":"y"}`, "null"}})
}

func TestABareWordThatIsNoName(t *testing.T) {
	season := []column{{text: "season", of: "string"}}
	out := []column{{text: "r"}}
	for _, word := range []string{"Summer", "TRUE", "Light Salad", "summer"} {
		file := definitions(input("season", "string"), decision("d", "", table("", season, out, []string{word, "1"}),
			"season"))
		if r := refusedWith(t, file, "no name in scope"); r.Text != word || r.Element != "inputEntry" {
			t.Errorf("the refusal is of %q in %s", r.Text, r.Element)
		}
	}
	refusedWith(t, expression("Summer", ""), "no name in scope")
	refusedWith(t, expression("TRUE", ""), "no name in scope")
}

func TestARequirementThatWasNotDrawn(t *testing.T) {
	refusedWith(t, definitions(input("a", "number"), decision("d", "", literal("a"))), "no name in scope")
	refusedWith(t, definitions(decision("e", "", literal("1")), decision("d", "", literal("e"))), "no name in scope")
	refusedWith(t, definitions(knowledge("f", nil, literal("1")), decision("d", "", literal("f()"))), "no function f")
}

func TestTheNameOfAnOutputColumnAsOfCamunda7(t *testing.T) {
	dish := decision("Dish", "", table("", nil, []column{{text: "desiredDish", of: "string"}}, []string{`"Stew"`}))
	refusedWith(t, definitions(dish, decision("d", "", literal("desiredDish"), "d:Dish")), "no name in scope")
}

func TestTheIDOfADecisionAsOfCamunda8(t *testing.T) {
	dish := strings.Replace(decision("Dish", "", literal(`"Stew"`)), `id="Dish"`, `id="dish_1"`, 1)
	refusedWith(t, definitions(dish, decision("d", "", literal("dish_1"), "d:dish_1")), "no name in scope")
}

func TestMinAndMaxOfTexts(t *testing.T) {
	refusedWith(t, expression(`min(["b", "a"])`, ""), "no numbers")
	refusedWith(t, expression("max(a, b)", "", input("a", ""), input("b", "")), "no numbers")
	refusedWith(t, expression("max(a)", "", input("a", "string")), "no numbers")
	for _, aggregation := range []string{"MIN", "MAX"} {
		refusedWith(t, definitions(decision("d", "", table(`hitPolicy="COLLECT" aggregation="`+aggregation+`"`, nil,
			[]column{{text: "r", of: "string"}}, []string{`"a"`}))), "no numbers")
	}
	answers(t, expression("min(a, 3) + max([a, 3])", "", input("a", "number")), "d", [][2]string{{`{"a":5}`, "8"}})
}

func TestSumOfAScalar(t *testing.T) {
	answers(t, expression("sum(5)", ""), "d", [][2]string{{"{}", "5"}})
	answers(t, expression("sum(a)", "", input("a", "number")), "d", [][2]string{{`{"a":5}`, "5"}})
	answers(t, expression("sum(a)", "", input("a", "")), "d", [][2]string{
		{`{"a":5}`, "5"}, {`{"a":[5,6]}`, "11"}, {`{"a":[]}`, "null"}, {`{"a":"x"}`, "null"}, {`{"a":null}`, "null"}})
	refusedWith(t, expression("count(a)", "", input("a", "")), "may be no list")
	refusedWith(t, expression("count(5)", ""), "may be no list")
}

func TestAConditionUsedAsAnEntry(t *testing.T) {
	in := []column{{text: "a", of: "number"}}
	flag := []column{{text: "f", of: "boolean"}}
	out := []column{{text: "r"}}
	parts := func(columns []column, entry string) string {
		return definitions(input("a", "number"), input("f", "boolean"), input("x", ""),
			decision("d", "", table("", columns, out, []string{entry, "1"}), "a", "f", "x"))
	}
	refusedWith(t, parts(in, "a > 5"), "condition as a test")
	refusedWith(t, parts(flag, "a > 5"), "condition as a test")
	refusedWith(t, parts(in, "x"), "may be a condition")
	refusedWith(t, parts(in, "not(a > 5)"), "condition as a test")
	answers(t, parts(flag, "? = (a > 5)"), "d", [][2]string{
		{`{"a":6,"f":true}`, "1"}, {`{"a":5,"f":false}`, "1"}, {`{"a":5,"f":true}`, "null"}})
}

func TestCaptureOfAParametersName(t *testing.T) {
	// f(x, y) is x - y. Within the decision x is an input, which a parameter bound by its own name would hide.
	f := knowledge("f", []string{"x:number", "y:number"}, literal("x - y"))
	file := definitions(input("x", "number"), input("y", "number"), f,
		decision("d", "", literal("f(y, x) * 100 + x"), "x", "y", "k:f"))
	answers(t, file, "d", [][2]string{{`{"x":2,"y":9}`, "702"}})
	// The body only sees its parameters: y of the decision isn't y of the body.
	g := knowledge("g", []string{"x:number"}, literal("x + y"))
	refusedWith(t, definitions(input("y", "number"), g, decision("d", "", literal("g(1)"), "y", "k:g")), "no name in scope")
	// A context within the body hides the parameter inside, not outside.
	h := knowledge("h", []string{"x:number"}, `<context><contextEntry><variable name="x"/>`+literal("x + 1")+
		`</contextEntry><contextEntry>`+literal("x * 10")+`</contextEntry></context>`)
	answers(t, definitions(input("x", "number"), h, decision("d", "", literal("h(x) + h(h(0)) + x"), "x", "k:h")), "d",
		[][2]string{{`{"x":4}`, "164"}})
}

func TestPriorityAndOutputOrderWithoutOutputValues(t *testing.T) {
	for _, policy := range []string{"PRIORITY", "OUTPUT ORDER"} {
		logic := func(values string) string {
			return table(`hitPolicy="`+policy+`"`, nil, []column{{text: "r", of: "string", values: values}}, []string{`"a"`},
				[]string{`"b"`})
		}
		refusedWith(t, definitions(decision("d", "", logic(""))), "output values")
		due := map[string]string{"PRIORITY": `"b"`, "OUTPUT ORDER": `["b","a"]`}[policy]
		answers(t, definitions(decision("d", "", logic(`"b", "a"`))), "d", [][2]string{{"{}", due}})
	}
}

func TestLiteralsAgainstTheirTypeRef(t *testing.T) {
	out := []column{{text: "r", of: "number"}}
	in := []column{{text: "a", of: "number"}}
	refusedWith(t, definitions(input("a", "number"), decision("d", "", table("", in, out, []string{`"5"`, "1"}), "a")),
		"of the type string, and the column of number")
	refusedWith(t, definitions(input("a", "number"), decision("d", "", table("", in, out, []string{"5", `"1"`}), "a")),
		"where number is declared")
	refusedWith(t, expression(`"5"`, "number"), "where number is declared")
	refusedWith(t, expression("true", "string"), "where string is declared")
	refusedWith(t, expression("a", "string", input("a", "number")), "where string is declared")
}

func TestAValueThatMayNotBeOfItsTypeRef(t *testing.T) {
	// The value in the request isn't known here: the standard makes null of it unless it is a number, or the member of
	// a list of one.
	needs := input("a", "")
	answers(t, expression("if a = null then 0 else a", "number", needs), "d", [][2]string{
		{`{"a":7}`, "7"}, {`{"a":"x"}`, "null"}, {`{"a":[7]}`, "7"}, {`{"a":[7,8]}`, "null"}, {`{}`, "0"}})
	answers(t, expression("if a = null then false else a", "boolean", needs), "d", [][2]string{
		{`{"a":true}`, "true"}, {`{"a":"x"}`, "null"}, {`{"a":[false]}`, "false"}, {`{"a":[7]}`, "null"}, {`{}`, "false"}})
	refusedWith(t, expression(`if a = null then "x" else a`, "string", needs), "may be of another type")
	// An input without a type takes the type that is expected of it, and the request has to keep it.
	result := taken(t, expression("a", "string", needs))
	if got := string(result.Types["a"]); got != `{"type":["string","null"]}` {
		t.Errorf("the type of a is %s", got)
	}
}

func TestInputValues(t *testing.T) {
	in := []column{{text: "a", of: "string", values: `"x", "y"`}}
	out := []column{{text: "r"}}
	refusedWith(t, definitions(input("a", "string"), decision("d", "", table("", in, out, []string{`"z"`, "1"}), "a")),
		"none of the input values")
	result := taken(t, definitions(input("a", ""), decision("d", "", table("", in, out, []string{`"x"`, "1"}), "a")))
	if got := string(result.Types["a"]); got != `{"enum":["x","y",null],"type":["string","null"]}` {
		t.Errorf("the type of a is %s", got)
	}
	in[0].values = "[0..5]"
	in[0].of = "number"
	refusedWith(t, definitions(input("a", ""), decision("d", "", table("", in, out, []string{"6", "1"}), "a")),
		"none of the input values")
}

func TestAllowedValues(t *testing.T) {
	risk := `<itemDefinition name="tRisk"><typeRef>string</typeRef><allowedValues><text>"HIGH", "LOW"</text></allowedValues>` +
		`</itemDefinition>`
	age := `<itemDefinition name="tAge"><typeRef>number</typeRef><allowedValues><text>[0..120]</text></allowedValues>` +
		`</itemDefinition>`
	out := []column{{text: "r", of: "tRisk"}}
	in := []column{{text: "a"}}
	file := func(test, gives string) string {
		return definitions(risk, age, input("a", "tAge"), decision("d", "tRisk", table("", in, out, []string{test, gives}), "a"))
	}
	refusedWith(t, file("5", `"MIDDLE"`), "none of the allowed values")
	refusedWith(t, file("121", `"LOW"`), "none of the allowed values")
	result := taken(t, file("5", `"LOW"`))
	if got := string(result.Types["a"]); got != `{"maximum":120,"minimum":0,"type":["integer","null"]}` {
		t.Errorf("the type of a is %s", got)
	}
	if got := string(result.Types["d"]); got != `{"enum":["HIGH","LOW",null],"type":["string","null"]}` {
		t.Errorf("the type of d is %s", got)
	}
}

func TestOutputValues(t *testing.T) {
	out := []column{{text: "r", of: "string", values: `"x", "y"`}}
	refusedWith(t, definitions(decision("d", "", table("", nil, out, []string{`"z"`}))), "none of the output values")
}

func TestADefaultUnderCollectRuleOrderAndOutputOrder(t *testing.T) {
	for _, policy := range []string{"COLLECT", "RULE ORDER", "OUTPUT ORDER"} {
		out := []column{{text: "r", of: "number", values: "1, 2", fallback: "1"}}
		refusedWith(t, definitions(decision("d", "", table(`hitPolicy="`+policy+`"`, nil, out, []string{"2"}))),
			"a default under a policy that gives a list")
	}
	out := []column{{text: "r", of: "number", fallback: "7"}}
	in := []column{{text: "a", of: "number"}}
	for _, aggregation := range []string{"SUM", "MIN", "MAX", "COUNT"} {
		answers(t, definitions(input("a", "number"), decision("d", "", table(`hitPolicy="COLLECT" aggregation="`+aggregation+
			`"`, in, out, []string{"> 5", "2"}), "a")), "d", [][2]string{{`{"a":1}`, "7"}})
	}
}

func TestNoHitUnderCollectRuleOrderAndOutputOrder(t *testing.T) {
	in := []column{{text: "a", of: "number"}}
	out := []column{{text: "r", of: "number", values: "1, 2"}}
	for _, policy := range []string{"COLLECT", "RULE ORDER", "OUTPUT ORDER"} {
		// If no rule hits and there is no default, the value is null.
		answers(t, definitions(input("a", "number"), decision("d", "", table(`hitPolicy="`+policy+`"`, in, out,
			[]string{"> 5", "2"}), "a")), "d", [][2]string{{`{"a":1}`, "null"}, {`{"a":6}`, "[2]"}})
	}
	// Some tools give an empty list or 0 here, so there is a note.
	count := func(rule string) string {
		return definitions(input("a", "number"), decision("d", "", table(`hitPolicy="COLLECT" aggregation="COUNT"`, in, out,
			[]string{rule, "2"}), "a"))
	}
	answers(t, count("> 5"), "d", [][2]string{{`{"a":1}`, "null"}, {`{"a":6}`, "1"}})
	if notes := taken(t, count("> 5")).Notes; len(notes) != 1 || !strings.Contains(notes[0].Why, "some tools give 0") {
		t.Errorf("the notes are %v", notes)
	}
	if notes := taken(t, count("-")).Notes; len(notes) != 0 {
		t.Errorf("a table that always hits has notes: %v", notes)
	}
}

func TestANameWithAHyphenBesideADifference(t *testing.T) {
	parts := []string{input("a-b", "number"), input("a", "number"), input("b", "number")}
	answers(t, expression("a-b", "", parts...), "d", [][2]string{{`{"a":7,"b":3,"a_b":50}`, "50"}})
	refusedWith(t, expression("a - b", "", parts...), "one name or a calculation")
	answers(t, expression("(a) - (b)", "", parts...), "d", [][2]string{{`{"a":7,"b":3,"a_b":50}`, "4"}})
	answers(t, expression("a - b", "", parts[1:]...), "d", [][2]string{{`{"a":7,"b":3}`, "4"}})
	answers(t, expression("a-b", "", parts[1:]...), "d", [][2]string{{`{"a":7,"b":3}`, "4"}})
	refusedWith(t, definitions(input("a-b", "number"), input("a - b", "number"), decision("d", "", literal("1"))),
		"its name is that of")
}

func TestAListOfOneForAScalar(t *testing.T) {
	refusedWith(t, expression("[1]", "number"), "it is a list")
	out := []column{{text: "r", of: "string"}}
	refusedWith(t, definitions(decision("d", "string", table(`hitPolicy="COLLECT"`, nil, out, []string{`"a"`}))), "it is a list")
	refusedWith(t, expression("1", "tNumbers", `<itemDefinition name="tNumbers" isCollection="true"><typeRef>number</typeRef>`+
		`</itemDefinition>`), "where list of number is declared")
	f := knowledge("f", []string{"x:number"}, literal("x"))
	refusedWith(t, definitions(f, decision("d", "", literal("f([1])"), "k:f")), "it is a list")
}

func TestNotOfATextAskedOfAnotherKind(t *testing.T) {
	// not("a") for 1: = is null for different kinds, so not is null, and the rule doesn't hit.
	in := []column{{text: "a"}}
	out := []column{{text: "r"}}
	answers(t, definitions(input("a", ""), decision("d", "", table("", in, out, []string{`not("a", "b")`, "1"}), "a")), "d",
		[][2]string{{`{"a":"c"}`, "1"}, {`{"a":"a"}`, "null"}, {`{"a":1}`, "null"}, {`{"a":null}`, "1"}})
	in[0].of = "string"
	result := taken(t, definitions(input("a", "string"), decision("d", "", table("", in, out, []string{`not("a", "b")`,
		"1"}), "a")))
	if got := logicOf(t, result, "d"); !strings.Contains(got, `"not(\"a\", \"b\")"`) {
		t.Errorf("the entry is %s", got)
	}
}
