package profile_test

import (
	"fmt"
	"strings"
	"testing"
)

// TestEachHitPolicy asks the tables of docs/MODEL.md for each hit policy. The values are worked out by hand.
func TestEachHitPolicy(t *testing.T) {
	in := []column{{text: "a", of: "number"}}
	for _, c := range []struct {
		attributes, values string
		rules              [][]string
		a, due             string
	}{
		{``, "", [][]string{{"< 18", `"child"`}, {">= 18", `"adult"`}}, "20", `"adult"`},
		{`hitPolicy="UNIQUE"`, "", [][]string{{"> 1", `"a"`}, {"> 2", `"b"`}}, "3", "null"},
		{`hitPolicy="ANY"`, "", [][]string{{"> 10", "true"}, {"> 20", "true"}}, "25", "true"},
		{`hitPolicy="PRIORITY"`, `"refuse", "approve"`, [][]string{{"-", `"approve"`}, {"> 100", `"refuse"`}}, "150", `"refuse"`},
		{`hitPolicy="FIRST"`, "", [][]string{{"> 100", "5"}, {"> 10", "3"}, {"-", "0"}}, "50", "3"},
		{`hitPolicy="OUTPUT ORDER"`, `"high", "mid", "low"`, [][]string{{"-", `"low"`}, {"> 5", `"high"`}, {"> 1", `"mid"`}}, "6",
			`["high","mid","low"]`},
		{`hitPolicy="RULE ORDER"`, "", [][]string{{"> 1", `"a"`}, {"> 5", `"b"`}, {"> 2", `"c"`}}, "3", `["a","c"]`},
		{`hitPolicy="COLLECT"`, "", [][]string{{"> 1", "10"}, {"> 2", "10"}}, "3", "[10,10]"},
		{`hitPolicy="COLLECT" aggregation="SUM"`, "", [][]string{{"> 1", "10"}, {"> 2", "10"}}, "3", "20"},
		{`hitPolicy="COLLECT" aggregation="MIN"`, "", [][]string{{"> 1", "7"}, {"> 2", "4"}}, "3", "4"},
		{`hitPolicy="COLLECT" aggregation="MAX"`, "", [][]string{{"> 1", "7"}, {"> 2", "4"}}, "3", "7"},
		{`hitPolicy="COLLECT" aggregation="COUNT"`, "", [][]string{{"> 1", `"x"`}, {"> 2", `"x"`}}, "3", "2"},
	} {
		t.Run(c.attributes, func(t *testing.T) {
			logic := table(c.attributes, in, []column{{text: "r", values: c.values}}, c.rules...)
			answers(t, definitions(input("a", "number"), decision("d", "", logic, "a")), "d",
				[][2]string{{`{"a":` + c.a + `}`, c.due}})
		})
	}
}

func TestATableIsTranslatedAsItIs(t *testing.T) {
	logic := table(`hitPolicy="PRIORITY"`, []column{{text: "age", of: "number"}, {text: "risk", of: "string"}},
		[]column{{text: "rate", of: "number", values: "30, 20, 10", fallback: "10"}},
		[]string{"[18..65)", `"HIGH", "LOW"`, "30"}, []string{"not(< 3, > 7)", "", "20 // cheap"})
	result := taken(t, definitions(input("age", "number"), input("risk", "string"), decision("d", "number", logic, "age", "risk")))
	due := `"expr":{"table":{"hit":"P","inputs":["age","risk"],"outputs":[{"name":"rate","values":["30","20","10"],` +
		`"default":"10"}],"rules":[{"when":["[18..65)","\"HIGH\", \"LOW\""],"then":["30"]},` +
		`{"when":["not(< 3, > 7)","-"],"then":["20"]}]}}`
	if got := logicOf(t, result, "d"); !strings.Contains(got, due) {
		t.Errorf("it is %s", got)
	}
}

// TestExpressions checks the model's text for each expression.
func TestExpressions(t *testing.T) {
	parts := []string{input("a", "number"), input("b", "number"), input("s", "string"), input("net price", "number"),
		input("Größe", "number"), input("f", "boolean")}
	for text, due := range map[string]string{
		"1.0 + 2.00":                      "1 + 2",
		"007":                             "7",
		"sum(a, b)":                       "sum([a, b])",
		"min(list: [a, b])":               "min([a, b])",
		"modulo(divisor: a, dividend: b)": "modulo(b, a)",
		`"\u00e9\U01F600\""`:              `"é😀\""`,
		"a /* one */ + b // two":          "a + b",
		"a-b-(a - b)":                     "a - b - (a - b)",
		"-(a + b) * a":                    "-(a + b) * a",
		"(a + b) * a":                     "(a + b) * a",
		"net   price + Größe":             "net_price + Groesse",
		"a in (1, 3, [5..7), > 9)":        "a = 1 or a = 3 or a >= 5 and a < 7 or a > 9",
		"a in [1..3]":                     "a between 1 and 3",
		"a in [1, 3]":                     "a = 1 or a = 3",
		"a in 1 and f":                    "a = 1 and f",
		"a between 1 and 3":               "a between 1 and 3",
		"if f then a else if a > 1 then b else null": "if f then a else if a > 1 then b else null",
		"(if f then a else b) + 1":                   "(if f then a else b) + 1",
		"not(f) or f and a < b":                      "not(f) or f and a < b",
		"(f or f) and f":                             "(f or f) and f",
		"(a < b) = f":                                "(a < b) = f",
		`s = "a" or s != "b"`:                        `s = "a" or s != "b"`,
		"[a, [b], []]":                               "[a, [b], []]",
		"abs(-a)":                                    "abs(-a)",
		"count([a, b])":                              "count([a, b])",
	} {
		t.Run(text, func(t *testing.T) {
			result := taken(t, expression(text, "", parts...))
			if got := logicOf(t, result, "d"); !strings.Contains(got, fmt.Sprintf(`"expr":%s}`, quoted(due))) {
				t.Errorf("%s is due, and it is %s", due, got)
			}
		})
	}
}

// quoted returns a text in JSON.
func quoted(text string) string {
	return `"` + strings.NewReplacer(`\`, `\\`, `"`, `\"`).Replace(text) + `"`
}

// TestRefusedForms tests a text for each form that the profile lacks, with words of the reason.
func TestRefusedForms(t *testing.T) {
	parts := []string{input("a", "number"), input("l", "tList"),
		`<itemDefinition name="tList" isCollection="true"><typeRef>number</typeRef></itemDefinition>`}
	for text, why := range map[string]string{
		"1.23456789012345678901234567890123456": "over 34 digits",
		"9223372036854775808":                   "past 9223372036854775807",
		"a / 3 + 1":                             "a quotient may only be",
		"a ** 9":                                "a whole number from 1 to 8",
		`@"2020-02-30"`:                         "February 2020 has 29 days",
		`date("2020-1-1")`:                      "a date is written as 2026-01-31",
		`duration("P1Y1D")`:                     "is no duration",
		"string length(\"a\")":                  "no function string length",
		"l[1]":                                  "no filters",
		"l[item > 3]":                           "no filters",
		"for x in l return x":                   "there is no for",
		"for x in 1..a return x":                "there is no for",
		"some x in l satisfies x > 1":           "no some",
		"every x in l satisfies x > 1":          "no every",
		"function(x) x + 1":                     "functions are no values",
		"a instance of context":                 "no instance of",
		"[1..3]":                                "ranges and tests are no values",
		"? > 3":                                 "? stands for",
		"sum(a, a, x: 1)":                       "is not one of list",
		"modulo(a)":                             "1 arguments, where 2 are due",
		"a.b":                                   "no component b",
		"a(1)":                                  "no function",
		"\"a\" in l":                            "not written out",
		"1 +":                                   "at character 4 the text ends",
		"a b":                                   "at character 3 it stops at",
		`"\d"`:                                  "no escape",
		"{a: 1, a: 2}":                          "duplicate key",
		"l[1] + 1.0 / 1":                        "",
		"distinct values(l)":                    "no function distinct values",
		"mean(l)":                               "no function mean",
		"(function(x) x)(1)":                    "functions are no values",
		"date and time(\"2020-01-01T00\")":      "a time is written as",
	} {
		if why != "" {
			t.Run(text, func(t *testing.T) { refusedWith(t, expression(text, "", parts...), why) })
		}
	}
}

func TestAllPlacesInOneRunNoneTwice(t *testing.T) {
	f := knowledge("f", []string{"x:number"}, literal("x[2]"))
	file := definitions(f, decision("d", "", literal("odd(5) + f(2) + f(3)"), "k:f"), decision("e", "", literal("b + b[2]")))
	_, refusals := imported(t, file)
	var texts []string
	for _, r := range refusals {
		texts = append(texts, r.Text)
	}
	if got := strings.Join(texts, "; "); got != "x[2]; odd(5); b; b[2]" && got != "x[2]; odd(5); b[2]; b" {
		t.Errorf("the places are %s", got)
	}
}

func TestContextsListsAndRelations(t *testing.T) {
	entry := func(name, logic string) string {
		if name == "" {
			return "<contextEntry>" + logic + "</contextEntry>"
		}
		return `<contextEntry><variable name="` + name + `"/>` + logic + "</contextEntry>"
	}
	context := "<context>" + entry("net price", literal("a * 2")) + entry("tax", literal("net price + 1")) + "</context>"
	answers(t, definitions(input("a", "number"), decision("d", "", context, "a")), "d",
		[][2]string{{`{"a":3}`, `{"net_price":6,"tax":7}`}})
	withResult := "<context>" + entry("x", literal("a * 2")) + entry("", literal("x + a")) + "</context>"
	answers(t, definitions(input("a", "number"), decision("d", "", withResult, "a")), "d", [][2]string{{`{"a":3}`, "9"}})
	list := "<list>" + literal("a") + context + "</list>"
	answers(t, definitions(input("a", "number"), decision("d", "", list, "a")), "d",
		[][2]string{{`{"a":3}`, `[3,{"net_price":6,"tax":7}]`}})
	relation := `<relation><column name="x"/><column name="y"/><row>` + literal("1") + literal("a") + "</row><row>" +
		literal("2") + literal(`"z"`) + "</row></relation>"
	answers(t, definitions(input("a", "number"), decision("d", "", relation, "a"),
		decision("e", "", literal("d.x"), "d:d")), "e", [][2]string{{`{"a":3}`, "[1,2]"}})
	refusedWith(t, definitions(input("x", "number"), decision("d", "", `<relation><column name="x"/><column name="y"/><row>`+
		literal("1")+literal("x")+"</row></relation>", "x")), "the name of a column before it")
}

func TestContextLiterals(t *testing.T) {
	answers(t, expression("{x: a + 1, y: x * 2}", "", input("a", "number")), "d",
		[][2]string{{`{"a":3}`, `{"x":4,"y":8}`}})
	answers(t, expression("{x: a + 1, y: x * 2}.y + 1", "", input("a", "number")), "d", [][2]string{{`{"a":3}`, "9"}})
	answers(t, expression("if a > 1 then {a: 1} else [{b: a}]", "", input("a", "number")), "d",
		[][2]string{{`{"a":3}`, `{"a":1}`}, {`{"a":0}`, `[{"b":0}]`}})
	answers(t, expression("[{a: a}, {a: a + 1}].a", "", input("a", "number")), "d", [][2]string{{`{"a":3}`, "[3,4]"}})
}

func TestConditionals(t *testing.T) {
	conditional := func(parts ...string) string {
		return "<conditional><if>" + parts[0] + "</if><then>" + parts[1] + "</then><else>" + parts[2] + "</else></conditional>"
	}
	inner := "<list>" + literal("a") + "</list>"
	answers(t, definitions(input("a", "number"), decision("d", "", conditional(literal("a > 1"), inner,
		conditional(literal("a = 1"), literal("7"), literal("8"))), "a")), "d",
		[][2]string{{`{"a":3}`, "[3]"}, {`{"a":1}`, "7"}, {`{}`, "8"}})
}

func TestInvocations(t *testing.T) {
	f := knowledge("monthly fee", []string{"base price:number", "n:number"}, literal("base price * n - n"))
	answers(t, definitions(f, input("n", "number"), decision("d", "", literal("monthly fee(n + 1, 10) + n"), "n",
		"k:monthly fee")), "d", [][2]string{{`{"n":2}`, "22"}})
	answers(t, definitions(f, input("n", "number"), decision("d", "", literal("monthly fee(n: 10, base price: n + 1)"), "n",
		"k:monthly fee")), "d", [][2]string{{`{"n":2}`, "20"}})
	boxed := `<invocation><literalExpression><text>monthly fee</text></literalExpression><binding><parameter name="n"/>` +
		literal("10") + `</binding><binding><parameter name="base price"/>` + literal("n + 1") + "</binding></invocation>"
	answers(t, definitions(f, input("n", "number"), decision("d", "", boxed, "n", "k:monthly fee")), "d",
		[][2]string{{`{"n":2}`, "20"}})
	// Knowledge that invokes knowledge, with a table as its body.
	g := knowledge("g", []string{"n:number"}, table("", []column{{text: "n", of: "number"}}, []column{{text: "r"}},
		[]string{"> 5", "monthly fee(n, 2)"}, []string{"<= 5", "n"}), "k:monthly fee")
	answers(t, definitions(f, g, decision("d", "", literal("[g(7), g(5), g(g(7))]"), "k:g")), "d",
		[][2]string{{`{}`, "[12,5,22]"}})
	for text, why := range map[string]string{
		"monthly fee(1)":             "1 arguments, where monthly fee has 2",
		"monthly fee(1, 2, 3)":       "3 arguments",
		"monthly fee(n: 1, m: 2)":    "no parameter of monthly fee",
		"monthly fee(n: 1, n: 2)":    "is given twice",
		`monthly fee(1, "x")`:        "the argument for n: it is of the type string",
		"[monthly fee]":              "functions are no values",
		"monthly fee(1, 2).years":    "no component",
		"monthly fee(monthly fee,1)": "functions are no values",
	} {
		refusedWith(t, definitions(f, decision("d", "", literal(text), "k:monthly fee")), why)
	}
}

func TestRecursionIsRefused(t *testing.T) {
	f := knowledge("f", []string{"n:number"}, literal("if n = 0 then 1 else n * f(n - 1)"), "k:f")
	refusedWith(t, definitions(f, decision("d", "", literal("f(3)"), "k:f")), "f invokes itself")
	g := knowledge("g", []string{"n:number"}, literal("h(n)"), "k:h")
	h := knowledge("h", []string{"n:number"}, literal("g(n)"), "k:g")
	refusedWith(t, definitions(g, h, decision("d", "", literal("g(3)"), "k:g")), "g invokes itself")
}

func TestAnExplosionOfInvocationsIsRefused(t *testing.T) {
	parts := []string{knowledge("f0", []string{"n:number"}, literal("n + 1"))}
	for i := 1; i <= 30; i++ {
		body := fmt.Sprintf("f%d(n) + f%d(n)", i-1, i-1)
		parts = append(parts, knowledge(fmt.Sprintf("f%d", i), []string{"n:number"}, literal(body), fmt.Sprintf("k:f%d", i-1)))
	}
	parts = append(parts, decision("d", "", literal("f30(1)"), "k:f30"))
	refusedWith(t, definitions(parts...), "longer than a line")
}

func TestConditionsInEntriesAreAFurtherColumn(t *testing.T) {
	in := []column{{text: "a", of: "number"}, {text: "b", of: "number"}}
	out := []column{{text: "r", of: "number"}}
	logic := table(`hitPolicy="FIRST"`, in, out,
		[]string{"? > b", "-", "1"}, []string{"modulo(?, 2) = 0", "not(? + a > 10)", "2"}, []string{"? < 100", "-", "3"})
	file := definitions(input("a", "number"), input("b", "number"), decision("d", "", logic, "a", "b"))
	answers(t, file, "d", [][2]string{
		{`{"a":5,"b":3}`, "1"}, {`{"a":4,"b":6}`, "2"}, {`{"a":4,"b":7}`, "3"}, {`{"a":3,"b":3}`, "3"},
		{`{"a":100,"b":100}`, "null"}, {`{"b":1}`, "null"}})
	due := `"inputs":["a","b","true"]`
	if got := logicOf(t, taken(t, file), "d"); !strings.Contains(got, due) || !strings.Contains(got, `"when":["> b","-","-"]`) {
		t.Errorf("it is %s", got)
	}
	refusedWith(t, definitions(input("a", "number"), input("b", "number"), decision("d", "", table("", in, out,
		[]string{"? + 1", "-", "1"}), "a", "b")), "is no condition")
}

func TestNames(t *testing.T) {
	long := strings.Repeat("very ", 20) + "long name"
	parts := []string{input("net price", "number"), input("net_price", "number"), input("net-price", "number"),
		input("Größe", "number"), input("Client's \"best\" price", "number"), input("price", "number"),
		input("net price of goods", "number"), input(long, "number"), input(long+"r", "number"), input("if", "number")}
	result := taken(t, expression("net price of goods + net price + net_price + net-price + price + Größe + "+long, "", parts...))
	due := "net_price_of_goods + net_price_2 + net_price + net_price_3 + price + Groesse + "
	if got := logicOf(t, result, "d"); !strings.Contains(got, due) {
		t.Errorf("it is %s", got)
	}
	seen := map[string]bool{}
	for _, word := range result.Model.Inputs {
		if seen[word] || len(word) > 64 || result.Names[word] == "" {
			t.Errorf("the word %q is twice, too long, or has no name", word)
		}
		seen[word] = true
	}
	if got := result.Names["net_price_3"]; got != "net-price" {
		t.Errorf("the name of net_price_3 is %q", got)
	}
}

func TestNamesOfComponents(t *testing.T) {
	order := `<itemDefinition name="tOrder"><itemComponent name="net price"><typeRef>number</typeRef></itemComponent>` +
		`<itemComponent name="net-weight"><typeRef>number</typeRef></itemComponent></itemDefinition>`
	answers(t, expression("order.net price + order.net-weight - order.net price", "", order, input("order", "tOrder")), "d",
		[][2]string{{`{"order":{"net_price":4,"net_weight":3}}`, "3"}})
	refusedWith(t, expression("order.gross price", "", order, input("order", "tOrder")), "no component gross price")
}

func TestChainsDeeperThanTheEngineReads(t *testing.T) {
	parts := []string{input("a", "number"), input("f", "boolean")}
	sum := strings.TrimSuffix(strings.Repeat("a - 1 + ", 200), " + ")
	answers(t, expression(sum, "", parts...), "d", [][2]string{{`{"a":3}`, "400"}})
	minus := "a" + strings.Repeat(" - 1", 300)
	answers(t, expression(minus, "", parts...), "d", [][2]string{{`{"a":3}`, "-297"}})
	or := strings.Repeat("a = 5 or ", 150) + "f"
	answers(t, expression(or, "", parts...), "d", [][2]string{{`{"a":3,"f":true}`, "true"}, {`{"a":3}`, "null"}})
	product := "a" + strings.Repeat(" * 1", 100)
	answers(t, expression(product, "", parts...), "d", [][2]string{{`{"a":3}`, "3"}})
	var ifs strings.Builder
	for i := 0; i < 200; i++ {
		fmt.Fprintf(&ifs, "if a = %d then %d else ", i, i*i)
	}
	answers(t, expression(ifs.String()+"-1", "", parts...), "d", [][2]string{{`{"a":150}`, "22500"}, {`{"a":200}`, "-1"}})
	lists := strings.Repeat("[", 80) + "a" + strings.Repeat("]", 80)
	answers(t, expression(lists, "", parts...), "d", [][2]string{{`{"a":1}`, strings.Repeat("[", 80) + "1" +
		strings.Repeat("]", 80)}})
}

// TestDeepLiterals tests literals so deep that some become entries, in one decision and in business knowledge that two
// decisions invoke.
func TestDeepLiterals(t *testing.T) {
	deep := strings.Repeat("(", 80) + "1" + strings.Repeat(" + 2) * 1", 80)
	answers(t, expression("a + "+deep, "", input("a", "number")), "d", [][2]string{{`{"a":1}`, "162"}})
	answers(t, expression("a * 0.5 + "+deep, "", input("a", "number")), "d", [][2]string{{`{"a":100}`, "161500"}})
	file := definitions(input("a", "number"), knowledge("f", []string{"p:number"}, literal("p + "+deep)),
		decision("d", "", literal("f(a)"), "a", "k:f"), decision("e", "", literal("f(a) + 1"), "a", "k:f"))
	answers(t, file, "d", [][2]string{{`{"a":1}`, "162"}})
	answers(t, file, "e", [][2]string{{`{"a":1}`, "163"}})
}

func TestDecisionServices(t *testing.T) {
	service := `<decisionService id="s" name="my service"><outputDecision href="#d"/><encapsulatedDecision href="#e"/>` +
		`<inputDecision href="#g"/><inputData href="#a"/></decisionService>`
	parts := []string{input("a", "number"), input("b", "number"), decision("e", "", literal("a + g"), "a", "d:g"),
		decision("g", "", literal("b"), "b"), decision("d", "", literal("e * 2"), "d:e")}
	answers(t, definitions(append(parts, service)...), "my_service", [][2]string{{`{"a":1,"g":4}`, "10"}})
	result := taken(t, definitions(append(parts, service)...))
	if len(result.Model.Services) != 1 {
		t.Errorf("the services are %v", result.Model.Services)
	}
	without := strings.Replace(service, `<inputData href="#a"/>`, "", 1)
	refusedWith(t, definitions(append(parts, without)...), "doesn't list it")
	both := strings.Replace(service, `<inputDecision href="#g"/>`, `<inputDecision href="#e"/>`, 1)
	refusedWith(t, definitions(append(parts, both)...), "input decision, and an output")
}

func TestServicesOfAFileWithout(t *testing.T) {
	result := taken(t, definitions(input("a", "number"), decision("e", "", literal("a + 1"), "a"),
		decision("d", "", literal("e * 2"), "d:e")))
	var names []string
	for _, s := range result.Model.Services {
		names = append(names, s.Name)
	}
	if got := strings.Join(names, " "); got != "d e" {
		t.Errorf("the services are %s", got)
	}
}

func TestAChainOfDecisionsStaysWithinALine(t *testing.T) {
	parts := []string{input("a", "number"), decision("decision number 0000", "", literal("a"), "a")}
	for i := 1; i < 500; i++ {
		parts = append(parts, decision(fmt.Sprintf("decision number %04d", i), "", literal(fmt.Sprintf(
			"decision number %04d + 1", i-1)), fmt.Sprintf("d:decision number %04d", i-1)))
	}
	result := taken(t, definitions(parts...))
	if len(result.LeftOut) == 0 || len(result.Model.Services)+len(result.LeftOut) != 500 {
		t.Errorf("there are %d services, and %d are left out", len(result.Model.Services), len(result.LeftOut))
	}
	d := startDesk(t)
	d.model(result)
	if got := d.ask("decision_number_0499", `{"a":1}`); got != "500" {
		t.Errorf("it gives %s", got)
	}
}

func TestCyclesOfDecisionsAreRefused(t *testing.T) {
	refusedWith(t, definitions(decision("d", "", literal("1"), "d:e"), decision("e", "", literal("1"), "d:d")), "needs itself")
}

func TestCyclesOfTypesAreRefused(t *testing.T) {
	refusedWith(t, definitions(`<itemDefinition name="tA"><itemComponent name="x"><typeRef>tA</typeRef></itemComponent>`+
		`</itemDefinition>`, decision("d", "", literal("1"))), "made of itself")
}

func TestTypesOfRequests(t *testing.T) {
	order := `<itemDefinition name="tOrder"><itemComponent name="price"><typeRef>number</typeRef></itemComponent>` +
		`<itemComponent name="tags" isCollection="true"><typeRef>string</typeRef></itemComponent></itemDefinition>`
	result := taken(t, definitions(order, input("o", "tOrder"), input("x", ""), input("y", ""), decision("d", "number",
		literal("x.size + o.price"), "o", "x"), decision("e", "", table("", []column{{text: "y.age", of: "number"}},
		[]column{{text: "r"}}, []string{"> 1", "1"}), "y")))
	for word, due := range map[string]string{
		"o": `{"properties":{"price":{"type":["integer","null"]},"tags":{"items":{"type":["string","null"]},` +
			`"type":["array","null"]}},"type":["object","null"]}`,
		"x": `{}`,
		"y": `{"properties":{"age":{"type":["integer","null"]}},"type":["object","null"]}`,
		"d": `{"type":["integer","null"]}`,
	} {
		if got := string(result.Types[word]); got != due {
			t.Errorf("the type of %s is %s", word, got)
		}
	}
}

func TestPlaces(t *testing.T) {
	f := knowledge("f", []string{"x:number"}, strings.Replace(table("", []column{{text: "x"}}, []column{{text: "r"}},
		[]string{"> 1", "1"}), "<rule>", `<rule id="rule_1">`, 1))
	result := taken(t, definitions(f, input("a", "number"), decision("d", "", literal("f(a) + 1"), "a", "k:f")))
	for pointer, id := range map[string]string{
		"/inputs/0": "a", "/decisions/0": "d",
		"/decisions/0/expr/context/0/expr/result/table/rules/0": "rule_1",
	} {
		if got := result.Places[pointer].ID; got != id {
			t.Errorf("at %s is %q, of %v", pointer, got, result.Places)
		}
	}
}
