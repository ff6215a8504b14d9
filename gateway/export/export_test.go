package export

import (
	"fmt"
	"strings"
	"testing"

	"gateway/model"
)

// place returns a scope with: anything a and b, a number n, a text s, a boolean f, a list of numbers l, a list of anything m, a
// context c with the entry "x y", and two names that joined by a minus spell a third one.
func place() *scope {
	return placeOf(map[string]shape{
		"a": anything, "b": anything, "n": number, "s": {kinds: isText | isNull}, "f": condition,
		"l": {kinds: isList | isNull, members: &number}, "m": {kinds: isList},
		"c":      {kinds: isContext, entries: map[string]shape{"x_y": number}},
		"Age_in": number, "net_a": number, "net": number,
	}, map[string]string{"x_y": "x y", "Age_in": "Age in years", "net_a": "net-a"})
}

func placeOf(bound map[string]shape, spelled map[string]string) *scope {
	s := newScope(newDictionary(spelled))
	for name, value := range bound {
		s.bind(name, value)
	}
	return s
}

func TestAnExpressionMeansTheSameInTheStandard(t *testing.T) {
	for text, due := range map[string]string{
		// Texts that mean the same stay as they are, with their blanks and parentheses.
		"if  (n > 1) and f then [n, 2] else null": "if  (n > 1) and f then [n, 2] else null",
		"n between 1 and 2 or not(f)":             "n between 1 and 2 or not(f)",
		"-n * 2 - abs(a)":                         "-n * 2 - abs(a)",
		// Names are those of the file; an unbound one is null.
		"Age_in + c.x_y":    "Age in years + c.x y",
		"unknown = n":       "null = n",
		"modulo(Age_in, 3)": "modulo(Age in years, 3)",
		// Two texts have no sum.
		"a + b":                      "a - -b",
		"a + (b) + a":                "a - -(b) + a",
		"a + 1 + b":                  "a + 1 + b",
		"n + a":                      "n + a",
		"a * 2 + b":                  "a * 2 + b",
		`"x" + s`:                    `"x" - -s`,
		"a.p + b.q":                  "a.p - -b.q",
		"abs(a + b)":                 "abs(a - -b)",
		"sum(l) + a":                 "sum(l) + a",
		"n - (a + b)":                "n - (a - -b)",
		"if f then a + s else n + s": "if f then a - -s else n + s",
		// A single value is not a list, and texts have no least.
		"sum(l)":      "sum(l)",
		"sum(n)":      "null",
		"sum([a])":    "sum([a])",
		"max(l)":      "max(l)",
		"max([a, 1])": "(max([a, 1]) + 0)",
		"max([n, 1])": "max([n, 1])",
		"count(m)":    "count(m)",
		"count(a)":    "(if (a) instance of list<Any> then count(a) else null)",
		"sum(a.p)":    "(if (a.p) instance of list<Any> then sum(a.p) else null)",
		"min(a)":      "(if (a) instance of list<Any> then (min(a) + 0) else null)",
		"if count(a) >= 0 then sum(a) else sum([a])": "sum(a)",
		"if count(a) >= 0 then sum(a) else sum([b])": "if (if (a) instance of list<Any> then count(a) else null) >= 0 then " +
			"(if (a) instance of list<Any> then sum(a) else null) else sum([b])",
		"1 + count( a )": "1 + (if (a) instance of list<Any> then count( a ) else null)",
		// Characters that only our literals may have are escaped.
		"\"a\nb\\\"\"": `"a\nb\""`,
		"\"\x0b\"":     `"\u000b"`,
	} {
		got, err := place().expression(text)
		if err != nil || got != due {
			t.Errorf("%s: %s, %v, due %s", text, got, err, due)
		}
	}
}

func TestUnaryTestsMeanTheSameInTheStandard(t *testing.T) {
	for _, c := range []struct {
		input     shape
		text, due string
	}{
		{anything, "-", "-"},
		{anything, "< n + 1, >= 3", "< n + 1, >= 3"},
		{anything, "[1..Age_in)", "[1..Age in years)"},
		{anything, "]a..2[", "]a..2["},
		{anything, "true, false", "true, false"},
		{anything, "n, s, [1, 2], l", "n, s, [1, 2], l"},
		// A condition is compared.
		{anything, "n > 3", "? = (n > 3)"},
		{anything, "f, 1", "? = (f), 1"},
		{anything, "not(f) = true", "? = (not(f) = true)"},
		{anything, "a", "? = (a) or (a) instance of list<Any> and list contains(a, ?)"},
		// Nothing in a negation is unknown.
		{number, "not(-3, null, n, < 2)", "not(-3, null, n, < 2)"},
		{shape{kinds: isText}, `not("a", null)`, `not("a", null)`},
		{condition, "not(true)", "not(true)"},
		{number, "not((0..n], 9)", "not((0..n], 9)"},
		{anything, `not("a", [1])`, `not(((? = ("a")) = true), [1])`},
		{number, `not("a")`, `not(((? = ("a")) = true))`},
		{condition, "not(f)", "not(((? = (f)) = true))"},
	} {
		got, err := place().tests(c.text, c.input)
		if err != nil || got != c.due {
			t.Errorf("%s: %s, %v, due %s", c.text, got, err, c.due)
		}
	}
}

func TestWhatCantBeWrittenIsRefused(t *testing.T) {
	// With a plain minus between them, net and a would become the name net-a.
	for _, text := range []string{"net-a", "net - a"} {
		if got, err := place().expression(text); err == nil {
			t.Errorf("%s: %s", text, got)
		}
	}
	hidden := place().inner()
	hidden.bind("count", number)
	if got, err := hidden.expression("count(l)"); err == nil {
		t.Errorf("count is a name and called: %s", got)
	}
	if got, err := hidden.expression("count + 1"); err != nil || got != "count + 1" {
		t.Errorf("count is a name: %s, %v", got, err)
	}
}

// written returns the file of one decision over the inputs a and b.
func written(t *testing.T, expr string) (string, []Refusal) {
	t.Helper()
	source, err := Read([]byte(`{"inputs":["a","b"],"decisions":[{"name":"d","needs":["a","b"],"expr":` + expr + `}],"services":[]}`))
	if err != nil {
		t.Fatal(err)
	}
	file, refusals := File(source)
	return string(file), refusals
}

func table(hit, outputs, rules string) string {
	return fmt.Sprintf(`{"table":{"hit":%q,"inputs":["a"],"outputs":[%s],"rules":[%s]}}`, hit, outputs, rules)
}

func TestATableMeansTheSameInTheStandard(t *testing.T) {
	const one, two = `{"when":["-"],"then":["1"]}`, `{"when":["> 1"],"then":["2"]}`
	for _, c := range []struct{ expr, has, hasNot string }{
		{table("U", `{"name":"r"}`, one), `hitPolicy="UNIQUE"`, "aggregation"},
		{table("C+", `{"name":"r"}`, one), `hitPolicy="COLLECT" aggregation="SUM"`, ""},
		{table("C<", `{"name":"r"}`, one), `aggregation="MIN"`, "0 + "},
		{table("C<", `{"name":"r"}`, `{"when":["-"],"then":["b"]}`), "<text>0 + (b)</text>", ""},
		{table("P", `{"name":"r"}`, one), `hitPolicy="FIRST"`, ""},
		{table("O", `{"name":"r"}`, one), `hitPolicy="RULE ORDER"`, ""},
		{table("P", `{"name":"r","values":["2"," 1 "]}`, one+","+two), `hitPolicy="PRIORITY"`, ""},
		{table("P", `{"name":"r","values":["2","1"]}`, one), "<text>2, 1</text>", ""},
		// Values that don't order anything would forbid the others.
		{table("U", `{"name":"r","values":["2"]}`, one), "", "outputValues"},
		{table("U", `{"name":"r","values":["1"],"default":"7"}`, one), "", "outputValues"},
		{table("U", `{"name":"r","values":["1","7"],"default":"7"}`, one), "defaultOutputEntry", "contextEntry"},
		// The count without hits is null.
		{table("C#", `{"name":"r"}`, two), "<defaultOutputEntry", ""},
		{table("C#", `{"name":"r"}`, one), "", "defaultOutputEntry"},
		{table("C#", `{"name":"r","default":"0"}`, two), "<text>0</text>", "contextEntry"},
		// A default is not put into a list.
		{table("C", `{"name":"r","default":"7"}`, two), "<text>if hits = null then (7) else hits</text>", "defaultOutputEntry"},
		{table("O", `{"name":"r","default":"7"},{"name":"q"}`, `{"when":["1"],"then":["1","2"]}`),
			`<text>if hits = null then {"r": (7), "q": null} else hits</text>`, "defaultOutputEntry"},
	} {
		file, refusals := written(t, c.expr)
		if len(refusals) > 0 || !strings.Contains(file, c.has) || c.hasNot != "" && strings.Contains(file, c.hasNot) {
			t.Errorf("%s: %v\n%s", c.expr, refusals, file)
		}
	}
}

func TestAPriorityOverWhatIsNotListedIsRefused(t *testing.T) {
	_, refusals := written(t, table("P", `{"name":"r","values":["2"]}`, `{"when":["-"],"then":["1"]}`))
	if len(refusals) != 1 || refusals[0].Pointer != "/decisions/0/expr/table/outputs/0/values" {
		t.Errorf("%v", refusals)
	}
}

func TestAllPlacesAreReportedInOneRun(t *testing.T) {
	source, err := Read([]byte(`{"inputs":["for","count"],"decisions":[{"name":"d","needs":["count"],"expr":{"list":["count([])","1"]}}],"services":[]}`))
	if err != nil {
		t.Fatal(err)
	}
	_, refusals := File(source)
	var places []string
	for _, r := range refusals {
		places = append(places, r.Pointer)
	}
	if due := "/inputs/0 /decisions/0/expr/list/0"; strings.Join(places, " ") != due {
		t.Errorf("%v, due %s", refusals, due)
	}
}

func TestServicesThatAnImportMakesAreNotWritten(t *testing.T) {
	source, err := Read([]byte(`{"inputs":["a"],"decisions":[{"name":"d","needs":["a"],"expr":"a"},{"name":"e","needs":["d"],"expr":"d"}],` +
		`"services":[{"name":"e","outputs":["e"],"encapsulated":["d"],"inputDecisions":[],"inputData":["a"]},` +
		`{"name":"d","outputs":["d"],"encapsulated":[],"inputDecisions":[],"inputData":["a"]}]}`))
	if err != nil {
		t.Fatal(err)
	}
	file, refusals := File(source)
	if len(refusals) > 0 || strings.Contains(string(file), "decisionService") {
		t.Errorf("%v %s", refusals, file)
	}
	source.Model.Services = source.Model.Services[:1]
	if file, _ := File(source); !strings.Contains(string(file), `<outputDecision href="#decision_e" />`) {
		t.Errorf("%s", file)
	}
}

func TestTypesOfAnImportBecomeDefinitions(t *testing.T) {
	source, err := Read([]byte(`{"model":{"inputs":["p","q","r"],"decisions":[],"services":[]},"names":{"p":"P q","x":"x y"},` +
		`"types":{"p":{"type":"object","properties":{"x":{"enum":["A","\"",null],"type":["string","null"]}}},` +
		`"q":{"type":["number","null"]},"r":{"type":"array","items":{"type":"integer"}}}}`))
	if err != nil {
		t.Fatal(err)
	}
	file, refusals := File(source)
	for _, due := range []string{
		`<variable id="variable_1" name="P q" typeRef="tP q" />`, `<itemComponent id="item_2" name="x y">`,
		`<text>"A", "\""</text>`, `name="q" typeRef="number"`, `name="tr" isCollection="true"`,
	} {
		if len(refusals) > 0 || !strings.Contains(string(file), due) {
			t.Errorf("%v, due %s in\n%s", refusals, due, file)
		}
	}
}

func TestTheDiagramHasLayers(t *testing.T) {
	g := graph{inputs: []string{"a", "b"}, decisions: []string{"top", "mid", "low"}, needs: map[string][]string{
		"top": {"mid", "a"}, "mid": {"low"}, "low": {"b"}}}
	boxes := g.boxes()
	for _, pair := range [][2]string{{"top", "mid"}, {"mid", "low"}, {"low", "a"}, {"low", "b"}} {
		upper, lower := boxes[pair[0]], boxes[pair[1]]
		if upper.y+upper.height >= lower.y {
			t.Errorf("%s stands not above %s: %v", pair[0], pair[1], boxes)
		}
	}
	if a, b := boxes["a"], boxes["b"]; a.x+a.width >= b.x || a.y != b.y {
		t.Errorf("the inputs stand not beside each other: %v", boxes)
	}
}

func TestAChainOfAThousandDecisionsIsLaidOut(t *testing.T) {
	m := &model.Model{Inputs: []string{"i"}}
	before := "i"
	for n := 0; n < 1000; n++ {
		name := fmt.Sprintf("d%d", n)
		m.Decisions = append(m.Decisions, model.Decision{Name: name, Needs: []string{before}, Expr: model.Literal(before + " + 1")})
		before = name
	}
	if file, refusals := File(Source{Model: m}); len(refusals) > 0 || strings.Count(string(file), "<dmndi:DMNShape") != 1001 {
		t.Errorf("%v", refusals)
	}
}
