package profile_test

import (
	"fmt"
	"go/ast"
	"go/parser"
	"go/token"
	"strconv"
	"strings"
	"testing"

	"gateway/profile"
)

// ofTable returns a file with a decision q, a table over a number a and other inputs given as "name:type".
func ofTable(attributes string, inputs, outputs []column, others string, rows ...[]string) string {
	return typedFile(hintTypes, "", table(attributes, inputs, outputs, rows...), strings.TrimSpace("a:number "+others))
}

// ofA returns values of a with the expected answers.
func ofA(of ...string) (due [][2]string) {
	for i := 0; i < len(of); i += 2 {
		due = append(due, [2]string{fmt.Sprintf(`{"a":%s}`, of[i]), of[i+1]})
	}
	return due
}

const first = `hitPolicy="FIRST"`

// entryHints returns the hints of input and output entries.
func entryHints() []filedHint {
	a, r := []column{{text: "a"}}, []column{{text: "r"}}
	flags := func(columns []column, rows ...[]string) string {
		return ofTable(first, columns, r, "f:boolean b:boolean", rows...)
	}
	state := func(values, of, entry string) string {
		return typedFile(item("tState", amongst("string", `"Ready", "Done"`)), "", table(first, []column{{text: "s", values: values}}, r,
			[]string{entry, "1"}, []string{"-", "2"}), "s:"+of)
	}
	states := [][2]string{{`{"s":"Done"}`, "1"}, {`{"s":"Ready"}`, "2"}}
	doubtful := flags([]column{{text: "f"}}, []string{"b", "1"}, []string{"-", "2"})
	given := []column{{text: "r", values: `"low","high"`}}
	return []filedHint{
		{name: "a condition as a test, compared", refused: doubtful, hint: "? = (b), or a column of its own", written: flags([]column{{text: "f"}}, []string{"? = (b)", "1"}, []string{"-", "2"}),
			due: [][2]string{{`{"f":true,"b":true}`, "1"}, {`{"f":true,"b":false}`, "2"}, {`{"f":false,"b":false}`, "1"}}},
		{name: "a condition as a test, true by itself", refused: doubtful, hint: "? = (b), or a column of its own",
			written: flags([]column{{text: "f"}, {text: "b"}}, []string{"-", "true", "1"}, []string{"-", "-", "2"}),
			due:     [][2]string{{`{"f":false,"b":true}`, "1"}, {`{"f":true,"b":false}`, "2"}, {`{"f":true,"b":null}`, "2"}}},
		{name: "none of the input values", refused: state(`"Ready","Done"`, "string", `"done"`), hint: "one of the input values", written: state(`"Ready","Done"`, "string", `"Done"`), due: states},
		{name: "none of the allowed values", refused: state("", "tState", `"done"`), hint: "one of the allowed values", written: state("", "tState", `"Done"`), due: states},
		{name: "a text in a column of numbers", refused: ofTable(first, a, r, "", []string{`"3"`, "1"}, []string{"-", "2"}), hint: "a value of the column's type",
			written: ofTable(first, a, r, "", []string{"3", "1"}, []string{"-", "2"}), due: ofA("3", "1", "4", "2", "null", "2")},
		{name: "none of the output values", refused: ofTable(first, a, given, "", []string{"> 3", `"hihg"`}, []string{"-", `"low"`}), hint: "one of these",
			written: ofTable(first, a, given, "", []string{"> 3", `"high"`}, []string{"-", `"low"`}), due: ofA("4", `"high"`, "3", `"low"`, "null", `"low"`)},
	}
}

// policyHints returns the hints of hit policies and aggregations.
func policyHints() []filedHint {
	a, r, both := []column{{text: "a"}}, []column{{text: "r"}}, []column{{text: "p"}, {text: "r"}}
	two := func(attributes string, outputs []column) string {
		return ofTable(attributes, a, outputs, "", []string{"> 1", "10"}, []string{"> 2", "20"})
	}
	const sum = `hitPolicy="COLLECT" aggregation="SUM"`
	summed := func(name, low, high string) string {
		return decision(name, "", table(sum, a, r, []string{"> 1", low}, []string{"> 2", high}), "a")
	}
	levels := func(values string) string {
		return ofTable(`hitPolicy="PRIORITY"`, a, []column{{text: "r", values: values}}, "", []string{"> 1", `"low"`}, []string{"> 2", `"high"`})
	}
	dates := func(attributes, cell string) string {
		return ofTable(attributes, a, r, "d:date", []string{"> 1", cell}, []string{"> 2", cell})
	}
	least := func(of string) string {
		return ofTable(`hitPolicy="COLLECT" aggregation="MIN"`, a, []column{{text: "r", of: of}}, "y", []string{"> 1", "y"}, []string{"> 2", "7"})
	}
	quotients := func(cell string) string { return ofTable(sum, a, r, "", []string{"> 0", cell}) }
	day := `{"a":3,"d":"2026-01-31"}`
	return []filedHint{
		{name: "no hit policy", refused: two(`hitPolicy="BEST"`, r), hint: "UNIQUE, ANY, PRIORITY, FIRST, RULE ORDER, OUTPUT ORDER or COLLECT", written: two(first, r),
			due: ofA("3", "10", "1", "null")},
		{name: "a sum of the first", refused: two(`hitPolicy="FIRST" aggregation="SUM"`, r), hint: "SUM, MIN, MAX or COUNT, under COLLECT", written: two(sum, r),
			due: ofA("3", "30", "2", "10", "1", "null", "null", "null")},
		{name: "a sum over two outputs", refused: ofTable(sum, a, both, "", []string{"> 1", "10", "1"}, []string{"> 2", "20", "2"}), hint: "a table for each output",
			written: overNumber(literal("{p: e, r: f}"), summed("e", "10", "20"), summed("f", "1", "2"), "d:e", "d:f"),
			due:     ofA("3", `{"p":30,"r":3}`, "2", `{"p":10,"r":1}`, "1", `{"p":null,"r":null}`)},
		{name: "priorities without values", refused: levels(""), hint: "outputValues that are literals, the highest in priority first", written: levels(`"high","low"`),
			due: ofA("3", `"high"`, "2", `"low"`, "1", "null")},
		{name: "a default of a list", refused: two(`hitPolicy="COLLECT"`, []column{{text: "r", fallback: "0"}}),
			hint: "no default, and a decision over this one: if x = null then [1] else x", written: overNumber(literal("if x = null then [0] else x"),
				decision("x", "", table(`hitPolicy="COLLECT"`, a, r, []string{"> 1", "10"}, []string{"> 2", "20"}), "a"), "d:x"),
			due: ofA("3", "[10,20]", "2", "[10]", "1", "[0]")},
		{name: "a sum of dates, collected", refused: dates(sum, "d"), hint: "COLLECT without SUM, or a number", written: dates(`hitPolicy="COLLECT"`, "d"),
			due: [][2]string{{day, `["2026-01-31","2026-01-31"]`}}},
		{name: "a sum of dates, of numbers", refused: dates(sum, "d"), hint: "COLLECT without SUM, or a number", written: dates(sum, "d.year"), due: [][2]string{{day, "4052"}}},
		{name: "a sum of quotients", refused: quotients("a / 3"), hint: "a rounding in each output entry", written: quotients("decimal(a / 3, 2)"), due: ofA("1", "0.33", "2", "0.67", "0", "null")},
		{name: "the least of what may be no numbers", refused: least(""), hint: "the type number for the output", written: least("number"),
			due: [][2]string{{`{"a":3,"y":5}`, "5"}, {`{"a":3,"y":9}`, "7"}, {`{"a":2,"y":9}`, "9"}, {`{"a":1,"y":9}`, "null"}}},
	}
}

// columnHints returns the hints of columns and of the cells of rules.
func columnHints() []filedHint {
	a, r := []column{{text: "a"}}, []column{{text: "r"}}
	outputs := func(names ...string) string {
		return ofTable(first, a, []column{{text: names[0]}, {text: names[1]}}, "", []string{"> 1", "10", "1"})
	}
	pairs := ofA("2", `{"p":10,"r":1}`, "1", "null")
	whole, tens := ofTable(first, a, r, "", []string{"> 1", "10"}), ofA("2", "10", "1", "null")
	shares := func(of string) string {
		return ofTable(first, []column{{text: "a / 3", of: of}}, r, "", []string{"> 0.5", "1"}, []string{"-", "2"})
	}
	return []filedHint{
		{name: "no output", refused: ofTable(first, a, nil, "", []string{"> 1"}), hint: "an output", written: whole, due: tens},
		{name: "a rule without an output entry", refused: ofTable(first, a, r, "", []string{"> 1"}), hint: "an entry for each column", written: whole, due: tens},
		{name: "a column without an expression", refused: strings.Replace(whole, "<inputExpression><text>a</text></inputExpression>", "", 1),
			hint: "what the tests of the column are asked of", written: whole, due: tens},
		{name: "an output without a name", refused: outputs("", "r"), hint: "a name for each", written: outputs("p", "r"), due: pairs},
		{name: "an output's name twice", refused: outputs("r", "r"), hint: "another name", written: outputs("p", "r"), due: pairs},
		{name: "a quotient that is called a text", refused: shares("string"), hint: "the type number", written: shares("number"), due: ofA("1.5", "2", "1.51", "1", "null", "2")},
	}
}

// serves returns a decision service with its lists: "outputDecision e", "inputData a".
func serves(name string, lists ...string) string {
	var all strings.Builder
	for _, one := range lists {
		tag, id, _ := strings.Cut(one, " ")
		fmt.Fprintf(&all, `<%s href="#%s"/>`, tag, id)
	}
	return fmt.Sprintf(`<decisionService id="s_%[1]s" name="%[1]s">%[2]s</decisionService>`, name, all.String())
}

// manyServices returns a file whose services take more than a line, since each lists all of its decisions.
func manyServices() string {
	var parts, lists []string
	for i := 0; i < 200; i++ {
		name := strings.Repeat("long_", 10) + fmt.Sprint(i)
		parts, lists = append(parts, decision(name, "", literal("1"))), append(lists, "encapsulatedDecision "+name)
	}
	for i := 0; i < 120; i++ {
		parts = append(parts, serves(fmt.Sprintf("s%d", i), append(lists, "outputDecision q", "inputData a")...))
	}
	return overNumber(literal("a * 2"), append(parts, serves("q", "outputDecision q", "inputData a"))...)
}

// serviceHints returns the hints of decision services.
func serviceHints() []filedHint {
	e := decision("e", "", literal("a + 1"), "a")
	over := func(services ...string) string {
		return definitions(append([]string{input("a", "number"), e, decision("q", "", literal("e * 2"), "d:e")}, services...)...)
	}
	plain, next := over(serves("q", "outputDecision q", "inputData a")), ofA("2", "6", "-1", "0", "null", "null")
	twice := over(serves("q", "outputDecision q", "encapsulatedDecision e", "inputDecision e", "inputData a"))
	many := manyServices()
	return []filedHint{
		{name: "more services than a line has", refused: many, hint: "fewer services, or --service NAME", written: many, said: profile.Options{Service: "q"}, due: ofA("2", "4")},
		{name: "a service that isn't there", refused: plain, asked: profile.Options{Service: "p"}, hint: "one of the names of the files", written: plain, said: profile.Options{Service: "q"}, due: next},
		{name: "a service's name twice", refused: over(serves("q", "outputDecision q", "inputData a"), strings.Replace(serves("q", "outputDecision e", "inputData a"), "s_q", "s_e", 1)),
			hint: "another name", written: over(serves("q", "outputDecision q", "inputData a"), serves("e", "outputDecision e", "inputData a")), due: next},
		{name: "a service without an output", refused: over(serves("q", "encapsulatedDecision q", "inputData a")), hint: "an outputDecision", written: plain, due: next},
		{name: "given and evaluated, given", refused: twice, hint: "one of these", written: over(serves("q", "outputDecision q", "inputDecision e")),
			due: [][2]string{{`{"e":5}`, "10"}, {`{"e":null}`, "null"}}},
		{name: "given and evaluated, evaluated", refused: twice, hint: "one of these", written: over(serves("q", "outputDecision q", "encapsulatedDecision e", "inputData a")), due: next},
		{name: "an input that isn't listed", refused: over(serves("q", "outputDecision q", "encapsulatedDecision e")), hint: "it among its inputData", written: plain, due: next},
	}
}

// graphHints returns the hints of the parts of a file and their requirements.
func graphHints() []filedHint {
	f, next := knowledge("f", []string{"x"}, literal("x + 1")), ofA("2", "3", "null", "null")
	invoked := overNumber(literal("f(a)"), f, "k:f")
	e := decision("e", "", literal("a + 1"), "a")
	over := overNumber(literal("e"), e, "d:e")
	sums := func(names ...string) string {
		return definitions(input(names[0], "number"), input(names[1], "number"), decision("q", "", literal(names[0]+" * 2"), names[0]))
	}
	without := strings.Replace(f, "<encapsulatedLogic>", "<!--", 1)
	without = strings.Replace(without, "</encapsulatedLogic>", "-->", 1)
	loop := definitions(input("a", "number"), decision("e", "", literal("q + 1"), "d:q"), decision("q", "", literal("if a > 1 then e else a"), "a", "d:e"))
	return []filedHint{
		{name: "an import", refused: overNumber(literal("a + 1"), `<import name="o" namespace="other" importType="https://www.omg.org/spec/DMN/20191111/MODEL/"/>`),
			hint: "the decisions of the other file in this one", written: over, due: next},
		{name: "no name", refused: strings.Replace(over, `id="e" name="e"`, `id="e"`, 1), hint: "a name", written: over, due: next},
		{name: "an id twice", refused: strings.Replace(over, `id="e" name="e"`, `id="a" name="e"`, 1), hint: "another id", written: over, due: next},
		{name: "knowledge without a body", refused: overNumber(literal("f(a)"), without, "k:f"), hint: "an expression", written: invoked, due: next},
		{name: "a function of Java", refused: strings.Replace(invoked, "<encapsulatedLogic>", `<encapsulatedLogic kind="Java">`, 1), hint: "an expression of FEEL", written: invoked, due: next},
		{name: "a parameter's name twice", refused: overNumber(literal("f(a, 1)"), knowledge("f", []string{"x", "x"}, literal("x + 1")), "k:f"), hint: "another name",
			written: overNumber(literal("f(a, 1)"), knowledge("f", []string{"x", "y"}, literal("x + y")), "k:f"), due: next},
		{name: "an id of no part", refused: strings.Replace(over, `requiredDecision href="#e"`, `requiredDecision href="#d"`, 1), hint: "the id of a part, after #", written: over, due: next},
		{name: "knowledge as an input", refused: overNumber(literal("f(a)"), f, "f"), hint: "a knowledgeRequirement", written: invoked, due: next},
		{name: "a decision as knowledge", refused: overNumber(literal("e"), e, "k:e"), hint: "an informationRequirement", written: over, due: next},
		{name: "one name with other blanks", refused: sums("x+y", "x + y"), hint: "another name", written: sums("x+y", "z"), due: [][2]string{{`{"x_y":2,"z":1}`, "4"}}},
		{name: "one name of knowledge", refused: overNumber(literal("f(a)"), f, strings.Replace(f, `id="f"`, `id="g"`, 1), "k:f"), hint: "another name", written: invoked, due: next},
		{name: "a decision that needs itself", refused: loop, hint: "requirements that end", written: overNumber(literal("if a > 1 then e else a"), e, "d:e"),
			due: ofA("2", "3", "1", "1", "null", "null")},
		{name: "inputs of large types", refused: overNumber(literal("a + 1"), inputsOf(largeType(9000), 12)), hint: "smaller types, or fewer inputs",
			written: overNumber(literal("a + 1"), inputsOf(largeType(9000), 2)), due: next},
		{name: "decisions of large types", refused: overNumber(literal("a + 1"), inputsOf(largeType(9000), 1), decisionsOf(60, "large0", "large0")),
			hint: "smaller types, or fewer decisions of them", written: overNumber(literal("a + 1"), inputsOf(largeType(9000), 1), decisionsOf(2, "large0", "large0")), due: next},
		{name: "a value of many parts", refused: overNumber(literal("a + 1"), inputsOf(largeType(9000), 1), decisionsOf(1, "{"+manyEntries("large0", 12)+"}", "large0")),
			hint: "fewer entries, or smaller ones", written: overNumber(literal("a + 1"), inputsOf(largeType(9000), 1), decisionsOf(1, "{"+manyEntries("large0", 2)+"}", "large0")), due: next},
	}
}

// decisionsOf returns count decisions of a text.
func decisionsOf(count int, text string, needs ...string) string {
	var all strings.Builder
	for i := 0; i < count; i++ {
		all.WriteString(decision(fmt.Sprintf("p%d", i), "", literal(text), needs...))
	}
	return all.String()
}

// largeType returns a type named tLarge with so many components.
func largeType(components int) string {
	var all strings.Builder
	for i := 0; i < components; i++ {
		fmt.Fprintf(&all, `<itemComponent name="c%d"><typeRef>number</typeRef></itemComponent>`, i)
	}
	return `<itemDefinition name="tLarge">` + all.String() + `</itemDefinition>`
}

// inputsOf returns a type and count inputs of it.
func inputsOf(large string, count int) string {
	for i := 0; i < count; i++ {
		large += input(fmt.Sprintf("large%d", i), "tLarge")
	}
	return large
}

func tableHints() (all []filedHint) {
	for _, some := range [][]filedHint{entryHints(), policyHints(), columnHints(), serviceHints(), graphHints()} {
		all = append(all, some...)
	}
	return all
}

// TestHintsOfTablesServicesAndGraphsAreFollowed follows the hints of tables, of services, and of the requirements of a
// file's parts.
func TestHintsOfTablesServicesAndGraphsAreFollowed(t *testing.T) { holdFiledHints(t, tableHints()) }

// TestEachHintHasARow finds the refusals in the source files that have a hint, and checks that a row covers each of
// their reasons.
func TestEachHintHasARow(t *testing.T) {
	var reasons strings.Builder
	for _, c := range tableHints() {
		for _, refusal := range run(t, c.asked, c.refused).Refusals {
			fmt.Fprintln(&reasons, refusal.Why)
		}
	}
	count := 0
	for _, name := range []string{"entries.go", "table.go", "services.go", "graph.go"} {
		for _, reason := range reasonsIn(t, name) {
			count++
			if !strings.Contains(reasons.String(), reason) {
				t.Errorf("%s: no row is refused with %q", name, reason)
			}
		}
	}
	if count < 30 {
		t.Errorf("%d refusals are found in the source", count)
	}
}

// reasonsIn returns the first words of the reasons of a file's refusals that have a hint. It leaves out reasons that
// aren't literals in the source.
func reasonsIn(t *testing.T, name string) (all []string) {
	file, err := parser.ParseFile(token.NewFileSet(), name, nil, 0)
	if err != nil {
		t.Fatal(err)
	}
	ast.Inspect(file, func(n ast.Node) bool {
		call, is := n.(*ast.CallExpr)
		if !is || len(call.Args) < 3 {
			return true
		}
		if called, is := call.Fun.(*ast.SelectorExpr); !is || called.Sel.Name != "refuse" {
			return true
		}
		at := 1 // of the translator: form, reason, hint
		if len(call.Args) > 3 {
			at = 2 // of the refusals: element, its text, reason, hint
		}
		if reason := firstWords(call.Args[at]); reason != "" && firstWords(call.Args[at+1]) != "" {
			all = append(all, reason)
		}
		return true
	})
	return all
}

// firstWords returns the first text in an expression up to its first verb.
func firstWords(expression ast.Expr) (text string) {
	ast.Inspect(expression, func(n ast.Node) bool {
		if literal, is := n.(*ast.BasicLit); is && literal.Kind == token.STRING && text == "" {
			text, _ = strconv.Unquote(literal.Value)
			text, _, _ = strings.Cut(text, "%")
		}
		return true
	})
	return text
}
