package profile_test

import (
	"strings"
	"testing"

	"gateway/dmn"
	"gateway/profile"
)

// A tableRow is a file, a request of one of its decisions, and the answer, worked out by hand.
type tableRow struct{ name, logic, of, inputs, due string }

func boxedContext(all ...string) string {
	var made strings.Builder
	for i := 0; i < len(all); i += 2 {
		variable := `<variable name="` + all[i] + `"/>`
		if all[i] == "" {
			variable = ""
		}
		made.WriteString("<contextEntry>" + variable + all[i+1] + "</contextEntry>")
	}
	return "<context>" + made.String() + "</context>"
}

func relation(columns []string, rows ...[]string) string {
	var made strings.Builder
	for _, c := range columns {
		made.WriteString(`<column name="` + c + `"/>`)
	}
	for _, row := range rows {
		made.WriteString("<row>")
		for _, cell := range row {
			made.WriteString(literal(cell))
		}
		made.WriteString("</row>")
	}
	return "<relation>" + made.String() + "</relation>"
}

var single = []column{{text: "a", of: "number"}}

func decimalTables() []tableRow {
	r := []column{{text: "r", of: "number"}}
	fees := [][]string{{"< 1.5", "0"}, {"[1.5..2.25)", "1.95"}, {">= 2.25", "0.005 * a"}}
	ranked := []column{{text: "r", of: "number", values: "2.5, 1, 0.125"}}
	return []tableRow{
		{"a column's unit is the finest", table(`hitPolicy="UNIQUE"`, single, r, fees...), "", `{"a":2.25}`, "0.01125"},
		{"the same", table(`hitPolicy="UNIQUE"`, single, r, fees...), "number", `{"a":2.24}`, "1.95"},
		{"the same", table(`hitPolicy="UNIQUE"`, single, r, fees...), "number", `{"a":1.49}`, "0"},
		{"no hit", table(`hitPolicy="UNIQUE"`, single, r, fees[:1]...), "number", `{"a":1.5}`, "null"},
		{"a sum", table(`hitPolicy="COLLECT" aggregation="SUM"`, single, r, []string{"-", "12.5"}, []string{"-", "7.25"}, []string{"> 0.005", "-1.125"}), "", `{"a":0.01}`, "18.625"},
		{"the least", table(`hitPolicy="COLLECT" aggregation="MIN"`, single, r, []string{"-", "12.5"}, []string{"-", "7.25"}), "", `{"a":0}`, "7.25"},
		{"the greatest", table(`hitPolicy="COLLECT" aggregation="MAX"`, single, r, []string{"-", "12.5"}, []string{"-", "a / 3"}), "", `{"a":100}`, "33.33333333333333333333333333333333"},
		{"a sum of quotients", table(`hitPolicy="COLLECT" aggregation="SUM"`, single, r, []string{"-", "12.5"}, []string{"-", "a / 3"}), "", `{"a":100}`, "refused: a sum of quotients"},
		{"a count", table(`hitPolicy="COLLECT" aggregation="COUNT"`, single, r, []string{"-", "12.5"}, []string{"-", "7.25"}), "", `{"a":0}`, "2"},
		{"a count with a default", table(`hitPolicy="COLLECT" aggregation="COUNT"`, single, []column{{text: "r", fallback: "0.5"}}, []string{"> 1.5", "12.5"}), "", `{"a":0}`, "refused: a default with decimals"},
		{"a list", table(`hitPolicy="RULE ORDER"`, single, r, []string{"-", "12.5"}, []string{"-", "7"}), "", `{"a":0}`, "[12.5,7]"},
		{"by priority", table(`hitPolicy="PRIORITY"`, single, ranked, []string{"-", "0.125"}, []string{"-", "1"}, []string{"> 1.5", "2.5"}), "", `{"a":1.6}`, "2.5"},
		{"by priority", table(`hitPolicy="PRIORITY"`, single, ranked, []string{"-", "0.125"}, []string{"-", "1"}, []string{"> 1.5", "2.5"}), "", `{"a":1}`, "1"},
		{"in output order", table(`hitPolicy="OUTPUT ORDER"`, single, ranked, []string{"-", "0.125"}, []string{"-", "1.0"}, []string{"-", "2.5"}), "", `{"a":1}`, "[2.5,1,0.125]"},
		{"none of the output values", table(`hitPolicy="PRIORITY"`, single, ranked, []string{"-", "0.5"}), "", `{"a":1}`, "refused: none of the output values"},
		{"any", table(`hitPolicy="ANY"`, single, r, []string{"-", "1.50"}, []string{"-", "1.5"}), "", `{"a":1}`, "1.5"},
		{"a default", table(`hitPolicy="UNIQUE"`, single, []column{{text: "r", fallback: "a * 0.001"}}, []string{"> 5", "1.5"}), "", `{"a":1}`, "0.001"},
		{"a rounding in a default", table(`hitPolicy="UNIQUE"`, single, []column{{text: "r", fallback: "decimal(a * a * a * a * 1.015, 2)"}}, []string{"> 5", "1.5"}), "", `{"a":1000000}`, "1.5"},
		{"the same", table(`hitPolicy="UNIQUE"`, single, []column{{text: "r", fallback: "decimal(a * a * a * a * 1.015, 2)"}}, []string{"> 5", "1.5"}), "", `{"a":2}`, "16.24"},
		{"a rounding in a rule", table(`hitPolicy="FIRST"`, single, r, []string{"< 1000", "decimal(a * a * a * a * 1.015, 2)"}, []string{"-", "0"}), "", `{"a":1000000}`, "0"},
		{"the same", table(`hitPolicy="FIRST"`, single, r, []string{"< 1000", "decimal(a * a * a * a * 1.015, 2)"}, []string{"-", "0"}), "", `{"a":2}`, "16.24"},
		{"a rounding after a condition", table(`hitPolicy="FIRST"`, single, r, []string{"? * 2 < 1000.5", "decimal(a * a * a * a * 1.015, 2)"}, []string{"-", "0"}), "", `{"a":1000000}`, "0"},
		{"two outputs", table(`hitPolicy="FIRST"`, single, []column{{text: "fee"}, {text: "name"}}, []string{"< 1.5", "0.5", `"a"`}, []string{"-", "1.125", `"b"`}), "", `{"a":2}`, `{"fee":1.125,"name":"b"}`},
		{"two outputs", table(`hitPolicy="COLLECT"`, single, []column{{text: "fee"}, {text: "name"}}, []string{"-", "0.5", `"a"`}, []string{"-", "1.125", `"b"`}), "", `{"a":2}`, `[{"fee":0.5,"name":"a"},{"fee":1.125,"name":"b"}]`},
		{"a text or a number", table(`hitPolicy="FIRST"`, single, []column{{text: "r"}}, []string{"< 1.5", `"low"`}, []string{"-", "a * 0.5"}), "", `{"a":2.01}`, "1.005"},
		{"a number next to an untyped value", table(`hitPolicy="FIRST"`, single, []column{{text: "r"}}, []string{"< 1.5", "u"}, []string{"-", "0.125"}), "", `{"a":1,"u":0.125}`, "0.125"},
		{"null", table(`hitPolicy="FIRST"`, single, r, []string{"null", "0.5"}, []string{"-", "1"}), "", `{}`, "0.5"},
		{"not", table(`hitPolicy="FIRST"`, single, r, []string{"not(0.5, 1.25)", "0.5"}, []string{"-", "1"}), "", `{"a":1.25}`, "1"},
		{"not of a number that is none in cents", table(`hitPolicy="FIRST"`, single, r, []string{"not(0.125)", "0.5"}, []string{"-", "1"}), "", `{"a":0.12}`, "0.5"},
		{"a number that is none in cents", table(`hitPolicy="FIRST"`, single, r, []string{"0.125", "0.5"}, []string{"-", "1"}), "", `{"a":0.12}`, "1"},
		{"ends between cents", table(`hitPolicy="FIRST"`, single, r, []string{"(0.115..0.125]", "0.5"}, []string{"-", "1"}), "", `{"a":0.12}`, "0.5"},
		{"ends between cents", table(`hitPolicy="FIRST"`, single, r, []string{"[0.121..0.129]", "0.5"}, []string{"-", "1"}), "", `{"a":0.12}`, "1"},
		{"a finer value as a test", table(`hitPolicy="FIRST"`, single, r, []string{"< b * 0.001", "0.5"}, []string{"-", "1"}), "", `{"a":0.12,"b":120.01}`, "0.5"},
		{"a finer value as an end", table(`hitPolicy="FIRST"`, single, r, []string{"[b * 0.001..1]", "0.5"}, []string{"-", "1"}), "", `{"a":0.12,"b":120}`, "0.5"},
		{"a finer value", table(`hitPolicy="FIRST"`, single, r, []string{"b * 0.001", "0.5"}, []string{"-", "1"}), "", `{"a":0.12,"b":120}`, "0.5"},
		{"a quotient", table(`hitPolicy="FIRST"`, []column{{text: "a / b", of: "number"}}, r, []string{"<= 0.36", "0.5"}, []string{"(0.36..0.43]", "1"}, []string{"> 0.43", "2"}, []string{"-", "3"}), "", `{"a":43,"b":100}`, "1"},
		{"a quotient that is null", table(`hitPolicy="FIRST"`, []column{{text: "a / b", of: "number"}}, r, []string{"<= 0.36", "0.5"}, []string{"(0.36..0.43]", "1"}, []string{"> 0.43", "2"}, []string{"null", "3"}), "", `{"a":43,"b":0}`, "3"},
		{"a quotient that is not a number", table(`hitPolicy="FIRST"`, []column{{text: "a / b", of: "number"}}, r, []string{"0.43", "0.5"}, []string{"not(0.43)", "1"}), "", `{"a":43,"b":0}`, "1"},
		{"a quotient by a constant", table(`hitPolicy="FIRST"`, []column{{text: "a / 3", of: "number"}}, r, []string{"< 0.34, 5", "0.5"}, []string{"-", "1"}), "", `{"a":1.01}`, "0.5"},
		{"the same", table(`hitPolicy="FIRST"`, []column{{text: "a / 3", of: "number"}}, r, []string{"< 0.34, 5", "0.5"}, []string{"-", "1"}), "", `{"a":15}`, "0.5"},
		{"a context", boxedContext("net", literal("a * 0.5"), "tax", literal("decimal(net * 0.19, 2)"), "", literal("net + tax")), "", `{"a":1}`, "0.6"},
		{"a context", boxedContext("net", literal("a * 0.5"), "part", literal("net / 3")), "", `{"a":1}`, `{"net":0.5,"part":0.1666666666666666666666666666666667}`},
		{"a declared context", boxedContext("x", literal("a * 0.5"), "y", literal(`"b"`)), "tC", `{"a":0.01}`, `{"x":0.005,"y":"b"}`},
		{"more than is declared", boxedContext("x", literal("a * 0.5"), "z", literal("0.25"), "y", literal(`"b"`)), "tC", `{"a":0.01}`, `{"x":0.005,"y":"b","z":0.25}`},
		{"a boxed list", "<list>" + literal("a * 0.5") + literal("1") + literal("a / 3") + "</list>", "", `{"a":1}`, "[0.5,1,0.3333333333333333333333333333333333]"},
		{"a relation", relation([]string{"p", "q"}, []string{"1", "0.5"}, []string{"0.25", "a"}), "", `{"a":1}`, `[{"p":1,"q":0.5},{"p":0.25,"q":1}]`},
		{"lists of contexts", literal("[{p: 1}, {p: 0.5}].p"), "", `{"a":1}`, "refused: which are not recounted"},
		{"a conditional", "<conditional><if>" + literal("a < 1000.5") + "</if><then>" + literal("decimal(a * a * a * a * 1.015, 2)") + "</then><else>" + literal("0.5") + "</else></conditional>", "", `{"a":1000000}`, "0.5"},
		{"the same", "<conditional><if>" + literal("a < 1000.5") + "</if><then>" + literal("decimal(a * a * a * a * 1.015, 2)") + "</then><else>" + literal("0.5") + "</else></conditional>", "", `{"a":2}`, "16.24"},
		{"declared a number", literal("u"), "number", `{"u":1.5}`, "refused: 1.5"},
		{"tested to be a number", literal("if f then u else 0.5"), "number", `{"u":1.5,"f":true}`, "1.5"},
		{"the same of a text", literal("if f then u else 0.5"), "number", `{"u":"a","f":true}`, "null"},
		{"allowed values", literal("if f then 0.125 else 0.5"), "tRate", `{"f":true}`, "0.125"},
		{"none of the allowed values", literal("if f then 0.25 else 0.5"), "tRate", `{"f":true}`, "refused: allowed values"},
		{"a list with a member", literal("list contains(l, 1.5)"), "", `{"l":[1.5]}`, "true"},
		{"a list without a member", literal("list contains(l, 1.555)"), "", `{"l":[1.55]}`, "false"},
		{"a member in another unit", literal("list contains(l, a * 0.1) or l = [0.5]"), "", `{"l":[1.25],"a":12.5}`, "true"},
		{"a quotient as a member", literal("list contains([a / 3, b], x + 0.5)"), "", `{"a":4.5,"b":7,"x":1}`, "true"},
		{"none of the quotients", literal("list contains([a / 3, b], x + 0.5)"), "", `{"a":4.5,"b":7,"x":4}`, "false"},
		{"next to the quotients", literal("list contains([a / 3, b], x + 0.5)"), "", `{"a":4.51,"b":7,"x":6.5}`, "true"},
		{"a constant as a quotient", literal("list contains([a / 3, b], 1.5)"), "", `{"a":4.5,"b":7}`, "true"},
		{"what a filter leaves", literal("sum([a, b, 0.125][item > 0.1])"), "", `{"a":0.1,"b":0.2}`, "0.325"},
		{"the first that a filter leaves", literal("[a, b, 0.125][item > 0.1][1]"), "", `{"a":0.1,"b":0.1}`, "0.125"},
		{"for each member", literal("for m in [a, 0.125] return m * 0.5"), "", `{"a":0.01}`, "[0.005,0.0625]"},
		{"some member", literal("some m in [a, 0.125] satisfies m > b"), "", `{"a":0.12,"b":0.12}`, "true"},
		{"every member", literal("every m in [a, 0.125] satisfies m > b"), "", `{"a":0.12,"b":0.12}`, "false"},
		{"each quotient", literal("some m in [1, 3] satisfies a / m < 0.34"), "", `{"a":1}`, "true"},
		{"an instance of number", literal("if u instance of number then 0.5 else u"), "", `{"u":"a"}`, `"a"`},
		{"a type with allowed values", literal("r + 0.5"), "", `{"r":0.125}`, "0.625"},
	}
}

// TestDecimalTables checks the answers of tables and boxed expressions.
func TestDecimalTables(t *testing.T) {
	d := startDesk(t)
	for _, row := range decimalTables() {
		file := definitions(append(decimalParts(), decision("d", row.of, row.logic, decimalNeeds...))...)
		read, err := dmn.Read("test.dmn", strings.NewReader(file))
		if err != nil {
			t.Fatal(err)
		}
		result, refusals := profile.Import([]*dmn.File{read}, profile.Options{})
		came := "refused: "
		for _, refusal := range refusals {
			came += refusal.Why
		}
		if result != nil {
			d.model(result)
			came = countedAsk(d, result, "d", row.inputs)
		}
		if why := strings.TrimPrefix(row.due, "refused: "); why != row.due {
			if !strings.HasPrefix(came, "refused: ") || !strings.Contains(came, why) {
				t.Errorf("%s, %s: %s is due, and it is %s", row.name, row.inputs, row.due, came)
			}
		} else if came != row.due {
			t.Errorf("%s, %s: %s is due, and it is %s", row.name, row.inputs, row.due, came)
			if result != nil {
				t.Log(logicOf(t, result, "d"))
			}
		}
	}
}
