package profile_test

import (
	"fmt"
	"strings"
	"testing"
	"time"

	"gateway/profile"
)

const listTypes = `<itemDefinition name="tNumbers" isCollection="true"><typeRef>number</typeRef></itemDefinition>` +
	`<itemDefinition name="tTexts" isCollection="true"><typeRef>string</typeRef></itemDefinition>` +
	`<itemDefinition name="tTruths" isCollection="true"><typeRef>boolean</typeRef></itemDefinition>`

// rates is a decision that others need: a relation of literals.
var rates = decision("Rates", "", `<relation><column name="from"/><column name="rate"/><column name="net price"/>`+
	`<row>`+literal("0")+literal("10")+literal("1")+`</row><row>`+literal("100")+literal("20")+literal("2")+`</row>`+
	`<row>`+literal("200")+literal("null")+literal("3")+`</row></relation>`)

// TestMembersOfTypedLists asks whether a list has a member; for a null list that is null. The answers are worked out by
// hand.
func TestMembersOfTypedLists(t *testing.T) {
	for _, form := range []string{"list contains(l, x)", "x in l", "x in (l)", "some s in l satisfies s = x", "some s in l satisfies x = s"} {
		for _, c := range []struct {
			lists, of string
			due       [][2]string
		}{
			{"tNumbers", "number", [][2]string{{`"l":[1,2],"x":2`, "true"}, {`"l":[1,2],"x":3`, "false"}, {`"l":[],"x":3`, "false"}, {`"l":null,"x":3`, "null"},
				{`"l":[1,null],"x":null`, "true"}, {`"l":[1],"x":null`, "false"}, {`"l":[null],"x":1`, "false"}, {`"l":[null,1],"x":1`, "true"},
				{`"l":null,"x":null`, "null"}, {`"l":[],"x":null`, "false"}}},
			{"tTexts", "string", [][2]string{{`"l":["a","b"],"x":"b"`, "true"}, {`"l":["a"],"x":"A"`, "false"}, {`"l":[""],"x":""`, "true"}}},
			{"tTruths", "boolean", [][2]string{{`"l":[true],"x":true`, "true"}, {`"l":[true],"x":false`, "false"}, {`"l":[false],"x":false`, "true"},
				{`"l":[null],"x":false`, "false"}, {`"l":null,"x":false`, "null"}}},
		} {
			t.Run(form+" "+c.of, func(t *testing.T) {
				for i := range c.due {
					c.due[i][0] = "{" + strings.Trim(c.due[i][0], "{}") + "}"
				}
				answers(t, definitions(listTypes, input("l", c.lists), input("x", c.of), decision("d", "", literal(form), "l", "x")), "d", c.due)
			})
		}
	}
}

// TestMembersInTables tests such a form in an input entry and an output entry.
func TestMembersInTables(t *testing.T) {
	logic := table(`hitPolicy="FIRST"`, []column{{text: "l", of: "tTexts"}}, []column{{text: "r"}},
		[]string{`list contains(?, "Java")`, `"Java"`}, []string{`list contains(?, "C") or list contains(?, "D")`, `"C"`},
		[]string{"-", `list contains(l, "E")`})
	answers(t, definitions(listTypes, input("l", "tTexts"), decision("d", "", logic, "l")), "d", [][2]string{
		{`{"l":["C","Java"]}`, `"Java"`}, {`{"l":["D"]}`, `"C"`}, {`{"l":["E"]}`, "true"}, {`{"l":[]}`, "false"}, {`{"l":null}`, "null"}})
	fractions := definitions(listTypes, input("l", "tNumbers"), input("x", "number"), decision("d", "", literal("[list contains(l, x), x in l, "+
		"list contains(l, 0.5), list contains(l, 0.005)]"), "l", "x"))
	// Both are counted in hundredths.
	answers(t, fractions, "d", [][2]string{{`{"l":[50,100],"x":100}`, "[true,true,true,false]"}, {`{"l":[1],"x":2}`, "[false,false,false,false]"},
		{`{"l":null,"x":2}`, "[null,null,null,null]"}})
}

// TestInstanceOf asks values of each kind. Null is an instance of no type.
func TestInstanceOf(t *testing.T) {
	values := []string{"1", "-5", `"a"`, `""`, "true", "false", "[]", "[1]", "[null]", "{}", "null"}
	for of, due := range map[string]string{
		"number": "true true false false false false false false false false false", "string": "false false true true false false false false false false false",
		"boolean": "false false false false true true false false false false false", "list": "false false false false false false true true true false false",
	} {
		var pairs [][2]string
		for i, answer := range strings.Fields(due) {
			pairs = append(pairs, [2]string{`{"x":` + values[i] + `}`, answer})
		}
		answers(t, definitions(input("x", ""), decision("d", "", literal("x instance of "+of), "x")), "d", pairs)
		for i := range pairs {
			pairs[i][1] = map[string]string{"true": "false", "false": "true"}[pairs[i][1]]
		}
		answers(t, definitions(input("x", ""), decision("d", "", literal("not(x instance of "+of+")"), "x")), "d", pairs)
	}
}

// TestUnrolledLists tests forms over written-out lists, and over a relation of literals. The answers are worked out by
// hand.
func TestUnrolledLists(t *testing.T) {
	for text, due := range map[string][][2]string{
		"for i in [1, x, 3] return i * 2":                         {{"5", "[2,10,6]"}, {"null", "[2,null,6]"}},
		"for i in 1..3 return i + x":                              {{"1", "[2,3,4]"}},
		"for i in 2..-1 return i":                                 {{"0", "[2,1,0,-1]"}},
		"for i in [1, 2], j in [10, 20] return i + j":             {{"0", "[11,21,12,22]"}},
		"for i in [1, 2], j in [i, i * 2] return j":               {{"0", "[1,2,2,4]"}},
		"for i in [] return i":                                    {{"0", "[]"}},
		"sum(for i in [1, 2, 3] return i * x)":                    {{"2", "12"}},
		"for r in Rates return r.rate":                            {{"0", "[10,20,null]"}},
		"for r in Rates return if r.from <= x then r.rate else 0": {{"150", "[10,20,0]"}, {"null", "[0,0,0]"}},
		"for i in [{a: x}, {a: 2}] return i.a":                    {{"7", "[7,2]"}},
		"some i in [1, 2, x] satisfies i > 5":                     {{"6", "true"}, {"3", "false"}, {"null", "null"}},
		"every i in [1, 2, x] satisfies i > 0":                    {{"6", "true"}, {"0", "false"}, {"null", "null"}},
		"every i in [-1, x] satisfies i > 0":                      {{"null", "false"}},
		"some i in [6, x] satisfies i > 5":                        {{"null", "true"}},
		"some i in [] satisfies i > 5":                            {{"6", "false"}},
		"every i in [] satisfies i > 5":                           {{"6", "true"}},
		"some i in [x] satisfies i > 5":                           {{"6", "true"}, {"5", "false"}, {"null", "null"}},
		"some i in [x] satisfies i":                               {{"6", "null"}},
		"some i in [x], j in [1, 2] satisfies i = j":              {{"2", "true"}, {"3", "false"}},
		"some r in Rates satisfies r.from = x":                    {{"100", "true"}, {"1", "false"}},
		"every r in Rates satisfies r.rate != x":                  {{"30", "true"}, {"20", "false"}},
		"[4, 5, x][1]":                                            {{"6", "4"}},
		"[4, 5, x][3]":                                            {{"6", "6"}},
		"[4, 5, x][-1]":                                           {{"6", "6"}},
		"[4, 5, x][4]":                                            {{"6", "null"}},
		"[4, 5, x][0]":                                            {{"6", "null"}},
		"[4, 5, x][item > 4][1]":                                  {{"6", "5"}, {"1", "5"}},
		"[x][item > 4][1]":                                        {{"6", "6"}, {"1", "null"}, {"null", "null"}},
		"Rates[from <= x][1].rate":                                {{"150", "10"}, {"-1", "null"}},
		"Rates[from > x][1].rate":                                 {{"50", "20"}, {"150", "null"}, {"500", "null"}},
		"Rates[item.from > x][1].from":                            {{"50", "100"}, {"null", "null"}},
		"Rates[net price = x][1].from":                            {{"3", "200"}},
		"sum([1, 2, x][item > 1])":                                {{"5", "7"}, {"0", "2"}, {"null", "2"}},
		"sum([1, x][item > 3])":                                   {{"5", "5"}, {"0", "null"}},
		"count([1, 2, x][item > 1])":                              {{"5", "2"}, {"0", "1"}, {"null", "1"}},
		"count(Rates[from <= x])":                                 {{"150", "2"}, {"-1", "0"}, {"null", "0"}},
		"sum([][item > 3])":                                       {{"5", "null"}},
		"count([][item > 3])":                                     {{"5", "0"}},
		"[1, 2, 3][some i in [2] satisfies i = item][1]":          {{"5", "2"}},
		"for rate in [7] return count(Rates[rate = 20])":          {{"5", "[1]"}},
	} {
		t.Run(text, func(t *testing.T) {
			for i := range due {
				due[i][0] = `{"x":` + due[i][0] + `}`
			}
			answers(t, definitions(rates, input("x", "number"), decision("d", "", literal(text), "x", "d:Rates")), "d", due)
		})
	}
}

// TestUnrolledInAContext goes through a relation that is an entry of the same context.
func TestUnrolledInAContext(t *testing.T) {
	logic := `<context><contextEntry><variable name="t"/><relation><column name="a"/><row>` + literal("1") + `</row><row>` + literal("2") +
		`</row></relation></contextEntry><contextEntry><variable name="n"/>` + literal("[3, 4]") + `</contextEntry><contextEntry>` +
		literal("[sum(for r in t return r.a * x), count(n[item = x]), t[a = x][1].a]") + `</contextEntry></context>`
	answers(t, definitions(input("x", "number"), decision("d", "", logic, "x")), "d", [][2]string{{`{"x":3}`, "[9,1,null]"}, {`{"x":2}`, "[6,0,2]"}})
}

// TestOtherListsStayRefused tests forms over lists whose members aren't known, and ambiguous ones.
func TestOtherListsStayRefused(t *testing.T) {
	hundred := "[0" + strings.Repeat(", 1", 100) + "]"
	for text, why := range map[string]string{
		"for i in l return i":                 "there is no for",
		"for i in 1..x return i":              "there is no for",
		"for i in 1..101 return i":            "there is no for",
		"for i in " + hundred + " return i":   "there is no for",
		"for i in 1..11, j in 1..10 return i": "there is no for",
		"some i in l satisfies i > 1":         "no some",
		"every i in l satisfies i = x":        "no some",
		"some i in l satisfies i = i":         "no some",
		"l[1]":                                "no filters",
		"[1, 2][x]":                           "no filters",
		"[1, 2][item > 1]":                    "no filters",
		"[1, 2][item > 1][2]":                 "no filters",
		"sum(l[item > 1])":                    "no filters",
		"Made[1]":                             "no filters",
		"[{item: 1}][item > 0][1]":            "no filters",
		"list contains(u, x)":                 "no function list contains",
		"list contains(l, u)":                 "no function list contains",
		`list contains(l, "a")`:               "no function list contains",
		"u in l":                              "not written out",
		"x instance of context":               "no instance of this type",
		"x instance of list<number>":          "no instance of this type",
		"for i in [1, 2] return partial":      "no name in scope",
		"x instance of date":                  "no instance of this type",
	} {
		t.Run(text, func(t *testing.T) {
			refusedWith(t, definitions(listTypes, decision("Made", "", literal("[x]"), "x"), input("l", "tNumbers"), input("u", ""), input("x", "number"),
				decision("d", "", literal(text), "l", "u", "x", "d:Made")), why)
		})
	}
}

// TestLongUnrolledLists measures nested forms over as many members as can be gone through.
func TestLongUnrolledLists(t *testing.T) {
	members := "[1" + strings.Repeat(", x", 99) + "]"
	file := definitions(input("x", "number"), decision("d", "", literal(fmt.Sprintf("[count(%[1]s[item > 2]), %[1]s[item > 2][1], "+
		"sum(%[1]s[item > 2]), some i in %[1]s satisfies i > 2]", members)), "x"))
	answers(t, file, "d", [][2]string{{`{"x":3}`, "[99,3,297,true]"}, {`{"x":1}`, "[0,null,null,false]"}})
	nested := "for i in 1..100 return sum(for j in 1..100 return sum(for k in 1..100 return x))"
	before := time.Now()
	report := run(t, profile.Options{}, definitions(input("x", "number"), decision("d", "", literal(nested), "x")))
	if report.Result != nil {
		t.Error("a million members are taken")
	}
	t.Logf("a million members took %v", time.Since(before))
}
