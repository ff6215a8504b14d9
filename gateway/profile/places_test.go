package profile_test

import (
	"fmt"
	"strings"
	"testing"
	"time"

	"gateway/profile"
)

// TestPlacesAsInAnEditor tests the name of a bad place in each kind of element.
func TestPlacesAsInAnEditor(t *testing.T) {
	no := literal("1 ** 0.5")
	twoOutputs := []column{{text: "Discount"}, {text: "b"}}
	ins := []column{{text: "a", of: "number"}, {text: "a + 1", of: "number"}}
	labelled := strings.Replace(table("", ins, twoOutputs, []string{"1", "string(1)", "1", "1"}), "<input><inputExpression",
		`<input label="Amount due"><inputExpression`, 1)
	for _, c := range []struct{ where, file string }{
		{`decision "d e"`, decision("d e", "", no)},
		{`decision "d", rule 2, output "Discount"`, decision("d", "", table("", ins, twoOutputs, []string{"1", "1", "1", "1"},
			[]string{"1", "1", "string(1)", "1"}), "a")},
		{`decision "d", rule 1, input "a + 1"`, decision("d", "", labelled, "a")},
		{`decision "d", input "string(a)"`, decision("d", "", table("", []column{{text: "string(a)"}}, twoOutputs,
			[]string{"1", "1", "1"}), "a")},
		{`decision "d", output "b", default`, decision("d", "", table("", ins, []column{{text: "a"}, {text: "b", fallback: "string(1)"}},
			[]string{"1", "1", "1", "1"}), "a")},
		{`decision "d", output "b", output values`, decision("d", "", table("", ins, []column{{text: "a"}, {text: "b", values: "x"}},
			[]string{"1", "1", "1", "1"}), "a")},
		{`decision "d", entry "an entry"`, decision("d", "", `<context><contextEntry><variable name="an entry"/>`+no+
			`</contextEntry></context>`)},
		{`decision "d", result`, decision("d", "", `<context><contextEntry>`+no+`</contextEntry></context>`)},
		{`decision "d", member 2`, decision("d", "", `<list>`+literal("1")+no+`</list>`)},
		{`decision "d", row 2, column "c 2"`, decision("d", "", `<relation><column name="c1"/><column name="c 2"/><row>`+
			literal("1")+literal("2")+`</row><row>`+literal("1")+no+`</row></relation>`)},
		{`decision "d", then`, decision("d", "", `<conditional><if>`+literal("true")+`</if><then>`+no+`</then><else>`+
			literal("1")+`</else></conditional>`)},
		{`decision "d", parameter "p"`, knowledge("k", []string{"p"}, literal("1")) + decision("d", "", `<invocation>`+
			literal("k")+`<binding><parameter name="p"/>`+no+`</binding></invocation>`, "k:k")},
		{`business knowledge "k"`, knowledge("k", nil, no) + decision("d", "", literal("1"))},
		{`business knowledge "k", parameter "p"`, knowledge("k", []string{"p:context"}, literal("1")) +
			decision("d", "", literal("1"))},
		{`input "i"`, input("i", "context") + decision("d", "", literal("1"))},
		{`type "t", component "c"`, `<itemDefinition name="t"><itemComponent name="c"><typeRef>context</typeRef></itemComponent>` +
			`</itemDefinition>` + input("i", "t") + decision("d", "", literal("1"))},
		{`decision "d", requirement`, `<decision id="d" name="d"><informationRequirement><requiredInput href="#none"/>` +
			`</informationRequirement>` + literal("1") + `</decision>`},
		{`decision service "s", input data`, decision("d", "", literal("1")) + service("s", "d", "i:none")},
		{`import`, `<import namespace="n" importType="x"/>` + decision("d", "", literal("1"))},
	} {
		t.Run(c.where, func(t *testing.T) {
			report := run(t, profile.Options{}, definitions(input("a", "number"), c.file))
			for _, r := range report.Refusals {
				if r.Where == c.where && r.Line > 0 && r.Column > 0 && strings.Contains(r.String(), fmt.Sprintf(": %s: ", c.where)) {
					return
				}
			}
			t.Errorf("refused is %s", said(report.Refusals))
		})
	}
}

// TestPlacesOfManyRules measures a table of many rules, each with a bad place.
func TestPlacesOfManyRules(t *testing.T) {
	var rows [][]string
	for i := 0; i < 20_000; i++ {
		rows = append(rows, []string{"1", "string(1)"})
	}
	file := definitions(input("a", "number"), decision("d", "", table("", []column{{text: "a"}}, []column{{text: "b"}}, rows...), "a"))
	before := time.Now()
	report := run(t, profile.Options{}, file)
	if len(report.Refusals) != 20_000 || report.Refusals[19_999].Where != `decision "d", rule 20000, output "b"` {
		t.Errorf("%d are refused", len(report.Refusals))
	}
	t.Logf("%d bytes took %v", len(file), time.Since(before))
}

// TestRenamedKeysAreNoted tests the notes on names that requests spell differently.
func TestRenamedKeysAreNoted(t *testing.T) {
	types := `<itemDefinition name="tCar"><itemComponent name="Actual Speed"><typeRef>number</typeRef></itemComponent>` +
		`<itemComponent name="plain"><typeRef>number</typeRef></itemComponent></itemDefinition>`
	report := run(t, profile.Options{}, definitions(types, input("My Car", "tCar"), input("a", "number"),
		decision("Too Fast", "", literal("My Car.Actual Speed > a"), "My Car", "a"),
		decision("not asked", "", literal("1")), service("Speed Check", "Too Fast", "i:My Car", "i:a")))
	if report.Result == nil {
		t.Fatal(said(report.Refusals))
	}
	due := `0.dmn: in requests and answers "My Car" is My_Car, "Actual Speed" is Actual_Speed, "Speed Check" is Speed_Check, ` +
		`"Too Fast" is Too_Fast`
	if got := said(report.Result.Notes); got != due {
		t.Errorf("the notes are %s\ndue %s", got, due)
	}
	if got := said(run(t, profile.Options{}, definitions(decision("d", "", literal("1")))).Result.Notes); got != "" {
		t.Errorf("the notes are %s", got)
	}
}

// TestAMissingComponentIsNamed tests contexts that don't fit a declared type.
func TestAMissingComponentIsNamed(t *testing.T) {
	types := `<itemDefinition name="t"><itemComponent name="a"><typeRef>number</typeRef></itemComponent>` +
		`<itemComponent name="b c"><typeRef>number</typeRef></itemComponent></itemDefinition>` +
		`<itemDefinition name="tOuter"><itemComponent name="in"><typeRef>t</typeRef></itemComponent></itemDefinition>` +
		`<itemDefinition name="tAll" isCollection="true"><typeRef>t</typeRef></itemDefinition>`
	for _, c := range []struct{ text, of, why string }{
		{"{a: 1}", "t", "it has no component b c, which the declared type has"},
		{`{a: "x", b c: 1}`, "t", "its component a: it is of the type string, where number is declared"},
		{"{in: {a: 1}}", "tOuter", "its component in: it has no component b c"},
		{"[{a: 1}]", "tAll", "a member: it has no component b c"},
	} {
		refusedWith(t, definitions(types, decision("d", c.of, literal(c.text))), c.why)
	}
}
