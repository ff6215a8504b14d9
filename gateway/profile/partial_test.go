package profile_test

import (
	"fmt"
	"strings"
	"testing"
	"time"

	"gateway/profile"
)

// service returns a decisionService: its outputs, and lists as "i:input", "e:encapsulated" and "g:given".
func service(name, output string, lists ...string) string {
	var all strings.Builder
	fmt.Fprintf(&all, `<outputDecision href="#%s"/>`, output)
	for prefix, tag := range map[string]string{"i:": "inputData", "e:": "encapsulatedDecision", "g:": "inputDecision"} {
		for _, one := range lists {
			if strings.HasPrefix(one, prefix) {
				fmt.Fprintf(&all, `<%s href="#%s"/>`, tag, one[2:])
			}
		}
	}
	return fmt.Sprintf(`<decisionService id="s-%[1]s" name="%[1]s">%[2]s</decisionService>`, name, all.String())
}

// names returns the names of a model's decisions and services.
func names(r *profile.Result) string {
	var all []string
	for _, d := range r.Model.Decisions {
		all = append(all, d.Name)
	}
	all = append(all, "/")
	for _, s := range r.Model.Services {
		all = append(all, s.Name)
	}
	return strings.Join(all, " ")
}

// bad is an expression that is always refused.
var bad = literal("string length(a)")

// TestOneBadPlaceRefusesWhatNeedsIt tests files with one bad place each: the decisions and services that --partial
// makes of them, and how many services are left out.
func TestOneBadPlaceRefusesWhatNeedsIt(t *testing.T) {
	one, a := literal("1"), input("a", "string")
	dated := `<itemDefinition name="tBad"><typeRef>context</typeRef></itemDefinition>` +
		`<itemDefinition name="tHolder"><itemComponent name="c"><typeRef>tBad</typeRef></itemComponent></itemDefinition>`
	for _, c := range []struct {
		name, file, due string
		unmade          int
	}{
		{"a decision", a + decision("x", "", bad, "a") + decision("y", "", one), "y / y", 1},
		{"what needs it", a + decision("x", "", bad, "a") + decision("y", "", literal("x"), "d:x") + decision("z", "", one), "z / z", 2},
		{"what it needs is made", a + decision("x", "", one) + decision("y", "", bad, "a", "d:x"), "x / x", 1},
		{"business knowledge", a + knowledge("k", []string{"a"}, bad) + decision("x", "", literal("k(1)"), "k:k") +
			decision("y", "", one), "y / y", 1},
		{"what such invokes", knowledge("k", []string{"a"}, bad) + knowledge("l", nil, literal("k(1)"), "k:k") +
			decision("x", "", literal("l()"), "k:l") + decision("y", "", one), "y / y", 1},
		{"what nobody invokes", knowledge("k", []string{"a"}, bad) + decision("y", "", one), "y / y", 0},
		{"the type of an input", dated + input("i", "tHolder") + decision("x", "", literal("i"), "i") + decision("y", "", one), "y / y", 1},
		{"the type of a cell", dated + decision("x", "", table("", nil, []column{{text: "r", of: "tBad"}}, []string{"1"})) +
			decision("y", "", one), "y / y", 1},
		{"an id twice", a + `<decision id="x" name="x1">` + one + `</decision><decision id="x" name="x2">` + one + `</decision>` +
			decision("y", "", literal("x1"), "d:x") + decision("z", "", one), "z / z", 3},
		{"a name twice", a + decision("x", "", one) + `<decision id="w" name="x">` + one + `</decision>` +
			decision("y", "", literal("x"), "d:x") + decision("z", "", one), "z / z", 3},
		{"a requirement that turns in a circle", decision("x", "", literal("y"), "d:y") + decision("y", "", literal("x"), "d:x") +
			decision("w", "", literal("x"), "d:x") + decision("z", "", one), "z / z", 3},
		{"an import", `<import namespace="other" name="o" importType="x"/>` + decision("z", "", one), "z / z", 0},
		{"an import that is used", `<import namespace="other" name="o" importType="x"/>` + decision("x", "", literal("o.y")) +
			decision("z", "", one), "z / z", 1},
		{"services", a + decision("x", "", bad, "a") + decision("y", "", literal("x"), "d:x") + decision("z", "", one) +
			service("one", "y", "i:a") + service("two", "z"), "z / two", 1},
		{"a service that is given it", a + decision("x", "", bad, "a") + decision("y", "", literal("x"), "d:x") +
			decision("z", "", one) + service("one", "y", "g:x") + service("two", "z"), "z / two", 1},
		{"a service's own place", a + decision("y", "", literal("a"), "a") + service("one", "y") + service("two", "y", "i:a"), "y / two", 1},
		{"a part that is not known", `<decisions/>` + decision("y", "", one), "y / y", 0},
		{"all of it", a + decision("x", "", bad, "a"), "", 1},
	} {
		t.Run(c.name, func(t *testing.T) {
			file := definitions(c.file)
			refused := run(t, profile.Options{}, file)
			if refused.Result != nil || len(refused.Refusals) == 0 || len(refused.Unmade) != c.unmade {
				t.Errorf("without the option: %d refusals, not made %v", len(refused.Refusals), refused.Unmade)
			}
			report := run(t, profile.Options{Partial: true}, file)
			if got := said(report.Refusals); got != said(refused.Refusals) {
				t.Errorf("refused are\n%s\nand without the option\n%s", got, said(refused.Refusals))
			}
			if report.Result == nil {
				if c.due != "" {
					t.Errorf("nothing is made: %s", said(report.Refusals))
				}
				return
			}
			if got := names(report.Result); got != c.due {
				t.Errorf("made is %s, due %s", got, c.due)
			}
			startDesk(t).model(report.Result)
		})
	}
}

// TestAServiceAloneNeedsItsOwnPlaces asks for services by their names.
func TestAServiceAloneNeedsItsOwnPlaces(t *testing.T) {
	file := definitions(input("a", "string"), input("b", "number"), decision("x y", "", bad, "a"),
		decision("y", "", literal("b + 1"), "b"), decision("z", "", literal("y"), "d:y"), decision("w", "", literal("1")),
		knowledge("k", []string{"a"}, bad))
	for name, due := range map[string]string{"z": "y z / z", "y": "y / y", "w": "w / w", "x y": "", "x_y": "", "nobody": ""} {
		report := run(t, profile.Options{Service: name}, file)
		switch {
		case due != "" && report.Result == nil:
			t.Errorf("%s: %s", name, said(report.Refusals))
		case due != "" && names(report.Result) != due:
			t.Errorf("%s: it has %s", name, names(report.Result))
		case due == "" && (report.Result != nil || len(report.Refusals) != 1):
			t.Errorf("%s: %s", name, said(report.Refusals))
		}
	}
	if report := run(t, profile.Options{Service: "z"}, file); fmt.Sprint(report.Result.Model.Inputs) != "[b]" {
		t.Errorf("it has the inputs %v", report.Result.Model.Inputs)
	}
	whole := run(t, profile.Options{}, file)
	if got := whole.Summary(); got != "3 of 4 services could be made: --partial makes these, --service NAME one of them" {
		t.Errorf("the summary is %q", got)
	}
	partial := run(t, profile.Options{Partial: true}, file)
	if got := partial.Summary(); got != "3 of 4 services are made; not made: x y" {
		t.Errorf("the summary is %q", got)
	}
}

// TestAFileWithoutARefusalIsWhole checks that the options don't change an accepted file.
func TestAFileWithoutARefusalIsWhole(t *testing.T) {
	file := definitions(input("b", "number"), decision("y", "", literal("b + 1"), "b"), decision("w", "", literal("1")))
	due, _ := profile.Line(&run(t, profile.Options{}, file).Result.Model)
	for _, options := range []profile.Options{{Partial: true}, {FreeInputs: true}} {
		if got, _ := profile.Line(&run(t, options, file).Result.Model); string(got) != string(due) {
			t.Errorf("%+v: %s, due %s", options, got, due)
		}
	}
	if got := names(run(t, profile.Options{Service: "w"}, file).Result); got != "y w / w" {
		t.Errorf("of a service it has %s", got)
	}
}

// TestADecisionPastALineSpoilsNoOther tests an invocation that doubles, and a service that doesn't need it.
func TestADecisionPastALineSpoilsNoOther(t *testing.T) {
	parts := []string{knowledge("f0", nil, literal("1"))}
	for i := 1; i < 30; i++ {
		parts = append(parts, knowledge(fmt.Sprintf("f%d", i), nil, literal(fmt.Sprintf("[f%[1]d(), f%[1]d()]", i-1)),
			fmt.Sprintf("k:f%d", i-1)))
	}
	parts = append(parts, decision("x", "", literal("f29()"), "k:f29"), decision("y", "", literal("f1()"), "k:f1"))
	file := definitions(parts...)
	if report := run(t, profile.Options{Service: "y"}, file); report.Result == nil || names(report.Result) != "y / y" {
		t.Errorf("the service alone: %s", said(report.Refusals))
	}
	// Later decisions were not translated, so they are not made.
	if report := run(t, profile.Options{Partial: true}, file); report.Result != nil {
		t.Errorf("made is %s", names(report.Result))
	}
}

// TestTooManyDecisionsForOneModel tests more decisions than a model may have, some of them bad.
func TestTooManyDecisionsForOneModel(t *testing.T) {
	parts := []string{input("a", "string")}
	for i := 0; i < 1001; i++ {
		parts = append(parts, decision(fmt.Sprintf("d%d", i), "", literal("1")))
	}
	report := run(t, profile.Options{}, definitions(parts...))
	if report.Result != nil || len(report.Refusals) != 1 || !strings.Contains(report.Refusals[0].Why, "over 1000 decisions") {
		t.Errorf("refused is %s", said(report.Refusals))
	}
	if report := run(t, profile.Options{Service: "d7"}, definitions(parts...)); report.Result == nil || names(report.Result) != "d7 / d7" {
		t.Errorf("the service alone: %s", said(report.Refusals))
	}
	parts = append(parts, decision("e1", "", bad, "a"), decision("e2", "", bad, "a"))
	if report := run(t, profile.Options{Partial: true}, definitions(parts[2:]...)); report.Result == nil ||
		len(report.Result.Model.Decisions) != 1000 {
		t.Errorf("made in part: %.500s", said(report.Refusals))
	}
}

// TestBadPlacesOfAGreatFile measures a file of many decisions and types, each bad or in need of a bad one.
func TestBadPlacesOfAGreatFile(t *testing.T) {
	parts := []string{`<itemDefinition name="t0"><typeRef>context</typeRef></itemDefinition>`, input("a", "string")}
	for i := 1; i < 2000; i++ {
		parts = append(parts, fmt.Sprintf(`<itemDefinition name="t%d"><itemComponent name="c"><typeRef>t%d</typeRef></itemComponent>`+
			`</itemDefinition>`, i, i-1))
	}
	for i := 0; i < 2000; i++ {
		parts = append(parts, decision(fmt.Sprintf("d%d", i), "", bad, "a"),
			decision(fmt.Sprintf("e%d", i), "t1999", literal("1"), fmt.Sprintf("d:d%d", i)))
	}
	parts = append(parts, decision("z", "", literal("1")))
	file := definitions(parts...)
	before := time.Now()
	report := run(t, profile.Options{Partial: true}, file)
	if report.Result == nil || names(report.Result) != "z / z" {
		t.Errorf("made in part: %.500s", said(report.Refusals))
	}
	t.Logf("%d bytes took %v", len(file), time.Since(before))
}
