package profile

import (
	"fmt"
	"os"
	"path/filepath"
	"strings"
	"testing"

	"gateway/dmn"
	"gateway/feel/strict"
)

// domainFile is a file with inputs of these types, each a name with the text of its item definition, and a decision that needs them all.
func domainFile(t *testing.T, types [][2]string, expression string) *dmn.File {
	t.Helper()
	text := `<definitions xmlns="https://www.omg.org/spec/DMN/20191111/MODEL/" id="d" name="d" namespace="n">`
	needs := ""
	for at, it := range types {
		ref := ""
		if strings.HasPrefix(it[1], "<") {
			text += fmt.Sprintf(`<itemDefinition name="t%d">%s</itemDefinition>`, at, it[1])
			ref = fmt.Sprintf(` typeRef="t%d"`, at)
		} else if it[1] != "" {
			ref = ` typeRef="` + it[1] + `"`
		}
		needs += fmt.Sprintf(`<informationRequirement id="r%d"><requiredInput href="#i%d"/></informationRequirement>`, at, at)
		text += fmt.Sprintf(`<inputData id="i%d" name="%s"><variable name="%s"%s/></inputData>`, at, it[0], it[0], ref)
	}
	text += `<decision id="e" name="e"><variable name="e"/>` + needs + expression + `</decision></definitions>`
	file, err := dmn.Read("x.dmn", strings.NewReader(text))
	if err != nil {
		t.Fatal(err)
	}
	return file
}

func values(base, allowed string) string {
	return "<typeRef>" + base + "</typeRef><allowedValues><text>" + strings.NewReplacer("<", "&lt;", ">", "&gt;").Replace(allowed) + "</text></allowedValues>"
}

const anyNumber = ">= -9223372036854775807"

// TestDomains are worked out by hand: of a type of an input, with the decimals that are said, the domain.
func TestDomains(t *testing.T) {
	for _, it := range []struct{ of, decimals, due string }{
		{"number", "", anyNumber},
		{"string", "", `>= ""`},
		{"boolean", "", "true, false"},
		{"date", "", "[1..3652059]"},
		{"time", "", anyNumber},
		{"days and time duration", "", anyNumber},
		{"Any", "", ""},
		{"", "", ""},
		{values("number", "[0..120]"), "", "[0..120]"},
		{values("number", "(0..120)"), "", "(0..120)"},
		{values("number", "]-5..120["), "", "(-5..120)"},
		{values("number", "[0..1.5]"), "2", "[0..150]"},
		{values("number", "(0.005..1.005)"), "2", "(0..100]"},
		{values("number", "[0..1.5]"), "0", "[0..1]"},
		{values("number", "[0..99999999999999999999]"), "", "[0..9223372036854775807]"},
		{values("number", ">= 0"), "", ">= 0"},
		{values("number", "< 0.5, > 7"), "1", "< 5, > 70"},
		{values("number", "[0..10], [20..30]"), "", "[0..10], [20..30]"},
		{values("number", "1, 2.50, -3"), "", "10, 25, -30"},
		{values("number", "1, null"), "", "1, null"},
		{values("number", "null, [0..9]"), "", "[0..9], null"},
		{values("number", "99999999999999999999"), "", anyNumber},
		{values("number", "not(5)"), "", anyNumber},
		{values("string", `"ja","nein"`), "", `"ja", "nein"`},
		{values("string", `"a\"b", "ä", null`), "", `"a\"b", "ä", null`},
		{values("string", `["a".."m"]`), "", `["a".."m"]`},
		{values("string", `not("a")`), "", `>= ""`},
		{values("boolean", "true"), "", "true"},
		{values("date", `date("2020-01-01"), date("2020-02-01")`), "", "737425, 737456"},
		{values("date", `[date("2020-01-01")..date("2020-02-01"))`), "", "[737425..737456)"},
		{values("days and time duration", `[duration("PT1S")..duration("P1D")]`), "", "[1..86400]"},
		{values("years and months duration", `duration("P1Y"), duration("P14M")`), "", "12, 14"},
		{values("time", `[time("00:01:00")..time("12:00:00")]`), "", "[60..43200]"},
		{`<typeRef>number</typeRef>` + `<allowedValues><text>-</text></allowedValues>`, "", anyNumber},
		{part("a", ref("number")), "", "not(null)"},
	} {
		options := Options{}
		if it.decimals != "" {
			said := NoDecimals()
			said.Named = map[string]int{"x": int(it.decimals[0] - '0')}
			options.Decimals = &said
		}
		file := domainFile(t, [][2]string{{"x", it.of}}, "<literalExpression><text>[x]</text></literalExpression>")
		report := Run([]*dmn.File{file}, options)
		if report.Result == nil {
			t.Errorf("%s: %v", it.of, report.Refusals)
			continue
		}
		if got := report.Result.Domains["x"]; got != it.due {
			t.Errorf("%s, decimals %q: %s, and %s is due", it.of, it.decimals, got, it.due)
		}
	}
}

// TestDomainsOfLists says of a list that it is not null.
func TestDomainsOfLists(t *testing.T) {
	text := `<definitions xmlns="https://www.omg.org/spec/DMN/20191111/MODEL/" id="d" name="d" namespace="n">` +
		`<itemDefinition name="l" isCollection="true"><typeRef>number</typeRef></itemDefinition>` +
		`<inputData id="i" name="x"><variable name="x" typeRef="l"/></inputData><decision id="e" name="e"><variable name="e"/>` +
		`<informationRequirement id="r"><requiredInput href="#i"/></informationRequirement>` +
		`<literalExpression><text>count(x)</text></literalExpression></decision></definitions>`
	read, err := dmn.Read("x.dmn", strings.NewReader(text))
	if err != nil {
		t.Fatal(err)
	}
	for nullable, due := range map[string]string{"": "not(null)", "x": ""} {
		options := Options{}
		if nullable != "" {
			options.Nullable = []string{nullable}
		}
		if got := Run([]*dmn.File{read}, options).Result.Domains["x"]; got != due {
			t.Errorf("nullable %q: %q, and %q is due", nullable, got, due)
		}
	}
}

// columnOver is a table of one column over x.
func columnOver(inputValues, typeRef string) string {
	text := `<decisionTable hitPolicy="UNIQUE"><input><inputExpression`
	if typeRef != "" {
		text += ` typeRef="` + typeRef + `"`
	}
	text += `><text>x</text></inputExpression>`
	if inputValues != "" {
		text += "<inputValues><text>" + inputValues + "</text></inputValues>"
	}
	return text + `</input><output name="o"/><rule><inputEntry><text>-</text></inputEntry><outputEntry><text>1</text></outputEntry></rule></decisionTable>`
}

// TestDomainsOfColumns takes types and input values from columns, and null where these list it or the import is told so.
func TestDomainsOfColumns(t *testing.T) {
	for _, it := range []struct {
		of, inputValues, typeRef, nullable, due string
		required                                bool
	}{
		{"number", "", "", "", anyNumber, true},
		{"number", "", "", "x", anyNumber + ", null", false},
		{"", "", "number", "", anyNumber, true},
		{"", "", "number", "x", anyNumber + ", null", false},
		{"", "", "", "", "", false},
		{"number", "[0..9]", "", "", "[0..9]", true},
		{"number", "[0..9]", "", "x", "[0..9], null", false},
		{"string", `"a","b"`, "", "", `"a", "b"`, true},
		{"string", `"a","b",null`, "", "", `"a", "b", null`, false},
		{"", `"a","b"`, "string", "", `"a", "b"`, true},
		{"boolean", "", "", "x", "true, false, null", false},
		{values("number", "[0..9]"), "[0..99]", "", "", "[0..9]", true},
		{values("number", "[0..9], null"), "", "", "", "[0..9], null", false},
		{values("number", "[0..9]"), "", "", "x", "[0..9], null", false},
	} {
		options := Options{}
		if it.nullable != "" {
			options.Nullable = []string{it.nullable}
		}
		file := domainFile(t, [][2]string{{"x", it.of}}, columnOver(it.inputValues, it.typeRef))
		report := Run([]*dmn.File{file}, options)
		if report.Result == nil {
			t.Errorf("%+v: %v", it, report.Refusals)
			continue
		}
		got, required := report.Result.Domains["x"], len(report.Result.Required) == 1
		if got != it.due || required != it.required {
			t.Errorf("%+v: %q, required %v", it, got, required)
		}
	}
}

// TestDomainsOfOtherInputs are those that a clock fills, and those that nothing declares.
func TestDomainsOfOtherInputs(t *testing.T) {
	file := domainFile(t, [][2]string{{"y", "number"}}, "<literalExpression><text>y = 1 and today() = today()</text></literalExpression>")
	result := Run([]*dmn.File{file}, Options{Clock: "UTC"}).Result
	if got := fmt.Sprint(result.Domains, result.Required); got != "map[today:[1..3652059] y:"+anyNumber+"] [y]" {
		t.Errorf("a clock: %s", got)
	}
	file = domainFile(t, [][2]string{{"y", "number"}}, columnOver("", "number"))
	result = Run([]*dmn.File{file}, Options{FreeInputs: true}).Result
	if got := fmt.Sprint(result.Domains, result.Required); got != "map[x:"+anyNumber+" y:"+anyNumber+"] [x y]" {
		t.Errorf("a name that nothing declares: %s", got)
	}
}

// TestDomainsOfFiles reads each domain of files as the engine does.
func TestDomainsOfFiles(t *testing.T) {
	paths, err := filepath.Glob("../../examples/dmn/*.dmn")
	if err != nil || len(paths) == 0 {
		t.Fatalf("no files: %v", err)
	}
	for _, path := range paths {
		from, err := os.Open(path)
		if err != nil {
			t.Fatal(err)
		}
		file, err := dmn.Read(path, from)
		from.Close()
		if err != nil {
			t.Fatal(err)
		}
		result := Run([]*dmn.File{file}, Options{}).Result
		if result == nil {
			t.Errorf("%s has no result", path)
			continue
		}
		for _, input := range result.Model.Inputs {
			if result.Domains[input] == "" {
				t.Errorf("%s: %s lacks a domain", path, input)
			}
		}
		for word, text := range result.Domains {
			if _, ok := strict.ReadTests(text); !ok {
				t.Errorf("%s: %s can't be read", word, text)
			}
		}
	}
}
