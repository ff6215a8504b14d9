package profile

import (
	"fmt"
	"strings"
	"testing"

	"gateway/dmn"
)

// Inputs with a declared type are required, unless null is among their allowed values or they are nullable by name.
func TestRequiredInputs(t *testing.T) {
	text := `<definitions xmlns="https://www.omg.org/spec/DMN/20191111/MODEL/" id="d" name="d" namespace="n">` +
		`<itemDefinition name="tMay"><typeRef>string</typeRef><allowedValues><text>"a","b",null</text></allowedValues></itemDefinition>` +
		`<itemDefinition name="tHas"><typeRef>string</typeRef><allowedValues><text>"a","b"</text></allowedValues></itemDefinition>`
	for _, it := range [][2]string{{"may", "tMay"}, {"has", "tHas"}, {"a number", "number"}, {"other", "number"}, {"any", "Any"}, {"none", ""}} {
		text += fmt.Sprintf(`<inputData id="i_%[1]s" name="%[2]s"><variable name="%[2]s"`, strings.ReplaceAll(it[0], " ", "_"), it[0])
		if it[1] != "" {
			text += ` typeRef="` + it[1] + `"`
		}
		text += `/></inputData>`
	}
	text += `<decision id="e" name="e"><variable name="e"/>`
	for _, id := range []string{"may", "has", "a_number", "other", "any", "none"} {
		text += `<informationRequirement id="r_` + id + `"><requiredInput href="#i_` + id + `"/></informationRequirement>`
	}
	text += `<literalExpression><text>[may, has, a number, other, any, none]</text></literalExpression></decision></definitions>`
	file, err := dmn.Read("x.dmn", strings.NewReader(text))
	if err != nil {
		t.Fatal(err)
	}
	for _, it := range []struct {
		nullable []string
		due      string
	}{{nil, "[a_number has other]"}, {[]string{"a number", "has"}, "[other]"}} {
		report := Run([]*dmn.File{file}, Options{Nullable: it.nullable})
		if report.Result == nil {
			t.Fatal(report.Refusals)
		}
		if got := fmt.Sprint(report.Result.Required); got != it.due {
			t.Errorf("with %q nullable: %s, and %s is due", it.nullable, got, it.due)
		}
		if err := report.Result.UnknownNullable(); err != nil {
			t.Error(err)
		}
	}
	report := Run([]*dmn.File{file}, Options{Nullable: []string{"has", "nobody"}})
	if err := report.Result.UnknownNullable(); err == nil || !strings.Contains(err.Error(), "nobody") || !strings.Contains(err.Error(), "a number") {
		t.Errorf("an unknown name: %v", err)
	}
}
