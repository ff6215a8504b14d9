package profile_test

import (
	"fmt"
	"strings"
	"testing"

	"gateway/dmn"
	"gateway/profile"
)

// TestDecimalsOfInputs gives the decimals of inputs in the file or as options. The expected answers are worked out by
// hand.
func TestDecimalsOfInputs(t *testing.T) {
	parts := []string{ratioTypes, `<itemDefinition name="tApplicant">` +
		`<itemComponent name="Income"><typeRef>number</typeRef></itemComponent>` +
		`<itemComponent name="Age"><typeRef>number</typeRef></itemComponent></itemDefinition>` +
		`<itemDefinition name="tPart"><typeRef>number</typeRef><allowedValues><text>[0..100]</text></allowedValues></itemDefinition>`,
		input("Applicant", "tApplicant"), input("l", "tL"), input("p", "tPart"), input("a", "number")}
	d := startDesk(t)
	for _, row := range []struct {
		text  string
		all   int
		named map[string]int
		in    string
		due   string
	}{
		{"a * 0.5", 3, nil, `{"a":1.005}`, "0.5025"},
		{"a * 0.5", -1, map[string]int{"a": 0}, `{"a":3}`, "1.5"},
		{"a * 0.5", 3, map[string]int{"a": 1}, `{"a":1.25}`, "refused: more than 1 decimals"},
		{"Applicant.Income * 0.5", -1, map[string]int{"Applicant.Income": 3}, `{"Applicant":{"Income":1.005,"Age":2}}`, "0.5025"},
		{"Applicant.Income * 0.5", -1, map[string]int{"Applicant.Income": 3}, `{"Applicant":{"Income":1.0005,"Age":2}}`,
			"refused: more than 3 decimals"},
		{"Applicant.Income * 0.5", -1, map[string]int{"Applicant.Income": 3}, `{"Applicant":{"Income":1,"Age":2.5}}`,
			"refused: not of the type: integer"},
		{"Applicant.Income * 0.5", -1, map[string]int{"Applicant": 4}, `{"Applicant":{"Income":1.0001,"Age":2.5}}`, "0.50005"},
		{"sum(l) * 0.5", -1, map[string]int{"l": 1}, `{"l":[1.1,2]}`, "1.55"},
		{"sum(l) * 0.5", -1, map[string]int{"l": 1}, `{"l":[1.1,2.05]}`, "refused: more than 1 decimals"},
		{"l = [1.555]", -1, map[string]int{"l": 1}, `{}`, "refused: which are not recounted"},
		{"l = [1.555]", -1, map[string]int{"l": 3}, `{"l":[1.555]}`, "true"},
		{"p * 0.5", -1, nil, `{"p":2.5}`, "1.25"},
		{"p * 0.5", -1, nil, `{"p":100.01}`, "refused: at most 100"},
		{"a * 0.5", -1, map[string]int{"q": 1}, `{}`, "refused: decimals are said of it"},
	} {
		asked := decision("d", "", literal(row.text), "Applicant", "l", "p", "a")
		read, err := dmn.Read("test.dmn", strings.NewReader(definitions(append(parts, asked)...)))
		if err != nil {
			t.Fatal(err)
		}
		options := profile.Options{Decimals: &profile.Decimals{All: row.all, Named: row.named}}
		result, refusals := profile.Import([]*dmn.File{read}, options)
		came := "refused: " + fmt.Sprint(refusals)
		if result != nil {
			d.model(result)
			came = countedAsk(d, result, "d", row.in)
		}
		why := strings.TrimPrefix(row.due, "refused: ")
		isRefused := why != row.due && strings.HasPrefix(came, "refused: ") && strings.Contains(came, why)
		if came != row.due && !isRefused {
			t.Errorf("%s of %s, %d %v: %s is due, and it is %s", row.text, row.in, row.all, row.named, row.due, came)
		}
	}
}

// TestTypesOfQuotients tests in which unit a quotient is counted, and from which size a number is a limit error.
func TestTypesOfQuotients(t *testing.T) {
	result := taken(t, definitions(input("a", "number"), decision("d", "number", literal("a / 12"), "a"),
		decision("e", "number", literal("a * 0.5"), "a")))
	if got := string(result.Types["d"]); !strings.Contains(got, `"per":1200,`) {
		t.Errorf("the type of a quotient is %s", got)
	}
	due := `decision "e": numbers on the way have up to 3 decimals: one past 9223372036854775.807 is limit`
	if got := said(result.Notes); !strings.Contains(got, due) {
		t.Errorf("the notes are %s", got)
	}
}
