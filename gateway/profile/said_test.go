package profile_test

import (
	"strings"
	"testing"

	"gateway/dmn"
	"gateway/profile"
)

// TestDecimalsOfInputDecisions gives the decimals of a decision's value, which a request may bring.
func TestDecimalsOfInputDecisions(t *testing.T) {
	file := definitions(input("x", "number"), decision("base price", "number", literal("x * 0.5"), "x"),
		decision("total", "number", literal("base price * 1.19"), "base price"), decision("name", "string", literal(`"a"`)))
	for name, row := range map[string]struct {
		said    string
		scale   int
		unit    string
		refused string
	}{
		"more":              {"base price", 5, "0.00001", ""},
		"as many":           {"base price", 3, "0.001", ""},
		"blanks in between": {"base  price", 4, "0.0001", ""},
		"fewer":             {"base price", 2, "", `its value may have 3 decimals, and 2 are said of it`},
		"no number":         {"name", 2, "", "no number of an input or a decision has this name"},
		"unknown":           {"price", 2, "", "no number of an input or a decision has this name"},
	} {
		read, err := dmn.Read("test.dmn", strings.NewReader(file))
		if err != nil {
			t.Fatal(err)
		}
		said := profile.NoDecimals()
		said.Named = map[string]int{row.said: row.scale}
		result, refusals := profile.Import([]*dmn.File{read}, profile.Options{Decimals: &said})
		switch {
		case row.refused != "":
			if len(refusals) != 1 || !strings.Contains(refusals[0].Why, row.refused) {
				t.Errorf("%s: %v", name, refusals)
			}
		case len(refusals) > 0:
			t.Errorf("%s: %v", name, refusals)
		case !strings.Contains(string(result.Types["base_price"]), `"multipleOf":`+row.unit+`,`):
			t.Errorf("%s: %s", name, result.Types["base_price"])
		}
	}
}
