// Package domaintest draws domains, and values near their borders.
package domaintest

import (
	"encoding/json"
	"fmt"
	"math/rand"
	"strings"

	"gateway/lines"
)

// A Drawing draws domains, and values near their constants.
type Drawing struct {
	*rand.Rand
	// constants are those drawn for the domain at hand, as JSON.
	constants []string
}

// New returns a drawing of a seed.
func New(seed int64) *Drawing { return &Drawing{Rand: rand.New(rand.NewSource(seed))} }

// One draws one of some texts.
func (d *Drawing) One(of ...string) string { return of[d.Intn(len(of))] }

// number draws a number as FEEL writes it, and notes it.
func (d *Drawing) number() string {
	number := d.One("0", "1", "2", "7", "9", "10", "99", "9223372036854775806", "9223372036854775807", fmt.Sprint(d.Intn(20)))
	if d.Intn(3) == 0 {
		d.constants = append(d.constants, strings.Replace("-"+number, "-0", "0", 1))
		return "-" + number
	}
	d.constants = append(d.constants, number)
	return d.One("", "", "", "00") + number
}

// text draws a text as FEEL writes it, and notes it.
func (d *Drawing) text() string {
	text := ""
	for count := d.Intn(4); count > 0; count-- {
		text += d.One("a", "b", "m", "é", "\uffff", "𝄞", `"`, `\`, "\n", "\t", "\r", " ", "/")
	}
	d.constants = append(d.constants, string(lines.AppendQuoted(nil, text)))
	return `"` + strings.NewReplacer(`"`, `\"`, `\`, `\\`, "\n", d.One(`\n`, "\n"), "\t", d.One(`\t`, "\t"), "\r", `\r`).Replace(text) + `"`
}

func (d *Drawing) constant() string {
	switch d.Intn(9) {
	case 0:
		return d.One("true", "false")
	case 1:
		return "null"
	case 2, 3, 4:
		return d.text()
	}
	return d.number()
}

// expression draws one without names, up to a depth.
func (d *Drawing) expression(depth int) string {
	if depth == 0 || d.Intn(3) > 0 {
		return d.constant()
	}
	part := func() string { return d.expression(depth - 1) }
	switch d.Intn(12) {
	case 0:
		return "(" + part() + ")"
	case 1:
		return "-" + part()
	case 2, 3:
		var all []string
		for count := d.Intn(4); count > 0; count-- {
			all = append(all, part())
		}
		return "[" + strings.Join(all, ", ") + "]"
	case 4:
		return "(" + part() + " " + d.One("=", "!=", "<", "<=", ">", ">=") + " " + part() + ")"
	case 5:
		return "(" + part() + d.One(" and ", " or ") + part() + ")"
	case 6:
		return "if " + part() + " then " + part() + " else " + part()
	case 7:
		return "modulo(" + part() + ", " + part() + ")"
	case 8:
		return d.One("abs", "sum", "min", "max", "count", "not") + "(" + part() + ")"
	case 9:
		return "(" + part() + " between " + part() + " and " + part() + ")"
	case 10:
		return "[" + part() + "].a"
	}
	return part() + d.One(" + ", " - ", " * ", "+", "-") + part()
}

func (d *Drawing) blank() string { return d.One("", "", "", " ", "\t", "\n", "\r ") }

func (d *Drawing) test() string {
	if d.Intn(60) == 0 {
		return d.One("", "< ") + "9223372036854775807 + 1"
	}
	depth := d.Intn(6) / 4
	switch d.Intn(4) {
	case 0:
		return d.One("<", "<=", ">", ">=") + d.blank() + d.expression(depth)
	case 1:
		kind := d.constant
		if d.Intn(4) > 0 {
			kind = d.number
		}
		return d.One("[", "(", "]") + d.blank() + kind() + d.blank() + ".." + d.blank() + kind() + d.One("]", ")", "[")
	}
	return d.expression(depth)
}

// Domain draws a domain, and forgets the constants of the last.
func (d *Drawing) Domain() string {
	d.constants = nil
	if d.Intn(50) == 0 {
		return d.blank() + "-" + d.blank()
	}
	var tests []string
	for count := 1 + d.Intn(4); count > 0; count-- {
		tests = append(tests, d.blank()+d.test()+d.blank())
	}
	text := strings.Join(tests, ",")
	if d.Intn(3) == 0 {
		return d.blank() + "not" + d.blank() + "(" + text + ")" + d.blank()
	}
	return text
}

// Value draws a value as JSON, often one at the border of the domain.
func (d *Drawing) Value(depth int) string {
	switch d.Intn(12) {
	case 0:
		return d.One("null", "true", "false", `""`, "[]", "{}", "0", `{"a":1}`, `{"a":"b","b":[]}`)
	case 1:
		if depth == 0 {
			return "null"
		}
		var all []string
		for count := d.Intn(4); count > 0; count-- {
			all = append(all, d.Value(depth-1))
		}
		return "[" + strings.Join(all, ",") + "]"
	case 2:
		return d.One(`"a"`, `"ab"`, `"m"`, `"é"`, `"\u00e9"`, `"𝄞"`, `"\ud834\udd1e"`, `"\uffff"`, `"\/"`)
	case 3:
		return fmt.Sprint(d.Intn(24) - 4)
	}
	if len(d.constants) == 0 {
		return fmt.Sprint(d.Intn(12))
	}
	constant := d.One(d.constants...)
	var number json.Number
	if json.Unmarshal([]byte(constant), &number) != nil || constant[0] == '"' {
		return constant
	}
	at, _ := number.Int64()
	if near := at + int64(d.Intn(3)) - 1; (near > at) == (near-at > 0) && near >= -lines.MaxNumber {
		return fmt.Sprint(near)
	}
	return constant
}

// Within draws a value with components, up to a depth.
func (d *Drawing) Within(depth int) string {
	if depth == 0 || d.Intn(5) == 0 {
		return d.Value(1)
	}
	if d.Intn(6) == 0 {
		return "[" + d.Within(depth-1) + "," + d.Within(depth-1) + "]"
	}
	var members []string
	for count := d.Intn(4); count > 0; count-- {
		members = append(members, d.One(`"a"`, `"b"`, `"\u0061"`, `"c"`)+":"+d.Within(depth-1))
	}
	return "{" + strings.Join(members, ",") + "}"
}

// Broken draws a text that may be no domain.
func (d *Drawing) Broken() string {
	text := d.Domain()
	for count := d.Intn(3); count > 0; count-- {
		at := d.Intn(len(text) + 1)
		text = strings.ToValidUTF8(text[:at]+d.One("q", "(", ")", "[", "]", ",", "..", ".", "-", "not", `"`, `\`, "1", "= 5", "?", "é", ".a", " q ", "q.a")+
			text[at:], "?")
	}
	return text
}
