package profile_test

import (
	"fmt"
	"strings"
	"testing"

	"gateway/dmn"
	"gateway/feel"
	"gateway/profile"
)

// A maker makes texts from bytes. Each byte chooses one of several forms; when the bytes run out, the shortest is
// chosen.
type maker struct {
	bytes []byte
	depth int
}

func (m *maker) choose(n int) int {
	if len(m.bytes) == 0 || m.depth > 6 {
		return 0
	}
	b := int(m.bytes[0])
	m.bytes = m.bytes[1:]
	return b % n
}

// of fills the placeholders of a form: %e is an expression, %t a test.
func (m *maker) of(form string) string {
	m.depth++
	defer func() { m.depth-- }()
	var text strings.Builder
	for {
		at := strings.IndexByte(form, '%')
		if at < 0 {
			text.WriteString(form)
			return text.String()
		}
		text.WriteString(form[:at])
		if form[at+1] == 'e' {
			text.WriteString(m.expression())
		} else {
			text.WriteString(m.test())
		}
		form = form[at+2:]
	}
}

var leaves = []string{"1", "n", "m", "s", "f", "u", "l", "c.x", `"a"`, `"b"`, "true", "null", "0", "7", "2.0", "-3", `""`,
	"false", "[]", "net-price", "c.y", "n - m"}

var forms = []string{"%e + %e", "%e - %e", "%e * %e", "-%e", "(%e)", "%e = %e", "%e != %e", "%e < %e", "%e >= %e",
	"%e and %e", "%e or %e", "not(%e)", "if %e then %e else %e", "%e between %e and %e", "[%e, %e]", "[%e]", "%e in (%t, %t)",
	"%e in [%e, %e]", "sum(%e)", "sum(%e, %e)", "min(%e, %e)", "max([%e, %e])", "count([%e, %e])", "abs(%e)",
	"modulo(%e, %e)", "g(%e, %e)", "g(m: %e, n: %e)", "{x: %e, y: x}.y", "{a b: %e, n: %e}", "[{x: %e}, {x: %e}].x",
	"(if %e then %e else %e)", "count(l)", "%e in %t"}

func (m *maker) expression() string {
	choice := m.choose(len(leaves) + len(forms))
	if choice < len(leaves) {
		return leaves[choice]
	}
	return m.of(forms[choice-len(leaves)])
}

var tests = []string{"%e", "< %e", "<= %e", "> %e", ">= %e", "[%e..%e]", "(%e..%e)", "]%e..%e[", "[%e, %e]"}

func (m *maker) test() string { return m.of(tests[m.choose(len(tests))]) }

var entries = []string{"-", "%t", "%t, %t", "not(%t)", "not(%t, %t)", "? = %e", "? < %e and ? != %e", "? in (%t)", "%t, ? > %e"}

func (m *maker) entry() string { return m.of(entries[m.choose(len(entries))]) }

// fuzzed returns a file with a decision d of a text, and a table t with rows made of the same bytes.
func fuzzed(m *maker) (file, text string, rows [][]string) {
	text = m.expression()
	for i := 0; i < 3; i++ {
		rows = append(rows, []string{m.entry(), m.entry(), m.expression()})
	}
	tC := `<itemDefinition name="tC"><itemComponent name="x"><typeRef>number</typeRef></itemComponent>` +
		`<itemComponent name="y"><typeRef>string</typeRef></itemComponent></itemDefinition>` +
		`<itemDefinition name="tL" isCollection="true"><typeRef>number</typeRef></itemDefinition>`
	file = definitions(tC, input("n", "number"), input("m", "number"), input("s", "string"), input("f", "boolean"),
		input("u", ""), input("l", "tL"), input("c", "tC"), input("net-price", "number"),
		knowledge("g", []string{"n", "m"}, literal("n * 2 - m")))
	return file, text, rows
}

// requests are the inputs that each text is asked with, and the same as the evaluator's values.
var requests = []struct {
	text   string
	values evaluator
}{
	{`{"n":3,"m":-2,"s":"a","f":true,"u":7,"l":[1,7],"c":{"x":3,"y":"b"},"net_price":9}`, evaluator{"n": int64(3),
		"m": int64(-2), "s": "a", "f": true, "u": int64(7), "l": []interface{}{int64(1), int64(7)},
		"c": context{"x": int64(3), "y": "b"}, "net - price": int64(9)}},
	{`{"n":0,"m":7,"s":"","f":false,"u":"a","l":[],"c":{"x":1},"net_price":-1}`, evaluator{"n": int64(0), "m": int64(7),
		"s": "", "f": false, "u": "a", "l": []interface{}{}, "c": context{"x": int64(1)}, "net - price": int64(-1)}},
	{`{"u":true}`, evaluator{"u": true}},
	{`{"n":7,"u":[7],"s":"b"}`, evaluator{"n": int64(7), "u": []interface{}{int64(7)}, "s": "b"}},
}

// scopeOfFuzzed returns the names that the texts may use.
func scopeOfFuzzed() *feel.Scope {
	return feel.NewScope(nil, "n", "m", "s", "f", "u", "l", "c", "net-price", "g")
}

// FuzzTranslation makes texts from bytes and checks the engine's answers to their translation against the tests'
// evaluator. A refused text is fine if its places are reported.
func FuzzTranslation(f *testing.F) {
	state := uint32(1)
	for i := 0; i < 300; i++ {
		seed := make([]byte, 40)
		for j := range seed {
			state = state*1664525 + 1013904223
			seed[j] = byte(state >> 24)
		}
		f.Add(seed)
	}
	d := startDesk(f)
	f.Fuzz(func(t *testing.T, bytes []byte) {
		m := &maker{bytes: bytes}
		file, text, rows := fuzzed(m)
		d.t = t
		checkText(t, d, file, text)
		checkTable(t, d, file, rows)
	})
}

// withDecision puts a decision d of some logic into a fuzzed file.
func withDecision(file, logic string) string {
	d := decision("d", "", logic, "n", "m", "s", "f", "u", "l", "c", "net-price", "k:g")
	return strings.Replace(file, "</definitions>", d+"</definitions>", 1)
}

// translated returns the model of a file; nil if it is refused, after a check of the places.
func translated(t *testing.T, file string) *profile.Result {
	t.Helper()
	read, err := dmn.Read("test.dmn", strings.NewReader(file))
	if err != nil {
		t.Fatal(err)
	}
	result, refusals := profile.Import([]*dmn.File{read}, profile.Options{})
	for _, r := range refusals {
		if r.Line < 1 || r.Why == "" {
			t.Errorf("a refusal without a place: %+v", r)
		}
	}
	if result == nil && len(refusals) == 0 {
		t.Error("neither a result nor a refusal")
	}
	return result
}

func checkText(t *testing.T, d *desk, file, text string) {
	result := translated(t, withDecision(file, literal(text)))
	if result == nil {
		return
	}
	node, fault := feel.Expression(text, scopeOfFuzzed(), nil)
	if fault != nil {
		t.Fatalf("%s is translated and not read: %v", text, fault)
	}
	d.model(result)
	for _, request := range requests {
		got, due := d.ask("d", request.text), jsonOf(request.values.value(node))
		if got != due && !strings.Contains(got, `"fault":"limit"`) {
			t.Errorf("%s of %s: %s is due, and %s came from %s", text, request.text, due, got, logicOf(t, result, "d"))
		}
	}
}

func checkTable(t *testing.T, d *desk, file string, rows [][]string) {
	columns := []column{{text: "n", of: "number"}, {text: "s", of: "string"}}
	result := translated(t, withDecision(file, table(`hitPolicy="COLLECT"`, columns, []column{{text: "r"}}, rows...)))
	if result == nil {
		return
	}
	d.model(result)
	for _, request := range requests {
		var due interface{}
		var hits []interface{}
		for _, row := range rows {
			if hit, gives := ruleOf(t, request.values, row); hit {
				hits = append(hits, gives)
				due = hits
			}
		}
		got := d.ask("d", request.text)
		if got != jsonOf(due) && !strings.Contains(got, `"fault":"limit"`) {
			t.Errorf("%q of %s: %s is due, and %s came from %s", rows, request.text, jsonOf(due), got, logicOf(t, result, "d"))
		}
	}
}

// ruleOf reports whether a row hits, and what it gives.
func ruleOf(t *testing.T, values evaluator, row []string) (hit bool, gives interface{}) {
	t.Helper()
	hit = true
	for i, name := range []string{"n", "s"} {
		nodes, fault := feel.Tests(row[i], scopeOfFuzzed(), nil)
		if fault != nil {
			t.Fatal(fmt.Errorf("%s is translated and not read: %w", row[i], fault))
		}
		hit = hit && values.anyTest(nodes, values[name]) == true
	}
	node, fault := feel.Expression(row[2], scopeOfFuzzed(), nil)
	if fault != nil {
		t.Fatal(fmt.Errorf("%s is translated and not read: %w", row[2], fault))
	}
	return hit, values.value(node)
}
