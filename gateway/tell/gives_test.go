package tell

import (
	"bytes"
	"context"
	"encoding/json"
	"fmt"
	"math"
	"reflect"
	"strings"
	"testing"
)

const (
	lowest  = -math.MaxInt64
	highest = math.MaxInt64
)

func numbersFrom(low, high int64) *[2]int64 { return &[2]int64{low, high} }

// TestOutcomesInWords has rows worked out by hand.
func TestOutcomesInWords(t *testing.T) {
	anyText, oneText := texts{any: true}, texts{few: []string{"low"}}
	all := outcomes{true, true, true, numbersFrom(lowest, highest), anyText, true, true, false}
	given, limit, both := all, all, all
	given.Null, limit.Limit, both.Null, both.Limit = false, true, false, true
	less := all
	less.Numbers = numbersFrom(1, highest)
	few := all
	few.Texts = oneText
	for due, it := range map[string]outcomes{
		"nothing":                   {},
		"null":                      {Null: true},
		"limit":                     {Limit: true},
		"null or limit":             {Null: true, Limit: true},
		"text or null":              {Texts: anyText, Null: true},
		`"low"`:                     {Texts: oneText},
		`"low" or null`:             {Texts: oneText, Null: true},
		`"low", "middle" or "high"`: {Texts: texts{few: []string{"low", "middle", "high"}}},
		`1 to 2, "", "a \"b\" or c", true or limit`:               {Numbers: numbersFrom(1, 2), Texts: texts{few: []string{"", `a "b" or c`}}, True: true, Limit: true},
		`a number, "low", true, false, a list, a context or null`: few,
		"500 to 249250":                {Numbers: numbersFrom(500, 249250)},
		"-5 to -1 or null":             {Numbers: numbersFrom(-5, -1), Null: true},
		"7":                            {Numbers: numbersFrom(7, 7)},
		"a number or null":             {Numbers: numbersFrom(lowest+1, highest), Null: true},
		"a number, null or limit":      {Numbers: numbersFrom(lowest, highest), Null: true, Limit: true},
		">= 6 or limit":                {Numbers: numbersFrom(6, highest), Limit: true},
		"<= 1440":                      {Numbers: numbersFrom(lowest+1, 1440)},
		"9223372036854775807":          {Numbers: numbersFrom(highest, highest)},
		"true or false":                {True: true, False: true},
		"true, false or null":          {True: true, False: true, Null: true},
		"1 to 2, text or a list":       {Numbers: numbersFrom(1, 2), Texts: anyText, Lists: true},
		"a context":                    {Contexts: true},
		"any value":                    all,
		"any value or limit":           limit,
		"any value but null":           given,
		"any value but null, or limit": both,
		">= 8999999999999999999":       {Numbers: numbersFrom(noEnd-1, highest)},
		"a number":                     {Numbers: numbersFrom(-noEnd, noEnd)},
		"-8999999999999999999 to 0":    {Numbers: numbersFrom(1-noEnd, 0)},
		">= 1, text, true, false, a list, a context or null": less,
	} {
		if got := it.words(); got != due {
			t.Errorf("%+v: %q, and %q is due", it, got, due)
		}
	}
}

const (
	loan = `{"model":{"inputs":["age","kind"],"decisions":[{"name":"risk","needs":["kind"],"expr":"kind"},` +
		`{"name":"fee","needs":["age","risk"],"expr":"age + 1"},{"name":"idle","needs":[],"expr":"1"}],"services":[` +
		`{"name":"Loan","outputs":["fee"],"encapsulated":["risk"],"inputDecisions":[],"inputData":["age","kind"]},` +
		`{"name":"Risk","outputs":["risk"],"encapsulated":[],"inputDecisions":[],"inputData":["kind"]},` +
		`{"name":"Fee","outputs":["fee"],"encapsulated":[],"inputDecisions":["risk"],"inputData":["age"]}]},"domains":{"age":"[0..120]"}}`
	loanValid = `{"lawful":true,"inputs":["age","kind"],"decisions":[{"name":"risk","kind":"expression"},{"name":"fee","kind":"expression"},` +
		`{"name":"idle","kind":"expression"}],"services":[{"name":"Loan","parameters":["age","kind"]},{"name":"Risk","parameters":["kind"]},` +
		`{"name":"Fee","parameters":["risk","age"]}]}`
	text1 = `{"null":false,"true":false,"false":false,"numbers":null,"texts":["low","middle","high"],"lists":false,"contexts":false,"limit":false}`
	null1 = `{"null":true,"true":false,"false":false,"numbers":[1,121],"texts":false,"lists":false,"contexts":false,"limit":false}`
	fee1  = `{"null":false,"true":false,"false":false,"numbers":[1,121],"texts":false,"lists":false,"contexts":false,"limit":false}`
)

// loanGives are the lines about what the model's services can give.
var loanGives = []string{
	`{"service":"Loan","gives":` + null1 + `}`, `{"decision":"risk","service":"Loan","gives":` + text1 + `}`,
	`{"decision":"fee","service":"Loan","gives":` + null1 + `}`, `{"service":"Risk","gives":` + text1 + `}`,
	`{"decision":"risk","service":"Risk","gives":` + text1 + `}`, `{"service":"Fee","gives":` + fee1 + `}`,
	`{"decision":"fee","service":"Fee","gives":` + fee1 + `}`,
}

// checked checks a model with an engine that writes these lines.
func checked(t *testing.T, options CheckOptions, status int, input string, lines ...string) string {
	t.Helper()
	var out, errOut bytes.Buffer
	got, err := Check(context.Background(), engineThat(t, status, lines...), options, strings.NewReader(input), &out, &errOut)
	if err != nil || got != status || errOut.Len() > 0 {
		t.Fatalf("%d, %v: %s", got, err, errOut.String())
	}
	return out.String()
}

// TestGives words what each decision can give, and the services after.
func TestGives(t *testing.T) {
	lines := append([]string{loanValid}, loanGives...)
	const due = `lawful
inputs: age, kind
decisions:
  risk: "low", "middle" or "high" (expression)
  fee: 1 to 121 or null in Loan; 1 to 121 in Fee (expression)
  idle: not evaluated (expression)
services:
  Loan(age, kind): 1 to 121 or null
  Risk(kind): "low", "middle" or "high"
  Fee(risk, age): 1 to 121
`
	if got := checked(t, CheckOptions{Gives: true}, 0, loan, lines...); !strings.HasPrefix(got, due) {
		t.Errorf("%s, and %s is due", got, due)
	}
	got := checked(t, CheckOptions{Gives: true, Format: JSON}, 0, loan, lines...)
	if due := strings.Join(lines, "\n") + "\n"; !strings.HasPrefix(got, due) {
		t.Errorf("%s, and %s is due", got, due)
	}
	if got := checked(t, CheckOptions{}, 0, loan, loanValid); !strings.Contains(got, "  risk: expression\n") || !strings.Contains(got, "  Risk(kind)\n") {
		t.Errorf("not asked: %s", got)
	}
}

// TestGivesAsNotices has a notice for each service that can give null or break a limit, an error under --strict-null.
func TestGivesAsNotices(t *testing.T) {
	lines := append([]string{loanValid}, loanGives...)
	const place = ` title=gives-null::line 1, column 201: services[0] "Loan": can give 1 to 121 or null` + "\n"
	for _, it := range []struct {
		options CheckOptions
		status  int
		due     string
	}{{CheckOptions{Gives: true}, 0, "::notice" + place}, {CheckOptions{StrictNull: true}, 4, "::error" + place}} {
		it.options.Format = GitHub
		got := checked(t, it.options, it.status, loan, lines...)
		if strings.Count(got, "gives-null") != 1 || !strings.Contains(got, it.due) {
			t.Errorf("%s, and %s is due", got, it.due)
		}
	}
}

// TestGivesWords words what decisions can give, by name.
func TestGivesWords(t *testing.T) {
	var lines []json.RawMessage
	for _, line := range loanGives {
		lines = append(lines, json.RawMessage(line))
	}
	got, err := GivesWords(lines)
	if due := map[string]string{"risk": `"low", "middle" or "high"`, "fee": "1 to 121 or null in Loan; 1 to 121 in Fee"}; err != nil || !reflect.DeepEqual(got, due) {
		t.Errorf("%v: %q", err, got)
	}
	for _, line := range []string{`{"service":"s"}`, `{"service":"s","gives":{"texts":[1]}}`, `{"service":"s","gives":{"texts":"a"}}`} {
		if _, err := GivesWords([]json.RawMessage{json.RawMessage(line)}); err == nil {
			t.Errorf("%s is taken", line)
		}
	}
}

// TestStrictNullOfTables keeps findings about tables as warnings if only --strict-null refuses the model.
func TestStrictNullOfTables(t *testing.T) {
	const model = `{"inputs":["a"],"services":[],"decisions":[{"name":"d","needs":["a"],"expr":{"table":{"hit":"U","inputs":["a"],` +
		`"outputs":[{"name":"r"}],"rules":[{"when":["> 5"],"then":["1"]},{"when":["5..3"],"then":["1"]}]}}}]}`
	lines := []string{`{"lawful":true,"inputs":["a"],"decisions":[{"name":"d","kind":"table"}],"services":[]}`,
		`{"table":"/decisions/0/expr/table","complete":true,"asked":true,"words":true,"unique":true,"steps":1}`,
		`{"finding":"never","table":"/decisions/0/expr/table","rules":[1]}`}
	for _, it := range []struct {
		options CheckOptions
		due     string
	}{
		{CheckOptions{Tables: true, StrictNull: true}, "::warning title=table-never::"},
		{CheckOptions{Tables: true, Strict: true, StrictNull: true}, "::error title=table-never::"},
	} {
		it.options.Format = GitHub
		if got := checked(t, it.options, 4, strings.Replace(model, "5..3", "[5..3]", 1), lines...); !strings.Contains(got, it.due) {
			t.Errorf("%s, and %s is due", got, it.due)
		}
	}
}

// TestDomains words the places of bad declarations next to a model.
func TestDomains(t *testing.T) {
	const model = `{"inputs":["age","kind"],"decisions":[{"name":"d","needs":[],"expr":"1"}],"services":[]}`
	for _, it := range []struct{ domains, pointer, due string }{
		{`{"size":"5"}`, "/domains/size", `domains, "size": no input of the model`},
		{`{"agee":"5"}`, "/domains/agee", "domains, \"agee\": no input of the model\n    is it age?"},
		{`{"age.months":"5"}`, "/domains/age.months", "domains, \"age.months\": a path, and this engine takes domains of whole inputs\n    a domain of age is taken"},
		{`{"age.months":"5 <"}`, "/domains/age.months", "domains, \"age.months\": no unary tests: \"5 <\"\n    stops at "},
		{`{"age.months":"[0..limit]"}`, "/domains/age.months", `domains, "age.months": constants alone are taken: "[0..limit]"`},
		{`{"age.months":5}`, "/domains/age.months", `domains, "age.months": no text with unary tests`},
		{`{"age.":"5"}`, "/domains/age.", `domains, "age.": no path of an input: names with dots between them`},
		{`{"age..x":"5"}`, "/domains/age..x", `domains, "age..x": no path of an input`},
		{`{"age.1":"5"}`, "/domains/age.1", `domains, "age.1": no path of an input`},
		{`{"age.x.not":"5"}`, "/domains/age.x.not", `domains, "age.x.not": no path of an input`},
		{`{"agee.months":"5"}`, "/domains/agee.months", "domains, \"agee.months\": no input of the model\n    is it age?"},
		{`{"d.months":"5"}`, "/domains/d.months", `domains, "d.months": a decision, and only inputs have domains`},
		{`{".x":"5"}`, "/domains/.x", `domains, ".x": no input of the model`},
		{`{"d":"5"}`, "/domains/d", `domains, "d": a decision, and only inputs have domains`},
		{`{"age":5}`, "/domains/age", `domains, "age": no text with unary tests`},
		{`{"age":""}`, "/domains/age", "domains, \"age\": no unary tests: \"\"\n    stops at the end: "},
		{`{"age":"[0..120"}`, "/domains/age", "domains, \"age\": no unary tests: \"[0..120\"\n    stops at the end: "},
		{`{"age":"[0..limit]"}`, "/domains/age", "domains, \"age\": constants alone are taken: \"[0..limit]\"\n    \"limit\" is a name: a text stands in quotes"},
		{`{"age":"not(1, kind)"}`, "/domains/age", `domains, "age": constants alone are taken`},
		{`{"age":"5, [1, kind]"}`, "/domains/age", `domains, "age": constants alone are taken`},
		{`{"a/b~c\"d":"5"}`, `/domains/a~1b~0c"d`, `domains, "a/b~c\"d": no input of the model`},
		{`[]`, "/domains", `domains: no object: a domain is a text under the name of an input`},
		{`null`, "/domains", `domains: no object`},
	} {
		whole := `{"model":` + model + `,"domains":` + it.domains + `}`
		lines := []string{`{"fault":"domain"}`, `{"fault":"domain","pointer":` + quoted(it.pointer) + `}`}
		got := checked(t, CheckOptions{}, 3, whole, lines...)
		column := strings.LastIndex(whole, it.domains) + 1
		if it.pointer != "/domains" {
			column += strings.Index(it.domains, `":`) + 2
		}
		due := fmt.Sprintf("domain: a domain can't be taken\ndomain: 1 place\n  line 1, column %d: %s", column, it.due)
		if !strings.HasPrefix(got, due) {
			t.Errorf("%s: %s, and %s is due", it.domains, got, due)
		}
		got = checked(t, CheckOptions{Format: JSON}, 3, whole, lines...)
		if due := lines[0] + "\n" + `{"fault":"domain","pointer":` + quoted(it.pointer) + `,"place":`; !strings.HasPrefix(got, due) || strings.Count(got, "\n") != 2 {
			t.Errorf("%s: %s, and %s is due", it.domains, got, due)
		}
		got = checked(t, CheckOptions{Format: GitHub}, 3, whole, lines...)
		if !strings.HasPrefix(got, "::error title=fault-domain::line 1, column ") {
			t.Errorf("%s: %s", it.domains, got)
		}
	}
	got := checked(t, CheckOptions{}, 3, `{"model":`+model+`,"domains":{"x":"5"}}`, `{"fault":"domain"}`, `{"fault":"domain","pointer":"/domains/x"}`,
		`{"fault":"domain","more":50}`)
	if !strings.Contains(got, "domain: 51 places\n") || !strings.HasSuffix(got, "  and 50 more\n") {
		t.Errorf("many: %s", got)
	}
}

// TestManyGives reads lines about many services of many decisions, each with something else to give.
func TestManyGives(t *testing.T) {
	const services, decisions = 100, 1000
	facts := newGivesFacts()
	for service := 0; service < services; service++ {
		for decision := 0; decision < decisions; decision++ {
			line := fmt.Sprintf(`{"decision":"d%d","service":"s%d","gives":{"null":true,"numbers":[%d,%d],"texts":false}}`, decision, service,
				service, service+1)
			if err := facts.take([]byte(line)); err != nil {
				t.Fatal(err)
			}
		}
	}
	for decision := 0; decision < decisions; decision++ {
		if words := facts.decision(fmt.Sprintf("d%d", decision), "table"); strings.Count(words, ";") != services-1 {
			t.Fatal(words)
		}
	}
}
