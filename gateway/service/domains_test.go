package service

import (
	"bytes"
	"encoding/json"
	"fmt"
	"net/http"
	"os/exec"
	"strings"
	"testing"
	"time"

	"gateway/domain"
	"gateway/domain/domaintest"
)

// declared is the model of person with other domains, and c among its inputs: what the types of a file don't say.
func declared(t *testing.T, domains string) string {
	t.Helper()
	var read map[string]json.RawMessage
	if err := json.Unmarshal([]byte(person), &read); err != nil {
		t.Fatal(err)
	}
	read["domains"] = json.RawMessage(domains)
	text, err := plainJSON(read)
	if err != nil {
		t.Fatal(err)
	}
	return string(text)
}

// An input or a component that lies outside of its domain is refused, with its place and what is allowed.
func TestDomains(t *testing.T) {
	model := declared(t, `{"The_one":"not(null)","The_one.Home.city":"[\"A\"..\"M\"]","The_one.Home.zip":"\"1\", \"2\", null",`+
		`"The_one.Net_pay":"[1..9], >= 100","c":"< 5, [10..20), null"}`)
	for _, options := range []Options{{}, {Lenient: true}} {
		r := serve(t, model, options)
		for _, it := range []struct {
			body   string
			status int
			due    string
		}{
			{`{"The one":{"Net pay":9,"Home":{"city":"Bonn"}},"c":4}`, 200, `{"result":[9,"Bonn"]}`},
			{`{"The one":{"Net pay":100,"Home":{"city":"M","zip":null}},"c":null}`, 200, `{"result":[100,"M"]}`},
			{`{"The one":{"Net pay":10,"Home":{"city":"Bonn"}}}`, 422, `"detail":"10 is not allowed: it has to be from 1 to 9 or at least 100","request":`},
			{`{"The one":{"Net pay":10,"Home":{"city":"Bonn"}}}`, 422, `"pointer":"/The one/Net pay"`},
			{`{"The_one":{"Net_pay":10,"Home":{"city":"Bonn"}}}`, 422, `"pointer":"/The one/Net pay"`},
			{`{"The one":{"Net pay":9,"Home":{"city":"Mainz"}}}`, 422, `"detail":"\"Mainz\" is not allowed: it has to be from \"A\" to \"M\""`},
			{`{"The one":{"Net pay":9,"Home":{"city":"Mainz"}}}`, 422, `"pointer":"/The one/Home/city"`},
			{`{"The one":{"Net pay":9,"Home":{"city":"\u004dainz"}}}`, 422, `"pointer":"/The one/Home/city"`},
			{`{"The one":{"Net pay":9,"Home":{"city":"Bonn"}},"c":5}`, 422, `"detail":"5 is not allowed: it has to be less than 5, at least 10 and less than 20 or null"`},
			{`{"The one":{"Net pay":9,"Home":{"city":"Bonn"}},"c":"x"}`, 422, `"pointer":"/c"`},
			{`{"The one":{"Net pay":9,"Home":{"city":"Bonn"}},"c":20,"c":19}`, 200, `{"result":[9,"Bonn"]}`},
			{`{"The one":{"Net pay":9,"Home":{"city":"Bonn"}},"c":19,"c":20}`, 422, `"detail":"20 is not allowed`},
			{`[{"The one":{"Net pay":9,"Home":{"city":"Bonn"}}},{"The one":{"Net pay":10,"Home":{"city":"Bonn"}}}]`, 200,
				`[{"result":[9,"Bonn"]},{"type":"/problems/value","title":"A value is not taken","status":422,"detail":"10 is not allowed`},
		} {
			if status, text, _ := send(t, "POST", r.url+"/v1/services/s", it.body); status != it.status || !strings.Contains(text, it.due) {
				t.Errorf("%s: %d %s, and %s is due", it.body, status, text, it.due)
			}
		}
		// What is missing or null is for what is required to refuse.
		status, text, _ := send(t, "POST", r.url+"/v1/services/s", `{"The one":{"Net pay":null,"Home":{}},"c":4}`)
		if isRefused := strings.Contains(text, `\"The one.Home.city\" is missing`); isRefused == options.Lenient || status != 200 == options.Lenient {
			t.Errorf("lenient %v: %d %s", options.Lenient, status, text)
		}
		r.stop(t)
	}
}

// Numbers with decimals, dates and durations are worded as callers write them.
func TestCountedDomains(t *testing.T) {
	const model = `{"model":{"inputs":["pay","day","time","of"],"decisions":[{"name":"d","needs":["pay","day","time","of"],"expr":"[1]"}],` +
		`"services":[{"name":"s","outputs":["d"],"encapsulated":[],"inputDecisions":[],"inputData":["pay","day","time","of"]}]},"names":{"of":"of it"},` +
		`"types":{"pay":{"type":["number","null"],"multipleOf":0.01},"day":{"type":["string","null"],"format":"date"},` +
		`"time":{"type":["string","null"],"format":"duration","unit":"second"},` +
		`"of":{"type":["object","null"],"properties":{"rate":{"type":["number","null"],"multipleOf":0.001},"kind":{"type":["string","null"]}}}},` +
		`"domains":{"pay":"[1000..1200], >= 500050, null","day":"[737425..737456), null","time":"[60..86400), null","of.rate":"< 1500, null"},"places":{}}`
	r := serve(t, model, Options{})
	defer r.stop(t)
	for _, it := range []struct{ body, due string }{
		{`{"pay":12,"day":"2020-01-01","time":"PT1M","of it":{"rate":1.499}}`, `{"result":[1]}`},
		{`{"pay":10.00}`, `{"result":[1]}`},
		{`{"pay":1.1e1}`, `{"result":[1]}`},
		{`{"pay":12.01}`, `"detail":"12.01 is not allowed: it has to be from 10 to 12, at least 5000.5 or null"`},
		{`{"pay":1200}`, `"detail":"1200 is not allowed: it has to be from 10 to 12, at least 5000.5 or null"`},
		{`{"pay":5000.5}`, `{"result":[1]}`},
		{`{"day":"2020-02-01"}`, `"detail":"\"2020-02-01\" is not allowed: it has to be at least \"2020-01-01\" and less than \"2020-02-01\" or null"`},
		{`{"day":"2020-01-31"}`, `{"result":[1]}`},
		{`{"time":"PT59S"}`, `"detail":"\"PT59S\" is not allowed: it has to be at least \"PT1M\" and less than \"P1D\" or null"`},
		{`{"time":"PT59.5S"}`, `"pointer":"/time"`},
		{`{"of it":{"rate":1.5,"kind":"x"}}`, `"detail":"1.5 is not allowed: it has to be less than 1.5 or null"`},
		{`{"of it":{"rate":1.5,"kind":"x"}}`, `"pointer":"/of it/rate"`},
		{`{"of it":{"rate":null}}`, `{"result":[1]}`},
		{`{"of it":{"rate":1.25,"kind":"x"}}`, `{"result":[1]}`},
	} {
		if _, text, _ := send(t, "POST", r.url+"/v1/services/s", it.body); !strings.Contains(text, it.due) {
			t.Errorf("%s: %s, and %s is due", it.body, text, it.due)
		}
	}
}

// The examples of OpenAPI lie in the domains, as callers write them.
func TestExamplesOfDomains(t *testing.T) {
	const model = `{"model":{"inputs":["pay","day","of","kind","n"],"decisions":[{"name":"d","needs":["pay","day","of","kind","n"],"expr":"[1]"}],` +
		`"services":[{"name":"s","outputs":["d"],"encapsulated":[],"inputDecisions":[],"inputData":["pay","day","of","kind","n"]}]},"names":{"rate":"the rate"},` +
		`"types":{"pay":{"type":["number","null"],"multipleOf":0.01},"day":{"type":["string","null"],"format":"date"},"n":{"type":["integer","null"]},` +
		`"of":{"type":["object","null"],"properties":{"rate":{"type":["number","null"],"multipleOf":0.001}}}},` +
		`"domains":{"pay":"> 150","day":"[737425..737456)","of":"not(null)","of.rate":"[1500..1600]","kind":"> \"b\"","n":">= 0"},"places":{}}`
	r := serve(t, model, Options{})
	defer r.stop(t)
	_, text, _ := send(t, "GET", r.url+"/openapi.json", "")
	const due = `{"summary":"One request","value":{"day":"2020-01-01","kind":"text","n":0,"of":{"the rate":1.5},"pay":2.5}}`
	if !strings.Contains(compact(t, text), due) {
		t.Errorf("%s, and %s is due", text, due)
	}
	const one = `{"day":"2020-01-01","kind":"text","n":0,"of":{"the rate":1.5},"pay":2.5}`
	if status, text, _ := send(t, "POST", r.url+"/v1/services/s", one); status != 200 {
		t.Errorf("%d %s", status, text)
	}
}

// A model in JSON may have domains without types. They decide too: the sum has them. Those that can't be read are refused.
func TestWrittenDomains(t *testing.T) {
	beside := func(domains string) string { return `{"model":` + adding(1) + `,"domains":` + domains + `}` }
	r := serve(t, beside(`{"a":"[0..120]","a.b":"5, null","q":"no domain","b":"[1..2]"}`), Options{})
	for _, it := range []struct{ body, due string }{
		{`{"a":5}`, `{"result":6}`}, {`{"a":121}`, `"detail":"121 is not allowed: it has to be from 0 to 120"`},
		{`{"a":null}`, `"detail":"\"a\" is null, and it has to be from 0 to 120"`}, {`{}`, `"detail":"\"a\" is missing, and it has to be from 0 to 120"`},
		{`{}`, `"pointer":"/a"`}, {`{"a":"x"}`, `"pointer":"/a"`}, {`{"a":{"b":5}}`, `"pointer":"/a"`}, {`{"a":5,"b":7}`, `{"result":6}`},
		{`{"a":5,"q":7}`, `{"result":6}`}, {`{"a":null,"a":5}`, `{"result":6}`}, {`{"a":5,"a":null}`, `"detail":"\"a\" is null`},
		{`[{},{"a":5}]`, `[{"type":"/problems/value","title":"A value is not taken","status":422,"detail":"\"a\" is missing`},
	} {
		if _, text, _ := send(t, "POST", r.url+"/v1/services/s", it.body); !strings.Contains(text, it.due) {
			t.Errorf("%s: %s, and %s is due", it.body, text, it.due)
		}
	}
	if status, text, _ := send(t, "POST", r.url+"/v1/explain/s", `{}`); status != 200 {
		t.Errorf("a trial without an input: %d %s", status, text)
	}
	status, text, _ := send(t, "PUT", r.url+"/v1/model", beside(`{"a":"[0..q]"}`))
	if status != 422 || !strings.Contains(text, `"fault":"domain"`) || !strings.Contains(text, `"pointer":"/domains/a"`) ||
		!strings.Contains(text, `constants alone are taken`) {
		t.Errorf("a name in a domain: %d %s", status, text)
	}
	if status, text, _ := send(t, "PUT", r.url+"/v1/model", beside(`{"a.":"5"}`)); status != 422 || !strings.Contains(text, `"pointer":"/domains/a."`) {
		t.Errorf("a path with an empty part: %d %s", status, text)
	}
	r.stop(t)
	sums := map[string]bool{}
	for _, text := range []string{adding(1), beside(`{}`), beside(`{"a":"[0..120]"}`), beside(`{"a":"[0..121]"}`)} {
		source, err := ReadSource([]byte(text))
		if err != nil {
			t.Fatal(err)
		}
		sums[source.Sum()] = true
	}
	if len(sums) != 3 {
		t.Errorf("%d sums of three", len(sums))
	}
}

// How many domains are drawn, and values for each.
const (
	drawnDomains = 300
	drawnValues  = 28
)

// Drawn values are taken over HTTP if the engine says that they lie in their drawn domains.
func TestDrawnDomains(t *testing.T) {
	seed := time.Now().UnixNano()
	draw := domaintest.New(seed)
	type object = map[string]any
	var inputs []string
	var decisions, services []object
	domains, values := object{}, make([][]string, drawnDomains)
	for len(inputs) < drawnDomains {
		text := draw.Domain()
		if _, is := domain.Read(text); !is {
			continue
		}
		input, service := fmt.Sprintf("x%d", len(inputs)), fmt.Sprintf("s%d", len(inputs))
		for len(values[len(inputs)]) < drawnValues {
			values[len(inputs)] = append(values[len(inputs)], draw.Value(2))
		}
		inputs, domains[input] = append(inputs, input), text
		decisions = append(decisions, object{"name": service, "needs": []string{input}, "expr": object{"table": object{"hit": "F", "inputs": []string{input},
			"outputs": []object{{"name": "o"}}, "rules": []object{{"when": []string{text}, "then": []string{`"in"`}}}}}})
		services = append(services, object{"name": service, "outputs": []string{service}, "encapsulated": []string{}, "inputDecisions": []string{},
			"inputData": []string{input}})
	}
	model := object{"inputs": inputs, "decisions": decisions, "services": services}
	whole, err := plainJSON(object{"model": model, "domains": domains})
	alone, failed := plainJSON(object{"model": model})
	if err != nil || failed != nil {
		t.Fatal(err, failed)
	}
	isIn := drawnByEngine(t, alone, values)
	r := serve(t, string(whole), Options{})
	defer r.stop(t)
	refused := 0
	for at := range inputs {
		requests := make([]string, drawnValues)
		for n, value := range values[at] {
			requests[n] = fmt.Sprintf(`{"x%d":%s}`, at, value)
		}
		_, text, _ := send(t, "POST", fmt.Sprintf("%s/v1/services/s%d", r.url, at), "["+strings.Join(requests, ",")+"]")
		var answers []struct {
			Status          int
			Pointer, Detail string
			Result          any
		}
		if err := json.Unmarshal([]byte(text), &answers); err != nil || len(answers) != drawnValues {
			t.Fatalf("%v: %s", err, text)
		}
		for n, answer := range answers {
			isDue, why := isIn[at*drawnValues+n], " is not allowed: it has to be "
			if values[at][n] == "null" {
				why = " is null, and it has to be "
			}
			isRefused := answer.Status == http.StatusUnprocessableEntity && answer.Pointer == fmt.Sprintf("/x%d", at) && strings.Contains(answer.Detail, why)
			if isRefused == isDue || isIn[at*drawnValues+n] && answer.Result != "in" {
				t.Errorf("seed %d: %s in %s: %+v, and %v is due", seed, values[at][n], domains[inputs[at]], answer, isDue)
			}
			if isRefused {
				refused++
			}
		}
	}
	if refused < 1_000 || refused > drawnDomains*drawnValues-1_000 {
		t.Errorf("seed %d: %d were refused", seed, refused)
	}
}

// drawnByEngine asks an engine about each value, and returns which lie in their domains.
func drawnByEngine(t *testing.T, model []byte, values [][]string) []bool {
	t.Helper()
	input := append(append([]byte(nil), model...), '\n')
	for at, some := range values {
		for _, value := range some {
			input = append(input, fmt.Sprintf(`{"client":"c","service":"s%d","inputs":{"x%[1]d":%s}}`+"\n", at, value)...)
		}
	}
	run := exec.Command(desk(), "serve")
	run.Stdin = bytes.NewReader(input)
	output, err := run.Output()
	if err != nil {
		t.Fatal(err)
	}
	isIn, found := make([]bool, drawnDomains*drawnValues), 0
	for _, line := range bytes.Split(bytes.TrimSpace(output), []byte("\n")) {
		var answer struct {
			Ticket *int
			Result any
		}
		if json.Unmarshal(line, &answer) != nil {
			t.Fatalf("%s", line)
		}
		if answer.Ticket != nil {
			isIn[*answer.Ticket], found = answer.Result == "in", found+1
		}
	}
	if found != len(isIn) {
		t.Fatalf("%d answers of %d", found, len(isIn))
	}
	return isIn
}
