package service

import (
	"encoding/json"
	"fmt"
	"os"
	"path/filepath"
	"strings"
	"testing"
)

// person is what desk import writes for a file with the input "The one" of a structure: Net pay, and Home with city and zip.
const person = `{"model":{"inputs":["The_one","c"],"decisions":[{"name":"d","needs":["The_one"],"expr":"[The_one.Net_pay, The_one.Home.city]"}],` +
	`"services":[{"name":"s","outputs":["d"],"encapsulated":[],"inputDecisions":[],"inputData":["The_one","c"]}]},` +
	`"names":{"The_one":"The one","Net_pay":"Net pay","Home":"Home"},"types":{"c":{},"The_one":{"type":["object","null"],"properties":{` +
	`"Net_pay":{"type":["integer","null"],"minimum":0},"Home":{"type":["object","null"],"properties":{"city":{"type":["string","null"]},` +
	`"zip":{"type":["string","null"],"enum":["1","2",null]}}}}}},` +
	`"domains":{"The_one":"not(null)","The_one.Home":"not(null)","The_one.Home.city":">= \"\"","The_one.Home.zip":"\"1\", \"2\", null",` +
	`"The_one.Net_pay":">= 0"},"required":["The_one","The_one.Home","The_one.Home.city","The_one.Net_pay"],"places":{}}`

// Components that a file requires have to be there, and not null, if a caller asks for a decision. Trials may leave them out.
func TestRequiredComponents(t *testing.T) {
	const why = `, and the file declares its type; its allowed values may list null, or desk import may have --nullable"`
	r := serve(t, person, Options{})
	for _, it := range []struct {
		path, body string
		status     int
		due        string
	}{
		{"/v1/services/s", `{"The one":{"Net pay":1,"Home":{"city":"Bonn"}}}`, 200, `{"result":[1,"Bonn"]}`},
		{"/v1/services/s", `{"The_one":{"Net_pay":1,"Home":{"zip":null,"city":"Bonn","more":null}}}`, 200, `{"result":[1,"Bonn"]}`},
		{"/v1/services/s", `{"The one":{"Home":{"city":"Bonn"}}}`, 422, `"detail":"\"The one.Net pay\" is missing` + why},
		{"/v1/services/s", `{"The one":{"Home":{"city":"Bonn"}}}`, 422, `"pointer":"/The one/Net pay"`},
		{"/v1/services/s", `{"The one":{"Net pay":null,"Home":{"city":"Bonn"}}}`, 422, `"detail":"\"The one.Net pay\" is null` + why},
		{"/v1/services/s", `{"The one":{"Net pay":1,"Home":{}}}`, 422, `"detail":"\"The one.Home.city\" is missing` + why},
		{"/v1/services/s", `{"The one":{"Net pay":1,"Home":{"city": null }}}`, 422, `"pointer":"/The one/Home/city"`},
		{"/v1/services/s", `{"The one":{"Net pay":1}}`, 422, `"detail":"\"The one.Home\" is missing` + why},
		{"/v1/services/s", `{"The one":{"Net pay":1,"Home":null}}`, 422, `"detail":"\"The one.Home\" is null` + why},
		{"/v1/services/s", `{"The one":{"Net pay":1,"Home":"Bonn"}}`, 422, `is not of the type: object or null"`},
		{"/v1/services/s", `{"The one":{"Net pay":-1,"Home":{"city":"Bonn"}}}`, 422, `"detail":"-1 is not allowed: it has to be at least 0"`},
		{"/v1/services/s", `{"The one":{"Net pay":1,"Home":{"city":"Bonn","zip":"3"}}}`, 422, `"pointer":"/The one/Home/zip"`},
		{"/v1/services/s", `{"The one":null}`, 422, `"detail":"\"The one\" is null` + why},
		{"/v1/services/s", `{}`, 422, `"detail":"\"The one\" is missing` + why},
		{"/v1/services/s", `{"The one":{"Net pay":1,"Home":null},"The one":{"Net pay":2,"Home":{"city":"Kiel"}}}`, 200, `{"result":[2,"Kiel"]}`},
		{"/v1/services/s", `{"The one":{"Net pay":1,"Home":{"city":"\u0042onn"}}}`, 200, `{"result":[1,"Bonn"]}`},
		{"/v1/services/s", `[{"The one":{"Net pay":1,"Home":{"city":"Bonn"}}},{"The one":{}}]`, 200, `[{"result":[1,"Bonn"]},{"type":"/problems/value"`},
		{"/v1/explain/s", `{"The one":{}}`, 200, `{"result":[null,null]`},
		{"/v1/explain/s", `{}`, 200, `{"result":[null,null]`},
	} {
		if status, text, _ := send(t, "POST", r.url+it.path, it.body); status != it.status || !strings.Contains(text, it.due) {
			t.Errorf("%s %s: %d %s, and %s is due", it.path, it.body, status, text, it.due)
		}
	}
	_, text, _ := send(t, "GET", r.url+"/openapi.json", "")
	for _, due := range []string{
		`"properties":{"Home":{"properties":{"city":{"type":"string"},"zip":{"enum":["1","2",null],"nullable":true,"type":"string"}},"required":["city"],"type":"object"},` +
			`"Net pay":{"format":"int64","minimum":0,"type":"integer"}},"required":["Home","Net pay"],"type":"object"}`,
	} {
		if !strings.Contains(compact(t, text), due) {
			t.Errorf("%s, and %s is due", text, due)
		}
	}
	r.stop(t)
	r = serve(t, person, Options{Lenient: true})
	defer r.stop(t)
	for _, body := range []string{`{}`, `{"The one":{}}`, `{"The one":{"Net pay":null,"Home":null}}`, `{"The one":{"Home":{}}}`} {
		if status, text, _ := send(t, "POST", r.url+"/v1/services/s", body); status != 200 || !strings.Contains(text, "[null,null]") {
			t.Errorf("leniently: %s: %d %s", body, status, text)
		}
	}
}

// compact returns a JSON text without blanks.
func compact(t *testing.T, text string) string {
	t.Helper()
	var value any
	if err := json.Unmarshal([]byte(text), &value); err != nil {
		t.Fatal(err)
	}
	made, err := plainJSON(value)
	if err != nil {
		t.Fatal(err)
	}
	return string(made)
}

// Numbers with decimals are required likewise, and what is required decides.
func TestCountedComponents(t *testing.T) {
	counted := strings.Replace(person, `"Net_pay":{"type":["integer","null"],"minimum":0}`, `"Net_pay":{"type":["number","null"],"multipleOf":0.01}`, 1)
	counted = strings.Replace(counted, `"types":{`, `"types":{"d":{"type":["array","null"],"items":{"type":["number","null"],"multipleOf":0.01}},`, 1)
	r := serve(t, counted, Options{})
	defer r.stop(t)
	for _, it := range [][2]string{
		{`{"The one":{"Net pay":1.5,"Home":{"city":"Bonn"}}}`, `{"result":[1.5,"Bonn"]}`},
		{`{"The one":{"Net pay":null,"Home":{"city":"Bonn"}}}`, `"pointer":"/The one/Net pay"`},
		{`{"The one":{"Net pay":1.5,"Home":{}}}`, `"pointer":"/The one/Home/city"`},
	} {
		if _, text, _ := send(t, "POST", r.url+"/v1/services/s", it[0]); !strings.Contains(text, it[1]) {
			t.Errorf("%s: %s, and %s is due", it[0], text, it[1])
		}
	}
	some, _ := ReadSource([]byte(person))
	fewer, _ := ReadSource([]byte(strings.Replace(person, `,"The_one.Net_pay"]`, `]`, 1)))
	if some.Sum() == fewer.Sum() {
		t.Error("a component that is required makes no other sum")
	}
}

// A component that is required in a JSON text makes its structures required too; those of no parameter are required of nobody.
func TestWrittenComponents(t *testing.T) {
	for required, due := range map[string]string{
		`["The_one.Home.city"]`:       `"detail":"\"The one\" is missing`,
		`["The_one.Home","nobody.x"]`: `"detail":"\"The one\" is missing`,
		`["nobody","nobody.x","c"]`:   `"detail":"\"c\" is missing`,
		`["nobody.x"]`:                `{"result":[null,null]}`,
		`["","."]`:                    `{"result":[null,null]}`,
	} {
		r := serve(t, person[:strings.Index(person, `"domains"`)]+`"required":`+required+`,"places":{}}`, Options{})
		if _, text, _ := send(t, "POST", r.url+"/v1/services/s", `{}`); !strings.Contains(text, due) {
			t.Errorf("%s: %s, and %s is due", required, text, due)
		}
		r.stop(t)
	}
}

// Thousands of components are required, some of them many levels down.
func TestManyRequiredComponents(t *testing.T) {
	const wide, levels = 5_000, 20
	properties, members, required := make([]string, wide), make([]string, wide), []string{}
	way := "a" + strings.Repeat(".n", levels-1)
	for at := range properties {
		properties[at], members[at] = fmt.Sprintf(`"c%d":{"type":["integer","null"]}`, at), fmt.Sprintf(`"c%d":%[1]d`, at)
		required = append(required, fmt.Sprintf(`"%s.c%d"`, way, at))
	}
	model := `{"model":{"inputs":["a"],"decisions":[{"name":"d","needs":["a"],"expr":"` + way + `.c4999"}],"services":[{"name":"s","outputs":["d"],` +
		`"encapsulated":[],"inputDecisions":[],"inputData":["a"]}]},"types":{"a":` + strings.Repeat(`{"type":["object","null"],"properties":{"n":`, levels-1) +
		`{"type":["object","null"],"properties":{` + strings.Join(properties, ",") + `}}` + strings.Repeat(`}}`, levels-1) + `},"required":["a",` +
		strings.Join(required, ",") + `]}`
	r := serve(t, model, Options{})
	defer r.stop(t)
	body := func(members []string) string {
		return `{"a":` + strings.Repeat(`{"n":`, levels-1) + `{` + strings.Join(members, ",") + strings.Repeat(`}`, levels) + `}`
	}
	for _, it := range []struct{ body, due string }{
		{body(members), `{"result":4999}`},
		{body(members[:wide-1]), `c4999\" is missing`},
		{body(members[1:]), `c0\" is missing`},
	} {
		if _, text, _ := send(t, "POST", r.url+"/v1/services/s", it.body); !strings.Contains(text, it.due) {
			t.Errorf("%s, and %s is due", text, it.due)
		}
	}
}

// An engine gets the domains of components.
func TestDomainsForEngines(t *testing.T) {
	real, err := filepath.Abs(desk())
	if err != nil {
		t.Fatal(err)
	}
	folder := t.TempDir()
	path := filepath.Join(folder, "engine")
	script := fmt.Sprintf(`#!/bin/sh
case "$*" in
"check --json --tables") exec tee %s/came | sed 's/.*/{"lawful":true}/' ;;
*) exec %q "$@" ;;
esac
`, folder, real)
	if err := os.WriteFile(path, []byte(script), 0o755); err != nil {
		t.Fatal(err)
	}
	r := serve(t, person, Options{Engine: path, Processes: 1})
	defer r.stop(t)
	status, text, _ := send(t, "GET", r.url+"/v1/tables", "")
	came, err := os.ReadFile(filepath.Join(folder, "came"))
	if err != nil || status != 200 || !strings.Contains(string(came), `"The_one.Net_pay":">= 0"`) {
		t.Errorf("%d %s: %v %s", status, text, err, came)
	}
}
