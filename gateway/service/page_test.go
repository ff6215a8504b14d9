package service

import (
	"context"
	"encoding/json"
	"fmt"
	"os"
	"path/filepath"
	"strings"
	"testing"

	"gateway/engine"
)

// The page comes with a policy that lets nothing else be loaded or run.
func TestPage(t *testing.T) {
	r := serve(t, adding(1), Options{})
	defer r.stop(t)
	for _, it := range []struct {
		method, path, kind string
		status             int
	}{
		{"GET", "/", "text/html; charset=utf-8", 200},
		{"HEAD", "/", "text/html; charset=utf-8", 200},
		{"GET", "/page/app.js", "text/javascript; charset=utf-8", 200},
		{"GET", "/page/style.css", "text/css; charset=utf-8", 200},
		{"POST", "/", "text/plain; charset=utf-8", 405},
		{"GET", "/page/", "text/plain; charset=utf-8", 404},
		{"GET", "/page/other.js", "text/plain; charset=utf-8", 404},
		{"GET", "/page/files/app.js", "text/plain; charset=utf-8", 404},
		{"GET", "/other", "application/problem+json", 404},
	} {
		status, _, header := send(t, it.method, r.url+it.path, "")
		if status != it.status || header.Get("Content-Type") != it.kind {
			t.Errorf("%s %s: %d %s", it.method, it.path, status, header.Get("Content-Type"))
		}
		policy := header.Get("Content-Security-Policy")
		if it.status == 200 && (!strings.HasPrefix(policy, "default-src 'none'; ") || strings.Contains(policy, "unsafe")) {
			t.Errorf("%s: the policy is %q", it.path, policy)
		}
	}
}

// A checked model can be tried, and is not put in force. Requests to it are not journaled.
func TestCheckedModels(t *testing.T) {
	folder := t.TempDir()
	r := serve(t, adding(1), Options{Journal: folder})
	status, text, _ := send(t, "POST", r.url+"/v1/check", adding(2))
	var whole struct {
		SHA256   string
		Lawful   bool
		Findings []json.RawMessage
		Model    struct{ Inputs []string }
	}
	if err := json.Unmarshal([]byte(text), &whole); err != nil || status != 200 || !whole.Lawful || len(whole.Model.Inputs) != 2 {
		t.Fatalf("%d %s", status, text)
	}
	// Nothing needs the input b.
	if len(whole.Findings) != 1 || !strings.Contains(string(whole.Findings[0]), `"unneeded"`) {
		t.Errorf("the findings are %s", whole.Findings)
	}
	for _, it := range []struct {
		query, body, due string
		status           int
	}{
		{"s?model=" + whole.SHA256, `{"a":1}`, `{"result":3,"decisions":[{"name":"d","value":3}]}`, 200},
		{"s", `{"a":1}`, `{"result":2,"decisions":[{"name":"d","value":2}]}`, 200},
		{"s", `[{"a":1},{"a":2.5}]`, `[{"result":2,"decisions":[{"name":"d","value":2}]},{"type":"/problems/value"`, 200},
		{"s", `{"a":9223372036854775807}`, `{"type":"/problems/limit"`, 422},
		{"s", `{"a":1.5}`, `{"type":"/problems/value"`, 422},
		{"other", `{}`, `{"type":"/problems/service"`, 404},
		{"s?model=abc", `{}`, `{"type":"/problems/unkept"`, 404},
	} {
		if status, text, _ := send(t, "POST", r.url+"/v1/explain/"+it.query, it.body); status != it.status || !strings.HasPrefix(text, it.due) {
			t.Errorf("%s %s: %d %s", it.query, it.body, status, text)
		}
	}
	if _, text, _ := send(t, "POST", r.url+"/v1/services/s", `{"a":1}`, "X-Request-Id", "asked"); text != `{"result":2}` {
		t.Errorf("in force is another model: %s", text)
	}
	status, text, _ = send(t, "POST", r.url+"/v1/check", strings.Replace(adding(2), "a + 2", "a +", 1))
	if status != 200 || !strings.Contains(text, `"lawful":false,"fault":"expression","findings":[{"fault":"expression","pointer":"/decisions/0/expr"`) {
		t.Errorf("a model with a fault: %d %s", status, text)
	}
	if status, text, _ = send(t, "POST", r.url+"/v1/check", `{`); status != 400 {
		t.Errorf("half a model: %d %s", status, text)
	}
	r.stop(t)
	names, _ := filepath.Glob(filepath.Join(folder, "*.jsonl"))
	lines := 0
	for _, name := range names {
		text, err := os.ReadFile(name)
		if err != nil {
			t.Fatal(err)
		}
		lines += strings.Count(string(text), `"service":`)
	}
	if lines != 1 {
		t.Errorf("%d requests are in the journal, not 1", lines)
	}
}

// The parts of an explanation have the names of the file.
func TestNamedExplanations(t *testing.T) {
	model := `{"model":{"inputs":["a_b"],"decisions":[{"name":"d_e","needs":["a_b"],"expr":{"context":[{"name":"f_g","expr":"a_b"}]}}],` +
		`"services":[{"name":"s_t","outputs":["d_e"],"encapsulated":[],"inputDecisions":[],"inputData":["a_b"]}]},` +
		`"names":{"a_b":"a b","d_e":"d e","f_g":"f g","s_t":"s t"}}`
	r := serve(t, model, Options{})
	defer r.stop(t)
	due := `{"result":{"f g":4},"decisions":[{"entries":[{"name":"f g","value":4}],"name":"d e","value":{"f g":4}}]}`
	for _, path := range []string{"/v1/services/s%20t?explain=true", "/v1/explain/s%20t"} {
		if status, text, _ := send(t, "POST", r.url+path, `{"a b":4}`); status != 200 || text != due {
			t.Errorf("%s: %d %s", path, status, text)
		}
	}
}

// first returns a model of the service s, whose table has three rules, the first hit of which decides.
const first = `{"inputs":["a"],"decisions":[{"name":"d","needs":["a"],"expr":{"table":{"hit":"F","inputs":["a"],"outputs":` +
	`[{"name":"o"}],"rules":[{"when":["> 5"],"then":["\"many\""]},{"when":["> 3"],"then":["\"some\""]},{"when":["9"],"then":["a"]}]}}}],` +
	`"services":[{"name":"s","outputs":["d"],"encapsulated":[],"inputDecisions":[],"inputData":["a"]}]}`

func TestCoverage(t *testing.T) {
	r := serve(t, first, Options{})
	defer r.stop(t)
	body := `{"client":"x","service":"s","inputs":{"a":9}}
{"client":"x","close":true}

{"service":"s","inputs":{"a":4}}
{"a":1}
{"client":"y","service":"t","inputs":{"a":4}}
{"model":{}}
{"client":"y","service":"s","inputs":{"a":1.5}}
[1]
{"a":`
	status, text, _ := send(t, "POST", r.url+"/v1/coverage?service=s", body)
	var coverage struct {
		Tables map[string]struct {
			Asked, None int
			Hits        []int
		}
		Lines   int
		Answers []struct {
			Line            int
			Client, Problem string
			Result          any
		}
	}
	if err := json.Unmarshal([]byte(text), &coverage); err != nil || status != 200 {
		t.Fatalf("%d %s", status, text)
	}
	table := coverage.Tables["/decisions/0/expr/table"]
	if coverage.Lines != 10 || len(coverage.Tables) != 1 || table.Asked != 3 || table.None != 1 || fmt.Sprint(table.Hits) != "[1 2 1]" {
		t.Errorf("%d lines, and the tables are %+v", coverage.Lines, coverage.Tables)
	}
	var said []string
	for _, it := range coverage.Answers {
		said = append(said, fmt.Sprint(it.Line, it.Client, it.Problem, it.Result))
	}
	due := "1x many|4 some|5 <nil>|6yservice<nil>|8yvalue<nil>|9shape<nil>|10syntax<nil>"
	if got := strings.ReplaceAll(strings.Join(said, "|"), " ", " "); strings.ReplaceAll(got, " ", "") != strings.ReplaceAll(due, " ", "") {
		t.Errorf("the answers are %s, and due is %s", got, due)
	}
	status, text, _ = send(t, "POST", r.url+"/v1/coverage", `{"a":9}`)
	if status != 200 || !strings.Contains(text, `{"tables":{},"lines":1,"answers":[{"line":1,"problem":"shape"`) {
		t.Errorf("inputs without a service: %d %s", status, text)
	}
	if status, text, _ = send(t, "POST", r.url+"/v1/coverage", ""); status != 200 || text != `{"tables":{},"lines":0,"answers":[]}` {
		t.Errorf("nothing: %d %s", status, text)
	}
}

// Many requests go to several engines at once, and the answers are in the order of the lines.
func TestCoverageInSlices(t *testing.T) {
	r := serve(t, first, Options{Processes: 3})
	defer r.stop(t)
	var body strings.Builder
	due := map[int]string{}
	hits := [3]int{}
	for n := 0; n < 3*leastSlice+1; n++ {
		a := n % 12
		fmt.Fprintf(&body, "{\"a\":%d}\n", a)
		due[n] = "null"
		for rule, is := range []bool{a > 5, a > 3, a == 9} {
			if is {
				hits[rule]++
			}
		}
		switch {
		case a > 5:
			due[n] = `"many"`
		case a > 3:
			due[n] = `"some"`
		}
	}
	status, text, _ := send(t, "POST", r.url+"/v1/coverage?service=s", body.String())
	var coverage struct {
		Tables  map[string]struct{ Hits []int }
		Answers []struct{ Result json.RawMessage }
	}
	if err := json.Unmarshal([]byte(text), &coverage); err != nil || status != 200 || len(coverage.Answers) != len(due) {
		t.Fatalf("%d, %d answers: %.200s", status, len(coverage.Answers), text)
	}
	for at, answer := range coverage.Answers {
		if string(answer.Result) != due[at] {
			t.Fatalf("answer %d is %s, and %s is due", at, answer.Result, due[at])
		}
	}
	if got := coverage.Tables["/decisions/0/expr/table"].Hits; fmt.Sprint(got) != fmt.Sprint(hits) {
		t.Errorf("the hits are %v, and %v is due", got, hits)
	}
}

// The slices of many requests have each of them once, in order.
func TestSlices(t *testing.T) {
	for _, it := range []struct{ count, most, due int }{{0, 4, 0}, {1, 4, 1}, {2*leastSlice - 1, 4, 1}, {2 * leastSlice, 4, 2},
		{20 * leastSlice, 4, 4}, {5*leastSlice + 3, 1, 1}} {
		c := &covering{}
		for n := 0; n < it.count; n++ {
			c.jobs = append(c.jobs, &engine.Job{Place: n})
		}
		slices, at := c.slices(it.most), 0
		for _, jobs := range slices {
			for _, job := range jobs {
				if job.Place != at {
					t.Fatalf("%d requests in %d slices: the one at place %d is %d", it.count, len(slices), at, job.Place)
				}
				at++
			}
		}
		if at != it.count || len(slices) != it.due {
			t.Errorf("%d requests are %d in %d slices, and %d are due", it.count, at, len(slices), it.due)
		}
	}
}

// standIn returns a program that prints a file for the check of tables, and otherwise is the engine.
func standIn(t *testing.T, lines string) string {
	t.Helper()
	folder := t.TempDir()
	real, err := filepath.Abs(desk())
	if err != nil {
		t.Fatal(err)
	}
	script := fmt.Sprintf("#!/bin/sh\ncase \"$*\" in\n\"help check\") echo '  --tables' ;;\n\"check --json --tables\") cat > /dev/null; "+
		"cat %q ;;\n*) exec %q \"$@\" ;;\nesac\n", filepath.Join(folder, "lines"), real)
	for name, text := range map[string]string{"lines": lines, "engine": script} {
		if err := os.WriteFile(filepath.Join(folder, name), []byte(text), 0o755); err != nil {
			t.Fatal(err)
		}
	}
	return filepath.Join(folder, "engine")
}

// The findings about tables are given for the model in force and for a checked one, if the engine has them.
func TestTables(t *testing.T) {
	const model = `{"inputs":["a"],"decisions":[{"name":"d","needs":["a"],"expr":{"table":{"hit":"F","inputs":["a"],"outputs":[{"name":"x"}],` +
		`"rules":[{"when":["[5..3]"],"then":["1"]}]}}}],"services":[{"name":"s","outputs":["d"],"encapsulated":[],"inputDecisions":[],"inputData":["a"]}]}`
	lines := `{"lawful":true}` + "\n" + `{"table":"/decisions/0/expr/table","complete":false,"steps":7}` + "\n" + `{"finding":"never","rules":[0]}` + "\n"
	// The model is written with sorted keys: {"decisions":[{"expr":{"table":{.
	const place = `"table":"/decisions/0/expr/table","line":1,"column":32`
	due := `"tables":[{` + place + `,"complete":false,"asked":null,"words":null,"steps":7},{"finding":"never",` + place + `,"rules":[1]}]`
	for _, it := range []struct{ engine, due string }{{standIn(t, lines), due}, {standIn(t, `{"lawful":true}`+"\n"), `"tables":[]`}} {
		r := serve(t, model, Options{Engine: it.engine, Processes: 1})
		for _, call := range []struct{ method, path, body string }{{"GET", "/v1/tables", ""}, {"POST", "/v1/check", model}} {
			if status, text, _ := send(t, call.method, r.url+call.path, call.body); status != 200 || !strings.Contains(text, it.due) {
				t.Errorf("%s: %d %s, and %s is due", call.path, status, text, it.due)
			}
		}
		if status, _, _ := send(t, "GET", r.url+"/v1/tables?model=abc", ""); status != 404 {
			t.Errorf("another model: %d", status)
		}
		// The model itself is answered without waiting for that.
		if _, text, _ := send(t, "GET", r.url+"/v1/model?whole=true", ""); !strings.Contains(text, `"tables":null,"tablesMissing":"unasked"`) {
			t.Errorf("it is said unasked: %s", text)
		}
		r.stop(t)
	}
}

// An engine that doesn't report findings about tables isn't asked.
func TestNoTables(t *testing.T) {
	engine := standIn(t, "")
	text, err := os.ReadFile(engine)
	if err != nil {
		t.Fatal(err)
	}
	if err := os.WriteFile(engine, []byte(strings.Replace(string(text), "--tables'", "'", 1)), 0o755); err != nil {
		t.Fatal(err)
	}
	r := serve(t, first, Options{Engine: engine})
	defer r.stop(t)
	if status, text, _ := send(t, "GET", r.url+"/v1/tables", ""); status != 200 || !strings.Contains(text, `"tables":null,"tablesMissing":"engine"`) {
		t.Errorf("%d %s", status, text)
	}
}

// A check says why the tables could not be checked; one of a model without tables has no reason.
func TestMissingTables(t *testing.T) {
	// The engine ends when it should report on the tables.
	engine := standIn(t, "")
	text, err := os.ReadFile(engine)
	if err != nil {
		t.Fatal(err)
	}
	if err := os.WriteFile(engine, []byte(strings.Replace(string(text), "cat > /dev/null; cat", "exit 9; cat", 1)), 0o755); err != nil {
		t.Fatal(err)
	}
	r := serve(t, first, Options{Engine: engine, Processes: 1})
	defer r.stop(t)
	for _, it := range []struct{ body, due string }{
		{first, `"tables":null,"tablesMissing":"died"`}, {`{"inputs":1}`, `"tables":null,"tablesMissing":"fault"`},
	} {
		if status, text, _ := send(t, "POST", r.url+"/v1/check", it.body); status != 200 || !strings.Contains(text, it.due) {
			t.Errorf("%d %s, and %s is due", status, text, it.due)
		}
	}
	if missingFor(fmt.Errorf("checking the tables: %w", context.DeadlineExceeded)) != missingLate {
		t.Error("a check that takes too long is not late")
	}
}

// The last checked models are kept, each once.
func TestShelf(t *testing.T) {
	var s shelf
	of := func(n int) *served {
		return &served{source: &Source{}, engine: engine.NewModel([]byte(adding(n)))}
	}
	for n := 0; n < mostKept+2; n++ {
		s.add(of(n))
		s.add(of(n))
	}
	if len(s.models) != mostKept || s.find(of(1).engine.Sum) != nil || s.find(of(2).engine.Sum) == nil {
		t.Errorf("%d models are kept", len(s.models))
	}
}
