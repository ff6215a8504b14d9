package service

import (
	"fmt"
	"os"
	"path/filepath"
	"strings"
	"testing"
)

// comingEngine returns a program that checks tables for what can come where the text has domains, refuses those of an input b, and
// otherwise is the engine.
func comingEngine(t *testing.T) string {
	t.Helper()
	real, err := filepath.Abs(desk())
	if err != nil {
		t.Fatal(err)
	}
	script := fmt.Sprintf(`#!/bin/sh
case "$*" in
"check --json --tables") ;;
*) exec %q "$@" ;;
esac
text=$(cat)
case "$text" in
*'"domains":{"b"'*) echo '{"fault":"domain"}'; exit 3 ;;
*'"domains":{"a":"[0..9]"}'*) comes='"comes":true,' ;;
esac
echo '{"lawful":true}'
echo '{"table":"/decisions/0/expr/table",'"$comes"'"complete":true,"asked":true,"words":true,"steps":7}'
`, real)
	path := filepath.Join(t.TempDir(), "engine")
	if err := os.WriteFile(path, []byte(script), 0o755); err != nil {
		t.Fatal(err)
	}
	return path
}

// Tables are checked for the domains that stand beside the model, and for every value if these can't be taken.
func TestComing(t *testing.T) {
	const model = `{"inputs":["a"],"decisions":[{"name":"d","needs":["a"],"expr":{"table":{"hit":"F","inputs":["a"],"outputs":[{"name":"x"}],` +
		`"rules":[{"when":["< 10"],"then":["1"]}]}}}],"services":[{"name":"s","outputs":["d"],"encapsulated":[],"inputDecisions":[],"inputData":["a"]}]}`
	const coming, every = `"column":32,"comes":true,"complete":true`, `"column":32,"complete":true`
	engine := comingEngine(t)
	for _, it := range []struct{ body, due string }{
		{model, every},
		{`{"model":` + model + `}`, every},
		{`{"model":` + model + `,"domains":{"a":"[0..9]"}}`, coming},
		{`{"model":` + model + `,"domains":{"b":"[0..9]"}}`, every},
	} {
		r := serve(t, it.body, Options{Engine: engine, Processes: 1})
		for _, call := range []struct{ method, path, body string }{{"GET", "/v1/tables", ""}, {"POST", "/v1/check", it.body}} {
			if status, text, _ := send(t, call.method, r.url+call.path, call.body); status != 200 || !strings.Contains(text, it.due) {
				t.Errorf("%s of %s: %d %s, and %s is due", call.path, it.body, status, text, it.due)
			}
		}
		r.stop(t)
	}
}
