package service

import (
	"encoding/json"
	"fmt"
	"os"
	"path/filepath"
	"strings"
	"testing"
)

// cover counts over lines, and returns for each its line number and its result or the kind of its problem.
func (r *running) cover(t *testing.T, query, body string) string {
	t.Helper()
	status, text, _ := send(t, "POST", r.url+"/v1/coverage"+query, body)
	var answer struct {
		Answers []struct {
			Line    int
			Problem string
			Result  json.RawMessage
		}
	}
	if err := json.Unmarshal([]byte(text), &answer); err != nil || status != 200 {
		t.Fatalf("%d %s", status, text)
	}
	var said []string
	for _, it := range answer.Answers {
		said = append(said, fmt.Sprint(it.Line, " ", it.Problem, string(it.Result)))
	}
	return strings.Join(said, "|")
}

// recordedText returns the journal of a model that answered requests, each a service and its inputs.
func recordedText(t *testing.T, model string, requests ...string) string {
	t.Helper()
	folder := t.TempDir()
	r := serve(t, model, Options{Journal: folder})
	for _, it := range requests {
		service, inputs, _ := strings.Cut(it, " ")
		send(t, "POST", r.url+"/v1/services/"+service, inputs)
	}
	r.stop(t)
	names, _ := filepath.Glob(filepath.Join(folder, "*.jsonl"))
	if len(names) != 1 {
		t.Fatalf("the journal has %d files", len(names))
	}
	text, err := os.ReadFile(names[0])
	if err != nil {
		t.Fatal(err)
	}
	return string(text)
}

// TestCoverageOfJournal counts over a journal, whose lines have inputs in the engine's form: days as numbers.
func TestCoverageOfJournal(t *testing.T) {
	text := recordedText(t, dated, `late {"Due Date":"2026-02-28","paid":"2026-03-01"}`, `late {"Due Date":"2026-02-30"}`,
		`both {"Due Date":"2024-02-28"}`)
	due := `3 "P1D"|6 {"class":"2024-02-28","next":"2024-02-29"}`
	lines := strings.SplitAfter(text, "\n")
	r := serve(t, dated, Options{})
	defer r.stop(t)
	for name, row := range map[string]struct{ body, due string }{
		"whole":                   {text, due},
		"after its beginning":     {strings.Join(lines[2:], ""), `1 "P1D"|4 {"class":"2024-02-28","next":"2024-02-29"}`},
		"cut before what is said": {strings.Join(lines[2:6], ""), `1 "P1D"|4 {"class":"2024-02-28","next":"2024-02-29"}`},
		"cut after what is asked": {strings.Join(lines[3:], ""), `3 {"class":"2024-02-28","next":"2024-02-29"}`},
		"with another request": {text + `{"service":"late","inputs":{"Due Date":"2026-02-28","paid":"2026-03-02"}}` + "\n{}\n" +
			`{"service":"late","inputs":{"Due Date":"2026-02-28","paid":"2026-03-02"}}`, due + `|8 "P2D"|9 shape|10 "P2D"`},
		"requests alone": {`{"service":"late","inputs":{"Due Date":"2026-02-28","paid":"2026-03-02"}}`, `1 "P2D"`},
	} {
		if got := r.cover(t, "", row.body); got != row.due {
			t.Errorf("%s: %s came, and %s is due", name, got, row.due)
		}
	}
}

// TestCoverageOfAnotherRelease counts over a journal of another model than the current one: its lines have that model's
// words and units.
func TestCoverageOfAnotherRelease(t *testing.T) {
	text := recordedText(t, dated, `late {"Due Date":"2026-02-28","paid":"2026-03-01"}`)
	other := strings.NewReplacer("Due_Date", "d_u_e", "86400", "172800").Replace(dated)
	r := serve(t, other, Options{})
	defer r.stop(t)
	lines := strings.SplitAfter(text, "\n")
	if got := r.cover(t, "", strings.Join(lines[2:], "")); got != "1 unkept" {
		t.Errorf("without the beginning of its file: %s", got)
	}
	if got := r.cover(t, "", text); got != `3 "P2D"` {
		t.Errorf("with the beginning of its file: %s", got)
	}
	if status, said, _ := send(t, "POST", r.url+"/v1/check", dated); status != 200 {
		t.Fatal(said)
	}
	if got := r.cover(t, "", strings.Join(lines[2:], "")); got != `1 "P2D"` {
		t.Errorf("once its model was checked: %s", got)
	}
}
