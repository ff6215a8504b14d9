package service

import (
	"context"
	"os"
	"path/filepath"
	"strings"
	"testing"
	"time"

	"gateway/calendar"
	"gateway/engine"
)

// dated is the output of desk import for decisions over dates: a day is its number, counted from 1 for 0001-01-01.
const dated = `{"model":{"inputs":["Due_Date","paid","today"],"decisions":[` +
	`{"name":"late","needs":["Due_Date","paid"],"expr":"(paid - Due_Date) * 86400"},` +
	`{"name":"next","needs":["Due_Date"],"expr":"Due_Date + 1"},` +
	`{"name":"class","needs":["Due_Date"],"expr":{"table":{"hit":"F","inputs":["Due_Date"],"outputs":[{"name":"r"}],"rules":[` +
	`{"when":["< 739949"],"then":["Due_Date"]}]}}},` +
	`{"name":"overdue","needs":["Due_Date","today"],"expr":"today > Due_Date"},{"name":"day","needs":["today"],"expr":"today"}],"services":[` +
	`{"name":"late","outputs":["late"],"encapsulated":[],"inputDecisions":[],"inputData":["Due_Date","paid"]},` +
	`{"name":"both","outputs":["next","class"],"encapsulated":[],"inputDecisions":[],"inputData":["Due_Date"]},` +
	`{"name":"overdue","outputs":["overdue","day"],"encapsulated":[],"inputDecisions":[],"inputData":["Due_Date","today"]}]},` +
	`"names":{"Due_Date":"Due Date","paid":"paid","today":"today()"},"types":{` +
	`"Due_Date":{"type":["string","null"],"format":"date","formatMinimum":"2020-01-01"},"paid":{"type":["string","null"],"format":"date"},` +
	`"today":{"type":["string","null"],"format":"date","clock":"Pacific/Kiritimati"},"late":{"type":["string","null"],"format":"duration","unit":"second"},` +
	`"next":{"type":["string","null"],"format":"date"},"class":{"type":["string","null"],"format":"date"},"overdue":{"type":["boolean","null"]},` +
	`"day":{"type":["string","null"],"format":"date"}},"places":{` +
	`"/decisions/2/expr/table/inputs/0":{"id":"","name":"","type":{"type":["string","null"],"format":"date"}}}}`

// TestDatesOverHTTP sends dates, and gets them in results and explanations.
func TestDatesOverHTTP(t *testing.T) {
	r := serve(t, dated, Options{})
	defer r.stop(t)
	for _, row := range []struct {
		path, body string
		status     int
		due        string
	}{
		{"late", `{"Due Date":"2026-02-28","paid":"2026-03-01"}`, 200, `{"result":"P1D"}`},
		{"late", `{"Due_Date":"2026-02-28","paid":null}`, 200, `{"result":null}`},
		{"late", `{"Due Date":"2026-02-30","paid":"2026-03-01"}`, 422, `"detail":"\"2026-02-30\" is no date: February 2026 has 28 days"`},
		{"late", `{"Due Date":"2026-02-30","paid":"2026-03-01"}`, 422, `"pointer":"/Due Date"`},
		{"late", `{"Due Date":"2026-2-3"}`, 422, `a date is written as 2026-01-31`},
		{"late", `{"Due Date":20260203}`, 422, `"pointer":"/Due Date"`},
		{"late", `{"Due Date":"2019-12-31"}`, 422, `it has to be at least 2020-01-01`},
		{"both", `{"Due Date":"2024-02-28"}`, 200, `{"result":{"class":"2024-02-28","next":"2024-02-29"}}`},
		{"both?explain=true", `{"Due Date":"2024-02-28"}`, 200, `"value":"2024-02-29"`},
		{"both?explain=true", `{"Due Date":"2024-02-28"}`, 200, `"inputs":["2024-02-28"]`},
		{"both?explain=true", `{"Due Date":"2024-02-28"}`, 200, `"hits":[{"rule":1,"value":"2024-02-28"}]`},
		{"overdue", `{"Due Date":"2020-01-01"}`, 200, `"overdue":true`},
		{"overdue", `{"Due Date":"9999-12-31"}`, 200, `"overdue":false`},
		{"overdue", `{"Due Date":"2020-01-01","today()":"2026-01-01"}`, 422, `comes from the clock of the service`},
		{"overdue", `{"Due Date":"2020-01-01","today()":"2026-01-01"}`, 422, `"pointer":"/today()"`},
		{"overdue", `{"Due Date":"2020-01-01","today":"2026-01-01"}`, 422, `comes from the clock of the service`},
		{"late", `{"Due Date":"2020-01-01","today":null}`, 422, `comes from the clock of the service`},
		{"overdue", `[{"Due Date":"2020-01-01"},{"today":"2026-01-01"}]`, 200, `"overdue":true}},{"type":"/problems/value"`},
	} {
		status, body, _ := send(t, "POST", r.url+"/v1/services/"+row.path, row.body)
		if status != row.status || !strings.Contains(body, row.due) {
			t.Errorf("%s of %s: %d %s are due, and it is %d %s", row.path, row.body, row.status, row.due, status, body)
		}
	}
	_, page, _ := send(t, "GET", r.url+"/openapi.json", "")
	if !strings.Contains(page, `"format": "date"`) || strings.Contains(page, "today") || strings.Contains(page, `"unit"`) || strings.Contains(page, "formatMinimum") {
		t.Error("the page says otherwise how dates are written")
	}
	if _, model, _ := send(t, "GET", r.url+"/v1/services", ""); strings.Contains(model, "today") {
		t.Errorf("a service takes the day: %s", model)
	}
}

// TestClockRefusedLeniently sends the day to a service that ignores unknown inputs.
func TestClockRefusedLeniently(t *testing.T) {
	r := serve(t, dated, Options{Lenient: true})
	defer r.stop(t)
	if status, body, _ := send(t, "POST", r.url+"/v1/services/overdue", `{"today()":"2026-01-01"}`); status != 422 {
		t.Errorf("it is taken: %d %s", status, body)
	}
}

// TestClockInJournal finds the day in the journal, in the zone of the model.
func TestClockInJournal(t *testing.T) {
	folder := t.TempDir()
	zone, err := calendar.Zone("Pacific/Kiritimati")
	if err != nil {
		t.Fatal(err)
	}
	before := calendar.DayText(calendar.DayAt(time.Now(), zone))
	r := serve(t, dated, Options{Journal: folder})
	_, answer, _ := send(t, "POST", r.url+"/v1/services/overdue", `{"Due Date":"2020-01-01"}`, "X-Request-Id", "kept")
	r.stop(t)
	day, err := calendar.Day(before)
	if err != nil || !strings.Contains(answer, before) && !strings.Contains(answer, calendar.DayText(day+1)) {
		t.Errorf("it is %s there, and %s came", before, answer)
	}
	names, _ := filepath.Glob(filepath.Join(folder, "*.jsonl"))
	all := ""
	for _, name := range names {
		text, err := os.ReadFile(name)
		if err != nil {
			t.Fatal(err)
		}
		all += string(text)
	}
	if !strings.Contains(all, `{"client":"kept","inputs":{"Due_Date":737425,"today":739`) && !strings.Contains(all, `{"client":"kept","inputs":{"Due_Date":737425,"today":74`) {
		t.Errorf("the day isn't in the journal: %s", all)
	}
}

// TestAskedBringsTheDay sends a day in a request that isn't from a caller: it replaces the clock's.
func TestAskedBringsTheDay(t *testing.T) {
	source, err := ReadSource([]byte(dated))
	if err != nil {
		t.Fatal(err)
	}
	asked, err := Ask(context.Background(), desk(), 0, source)
	if err != nil {
		t.Fatal(err)
	}
	for inputs, due := range map[string]string{
		`{"Due Date":"2026-11-29","today()":"2026-11-30"}`: `"inputs":{"Due_Date":739949,"today":739950}`,
		`{"today":"2026-11-30"}`:                           `"inputs":{"today":739950}`,
	} {
		line, refused := asked.Request("overdue", []byte(inputs), &engine.Job{}, nil)
		if refused != nil || !strings.Contains(string(line), due) {
			t.Errorf("%s: %s is due, and %s came, %v", inputs, due, line, refused)
		}
	}
}
