package service

import (
	"bytes"
	"crypto/hmac"
	"crypto/sha256"
	"encoding/json"
	"fmt"
	"os"
	"path/filepath"
	"strings"
	"testing"
	"time"

	"gateway/engine"
	"gateway/journal"
)

// noted is the output of desk import for a model with a table, names, and notes on rules.
const noted = `{"model":{"inputs":["a_b","c"],"decisions":[{"name":"d_e","needs":["a_b"],"expr":{"table":{"hit":"U","inputs":["a_b"],` +
	`"outputs":[{"name":"p"}],"rules":[{"when":["< 5"],"then":["1"]},{"when":[">= 5"],"then":["2"]}]}}}],` +
	`"services":[{"name":"s_t","outputs":["d_e"],"encapsulated":[],"inputDecisions":[],"inputData":["a_b"]}]},` +
	`"names":{"a_b":"a b","d_e":"d e","s_t":"s t"},"locals":{},"types":{"a_b":{"type":["integer","null"]}},` +
	`"places":{"/decisions/0/expr/table/rules/1":{"id":"_two","name":"","annotations":["from five on"]}}}`

// entries returns those of a journal, without those that begin files.
func entries(t *testing.T, folder string) (asked []string, about []map[string]any) {
	t.Helper()
	report, err := journal.Verify(folder, "")
	if err != nil || len(report.Faults) > 0 {
		t.Fatalf("%v %+v", err, report)
	}
	r, err := journal.NewReader(folder)
	if err != nil {
		t.Fatal(err)
	}
	defer r.Close()
	for {
		it, err := r.Next()
		if err != nil {
			return asked, about
		}
		var members map[string]any
		if err := json.Unmarshal(it.About, &members); err != nil {
			t.Fatalf("%s: %v", it.About, err)
		}
		if members["begins"] == nil {
			asked, about = append(asked, string(it.Asked)), append(about, members)
		}
	}
}

func sumOfFile(t *testing.T, path string) string {
	t.Helper()
	text, err := os.ReadFile(path)
	if err != nil {
		t.Fatal(err)
	}
	return fmt.Sprintf("%x", sha256.Sum256(text))
}

// Each answer has a line with who asked, what decided and what was answered.
func TestRecord(t *testing.T) {
	folder := filepath.Join(t.TempDir(), "journal")
	tokens := filepath.Join(t.TempDir(), "tokens")
	if err := os.WriteFile(tokens, []byte(fmt.Sprintf("shop call %x\n", sha256.Sum256([]byte("secret")))), 0o600); err != nil {
		t.Fatal(err)
	}
	before := time.Now().UTC().Truncate(time.Millisecond)
	r := serve(t, noted, Options{Journal: folder, Tokens: tokens})
	ask := func(body string, headers ...string) string {
		_, text, header := send(t, "POST", r.url+"/v1/services/s%20t", body, append(headers, "Authorization", "Bearer secret")...)
		if header.Get("Desk-Record") == "" {
			t.Errorf("%s has no id of ours: %s", body, text)
		}
		return header.Get("Desk-Record")
	}
	own := ask(`{"a b":7}`, "X-Request-Id", "a7", "X-Client", "ann \"x\"")
	again := ask(`{"a_b":3}`, "X-Request-Id", "a7")
	ask(`[{"a b":1},{"a b":"x"},{"a  b":5}]`)
	ask(`{"a b":true}`, "X-Request-Id", "a8")
	send(t, "POST", r.url+"/v1/services/s%20t", `{"a b":1}`)
	ask(`{`)
	r.stop(t)
	asked, about := entries(t, folder)
	if own == again || len(about) != 6 {
		t.Fatalf("%s and %s are ids, and %d entries are there: %v", own, again, len(about), about)
	}
	var source *Source
	source, _ = ReadSource([]byte(noted))
	exe, _ := os.Executable()
	due := map[string]any{"id": own, "request": "a7", "token": "shop", "client": `ann "x"`, "release": source.Sum(), "result": 2.0,
		"program": sumOfFile(t, exe), "engine": sumOfFile(t, desk()),
		"rules": []any{map[string]any{"decision": "d e", "rule": 2.0, "id": "_two", "annotations": []any{"from five on"}}}}
	for key, value := range due {
		if fmt.Sprint(about[0][key]) != fmt.Sprint(value) {
			t.Errorf("%s is %v, and %v is due", key, about[0][key], value)
		}
	}
	at, err := time.Parse(journal.TimeForm, about[0]["time"].(string))
	if err != nil || at.Before(before) || at.After(time.Now().Add(time.Second)) {
		t.Errorf("the time is %v (%v)", about[0]["time"], err)
	}
	for n, due := range []struct{ asked, about string }{
		{`{"client":"a7","inputs":{"a_b":7},"service":"s_t"}`, `"result":2`},
		{`{"client":"a7","inputs":{"a_b":3},"service":"s_t"}`, `"result":1`},
		{`"inputs":{"a_b":1},"service":"s_t"}`, `#0"`},
		{``, `"inputs":{"a b":"x"}`},
		{``, `"inputs":{"a  b":5}`},
		{``, `"problem":{"pointer":"/a b","status":422,"type":"value"}`},
	} {
		text, _ := plainJSON(about[n])
		if !strings.HasSuffix(asked[n], due.asked) || (due.asked == "") != (asked[n] == "") || !strings.Contains(string(text), due.about) {
			t.Errorf("entry %d: %s\n%s\n%s and %s are due", n, asked[n], text, due.asked, due.about)
		}
	}
	if text, _ := plainJSON(about[4]["problem"]); string(text) != `{"pointer":"/a  b","status":422,"type":"unknown"}` {
		t.Errorf("an unknown input: %s", text)
	}
}

// A journal file begins with all that is needed to ask its requests again.
func TestFilesSayWhatDecides(t *testing.T) {
	folder := filepath.Join(t.TempDir(), "journal")
	r := serve(t, noted, Options{Journal: folder})
	send(t, "POST", r.url+"/v1/services/s%20t", `{"a b":7}`)
	r.stop(t)
	reader, err := journal.NewReader(folder)
	if err != nil {
		t.Fatal(err)
	}
	defer reader.Close()
	it, err := reader.Next()
	if err != nil {
		t.Fatal(err)
	}
	text := append(append([]byte(nil), it.Asked[:len(it.Asked)-1]...), ',')
	text = append(text, it.About[bytes.IndexByte(it.About, '{')+1:]...)
	source, err := ReadSource(text)
	due, _ := ReadSource([]byte(noted))
	if err != nil || source.Sum() != due.Sum() || len(source.Places) == 0 {
		t.Errorf("%v: %s", err, text)
	}
}

// Deleting the journal's files stops answers, and the service reports that it isn't ready.
func TestNoAnswersWithoutJournal(t *testing.T) {
	folder := filepath.Join(t.TempDir(), "journal")
	r := serve(t, adding(1), Options{Journal: folder})
	defer r.stop(t)
	if status, text, _ := send(t, "POST", r.url+"/v1/services/s", `{"a":1}`); status != 200 {
		t.Fatalf("%d %s", status, text)
	}
	names, _ := filepath.Glob(filepath.Join(folder, "*.jsonl"))
	if err := os.Remove(names[0]); err != nil {
		t.Fatal(err)
	}
	for n := 0; n < 3; n++ {
		if status, text, _ := send(t, "POST", r.url+"/v1/services/s", `{"a":1}`); status != 503 || !strings.Contains(text, "/problems/journal") {
			t.Errorf("%d %s", status, text)
		}
	}
	if status, text, _ := send(t, "GET", r.url+"/readyz", ""); status != 503 || !strings.Contains(text, "journal") {
		t.Errorf("%d %s", status, text)
	}
	r.mu.Lock()
	defer r.mu.Unlock()
	if !strings.Contains(strings.Join(r.log, "\n"), "was deleted") {
		t.Errorf("the log is %q", r.log)
	}
}

// The value of a redacted input is nowhere in the journal, and equal values have equal sums.
func TestRedaction(t *testing.T) {
	folder := filepath.Join(t.TempDir(), "journal")
	key := filepath.Join(t.TempDir(), "key")
	if err := os.WriteFile(key, []byte("0123456789abcdef\n"), 0o600); err != nil {
		t.Fatal(err)
	}
	r := serve(t, noted, Options{Journal: folder, Redact: []string{"a b"}, RedactKey: key})
	for _, body := range []string{`{"a b":7654321}`, `{"a_b":7654321}`, `{"ab":7654321}`, `{"a b":"7654321"}`, `{"a b":null}`, `["7654321",{"a b":7654321}]`} {
		send(t, "POST", r.url+"/v1/services/s%20t", body)
	}
	r.stop(t)
	asked, about := entries(t, folder)
	mac := hmac.New(sha256.New, []byte("0123456789abcdef"))
	mac.Write([]byte("a b\x007654321"))
	due := fmt.Sprintf("hmac-sha256:%x", mac.Sum(nil))
	if len(about) != 7 {
		t.Fatalf("%d entries: %v", len(about), about)
	}
	for n, it := range about {
		text, _ := plainJSON(it)
		if strings.Contains(string(text)+asked[n], "7654321\"") || strings.Contains(string(text)+asked[n], ":7654321") {
			t.Errorf("entry %d has the value: %s %s", n, asked[n], text)
		}
		isSame := strings.Contains(string(text), due)
		if isSame != (n == 0 || n == 1 || n == 6) {
			t.Errorf("entry %d: %s, and %s is due", n, text, due)
		}
	}
	if asked[4] == "" || about[0]["redacted"] == nil || about[4]["redacted"] != nil {
		t.Errorf("null is redacted: %v %v", asked, about)
	}
}

// Inputs next to a redacted one have the names and decimals of the file.
func TestRedactedInputsHaveTheirNames(t *testing.T) {
	folder, key := filepath.Join(t.TempDir(), "journal"), filepath.Join(t.TempDir(), "key")
	if err := os.WriteFile(key, []byte("0123456789abcdef\n"), 0o600); err != nil {
		t.Fatal(err)
	}
	model := strings.Replace(noted, `"inputData":["a_b"]`, `"inputData":["a_b","c"]`, 1)
	model = strings.Replace(model, `{"type":["integer","null"]}`, `{"type":["number","null"],"multipleOf":0.01}`, 1)
	r := serve(t, model, Options{Journal: folder, Redact: []string{"c"}, RedactKey: key})
	if status, text, _ := send(t, "POST", r.url+"/v1/services/s%20t", `{"a b":7.12,"c":"Meier"}`); status != 200 {
		t.Fatalf("%d %s", status, text)
	}
	r.stop(t)
	_, about := entries(t, folder)
	if text, _ := plainJSON(about[0]["inputs"]); !strings.HasPrefix(string(text), `{"a b":7.12,"c":"hmac-sha256:`) {
		t.Errorf("%s", text)
	}
}

// With the journal, engines report the deciding rules, and what they say about long values is left out: the answers are
// the same.
func TestLongValuesUnderTheJournal(t *testing.T) {
	folder := filepath.Join(t.TempDir(), "journal")
	r := serve(t, handing(6), Options{Journal: folder, Deadline: time.Minute, JournalSize: 64 << 20})
	for _, length := range []int{1, 300, 1000} {
		status, text, _ := send(t, "POST", r.url+"/v1/services/s", `{"t":"`+strings.Repeat("x", length)+`"}`)
		if status != 200 || text != `{"result":9998}` {
			t.Errorf("a text of %d bytes: %d %.100s", length, status, text)
		}
	}
	r.stop(t)
	_, about := entries(t, folder)
	if len(about) != 3 || about[0]["rules"] != nil || about[1]["rules"] != "long" || about[2]["rules"] != "long" {
		t.Errorf("%v", about)
	}
}

// Names and types decide too: changing them changes the sum in headers, ETag and If-Match.
func TestSumOfAllThatDecides(t *testing.T) {
	model := func(decimals string) string {
		return strings.Replace(noted, `{"type":["integer","null"]}`, `{"type":["number","null"],"multipleOf":`+decimals+`}`, 1)
	}
	r := serve(t, model("0.1"), Options{})
	defer r.stop(t)
	_, first, header := send(t, "POST", r.url+"/v1/services/s%20t", `{"a b":0.4}`)
	before := header.Get("Desk-Model")
	status, text, _ := send(t, "PUT", r.url+"/v1/model", model("0.01"), "If-Match", `"`+before+`"`)
	if status != 200 {
		t.Fatalf("%d %s", status, text)
	}
	_, second, header := send(t, "POST", r.url+"/v1/services/s%20t", `{"a b":0.4}`)
	if first == second || header.Get("Desk-Model") == before {
		t.Errorf("%s and %s, under %s and %s", first, second, before, header.Get("Desk-Model"))
	}
	if status, _, _ := send(t, "PUT", r.url+"/v1/model", model("0.1"), "If-Match", `"`+before+`"`); status != 412 {
		t.Errorf("the sum of before is taken: %d", status)
	}
	_, text, header = send(t, "GET", r.url+"/v1/model?text=true", "")
	sum := header.Get("ETag")
	if status, text, header = send(t, "PUT", r.url+"/v1/model", text); status != 200 || header.Get("ETag") != sum {
		t.Errorf("the model's text puts another: %d %s, and %s is due", status, text, sum)
	}
	var page struct{ SHA256, TextSHA256 string }
	_, text, _ = send(t, "GET", r.url+"/v1/model", "")
	source, _ := ReadSource([]byte(noted))
	if json.Unmarshal([]byte(text), &page) != nil || `"`+page.SHA256+`"` != sum || page.TextSHA256 != engine.NewModel(source.Text).Sum {
		t.Errorf("%s", text)
	}
}
