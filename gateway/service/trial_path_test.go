package service

import (
	"context"
	"crypto/sha256"
	"encoding/json"
	"errors"
	"fmt"
	"os"
	"path/filepath"
	"strings"
	"testing"
	"time"
)

// A stub is a Trier that notes what it was asked: two requests, one of which gets a different answer.
type stub struct {
	asked Trial
	fault error
	// goOn lets a trial end; nil if it may at once.
	begun, goOn chan struct{}
	// pause is how long it takes to find the first difference, inputs are those of the request.
	pause  time.Duration
	inputs string
}

func (s *stub) Changes(old, new *Source) (json.RawMessage, error) {
	return json.RawMessage(fmt.Sprintf(`["%.6s","%.6s"]`, old.Sum(), new.Sum())), nil
}

func (s *stub) Try(ctx context.Context, folder string, it *Trial) (*Tried, error) {
	s.asked = *it
	if s.goOn != nil {
		close(s.begun)
		<-s.goOn
	}
	if err := it.Asked(0); err != nil {
		return nil, err
	}
	time.Sleep(s.pause)
	inputs := s.inputs
	if inputs == "" {
		inputs = `{"a":1}`
	}
	if err := it.Take(&TrialDifference{ID: "one", Service: "s", Inputs: []byte(inputs), Old: "2", New: "3", Rules: "no table"}); err != nil {
		return nil, err
	}
	if err := it.Asked(2); err != nil {
		return nil, err
	}
	return &Tried{Asked: 2, Differing: 1, By: []TrialCount{{"no table", 1}}}, s.fault
}

func TestTrial(t *testing.T) {
	s := &stub{}
	r := serve(t, adding(1), Options{Journal: t.TempDir(), Trier: s})
	defer r.stop(t)
	send(t, "POST", r.url+"/v1/check", adding(2))
	sum := modelSum(t, adding(2))
	for query, due := range map[string]int{"": 400, "?model=12": 404, "?model=" + sum + "&most=-1": 400, "?model=" + sum + "&csv=yes": 400,
		"?model=" + sum + "&fro=1": 400, "?model=" + sum + "&against=1": 404} {
		if status, text, _ := send(t, "POST", r.url+"/v1/trial"+query, ""); status != due {
			t.Errorf("%s: %d %s, and %d is due", query, status, text, due)
		}
	}
	if status, _, _ := send(t, "GET", r.url+"/v1/trial?model="+sum, ""); status != 405 {
		t.Errorf("GET: %d", status)
	}
	query := "?model=" + sum + "&from=2026&to=2027&client=c&service=s&rule=d%3A1&release=x"
	_, text, header := send(t, "POST", r.url+"/v1/trial"+query, "")
	due := fmt.Sprintf(`"changes":["%.6s","%.6s"]`, modelSum(t, adding(1)), sum)
	if !strings.Contains(text, due) || header.Get("Content-Type") != "application/x-ndjson" {
		t.Errorf("%s %v, and %s is due", text, header, due)
	}
	due = `{"asked":0}
{"difference":{"id":"one","service":"s","inputs":{"a":1},"old":"2","new":"3","rules":"no table"}}
{"asked":2}
{"done":true,"listed":1,"asked":2,"differing":1,"left":0,"by":[{"rules":"no table","count":1}]}`
	if !strings.HasSuffix(text, due) {
		t.Errorf("%s came, and %s is due", text, due)
	}
	if it := s.asked; it.From+it.To+it.Client+it.Service+it.Rule+it.Release != "20262027csd:1x" {
		t.Errorf("%+v was asked", it)
	}
	if _, text, _ := send(t, "POST", r.url+"/v1/trial?most=0&model="+sum, ""); strings.Contains(text, "difference") || !strings.Contains(text, `"listed":0,"asked":2,"differing":1`) {
		t.Errorf("without any listed: %s", text)
	}
	_, text, header = send(t, "POST", r.url+"/v1/trial?csv=true&model="+sum, "")
	due = "id,request,time,service,inputs,old,new,rules\none,,,s,\"{\"\"a\"\":1}\",2,3,no table"
	if text != due || header.Get("Content-Type") != "text/csv; charset=utf-8" {
		t.Errorf("%q %v, and %q is due", text, header, due)
	}
}

// A trial that fails says so, for CSV by cutting the connection. A second one at the same time is refused.
func TestTrialThatFails(t *testing.T) {
	s := &stub{fault: errors.New("the journal is not there")}
	r := serve(t, adding(1), Options{Journal: t.TempDir(), Trier: s})
	defer r.stop(t)
	_, text, _ := send(t, "POST", r.url+"/v1/trial?model="+modelSum(t, adding(1)), "")
	if !strings.Contains(text, `{"problem":{"type":"/problems/inside"`) || strings.Contains(text, "done") {
		t.Error(text)
	}
	if answer, err := oneCall.Post(r.url+"/v1/trial?csv=true&model="+modelSum(t, adding(1)), "", nil); err == nil {
		_, err = answer.Body.Read(make([]byte, 4096))
		for err == nil {
			_, err = answer.Body.Read(make([]byte, 4096))
		}
		if err.Error() == "EOF" {
			t.Error("CSV that is not whole ends as if it were")
		}
	}
}

// A trial may find nothing for longer than a caller may take to read, and then something long.
func TestTrialThatTakesLong(t *testing.T) {
	s := &stub{pause: writePatience + 2*time.Second, inputs: `{"a":"` + strings.Repeat("x", 1<<20) + `"}`}
	r := serve(t, adding(1), Options{Journal: t.TempDir(), Trier: s})
	defer r.stop(t)
	_, text, _ := send(t, "POST", r.url+"/v1/trial?model="+modelSum(t, adding(1)), "")
	if len(text) < 1<<20 || !strings.Contains(text, `"done":true`) {
		t.Errorf("%d bytes came: %.200s", len(text), text)
	}
}

// Only one trial runs at a time.
func TestOneTrialAtATime(t *testing.T) {
	s := &stub{begun: make(chan struct{}), goOn: make(chan struct{})}
	r := serve(t, adding(1), Options{Journal: t.TempDir(), Trier: s})
	defer r.stop(t)
	ended := make(chan string)
	go func() {
		_, text, _ := send(t, "POST", r.url+"/v1/trial?model="+modelSum(t, adding(1)), "")
		ended <- text
	}()
	select {
	case <-s.begun:
	case <-time.After(time.Minute):
		t.Fatal("the trial does not begin")
	}
	if status, text, _ := send(t, "POST", r.url+"/v1/trial?model="+modelSum(t, adding(1)), ""); status != 429 {
		t.Errorf("a second trial: %d %s", status, text)
	}
	close(s.goOn)
	if text := <-ended; !strings.Contains(text, `"done":true`) {
		t.Error(text)
	}
}

// Only callers with the right to read get recorded requests, and that right asks no service. Without tokens only this
// machine gets them.
func TestRightToRead(t *testing.T) {
	path := writeTokens(t, "shop call one", "auditor read two")
	r := serve(t, adding(1), Options{Journal: t.TempDir(), Trier: &stub{}, Tokens: path})
	defer r.stop(t)
	for _, it := range []struct {
		path, token string
		due         int
	}{{"/v1/trial", "one", 403}, {"/v1/trial", "two", 200}, {"/v1/trial", "three", 401}, {"/v1/services/s", "two", 403}, {"/v1/services/s", "one", 200}} {
		query := ""
		if it.path == "/v1/trial" {
			query = "?model=" + modelSum(t, adding(1))
		}
		if status, text, _ := send(t, "POST", r.url+it.path+query, `{"a":1}`, "Authorization", "Bearer "+it.token); status != it.due {
			t.Errorf("%s with %s: %d %s, and %d is due", it.path, it.token, status, text, it.due)
		}
	}
	r = serve(t, adding(1), Options{Journal: t.TempDir(), Trier: &stub{}})
	defer r.stop(t)
	if status, _, _ := send(t, "POST", r.url+"/v1/trial?model="+modelSum(t, adding(1)), "", "X-Forwarded-For", "10.0.0.1"); status != 403 {
		t.Errorf("from elsewhere: %d", status)
	}
	r = serve(t, adding(1), Options{Trier: &stub{}})
	defer r.stop(t)
	if status, _, _ := send(t, "POST", r.url+"/v1/trial?model="+modelSum(t, adding(1)), ""); status != 404 {
		t.Errorf("without a journal: %d", status)
	}
}

// modelSum returns the SHA-256 of a model.
func modelSum(t *testing.T, model string) string {
	t.Helper()
	source, err := ReadSource([]byte(model))
	if err != nil {
		t.Fatal(err)
	}
	return source.Sum()
}

// writeTokens writes a file of tokens, each a name, its rights and the token.
func writeTokens(t *testing.T, all ...string) string {
	t.Helper()
	var text strings.Builder
	for _, it := range all {
		words := strings.Fields(it)
		sum := sha256.Sum256([]byte(words[2]))
		fmt.Fprintf(&text, "%s %s %x\n", words[0], words[1], sum)
	}
	path := filepath.Join(t.TempDir(), "tokens")
	if err := os.WriteFile(path, []byte(text.String()), 0o600); err != nil {
		t.Fatal(err)
	}
	return path
}
