package service

import (
	"context"
	"encoding/json"
	"fmt"
	"io"
	"net/http"
	"strings"
	"sync"
	"testing"
	"time"

	"gateway/engine"
	"gateway/rabbit/calls"
)

// slowPartitions answer when allowed: a request's answer is its inputs, as text.
type slowPartitions struct {
	mutex     sync.Mutex
	line      string
	confirmed bool
	waiting   map[string][]*engine.Job
	kept      map[string]*calls.Kept
	keys      map[string]string
	at        bool // whether to answer at once
}

func (p *slowPartitions) Put(call calls.Call, jobs []*engine.Job) error {
	p.mutex.Lock()
	p.waiting[call.ID], p.keys[call.ID] = jobs, call.Key
	at := p.at
	p.mutex.Unlock()
	if at {
		go p.answer(call.ID, call.IsList)
	}
	return nil
}

// answer answers a call.
func (p *slowPartitions) answer(id string, isList bool) {
	p.mutex.Lock()
	jobs := p.waiting[id]
	kept := &calls.Kept{Key: p.keys[id], Service: "s", IsList: isList}
	for _, job := range jobs {
		text, _ := json.Marshal(string(job.Rest))
		kept.Outcomes = append(kept.Outcomes, engine.Outcome{Value: text})
	}
	p.kept[id] = kept
	p.mutex.Unlock()
	for at, job := range jobs {
		job.Done(job, kept.Outcomes[at])
	}
}

func (p *slowPartitions) IsSent(string, int) bool { return p.confirmed }
func (p *slowPartitions) Find(id string) *calls.Kept {
	p.mutex.Lock()
	defer p.mutex.Unlock()
	return p.kept[id]
}
func (p *slowPartitions) IsOver(made time.Time) bool  { return time.Since(made) > time.Hour }
func (p *slowPartitions) Ready() (bool, string)       { return p.confirmed, "partition 0 can't be reached" }
func (p *slowPartitions) Done() <-chan struct{}       { return nil }
func (p *slowPartitions) Err() error                  { return nil }
func (p *slowPartitions) Close(context.Context) error { return nil }

// asked returns the answer of a path.
func asked(t *testing.T, method, url, client, body string) (*http.Response, string) {
	t.Helper()
	request, err := http.NewRequest(method, url, strings.NewReader(body))
	if err != nil {
		t.Fatal(err)
	}
	if client != "" {
		request.Header.Set("X-Client", client)
	}
	response, err := http.DefaultClient.Do(request)
	if err != nil {
		t.Fatal(err)
	}
	defer response.Body.Close()
	text, err := io.ReadAll(response.Body)
	if err != nil {
		t.Fatal(err)
	}
	return response, string(text)
}

// A call waits for the partitions. If that takes too long, status 202 says where its own client can ask later.
func TestPartitionsAnswer(t *testing.T) {
	p := &slowPartitions{waiting: map[string][]*engine.Job{}, kept: map[string]*calls.Kept{}, keys: map[string]string{}, at: true, confirmed: true}
	r := serve(t, adding(1), Options{Wait: 50 * time.Millisecond, OpenPartitions: func(line []byte) (Partitions, error) {
		p.line = string(line)
		return p, nil
	}})
	defer r.stop(t)
	if !strings.HasPrefix(p.line, `{"model":{"decisions":`) || !strings.HasSuffix(p.line, "}\n") {
		t.Errorf("the model is %q", p.line)
	}
	p.mutex.Lock()
	p.at = false
	p.mutex.Unlock()
	const inputs = `{"result":"\"inputs\":{\"a\":1},\"service\":\"s\"}"}`
	for client, stranger := range map[string]string{"ann": "bob", "": ""} {
		response, text := asked(t, "POST", r.url+"/v1/services/s", client, `{"a":1}`)
		place := response.Header.Get("Location")
		id := strings.TrimPrefix(place, "/v1/answers/")
		if response.StatusCode != http.StatusAccepted || response.Header.Get("Retry-After") != "1" || !strings.Contains(text, fmt.Sprintf("%q", place)) || id == "" {
			t.Fatalf("%d %v %s", response.StatusCode, response.Header, text)
		}
		if response, text := asked(t, "GET", r.url+place, client, ""); response.StatusCode != http.StatusAccepted {
			t.Errorf("not answered: %d %s", response.StatusCode, text)
		}
		p.answer(id, false)
		if response, text := asked(t, "GET", r.url+place, client, ""); response.StatusCode != http.StatusOK || text != inputs+"\n" {
			t.Errorf("answered: %d %s", response.StatusCode, text)
		}
		if response, _ := asked(t, "GET", r.url+place, stranger, ""); stranger != "" && response.StatusCode != http.StatusNotFound {
			t.Errorf("another client: %d", response.StatusCode)
		}
	}
	p.at = true
	if response, text := asked(t, "POST", r.url+"/v1/services/s", "ann", `[{"a":1},{"a":1}]`); response.StatusCode != http.StatusOK ||
		text != "["+inputs+","+inputs+"]\n" {
		t.Errorf("a list: %d %s", response.StatusCode, text)
	}
	if response, text := asked(t, "POST", r.url+"/v1/services/s", "", `[{"a":1},{"a":1.5}]`); response.StatusCode != http.StatusUnprocessableEntity ||
		!strings.Contains(text, "request 2 of the list") {
		t.Errorf("a list with a fault: %d %s", response.StatusCode, text)
	}
}

// What partitions can't do is refused, and a request that no broker confirmed isn't reported as accepted.
func TestPartitionsThatCannot(t *testing.T) {
	p := &slowPartitions{waiting: map[string][]*engine.Job{}, kept: map[string]*calls.Kept{}, keys: map[string]string{}}
	r := serve(t, adding(1), Options{Wait: 50 * time.Millisecond, OpenPartitions: func([]byte) (Partitions, error) { return p, nil }})
	defer r.stop(t)
	for at, c := range []struct {
		method, path, body, kind string
		status                   int
	}{
		{"POST", "/v1/services/s", `{"a":1}`, "unsent", 503},
		{"PUT", "/v1/model", adding(2), "method", 405},
		{"POST", "/v1/answers/20200101T000000.000Z-00000000-1", "", "method", 405},
		{"GET", "/v1/answers/20200101T000000.000Z-00000000-1", "", "over", 410},
		{"GET", "/v1/answers/none", "", "path", 404},
		{"GET", "/readyz", "", "partition 0 can't be reached", 503},
	} {
		response, text := asked(t, c.method, r.url+c.path, "", c.body)
		if response.StatusCode != c.status || !strings.Contains(text, c.kind) {
			t.Errorf("%d: %d %s", at, response.StatusCode, text)
		}
		if place := response.Header.Get("Location"); (c.kind == "unsent") != (place != "") {
			t.Errorf("%d: the answer is at %q", at, place)
		}
	}
	for id := range p.waiting {
		p.answer(id, false)
	}
}
