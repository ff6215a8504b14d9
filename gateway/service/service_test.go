package service

import (
	"bufio"
	"bytes"
	"context"
	"crypto/sha256"
	"encoding/hex"
	"encoding/json"
	"errors"
	"fmt"
	"io"
	"net"
	"net/http"
	"os"
	"path/filepath"
	"strings"
	"sync"
	"sync/atomic"
	"syscall"
	"testing"
	"time"

	"gateway/engine/enginetest"
)

func TestMain(m *testing.M) { enginetest.Main(m) }

func desk() string {
	if path := os.Getenv("DESK_ENGINE"); path != "" {
		return path
	}
	return "../../dist/desk"
}

// adding returns a model of the service s, which adds a number to its input a.
func adding(n int) string {
	return fmt.Sprintf(`{"inputs":["a","b"],"decisions":[{"name":"d","needs":["a"],"expr":"a + %d"}],"services":[`+
		`{"name":"s","outputs":["d"],"encapsulated":[],"inputDecisions":[],"inputData":["a"]}]}`, n)
}

// slow returns a model of the service s, whose decision takes longer for a longer list b.
func slow(rules int) string {
	rule := `{"when":[],"then":["b.x"]}`
	return `{"inputs":["b"],"decisions":[{"name":"d","needs":["b"],"expr":{"table":{"hit":"F","inputs":[],"outputs":` +
		`[{"name":"o"}],"rules":[` + strings.Repeat(rule+",", rules-1) + rule + `]}}}],"services":[` +
		`{"name":"s","outputs":["d"],"encapsulated":[],"inputDecisions":[],"inputData":["b"]}]}`
}

func long(length int) string {
	return `{"b":[` + strings.TrimSuffix(strings.Repeat(`{"x":1},`, length), ",") + `]}`
}

// A running is a running service, with what it logged.
type running struct {
	url   string
	end   context.CancelFunc
	ended chan error
	mu    sync.Mutex
	log   []string
}

func (r *running) stop(t *testing.T) {
	t.Helper()
	r.end()
	select {
	case err := <-r.ended:
		if err != nil {
			t.Error(err)
		}
	case <-time.After(3 * time.Minute):
		t.Fatal("the service does not end")
	}
}

func serve(t *testing.T, model string, options Options) *running {
	t.Helper()
	source, err := ReadSource([]byte(model))
	if err != nil {
		t.Fatal(err)
	}
	options.Model, options.Named = source, "the model of the test"
	if options.Engine == "" {
		options.Engine = desk()
	}
	if options.Processes == 0 {
		options.Processes = 2
	}
	if options.Deadline == 0 {
		options.Deadline = 20 * time.Second
	}
	if options.ClientLimit == 0 {
		options.ClientLimit, options.Limit = 10_000, 50_000
	}
	if options.JournalSize == 0 {
		options.JournalSize = 1 << 20
	}
	at := options.Listener
	if at == nil {
		if at, err = net.Listen("tcp", "127.0.0.1:0"); err != nil {
			t.Fatal(err)
		}
		options.Listener = at
	}
	r := &running{url: "http://" + at.Addr().String(), ended: make(chan error, 1)}
	options.Log = func(form string, words ...any) {
		r.mu.Lock()
		r.log = append(r.log, fmt.Sprintf(form, words...))
		r.mu.Unlock()
	}
	var ctx context.Context
	ctx, r.end = context.WithCancel(context.Background())
	go func() { r.ended <- Run(ctx, options) }()
	for until := time.Now().Add(time.Minute); ; time.Sleep(10 * time.Millisecond) {
		if answer, err := oneCall.Get(r.url + "/readyz"); err == nil {
			answer.Body.Close()
			break
		}
		if at.Addr().Network() == "unix" && strings.Contains(r.said(), "serving") {
			break
		}
		select {
		case err := <-r.ended:
			t.Fatal(err)
		default:
		}
		if time.Now().After(until) {
			t.Fatal("the service does not begin")
		}
	}
	return r
}

// oneCall uses a new connection for each call.
var oneCall = &http.Client{Transport: &http.Transport{DisableKeepAlives: true}}

// send sends a request, and returns its status and body.
func send(t *testing.T, method, url, body string, headers ...string) (int, string, http.Header) {
	t.Helper()
	request, err := http.NewRequest(method, url, strings.NewReader(body))
	if err != nil {
		t.Fatal(err)
	}
	for at := 0; at < len(headers); at += 2 {
		request.Header.Set(headers[at], headers[at+1])
	}
	answer, err := oneCall.Do(request)
	if err != nil {
		t.Fatal(err)
	}
	defer answer.Body.Close()
	text, err := io.ReadAll(answer.Body)
	if err != nil {
		t.Fatal(err)
	}
	return answer.StatusCode, strings.TrimSpace(string(text)), answer.Header
}

func TestCalls(t *testing.T) {
	r := serve(t, adding(1), Options{})
	defer r.stop(t)
	for _, it := range []struct {
		method, path, body string
		status             int
		said               string
	}{
		{"POST", "/v1/services/s", `{"a":4}`, 200, `{"result":5}`},
		{"POST", "/v1/services/s", "{\"a\":\n4}", 200, `{"result":5}`},
		{"POST", "/v1/services/s", `{"c":1.5}`, 200, `{"result":null}`},
		{"POST", "/v1/services/%73", `{"a":4}`, 200, `{"result":5}`},
		{"POST", "/v1/services/s", `[{"a":4},{"a":1.5},7,{"a":9223372036854775807},{"a":6}]`, 200,
			`[{"result":5},{"type":"/problems/value","title":"A value is not taken","status":422,` +
				`"detail":"1.5 is no whole number from -9223372036854775807 to 9223372036854775807, written in digits alone",` +
				`"pointer":"/a"},{"type":"/problems/shape","title":"The inputs are no object","status":422,` +
				`"detail":"the inputs are a JSON object, and this is 7","pointer":""},{"type":"/problems/limit",` +
				`"title":"A value breaks a limit on the way","status":422},{"result":7}]`},
		{"POST", "/v1/services/s", `[]`, 200, `[]`},
		{"POST", "/v1/services/s?explain=true", `{"a":4}`, 200, `{"result":5,"decisions":[{"name":"d","value":5}]}`},
		{"POST", "/v1/services/s?explain=true", `[{"a":4},7]`, 200, `[{"result":5,"decisions":[{"name":"d","value":5}]},{"type"` +
			`:"/problems/shape","title":"The inputs are no object","status":422,"detail":"the inputs are a JSON object, ` +
			`and this is 7","pointer":""}]`},
		{"POST", "/v1/services/s?explain=true", `{"a":9223372036854775807}`, 422, `"decisions":[{"name":"d","fault":"limit"}]`},
		{"POST", "/v1/services/s?explain=1", `{"a":4}`, 400, `explain is true or false`},
		{"POST", "/v1/services/s?explian=true", `{"a":4}`, 400, `the query has \"explian\", which is not known here; did you mean \"explain\"?`},
		{"POST", "/v1/services/s?explain=true&explain=false", `{"a":4}`, 400, `the query has \"explain\" more than once`},
		{"POST", "/v1/services/s?explain=%zz", `{"a":4}`, 400, `/problems/header`},
		{"POST", "/v1/explain/s?miss=true", `{"a":4}`, 400, `did you mean \"misses\"?`},
		{"POST", "/v1/explain/s?misses=true", `{"a":4}`, 200, `{"result":5`},
		{"GET", "/v1/model?txt=true", ``, 400, `did you mean \"text\"?`},
		{"GET", "/v1/services?page=2", ``, 400, `/problems/header`},
		{"GET", "/v1/services/?explain=true", ``, 400, `/problems/header`},
		{"GET", "/openapi.json?x", ``, 400, `/problems/header`},
		{"GET", "/v1/tables?modell=x", ``, 400, `did you mean \"model\"?`},
		{"POST", "/v1/coverage?services=s", `{"a":4}`, 400, `did you mean \"service\"?`},
		{"GET", "/healthz?probe=7", ``, 200, `alive`},
		{"GET", "/?source=mail", ``, 200, `<html`},
		{"POST", "/v1/services/s", "{\"a\":\"\\u00e\x19\"}", 400, `four hexadecimal digits are due`},
		{"POST", "/v1/services/s", `{"a":1.5}`, 422, `"pointer":"/a"`},
		{"POST", "/v1/services/s", `{"a":[{"x":-0}]}`, 422, `"pointer":"/a/0/x"`},
		{"POST", "/v1/services/s", `{"a":9223372036854775807}`, 422, `/problems/limit`},
		{"POST", "/v1/services/s", `"x"`, 422, `/problems/shape`},
		{"POST", "/v1/services/s", "{\"a\":\n4,}", 400, `"line":2,"column":3`},
		{"POST", "/v1/services/s", ``, 400, `/problems/syntax`},
		{"POST", "/v1/services/t", `{}`, 404, `"services":["s"]`},
		{"POST", "/v1/services/s", `{"b":"` + strings.Repeat("x", 1<<20) + `"}`, 413, `/problems/long`},
		{"GET", "/v1/services/s", ``, 405, `/problems/method`},
		{"GET", "/v1/other", ``, 404, `/problems/path`},
		{"GET", "/healthz", ``, 200, `alive`},
		{"GET", "/readyz", ``, 200, `ready`},
		{"GET", "/v1/model", ``, 200, `"services":[{"name":"s","parameters":["a"],"path":"/v1/services/s"}]`},
		{"GET", "/v1/services", ``, 200, `{"services":[{"name":"s","parameters":["a"],"path":"/v1/services/s"}]}`},
		{"GET", "/v1/services/", ``, 200, `{"services":[{"name":"s","parameters":["a"],"path":"/v1/services/s"}]}`},
		{"POST", "/v1/services", ``, 405, `GET, HEAD`},
		{"GET", "/openapi.json", ``, 200, `"openapi": "3.0.3"`},
		{"GET", "/metrics", ``, 200, `desk_http_calls_total`},
		{"GET", "/problems/value", ``, 200, `pointer`},
		{"PUT", "/v1/model", `{"inputs":[]}`, 422, `"fault":"shape"`},
		{"PUT", "/v1/model", strings.Replace(adding(1), "a + 1", "a +", 1), 422, `"pointer":"/decisions/0/expr"`},
	} {
		status, text, _ := send(t, it.method, r.url+it.path, it.body)
		if status != it.status || !strings.Contains(text, it.said) || strings.HasPrefix(it.said, "[") && text != it.said {
			t.Errorf("%s %s %.60s: %d %s, and %d %s is due", it.method, it.path, it.body, status, text, it.status, it.said)
		}
	}
}

// Null results are counted by their service, also within lists; problems are not.
func TestNullResults(t *testing.T) {
	r := serve(t, adding(1), Options{})
	defer r.stop(t)
	for _, body := range []string{`{"a":4}`, `{"a":null}`, `[{},{"a":1},{"a":"x"},{"a":1.5}]`} {
		if status, text, _ := send(t, "POST", r.url+"/v1/services/s", body); status != 200 {
			t.Errorf("%s: %d %s", body, status, text)
		}
	}
	_, text, _ := send(t, "GET", r.url+"/metrics", "")
	if due := `desk_http_null_results_total{service="s"} 3`; !strings.Contains(text, due) {
		t.Errorf("%s is due", due)
	}
}

func TestHeaders(t *testing.T) {
	r := serve(t, adding(1), Options{})
	defer r.stop(t)
	_, _, header := send(t, "POST", r.url+"/v1/services/s", `{"a":4}`, "X-Request-Id", "mine-7")
	source, _ := ReadSource([]byte(adding(1)))
	sum := sha256.Sum256(source.Text)
	if header.Get("X-Request-Id") != "mine-7" || header.Get("Desk-Model") != hex.EncodeToString(sum[:]) ||
		header.Get("Desk-Engine") == "" {
		t.Errorf("the headers are %v", header)
	}
	_, _, header = send(t, "POST", r.url+"/v1/services/s", `{"a":4}`, "X-Request-Id", `"`)
	if id := header.Get("X-Request-Id"); !isID(id) || len(id) > maxID {
		t.Errorf("the id that was made is %q", id)
	}
	if status, text, _ := send(t, "POST", r.url+"/v1/services/s", `{}`, "X-Client", strings.Repeat("x", 65)); status != 400 {
		t.Errorf("a long X-Client: %d %s", status, text)
	}
}

// Many call while models are put: nobody gets a model older than one whose PUT was answered before the call, or than
// one of an earlier answer.
func TestPutUnderLoad(t *testing.T) {
	r := serve(t, adding(0), Options{Processes: 3})
	defer r.stop(t)
	var putDone atomic.Int64
	var over atomic.Bool
	var callers sync.WaitGroup
	for caller := 0; caller < 8; caller++ {
		caller := caller
		callers.Add(1)
		go func() {
			defer callers.Done()
			last := int64(0)
			for n := 0; !over.Load(); n++ {
				var headers []string
				if caller%2 == 0 {
					headers = []string{"X-Client", fmt.Sprint("c", caller)}
				}
				least := putDone.Load()
				status, text, _ := send(t, "POST", r.url+"/v1/services/s", `[{"a":0},{"a":0}]`, headers...)
				var results []struct{ Result int64 }
				if err := json.Unmarshal([]byte(text), &results); err != nil || status != 200 || len(results) != 2 {
					t.Errorf("%d %s", status, text)
					return
				}
				got := results[0].Result
				if got < least || got < last || results[1].Result != got {
					t.Errorf("caller %d has model %v after %d, and %d was put", caller, results, last, least)
				}
				last = got
			}
		}()
	}
	for n := 1; n <= 10; n++ {
		if status, text, _ := send(t, "PUT", r.url+"/v1/model", adding(n)); status != 200 {
			t.Fatalf("%d %s", status, text)
		}
		putDone.Store(int64(n))
	}
	over.Store(true)
	callers.Wait()
}

// A client's answers come in the order of its requests, on every connection.
func TestOrder(t *testing.T) {
	r := serve(t, adding(0), Options{Processes: 2, Engine: enginetest.Waiting(t, desk())})
	defer r.stop(t)
	file := filepath.Join(t.TempDir(), "go")
	calls := []net.Conn{r.begin(t, `{"a":0,`+enginetest.Until(file)+`}`, "X-Client: ann")}
	for n := 1; n < 6; n++ {
		r.outstanding(t, n)
		calls = append(calls, r.begin(t, fmt.Sprintf(`{"a":%d}`, n), "X-Client: ann"))
	}
	r.outstanding(t, 6)
	if err := os.WriteFile(file, nil, 0o600); err != nil {
		t.Fatal(err)
	}
	for n := len(calls) - 1; n >= 0; n-- {
		result(t, calls[n], n)
		for earlier := 0; earlier < n; earlier++ {
			if !hasCome(t, calls[earlier]) {
				t.Errorf("answer %d came before answer %d", n, earlier)
			}
		}
	}
}

// Without a name a slow request holds up nobody else.
func TestNoOrder(t *testing.T) {
	r := serve(t, adding(0), Options{Processes: 2, Engine: enginetest.Waiting(t, desk())})
	defer r.stop(t)
	file := filepath.Join(t.TempDir(), "go")
	slow := r.begin(t, `{"a":0,`+enginetest.Until(file)+`}`, "X-None: none")
	r.outstanding(t, 1)
	for n := 1; n < 6; n++ {
		result(t, r.begin(t, fmt.Sprintf(`{"a":%d}`, n), "X-None: none"), n)
	}
	if hasCome(t, slow) {
		t.Error("the slow request is answered before it may be")
	}
	if err := os.WriteFile(file, nil, 0o600); err != nil {
		t.Fatal(err)
	}
	result(t, slow, 0)
}

// begin sends a request on a connection of its own, without waiting.
func (r *running) begin(t *testing.T, inputs, header string) net.Conn {
	t.Helper()
	connection, err := net.Dial("tcp", strings.TrimPrefix(r.url, "http://"))
	if err != nil {
		t.Fatal(err)
	}
	t.Cleanup(func() { connection.Close() })
	fmt.Fprintf(connection, "POST /v1/services/s HTTP/1.1\r\nHost: localhost\r\n%s\r\nContent-Length: %d\r\n\r\n%s", header, len(inputs), inputs)
	return connection
}

// outstanding waits until that many requests are unanswered.
func (r *running) outstanding(t *testing.T, count int) {
	t.Helper()
	for until := time.Now().Add(time.Minute); r.metric(t, "desk_http_outstanding") != float64(count); {
		if time.Now().After(until) {
			t.Fatalf("%d requests are not taken", count)
		}
	}
}

// result waits for the answer on a connection, and checks its result.
func result(t *testing.T, connection net.Conn, due int) {
	t.Helper()
	answer, err := http.ReadResponse(bufio.NewReader(connection), nil)
	if err != nil {
		t.Fatal(err)
	}
	defer answer.Body.Close()
	text, err := io.ReadAll(answer.Body)
	if got := strings.TrimSpace(string(text)); err != nil || got != fmt.Sprintf(`{"result":%d}`, due) {
		t.Errorf("%s, %v: %d is due", got, err, due)
	}
}

func TestTokens(t *testing.T) {
	path := filepath.Join(t.TempDir(), "tokens")
	sum := func(token string) string {
		sum := sha256.Sum256([]byte(token))
		return hex.EncodeToString(sum[:])
	}
	text := "# names, rights, sums\nshop call " + sum("one") + "\n\ndeploy put " + sum("two") + "\nbatch call,spread " + sum("three") + "\n"
	if err := os.WriteFile(path, []byte(text), 0o600); err != nil {
		t.Fatal(err)
	}
	r := serve(t, adding(1), Options{Tokens: path})
	defer r.stop(t)
	for _, it := range []struct {
		method, path, token string
		due                 int
	}{
		{"POST", "/v1/services/s", "", 401},
		{"POST", "/v1/services/s", "Bearer none", 401},
		{"POST", "/v1/services/s", "Basic one", 401},
		{"POST", "/v1/services/s", "Bearer one", 200},
		{"POST", "/v1/services/s", "bearer three", 200},
		{"POST", "/v1/services/s", "Bearer two", 403},
		{"PUT", "/v1/model", "Bearer one", 403},
		{"PUT", "/v1/model", "", 401},
		{"PUT", "/v1/model", "Bearer two", 200},
		{"GET", "/v1/model", "Bearer one", 200},
		{"GET", "/v1/model", "", 401},
		{"GET", "/v1/services", "", 401},
		{"GET", "/v1/services", "Bearer one", 200},
		{"GET", "/healthz", "", 200},
	} {
		headers := []string{"Authorization", it.token}
		if it.token == "" {
			headers = nil
		}
		if status, text, _ := send(t, it.method, r.url+it.path, adding(1), headers...); status != it.due {
			t.Errorf("%s %s with %q: %d %s, and %d is due", it.method, it.path, it.token, status, text, it.due)
		}
	}
	for _, wrong := range []string{"", "shop call", "shop fly " + sum("x"), "shop call 12", "a call " + sum("x") + "\nb call " + sum("x")} {
		if err := os.WriteFile(path, []byte(wrong), 0o600); err != nil {
			t.Fatal(err)
		}
		if _, err := readTokens(path); err == nil {
			t.Errorf("%q is taken as tokens", wrong)
		}
	}
}

func TestPutFromElsewhere(t *testing.T) {
	for _, it := range []struct {
		remote, host, header string
		due                  bool
	}{
		{"127.0.0.1:1", "127.0.0.1:8080", "", true},
		{"[::1]:1", "[::1]:8080", "", true},
		{"127.0.0.1:1", "localhost", "", true},
		{"10.0.0.1:1", "127.0.0.1:8080", "", false},
		{"127.0.0.1:1", "evil.example:8080", "", false},
		{"127.0.0.1:1", "127.0.0.1:8080", "X-Forwarded-For", false},
	} {
		request := &http.Request{RemoteAddr: it.remote, Host: it.host, Header: http.Header{}}
		if it.header != "" {
			request.Header.Set(it.header, "x")
		}
		if isLocal(request) != it.due {
			t.Errorf("%+v", it)
		}
	}
}

// A put model is kept: a restarted service serves it, and says so.
func TestStateAndJournal(t *testing.T) {
	folder := t.TempDir()
	r := serve(t, adding(1), Options{Journal: folder})
	send(t, "POST", r.url+"/v1/services/s", `{"a":1}`, "X-Request-Id", "before")
	status, text, _ := send(t, "PUT", r.url+"/v1/model", adding(5), "If-Match", `"other"`)
	if status != 412 {
		t.Errorf("If-Match of another model: %d %s", status, text)
	}
	if status, text, _ := send(t, "PUT", r.url+"/v1/model", adding(5)); status != 200 || !strings.Contains(text, `"kept":true`) {
		t.Errorf("%d %s", status, text)
	}
	send(t, "POST", r.url+"/v1/services/s", `[{"a":1},{"a":9223372036854775807},{"a":1.5}]`, "X-Request-Id", "after")
	r.stop(t)
	r = serve(t, adding(1), Options{Journal: folder})
	if _, text, _ := send(t, "POST", r.url+"/v1/services/s", `{"a":1}`); text != `{"result":6}` {
		t.Errorf("after a restart: %s", text)
	}
	r.stop(t)
	if !strings.Contains(strings.Join(r.log, "\n"), "serving the model last put") {
		t.Errorf("the log says nothing of the model last put: %q", r.log)
	}
	names, _ := filepath.Glob(filepath.Join(folder, "*.jsonl"))
	var all []byte
	for _, name := range names {
		text, err := os.ReadFile(name)
		if err != nil {
			t.Fatal(err)
		}
		all = append(all, text...)
	}
	for id, due := range map[string]int{"before": 1, "after#0": 1, "after#1": 1, "after#2": 0} {
		if got := bytes.Count(all, []byte(`{"client":"`+id+`",`)); got != due {
			t.Errorf("%s is in the journal %d times, not %d", id, got, due)
		}
	}
	if len(names) != 3 {
		t.Errorf("the journal has the files %v", names)
	}
}

// Callers keep their connections while the service ends: each request sent on one is answered.
func TestStopUnderLoad(t *testing.T) {
	r := serve(t, adding(1), Options{})
	var answered atomic.Int64
	var callers sync.WaitGroup
	for caller := 0; caller < 8; caller++ {
		callers.Add(1)
		go func() {
			defer callers.Done()
			client := &http.Client{Transport: &http.Transport{}}
			for {
				answer, err := client.Post(r.url+"/v1/services/s", "application/json", strings.NewReader(`{"a":1}`))
				if errors.Is(err, syscall.ECONNREFUSED) {
					return
				}
				if err != nil {
					t.Error(err)
					return
				}
				text, err := io.ReadAll(answer.Body)
				answer.Body.Close()
				if err != nil || strings.TrimSpace(string(text)) != `{"result":2}` {
					t.Errorf("%s, %v", text, err)
				}
				answered.Add(1)
			}
		}()
	}
	for until := time.Now().Add(time.Minute); answered.Load() < 8 && time.Now().Before(until); {
		time.Sleep(100 * time.Millisecond)
	}
	r.stop(t)
	callers.Wait()
	if answered.Load() < 8 {
		t.Errorf("%d answers", answered.Load())
	}
}

// A caller that goes away costs nobody else anything.
func TestCallersThatLeave(t *testing.T) {
	r := serve(t, slow(2000), Options{Processes: 1})
	defer r.stop(t)
	for n := 0; n < 20; n++ {
		ctx, stop := context.WithTimeout(context.Background(), 5*time.Millisecond)
		request, _ := http.NewRequestWithContext(ctx, "POST", r.url+"/v1/services/s", strings.NewReader(long(300)))
		request.Header.Set("X-Client", "ann")
		if answer, err := oneCall.Do(request); err == nil {
			answer.Body.Close()
		}
		stop()
	}
	if status, text, _ := send(t, "POST", r.url+"/v1/services/s", long(1), "X-Client", "ann"); status != 200 {
		t.Errorf("%d %s", status, text)
	}
	for until := time.Now().Add(20 * time.Second); ; time.Sleep(20 * time.Millisecond) {
		_, text, _ := send(t, "GET", r.url+"/metrics", "")
		if strings.Contains(text, "\ndesk_http_outstanding 0\n") && strings.Contains(text, "\ndesk_http_held_bytes 0\n") &&
			strings.Contains(text, "\ndesk_http_clients 0\n") {
			break
		}
		if time.Now().After(until) {
			t.Fatal("something is still held")
		}
	}
}

func TestLimits(t *testing.T) {
	c := newClients(3, 5)
	a, refused := c.enter("a", 3)
	if refused != nil {
		t.Fatal(refused)
	}
	if _, refused := c.enter("a", 1); refused != problemBusy {
		t.Error("a client has more than its limit")
	}
	if _, refused := c.enter("", 3); refused != problemFull {
		t.Error("there is more than the limit")
	}
	if _, refused := c.enter("b", 2); refused != nil {
		t.Error("another client is refused")
	}
	c.answered(a, 3)
	c.leave(a)
	if _, refused := c.enter("a", 9); refused != problemFull {
		t.Error("a call beyond the limit is accepted next to another")
	}
	if requests, named := c.count(); requests != 2 || named != 1 {
		t.Errorf("%d requests of %d clients", requests, named)
	}
}

// The description has every path.
func TestEveryPathIsDescribed(t *testing.T) {
	r := serve(t, adding(1), Options{})
	defer r.stop(t)
	_, text, _ := send(t, "GET", r.url+"/openapi.json", "")
	var page struct{ Paths map[string]json.RawMessage }
	if err := json.Unmarshal([]byte(text), &page); err != nil {
		t.Fatal(err)
	}
	s := &Service{metrics: newMetrics(&Service{places: newConnections(1, 1)})}
	due := []string{"/v1/services/s", "/v1/explain/s", "/problems/{word}"}
	for path := range s.pages() {
		// The list of services may have a slash at its end.
		if path != servicesPath {
			due = append(due, path)
		}
	}
	for _, path := range due {
		if page.Paths[path] == nil {
			t.Errorf("nothing describes %s", path)
		}
	}
	if len(due) != len(page.Paths) {
		t.Errorf("%d paths are described, and there are %d", len(page.Paths), len(due))
	}
}
