package service

import (
	"bufio"
	"crypto/sha256"
	"encoding/hex"
	"fmt"
	"io"
	"net"
	"net/http"
	"strconv"
	"strings"
	"syscall"
	"testing"
	"time"

	"gateway/engine"
)

// A caller that closes its side of the connection after its request gets an answer or a problem, and nothing else.
func TestHalfClosed(t *testing.T) {
	r := serve(t, slow(2_000), Options{Processes: 1})
	defer r.stop(t)
	for _, length := range []int{1, 4990} {
		connection, err := net.Dial("tcp", strings.TrimPrefix(r.url, "http://"))
		if err != nil {
			t.Fatal(err)
		}
		body := long(length)
		fmt.Fprintf(connection, "POST /v1/services/s HTTP/1.1\r\nHost: localhost\r\nContent-Length: %d\r\n\r\n%s", len(body), body)
		if err := connection.(*net.TCPConn).CloseWrite(); err != nil {
			t.Fatal(err)
		}
		answer, err := http.ReadResponse(bufio.NewReader(connection), nil)
		if err != nil {
			t.Fatal(err)
		}
		text, err := io.ReadAll(answer.Body)
		if err != nil {
			t.Fatal(err)
		}
		connection.Close()
		right := answer.StatusCode == 200 && strings.HasPrefix(string(text), `{"result":[1`) ||
			answer.StatusCode == 400 && strings.Contains(string(text), "/problems/left")
		if !right {
			t.Errorf("a request of length %d: %d %.100q", length, answer.StatusCode, text)
		}
	}
}

// handing returns a model of the service s: it makes a value of about 10 MB, passes it through that many decisions, and
// counts it.
func handing(times int) string {
	texts := strings.TrimSuffix(strings.Repeat("t,", 9998), ",")
	decisions := `{"name":"d0","needs":["t"],"expr":"[` + texts + `]"}`
	inner := `"d0"`
	for n := 1; n <= times; n++ {
		decisions += fmt.Sprintf(`,{"name":"d%d","needs":["d%d"],"expr":"d%d"}`, n, n-1, n-1)
		inner += fmt.Sprintf(`,"d%d"`, n)
	}
	decisions += fmt.Sprintf(`,{"name":"e","needs":["d%d"],"expr":"count(d%d)"}`, times, times)
	return `{"inputs":["t"],"decisions":[` + decisions + `],"services":[{"name":"s","outputs":["e"],"encapsulated":[` + inner +
		`],"inputDecisions":[],"inputData":["t"]}]}`
}

// Explanations that are too long are reported as such: those that the engine doesn't give, and those that aren't kept.
func TestLongExplanations(t *testing.T) {
	request := func(length int) string { return `{"t":"` + strings.Repeat("x", length) + `"}` }
	r := serve(t, handing(6), Options{Deadline: time.Minute})
	defer r.stop(t)
	for _, it := range []struct{ body, due string }{
		{request(1000), `{"result":9998,"explained":"long"}`},
		{`[` + request(300) + `]`, `[{"result":9998,"explained":"long"}]`},
	} {
		status, text, _ := send(t, "POST", r.url+"/v1/services/s?explain=true", it.body)
		if status != 200 || text != it.due {
			t.Errorf("a text of %d bytes: %d %.100s, and %s is due", len(it.body), status, text, it.due)
		}
	}
	status, text, _ := send(t, "POST", r.url+"/v1/services/s?explain=true", request(1))
	if status != 200 || !strings.HasPrefix(text, `{"result":9998,"decisions":[{"name":"d0","value":["x",`) {
		t.Errorf("a short one: %d %.100s", status, text)
	}
	status, text, _ = send(t, "POST", r.url+"/v1/services/s?explain=true", "["+strings.Repeat("{},", 100)+"{}]")
	if status != 413 {
		t.Errorf("101 to be explained: %d %.100s", status, text)
	}
}

// A result without room in the byte budget is refused, and gives nothing back that it didn't take.
func TestResultsWithoutRoom(t *testing.T) {
	s := &Service{clients: newClients(10, 10)}
	s.bodies.limit = 10
	c := &call{service: s, problems: make([]*problem, 2), outcomes: make([]engine.Outcome, 2), done: make(chan struct{})}
	c.add(0, &engine.Job{}, c.settle)
	c.add(1, &engine.Job{}, c.settle)
	if _, refused := s.clients.enter("", 2); refused != nil {
		t.Fatal(refused)
	}
	c.left.Store(2)
	c.users.Store(3)
	for _, job := range c.jobs {
		c.settle(job, engine.Outcome{Value: []byte(`"123456"`)})
	}
	<-c.done
	if p := c.problemAt(0); p != nil {
		t.Errorf("the first has %+v", p)
	}
	if p := c.problemAt(1); p == nil || p.kind != problemFull {
		t.Errorf("the second has %+v", p)
	}
	if held := s.bodies.held.Load(); held != 8 {
		t.Errorf("%d bytes are held", held)
	}
	c.release()
	if held := s.bodies.held.Load(); held != 0 {
		t.Errorf("%d bytes are held at the end", held)
	}
}

// A model for which the engine has too little memory is refused, and the previous one stays.
func TestModelsThatTakeTooMuch(t *testing.T) {
	r := serve(t, adding(1), Options{Processes: 1, Memory: 64 << 20})
	defer r.stop(t)
	status, text, _ := send(t, "PUT", r.url+"/v1/model", slow(30_000))
	if status != 422 || !strings.Contains(text, "--memory") {
		t.Errorf("%d %.200s", status, text)
	}
	if status, text, _ := send(t, "POST", r.url+"/v1/services/s", `{"a":1}`); status != 200 || text != `{"result":2}` {
		t.Errorf("%d %s", status, text)
	}
}

// A request comes after those of its client whose bodies arrived earlier, however long these take to read.
func TestLongListsKeepTheirTurn(t *testing.T) {
	r := serve(t, adding(1), Options{Processes: 1})
	defer r.stop(t)
	list := `[{"a":1}` + strings.Repeat(`,{"a":1,"b":"`+strings.Repeat("x", 1500)+`"}`, 9000) + `]`
	for n := 0; n < 5; n++ {
		connection, err := net.Dial("tcp", strings.TrimPrefix(r.url, "http://"))
		if err != nil {
			t.Fatal(err)
		}
		fmt.Fprintf(connection, "POST /v1/services/s HTTP/1.1\r\nHost: localhost\r\nX-Client: ann\r\nContent-Length: %d\r\n\r\n%s",
			len(list), list)
		for until := time.Now().Add(20 * time.Second); r.metric(t, "desk_http_held_bytes") < float64(len(list)); {
			if time.Now().After(until) {
				t.Fatal("the list does not come whole")
			}
		}
		if status, text, _ := send(t, "POST", r.url+"/v1/services/s", `{"a":1}`, "X-Client", "ann"); status != 200 {
			t.Errorf("%d %s", status, text)
		}
		if !hasCome(t, connection) {
			t.Error("a request was answered before the list that came before it")
		}
		connection.Close()
		for until := time.Now().Add(20 * time.Second); r.metric(t, "desk_http_held_bytes") > 0 && time.Now().Before(until); {
			time.Sleep(time.Millisecond)
		}
	}
}

// metric returns a value from /metrics.
func (r *running) metric(t *testing.T, name string) float64 {
	t.Helper()
	_, text, _ := send(t, "GET", r.url+"/metrics", "")
	for _, line := range strings.Split(text, "\n") {
		if words := strings.Fields(line); len(words) == 2 && words[0] == name {
			value, err := strconv.ParseFloat(words[1], 64)
			if err != nil {
				t.Fatal(err)
			}
			return value
		}
	}
	t.Fatalf("there is no metric %s", name)
	return 0
}

// hasCome reports whether part of an answer has arrived, without waiting.
func hasCome(t *testing.T, connection net.Conn) bool {
	t.Helper()
	raw, err := connection.(*net.TCPConn).SyscallConn()
	if err != nil {
		t.Fatal(err)
	}
	count := 0
	err = raw.Control(func(descriptor uintptr) {
		count, _, _ = syscall.Recvfrom(int(descriptor), make([]byte, 1), syscall.MSG_PEEK|syscall.MSG_DONTWAIT)
	})
	return err == nil && count > 0
}

// The model text in force has the sum in the headers.
func TestModelText(t *testing.T) {
	r := serve(t, adding(1), Options{Processes: 1})
	defer r.stop(t)
	_, text, header := send(t, "GET", r.url+"/v1/model?text=true", "")
	sum := sha256.Sum256([]byte(text))
	if hex.EncodeToString(sum[:]) != header.Get("Desk-Model") || header.Get("Content-Length") != fmt.Sprint(len(text)) {
		t.Errorf("%d bytes have the sum %x, and the headers are %v", len(text), sum, header)
	}
}
