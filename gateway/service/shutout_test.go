package service

import (
	"bufio"
	"context"
	"errors"
	"fmt"
	"io"
	"net"
	"net/http"
	"net/http/httptest"
	"os"
	"path/filepath"
	"strings"
	"testing"
	"time"
)

// Without tokens only this machine is answered, by its own names: a name that was made to point here reads nothing. A
// POST that a browser sends for a page of another site is refused.
func TestOtherSites(t *testing.T) {
	r := serve(t, adding(1), Options{})
	defer r.stop(t)
	open := serve(t, adding(1), Options{IsOpen: true})
	defer open.stop(t)
	tokens := serve(t, adding(1), Options{Tokens: writeTokens(t, "shop call one")})
	defer tokens.stop(t)
	for _, it := range []struct {
		of                         *running
		method, path, host, header string
		due                        int
	}{
		{r, "GET", "/v1/model", "", "", 200},
		{r, "GET", "/v1/model", "localhost:8080", "", 200},
		{r, "GET", "/v1/model", "[::1]:8080", "", 200},
		{r, "GET", "/v1/model", "evil.example", "", 421},
		{r, "GET", "/", "evil.example:8080", "", 421},
		{r, "GET", "/openapi.json", "127.0.0.1.evil.example", "", 421},
		{r, "POST", "/v1/services/s", "evil.example", "", 421},
		{open, "GET", "/v1/model", "desk.example", "", 200},
		{tokens, "GET", "/v1/model", "desk.example", "", 200},
		{r, "POST", "/v1/services/s", "", "Origin: http://evil.example", 403},
		{r, "POST", "/v1/services/s", "", "Origin: null", 403},
		{r, "POST", "/v1/services/s", "", "Sec-Fetch-Site: cross-site", 403},
		{r, "POST", "/v1/services/s", "", "Sec-Fetch-Site: same-site", 403},
		{r, "POST", "/v1/services/s", "", "Sec-Fetch-Site: same-origin", 200},
		{r, "POST", "/v1/services/s", "", "Sec-Fetch-Site: none", 200},
		{r, "POST", "/v1/services/s", "127.0.0.1:80", "Origin: http://127.0.0.1:80", 200},
		{r, "POST", "/v1/services/s", "127.0.0.1:80", "Origin: http://127.0.0.1:81", 403},
		{r, "PUT", "/v1/model", "", "Origin: http://evil.example", 403},
		{r, "GET", "/v1/model", "", "Sec-Fetch-Site: cross-site", 200},
		{open, "POST", "/v1/services/s", "", "Origin: http://evil.example", 403},
		{tokens, "POST", "/v1/services/s", "", "Origin: http://evil.example", 403},
	} {
		request, err := http.NewRequest(it.method, it.of.url+it.path, strings.NewReader(`{"a":1}`))
		if err != nil {
			t.Fatal(err)
		}
		request.Header.Set("Authorization", "Bearer one")
		if it.host != "" {
			request.Host = it.host
		}
		if name, value, is := strings.Cut(it.header, ": "); is {
			request.Header.Set(name, value)
		}
		answer, err := oneCall.Do(request)
		if err != nil {
			t.Fatal(err)
		}
		text, _ := io.ReadAll(answer.Body)
		answer.Body.Close()
		if answer.StatusCode != it.due {
			t.Errorf("%s %s of %q with %q: %d %s, and %d is due", it.method, it.path, it.host, it.header, answer.StatusCode, text, it.due)
		}
	}
}

// A plain token spreads: its requests have an order with the right ordered, or X-Client.
func TestRightOrdered(t *testing.T) {
	s := &Service{}
	all, err := readTokens(writeTokens(t, "shop call one", "desk call,ordered two", "old call,spread three"))
	if err != nil {
		t.Fatal(err)
	}
	s.tokens.Store(&all)
	for _, it := range []struct{ token, named, due string }{
		{"one", "", ""}, {"one", "x", "shop x"}, {"two", "", "desk"}, {"two", "x", "desk x"}, {"three", "", ""}, {"three", "x", "old x"},
	} {
		request := httptest.NewRequest("POST", "/v1/services/s", nil)
		request.Header.Set("Authorization", "Bearer "+it.token)
		if it.named != "" {
			request.Header.Set("X-Client", it.named)
		}
		if who, p := s.caller(request); p != nil || who.client != it.due || who.owner != strings.Fields(it.due + " " + who.token)[0] {
			t.Errorf("%+v: %+v, %v", it, who, p)
		}
	}
}

// The operators' listener only answers operators, and only it has the metrics.
func TestAdmin(t *testing.T) {
	admin, err := net.Listen("tcp", "127.0.0.1:0")
	if err != nil {
		t.Fatal(err)
	}
	r := serve(t, adding(1), Options{Admin: admin})
	defer r.stop(t)
	for _, it := range []struct {
		url string
		due int
	}{
		{"http://" + admin.Addr().String() + "/healthz", 200}, {"http://" + admin.Addr().String() + "/readyz", 200},
		{"http://" + admin.Addr().String() + "/metrics", 200}, {"http://" + admin.Addr().String() + "/v1/model", 404},
		{r.url + "/healthz", 200}, {r.url + "/readyz", 200}, {r.url + "/metrics", 404}, {r.url + "/v1/model", 200},
	} {
		if status, text, _ := send(t, "GET", it.url, ""); status != it.due {
			t.Errorf("%s: %d %.100s, and %d is due", it.url, status, text, it.due)
		}
	}
}

// dial opens a connection without sending anything.
func (r *running) dial(t *testing.T) net.Conn {
	t.Helper()
	connection, err := net.Dial("tcp", strings.TrimPrefix(r.url, "http://"))
	if err != nil {
		t.Fatal(err)
	}
	t.Cleanup(func() { connection.Close() })
	return connection
}

// If quiet connections take all places of an address, the one that has been quiet longest is closed for a new one.
func TestQuietConnections(t *testing.T) {
	const limit = 20
	r := serve(t, adding(1), Options{AddressLimit: limit})
	defer r.stop(t)
	var quiet []net.Conn
	for n := 0; n < 3*limit; n++ {
		quiet = append(quiet, r.dial(t))
	}
	for n := 0; n < limit; n++ {
		if status, text, _ := send(t, "POST", r.url+"/v1/services/s", `{"a":1}`); status != 200 {
			t.Fatalf("%d %s", status, text)
		}
	}
	for n, connection := range quiet[:limit] {
		_ = connection.SetReadDeadline(time.Now().Add(time.Minute))
		if _, err := connection.Read(make([]byte, 1)); err != io.EOF && !strings.Contains(fmt.Sprint(err), "reset") {
			t.Errorf("quiet connection %d is open: %v", n, err)
		}
	}
}

// Connections with a request are not closed for others of their address, which are refused.
func TestBusyConnections(t *testing.T) {
	const limit = 5
	r := serve(t, adding(1), Options{AddressLimit: limit, Deadline: time.Minute})
	defer r.stop(t)
	for n := 0; n < limit; n++ {
		// The connection that saw the service ready may still be counted.
		for until := time.Now().Add(time.Minute); !r.waitsForBody(t); time.Sleep(10 * time.Millisecond) {
			if time.Now().After(until) {
				t.Fatalf("%d connections are served", n)
			}
		}
	}
	connection := r.dial(t)
	_ = connection.SetReadDeadline(time.Now().Add(time.Minute))
	if _, err := connection.Read(make([]byte, 1)); err == nil || errors.Is(err, os.ErrDeadlineExceeded) {
		t.Errorf("one more connection is served: %v", err)
	}
	r.wait(t, "connections of 127.0.0.1")
}

// waitsForBody opens a connection whose call is read up to its body, and reports whether it was.
func (r *running) waitsForBody(t *testing.T) bool {
	t.Helper()
	connection := r.dial(t)
	fmt.Fprintf(connection, "POST /v1/services/s HTTP/1.1\r\nHost: localhost\r\nContent-Length: 7\r\nExpect: 100-continue\r\n\r\n")
	_ = connection.SetReadDeadline(time.Now().Add(time.Minute))
	line, err := bufio.NewReader(connection).ReadString('\n')
	return err == nil && strings.Contains(line, "100")
}

// A unix socket serves too, and counts as this machine.
func TestUnixSocket(t *testing.T) {
	path := filepath.Join(t.TempDir(), "socket")
	listener, err := net.Listen("unix", path)
	if err != nil {
		t.Fatal(err)
	}
	r := serve(t, adding(1), Options{Listener: listener})
	defer r.stop(t)
	client := &http.Client{Transport: &http.Transport{DisableKeepAlives: true, DialContext: func(context.Context, string, string) (net.Conn, error) {
		return net.Dial("unix", path)
	}}}
	for _, it := range []struct{ method, path, body string }{{"POST", "/v1/services/s", `{"a":1}`}, {"PUT", "/v1/model", adding(2)}} {
		request, err := http.NewRequest(it.method, "http://desk"+it.path, strings.NewReader(it.body))
		if err != nil {
			t.Fatal(err)
		}
		answer, err := client.Do(request)
		if err != nil {
			t.Fatal(err)
		}
		answer.Body.Close()
		if answer.StatusCode != 200 {
			t.Errorf("%s %s: %d", it.method, it.path, answer.StatusCode)
		}
	}
}

// Connections that were established before a socket is shut out are waited for until they are accepted, and no other is
// established after.
func TestShutOut(t *testing.T) {
	listener, err := net.Listen("tcp", "127.0.0.1:0")
	if err != nil {
		t.Fatal(err)
	}
	defer listener.Close()
	const count = 3
	for n := 0; n < count; n++ {
		connection, err := net.Dial("tcp", listener.Addr().String())
		if err != nil {
			t.Fatal(err)
		}
		defer connection.Close()
		fmt.Fprint(connection, n)
	}
	ended := make(chan error)
	go func() { ended <- shutOut(listener) }()
	time.Sleep(2 * handshakePatience)
	for n := 0; n < count; n++ {
		select {
		case err := <-ended:
			t.Fatalf("%d connections were accepted before it ended: %v", n, err)
		default:
		}
		connection, err := listener.Accept()
		if err != nil {
			t.Fatal(err)
		}
		defer connection.Close()
		text := make([]byte, 1)
		if _, err := io.ReadFull(connection, text); err != nil || text[0] != byte('0'+n) {
			t.Errorf("connection %d says %q: %v", n, text, err)
		}
	}
	if err := <-ended; err != nil {
		t.Error(err)
	}
	if connection, err := net.DialTimeout("tcp", listener.Addr().String(), handshakePatience); err == nil {
		connection.Close()
		t.Error("a connection is established after")
	}
}
