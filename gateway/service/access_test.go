package service

import (
	"crypto/sha256"
	"encoding/json"
	"fmt"
	"os"
	"path/filepath"
	"strings"
	"sync"
	"testing"
)

// The log as JSON has a line for each call, put and refused token, without inputs and secrets.
func TestAccessLog(t *testing.T) {
	tokens := filepath.Join(t.TempDir(), "tokens")
	text := fmt.Sprintf("shop call %x\ndeploy put %x\n", sha256.Sum256([]byte("secret-1")), sha256.Sum256([]byte("secret-2")))
	if err := os.WriteFile(tokens, []byte(text), 0o600); err != nil {
		t.Fatal(err)
	}
	var mu sync.Mutex
	var written []string
	r := serve(t, adding(1), Options{Tokens: tokens, Access: func(line []byte) {
		mu.Lock()
		written = append(written, string(line))
		mu.Unlock()
	}})
	const parent = "00-0af7651916cd43dd8448eb211c80319c-b7ad6b7169203331-01"
	_, _, header := send(t, "POST", r.url+"/v1/services/s", `{"a":765432}`, "Authorization", "Bearer secret-1", "X-Client", "ann", "X-Request-Id", "a7",
		"Traceparent", parent)
	given := header.Get("Traceparent")
	if !isTrace(given) || given[:36] != parent[:36] || given[36:52] == parent[36:52] || given[52:] != parent[52:] {
		t.Errorf("%s is given for %s", given, parent)
	}
	_, _, header = send(t, "POST", r.url+"/v1/services/s", `[{"a":1.5},{"a":765432}]`, "Authorization", "Bearer secret-1", "Traceparent", "00-0-0-0")
	if !isTrace(header.Get("Traceparent")) {
		t.Errorf("%s is given", header.Get("Traceparent"))
	}
	send(t, "POST", r.url+"/v1/services/none", `{}`, "Authorization", "Bearer secret-1")
	send(t, "GET", r.url+"/v1/model", ``, "Authorization", "Bearer secret-3")
	send(t, "PUT", r.url+"/v1/model?name=adding&version=2&why=tests", adding(2), "Authorization", "Bearer secret-2")
	send(t, "PUT", r.url+"/v1/model", `{"model":{}}`, "Authorization", "Bearer secret-2")
	send(t, "PUT", r.url+"/v1/model", adding(2), "Authorization", "Bearer secret-1")
	r.stop(t)
	due := []string{
		`"level":"info","event":"call","id":"a7","parent":"` + parent + `","traceparent":"` + given + `","caller":"shop","client":"ann","service":"s","status":200,"requests":1,"queueMicros":`,
		`"caller":"shop","service":"s","status":200,"requests":2,"queueMicros":`,
		`"caller":"shop","service":"none","status":404,"requests":0,`,
		`"level":"warn","event":"token","from":"127.0.0.1:`,
		`"caller":"deploy","status":200,"name":"adding","version":"2","why":"tests","sha256":"`,
		`"caller":"deploy","status":422,"problem":"model"`,
		`"caller":"shop","status":403,"problem":"right"`,
	}
	if len(written) != len(due) {
		t.Fatalf("%d lines: %s", len(written), written)
	}
	// A line is written after its answer, so lines of two callers come in any order.
	all := strings.Join(written, "")
	for _, part := range due {
		if strings.Count(all, part) != 1 {
			t.Errorf("%s\n%s is due", all, part)
		}
	}
	for _, line := range written {
		var members map[string]any
		if err := json.Unmarshal([]byte(line), &members); err != nil || !strings.HasSuffix(line, "}\n") || members["time"] == nil {
			t.Errorf("%s: %v", line, err)
		}
		if strings.Contains(line, "secret") || strings.Contains(line, "765432") {
			t.Errorf("%s has a secret or an input", line)
		}
	}
	var times struct{ EngineMicros, AllMicros int64 }
	first := all[strings.Index(all, `"id":"a7"`):]
	if json.Unmarshal([]byte("{"+first[:strings.IndexByte(first, '\n')]), &times) != nil || times.AllMicros <= 0 || times.EngineMicros <= 0 || times.EngineMicros > times.AllMicros {
		t.Errorf("the times are %+v", times)
	}
}

func TestIsTrace(t *testing.T) {
	for text, due := range map[string]bool{
		"00-0af7651916cd43dd8448eb211c80319c-b7ad6b7169203331-01": true,
		"01-0af7651916cd43dd8448eb211c80319c-b7ad6b7169203331-01": false,
		"00-0AF7651916cd43dd8448eb211c80319c-b7ad6b7169203331-01": false,
		"00-00000000000000000000000000000000-b7ad6b7169203331-01": false,
		"00-0af7651916cd43dd8448eb211c80319c-0000000000000000-01": false,
		"00-0af7651916cd43dd8448eb211c80319c-b7ad6b7169203331-0":  false,
		"00-0af7651916cd43dd8448eb211c80319cxb7ad6b7169203331-01": false,
		"": false,
	} {
		if isTrace(text) != due {
			t.Errorf("%s", text)
		}
	}
}
