package service

import (
	"encoding/json"
	"net/http"
	"strings"
	"testing"
)

// Each path in the description refuses unknown query parameters, by each of its methods, and does nothing then.
func TestUnknownQueryWords(t *testing.T) {
	r := serve(t, adding(1), Options{Journal: t.TempDir(), Trier: &stub{}})
	defer r.stop(t)
	_, text, _ := send(t, "GET", r.url+"/openapi.json", "")
	var page struct {
		Paths map[string]map[string]json.RawMessage
	}
	if err := json.Unmarshal([]byte(text), &page); err != nil {
		t.Fatal(err)
	}
	asked := map[string]int{}
	for path, members := range page.Paths {
		if !strings.HasPrefix(path, "/v1/") && path != "/openapi.json" {
			continue
		}
		for _, method := range []string{http.MethodGet, http.MethodPost, http.MethodPut} {
			if members[strings.ToLower(method)] == nil {
				continue
			}
			asked[method]++
			status, text, _ := send(t, method, r.url+path+"?wrod=1", adding(5))
			if status != 400 || !strings.Contains(text, `the query has \"wrod\", which is not known here`) {
				t.Errorf("%s %s: %d %s", method, path, status, text)
			}
		}
	}
	if asked[http.MethodGet] < 5 || asked[http.MethodPost] < 5 || asked[http.MethodPut] != 1 {
		t.Errorf("%v were asked", asked)
	}
	if _, text, _ := send(t, "POST", r.url+"/v1/services/s", `{"a":1}`); text != `{"result":2}` {
		t.Errorf("a model was put: %s", text)
	}
}
