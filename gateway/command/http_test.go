package command

import (
	"bytes"
	"context"
	"encoding/json"
	"io"
	"net"
	"net/http"
	"os"
	"path/filepath"
	"reflect"
	"sort"
	"strings"
	"testing"
)

// halfRefused is a file with a refused decision f, which only h of the others needs.
const halfRefused = header + `<inputData id="a" name="a"><variable name="a" typeRef="number"/></inputData>` +
	`<decision id="d" name="d"><informationRequirement><requiredInput href="#a"/></informationRequirement>` +
	`<literalExpression><text>a + 1</text></literalExpression></decision>` +
	`<decision id="e" name="e"><informationRequirement><requiredDecision href="#d"/></informationRequirement>` +
	`<literalExpression><text>d * 2</text></literalExpression></decision>` +
	`<decision id="f" name="f"><literalExpression><text>string length("a")</text></literalExpression></decision>` +
	`<decision id="h" name="h"><informationRequirement><requiredDecision href="#f"/></informationRequirement>` +
	`<literalExpression><text>f</text></literalExpression></decision></definitions>`

// A served is a service over HTTP that a test started.
type served struct {
	client   http.Client
	stop     context.CancelFunc
	ended    chan error
	messages *bytes.Buffer
}

// serve starts desk http with options, and waits until it answers or has ended.
func serve(t *testing.T, text string, options ...string) *served {
	t.Helper()
	folder, err := os.MkdirTemp("", "desk")
	if err != nil {
		t.Fatal(err)
	}
	t.Cleanup(func() { os.RemoveAll(folder) })
	socket := filepath.Join(folder, "s")
	s := &served{ended: make(chan error, 1), messages: &bytes.Buffer{}}
	s.client.Transport = &http.Transport{DisableKeepAlives: true, DialContext: func(ctx context.Context, _, _ string) (net.Conn, error) {
		return new(net.Dialer).DialContext(ctx, "unix", socket)
	}}
	root := newRoot()
	root.SetOut(io.Discard)
	root.SetErr(s.messages)
	root.SetArgs(append([]string{"http", "--listen", "unix:" + socket, "--processes", "1", file(t, text)}, options...))
	ctx, stop := context.WithCancel(context.Background())
	s.stop = stop
	t.Cleanup(stop)
	go func() { s.ended <- root.ExecuteContext(ctx) }()
	return s
}

// names returns the names of its services; nil if it ended.
func (s *served) names(t *testing.T) (names []string) {
	t.Helper()
	for {
		select {
		case err := <-s.ended:
			s.ended <- err
			return nil
		default:
		}
		answer, err := s.client.Get("http://desk/v1/services")
		if err != nil {
			continue
		}
		defer answer.Body.Close()
		var list struct {
			Services []struct{ Name string }
		}
		if err := json.NewDecoder(answer.Body).Decode(&list); err != nil || answer.StatusCode != http.StatusOK {
			t.Fatalf("status %d: %v", answer.StatusCode, err)
		}
		for _, service := range list.Services {
			names = append(names, service.Name)
		}
		sort.Strings(names)
		return names
	}
}

// asked returns a service's answer and its status.
func (s *served) asked(t *testing.T, name, inputs string) (status int, body string) {
	t.Helper()
	answer, err := s.client.Post("http://desk/v1/services/"+name, "application/json", strings.NewReader(inputs))
	if err != nil {
		t.Fatal(err)
	}
	defer answer.Body.Close()
	bytes, err := io.ReadAll(answer.Body)
	if err != nil {
		t.Fatal(err)
	}
	return answer.StatusCode, string(bytes)
}

// TestPartsOfAFileOverHTTP serves what needs no refused place, and the closure of one service.
func TestPartsOfAFileOverHTTP(t *testing.T) {
	for _, c := range []struct {
		name     string
		options  []string
		due      []string
		messages string
	}{
		{"all of it", nil, nil, `no function string length`},
		{"what can be made", []string{"--partial"}, []string{"d", "e"}, `no function string length`},
		{"one service", []string{"--service", "e"}, []string{"e"}, ""},
		{"one that needs a refused place", []string{"--service", "h"}, nil, `no function string length`},
		{"one that isn't there", []string{"--service", "x"}, nil, `"x"`},
	} {
		t.Run(c.name, func(t *testing.T) {
			s := serve(t, halfRefused, c.options...)
			if names := s.names(t); !reflect.DeepEqual(names, c.due) {
				t.Errorf("it serves %q, and %q are due", names, c.due)
			}
			if c.due != nil {
				if status, body := s.asked(t, "e", `{"a":4}`); status != http.StatusOK || !strings.Contains(body, "10") {
					t.Errorf("e has status %d: %s", status, body)
				}
				if status, body := s.asked(t, "h", `{"a":4}`); status != http.StatusNotFound {
					t.Errorf("h has status %d: %s", status, body)
				}
			}
			s.stop()
			err := <-s.ended
			messages := s.messages.String()
			if err != nil {
				messages += err.Error()
			}
			if (err == nil) != (c.due != nil) || !strings.Contains(messages, c.messages) {
				t.Errorf("it ended with %v\n%s", err, messages)
			}
		})
	}
}

// bounded is a file with allowed values that no JSON Schema of its types says, of inputs and of a component.
const bounded = header + `<itemDefinition name="tAmount"><typeRef>number</typeRef><allowedValues><text>&gt;= 0.5</text></allowedValues></itemDefinition>` +
	`<itemDefinition name="tSize"><typeRef>number</typeRef><allowedValues><text>[1..5], [10..20), null</text></allowedValues></itemDefinition>` +
	`<itemDefinition name="tDay"><typeRef>date</typeRef><allowedValues><text>&gt;= date("2020-01-01"), null</text></allowedValues></itemDefinition>` +
	`<itemDefinition name="tPerson"><itemComponent name="Net Pay"><typeRef>number</typeRef><allowedValues><text>&lt; 0, &gt; 9.25</text></allowedValues>` +
	`</itemComponent></itemDefinition>` +
	`<inputData id="a" name="Amount"><variable name="Amount" typeRef="tAmount"/></inputData>` +
	`<inputData id="b" name="size"><variable name="size" typeRef="tSize"/></inputData>` +
	`<inputData id="c" name="day"><variable name="day" typeRef="tDay"/></inputData>` +
	`<inputData id="p" name="Person"><variable name="Person" typeRef="tPerson"/></inputData>` +
	`<decision id="d" name="d"><informationRequirement><requiredInput href="#a"/></informationRequirement>` +
	`<informationRequirement><requiredInput href="#b"/></informationRequirement><informationRequirement><requiredInput href="#c"/></informationRequirement>` +
	`<informationRequirement><requiredInput href="#p"/></informationRequirement>` +
	`<literalExpression><text>[Amount, size, if day = null then 0 else 1, Person.Net Pay]</text></literalExpression></decision></definitions>`

// TestAllowedValuesOverHTTP refuses what the file doesn't allow, in the terms of the file.
func TestAllowedValuesOverHTTP(t *testing.T) {
	for _, options := range [][]string{nil, {"--lenient"}} {
		s := serve(t, bounded, append([]string{"--decimals", "2"}, options...)...)
		if s.names(t) == nil {
			t.Fatal(s.messages)
		}
		for _, c := range []struct {
			inputs string
			status int
			due    string
		}{
			{`{"Amount":0.5,"size":null,"day":"2020-01-01","Person":{"Net Pay":9.26}}`, 200, `{"result":[0.5,null,1,9.26]}`},
			{`{"Amount":1e2,"size":19,"day":null,"Person":{"Net Pay":-1}}`, 200, `{"result":[100,19,0,-1]}`},
			{`{"Amount":0.4,"Person":{"Net Pay":-1}}`, 422, `"detail":"0.4 is not allowed: it has to be at least 0.5"`},
			{`{"Amount":0.4,"Person":{"Net Pay":-1}}`, 422, `"pointer":"/Amount"`},
			{`{"Amount":7,"size":6,"Person":{"Net Pay":-1}}`, 422, `"detail":"6 is not allowed: it has to be from 1 to 5, at least 10 and less than 20 or null"`},
			{`{"Amount":7,"size":20,"Person":{"Net Pay":-1}}`, 422, `"pointer":"/size"`},
			{`{"Amount":7,"day":"2019-12-31","Person":{"Net Pay":-1}}`, 422, `"detail":"\"2019-12-31\" is not allowed: it has to be at least \"2020-01-01\" or null"`},
			{`{"Amount":7,"Person":{"Net Pay":9.25}}`, 422, `"detail":"9.25 is not allowed: it has to be less than 0 or more than 9.25"`},
			{`{"Amount":7,"Person":{"Net Pay":0}}`, 422, `"pointer":"/Person/Net Pay"`},
		} {
			if status, body := s.asked(t, "d", c.inputs); status != c.status || !strings.Contains(body, c.due) {
				t.Errorf("%v %s: %d %s, and %s is due", options, c.inputs, status, body, c.due)
			}
		}
		status, body := s.asked(t, "d", `{"Amount":7,"Person":{}}`)
		if isRefused := strings.Contains(body, `\"Person.Net Pay\" is missing`); isRefused != (options == nil) || status == 200 == isRefused {
			t.Errorf("%v: %d %s", options, status, body)
		}
		s.stop()
	}
}
