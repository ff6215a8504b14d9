package engine

import (
	"bufio"
	"fmt"
	"reflect"
	"strings"
	"testing"
	"time"
)

// Replies of `desk explain` to requests, with the deciding tables, read by hand.
func TestReadExplained(t *testing.T) {
	for _, it := range []struct {
		line  string
		value string
		kind  Kind
		long  bool
		due   []Decided
	}{
		{`{"client":"lane3","line":2,"model":"a0","service":"s","inputs":{"a":5},"decisions":[{"name":"price","value":950,"table":` +
			`{"policy":"U","inputs":[5,false],"hits":[{"rule":3,"value":950}],"defaults":false,"decided":[3]}}],"result":950,"ticket":7}`,
			"950", Result, false, []Decided{{Decision: "price", Rules: []int{3}}}},
		{`{"client":"lane3","line":2,"model":"a0","service":"s","inputs":{"x":"},{\"decided\":[9]"},"decisions":[{"name":"a \"b\"","value":{"e":1},` +
			`"entries":[{"name":"e","value":1,"table":{"policy":"C+","inputs":["\\"],"hits":[],"defaults":false,"decided":[1,12]}},` +
			`{"name":"f","value":[],"members":[{"value":1},{"value":2,"table":{"policy":"F","inputs":[],"hits":[],"defaults":true,"decided":[]}}]}],` +
			`"result":{"value":{"decided":[4]},"table":{"policy":"F","inputs":[],"hits":[],"defaults":false,"decided":[2]}}},{"name":"g","given":3}],` +
			`"result":{"result":"\"ticket\":1"},"ticket":7}`,
			`{"result":"\"ticket\":1"}`, Result, false, []Decided{{Decision: `a "b"`, Path: "/context/0/expr", Rules: []int{1, 12}},
				{Decision: `a "b"`, Path: "/context/1/expr/list/1", IsDefault: true}, {Decision: `a "b"`, Path: "/result", Rules: []int{2}}}},
		{`{"client":"lane3","line":6,"model":"a0","service":"s","inputs":{},"decisions":[{"name":"price","fault":"limit","table":{"policy":"U",` +
			`"inputs":[1],"hits":[{"rule":3,"fault":"limit"}],"defaults":false}}],"fault":"limit","ticket":7}`, "", Limit, false, nil},
		{`{"client":"lane3","line":6,"model":"a0","service":"s","inputs":{},"explained":"long","result":[],"ticket":7}`, "[]", Result, true, nil},
	} {
		replies, err := repliesBy(readExplainedLine, bufio.NewReader(strings.NewReader(it.line+"\n")), nil)
		if err != nil || len(replies) != 1 {
			t.Fatalf("%s: %v %v", it.line, replies, err)
		}
		r := replies[0]
		if r.lane != 3 || r.ticket != 7 || r.outcome.Kind != it.kind || string(r.outcome.Value) != it.value || r.outcome.IsLong != it.long {
			t.Errorf("%s\nis read as %+v", it.line, r)
		}
		if !reflect.DeepEqual(r.outcome.Decided, it.due) {
			t.Errorf("%s\ndecided %+v, and %+v is due", it.line, r.outcome.Decided, it.due)
		}
	}
}

// The result of a line of 40 MB is read, whatever texts come before it; a result as long isn't.
func TestReadLongExplained(t *testing.T) {
	part := strings.Repeat(`{"name":"d\\\"]},","value":["x,}",{"decisions":[1]}]},`, 800_000)
	line := `{"client":"lane3","line":2,"model":"a0","service":"s","inputs":{"a":"} , \" ]"},"decisions":[` + part + `{"name":"e"}],"result":{"a":%s},"ticket":7}` + "\n"
	for _, it := range []struct{ value, due string }{
		{`"],}"`, `{"a":"],}"}`}, {`"` + strings.Repeat("x", MaxAnswer) + `"`, ""},
	} {
		from := bufio.NewReaderSize(strings.NewReader(fmt.Sprintf(line, it.value)), 256<<10)
		replies, err := repliesBy(readExplainedLine, from, nil)
		if err != nil || len(replies) != 1 {
			t.Fatalf("%v %v", replies, err)
		}
		r := replies[0]
		isHuge := r.outcome.Kind == Huge && r.ticket == anyTicket
		if r.lane != 3 || !r.outcome.IsLong || string(r.outcome.Value) != it.due || isHuge != (it.due == "") {
			t.Errorf("it is read as lane %d, %d, kind %d, %.60s", r.lane, r.ticket, r.outcome.Kind, r.outcome.Value)
		}
	}
}

// Decisions in deeply nested parts are found in one walk: it takes as long as reading the text a few times.
func TestDeepExplanations(t *testing.T) {
	const depth = 60
	value := `"` + strings.Repeat("x", 1<<20) + `"`
	text := `{"value":` + value + `,"table":{"policy":"F","inputs":[],"hits":[],"defaults":false,"decided":[2]}}`
	path := ""
	for n := 0; n < depth; n++ {
		text = `{"entries":[{"name":"e","value":1}],"result":` + text + `}`
		path += "/result"
	}
	text = `[{"name":"d",` + text[1:] + `]`
	begin := time.Now()
	for n := 0; n < 20; n++ {
		valueEnd([]byte(text), 0)
	}
	once := time.Since(begin)
	begin = time.Now()
	found := DecidedIn([]byte(text))
	if took := time.Since(begin); took > once+time.Second {
		t.Errorf("it takes %v, and 20 walks take %v", took, once)
	}
	if due := []Decided{{Decision: "d", Path: path, Rules: []int{2}}}; !reflect.DeepEqual(found, due) {
		t.Errorf("%+v", found)
	}
}

// A text that is cut anywhere, or has another byte anywhere, ends the walk and nothing else.
func TestBrokenExplanations(t *testing.T) {
	text := []byte(`[{"name":"a \"b\"","value":{"e":1},"entries":[{"name":"e","value":1,"table":{"policy":"C+","inputs":["\\"],"hits":[],` +
		`"defaults":false,"decided":[1,12]}}],"result":{"value":[],"members":[{"value":2}]}},{"name":"g","given":3}]`)
	for end := range text {
		DecidedIn(text[:end])
		for _, c := range []byte("\"\\{}[],:x") {
			changed := append([]byte(nil), text...)
			changed[end] = c
			DecidedIn(changed)
		}
	}
}
