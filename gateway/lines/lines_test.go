package lines

import (
	"bytes"
	"encoding/json"
	"fmt"
	"math/rand"
	"os"
	"os/exec"
	"strings"
	"testing"
)

// aModel has the service s, which returns its input a.
const aModel = `{"model":{"inputs":["a"],"decisions":[{"name":"d","needs":["a"],"expr":"a"}],` +
	`"services":[{"name":"s","outputs":["d"],"encapsulated":[],"inputDecisions":[],"inputData":["a"]}]}}`

// desk returns the engine's path.
func desk() string {
	if path := os.Getenv("DESK_ENGINE"); path != "" {
		return path
	}
	return "../../dist/desk"
}

// refusals returns the word by which the engine refuses each input; "" if it doesn't.
func refusals(t *testing.T, inputs []string) []string {
	t.Helper()
	var in bytes.Buffer
	in.WriteString(aModel + "\n")
	for _, text := range inputs {
		fmt.Fprintf(&in, "{\"client\":\"x\",\"inputs\":%s,\"service\":\"s\"}\n", text)
	}
	command := exec.Command(desk(), "serve", "--workers", "1")
	command.Stdin = &in
	out, err := command.Output()
	if err != nil {
		t.Fatalf("running the engine: %v", err)
	}
	words := make([]string, len(inputs))
	answered := 0
	for _, line := range bytes.Split(bytes.TrimSpace(out), []byte("\n")) {
		var answer struct {
			Line    int
			Refused string
			Model   bool
		}
		if err := json.Unmarshal(line, &answer); err != nil {
			t.Fatalf("the engine wrote %q: %v", line, err)
		}
		if answer.Model {
			continue
		}
		answered++
		if answer.Refused != "" {
			words[answer.Line-2] = answer.Refused
		}
	}
	if answered != len(inputs) {
		t.Fatalf("%d answers came to %d requests", answered, len(inputs))
	}
	return words
}

// refused returns what this package says about a request's inputs.
func refused(text string) string {
	members, other, fault := Members([]byte(text), MaxNesting-1)
	switch {
	case fault != nil:
		return "syntax"
	case other:
		return "shape"
	}
	for at := len(members) - 1; at >= 0; at-- {
		if members[at].Key == "a" {
			if Value([]byte(text), members[at].Value) != nil {
				return "value"
			}
			break
		}
	}
	return ""
}

func nested(open, inner, end string, times int) string {
	return strings.Repeat(open, times) + inner + strings.Repeat(end, times)
}

// written has texts at the limits, and what the engine's documents say about them.
var written = []struct{ text, word string }{
	{`{}`, ""},
	{`{"a":1}`, ""},
	{` { "a" : [ 1 , {"b":null} ] } `, ""},
	{`[]`, "shape"},
	{`5`, "shape"},
	{`{"a":"\u00e9\u00E9\uAbCd"}`, ""},
	{"{\"a\":\"\\u00e\x19\"}", "syntax"},
	{"{\"a\":\"\\u\x10\x11\x12\x13\"}", "syntax"},
	{`{"a":"\u00e:"}`, "syntax"},
	{`{"a":"\u00eg"}`, "syntax"},
	{`{"a":1.0}`, "value"},
	{`{"a":1e2}`, "value"},
	{`{"a":-0}`, "value"},
	{`{"a":-0,"a":0}`, ""},
	{`{"a":0,"a":-0}`, "value"},
	{`{"b":1.5}`, ""},
	{`{"b":1e309}`, "syntax"},
	{`{"b":-1e309}`, "syntax"},
	{`{"b":1e-400}`, ""},
	{`{"a":9223372036854775807}`, ""},
	{`{"a":9223372036854775808}`, "value"},
	{`{"a":-9223372036854775807}`, ""},
	{`{"a":-9223372036854775808}`, "value"},
	{`{"a":18446744073709551616}`, "value"},
	{`{"a":01}`, "syntax"},
	{`{"a":+1}`, "syntax"},
	{`{"a":1.}`, "syntax"},
	{`{"a":.5}`, "syntax"},
	{`{"a":1e}`, "syntax"},
	{`{"a":-}`, "syntax"},
	{`{"a":NaN}`, "syntax"},
	{`{"a":tru}`, "syntax"},
	{`{"a":1,}`, "syntax"},
	{`{"a"}`, "syntax"},
	{`{a:1}`, "syntax"},
	{`{"a":'x'}`, "syntax"},
	{`{"a":"\ud800"}`, "syntax"},
	{`{"a":"\udc00"}`, "syntax"},
	{`{"a":"\ud800\u0041"}`, "syntax"},
	{`{"a":"\ud83d\ude00"}`, ""},
	{`{"\ud800":1}`, "syntax"},
	{`{"\u0061":1.5}`, "value"},
	{`{"a":"\x"}`, "syntax"},
	{`{"a":"\u00g0"}`, "syntax"},
	{"{\"a\":\"\t\"}", "syntax"},
	{"{\"a\":\"\x7f\"}", ""},
	{"{\"a\":\"\xff\"}", "syntax"},
	{"{\"a\":\"\xed\xa0\x80\"}", "syntax"},
	{"\ufeff{}", "syntax"},
	{`{"a":{"b":1.5,"b":2}}`, ""},
	{`{"a":{"b":2,"b":1.5}}`, "value"},
	{`{"a":` + nested("[", "1", "]", 99) + `}`, ""},
	{`{"a":` + nested("[", "1", "]", 100) + `}`, "value"},
	{`{"a":` + nested("[", "", "]", 100) + `}`, ""},
	{`{"b":` + nested("[", "1", "]", 125) + `}`, ""},
	{`{"b":` + nested("[", "1", "]", 126) + `}`, "syntax"},
	{`{"b":` + nested(`{"b":`, "1", "}", 125) + `}`, ""},
	{`{"b":` + nested(`{"b":`, "1", "}", 126) + `}`, "syntax"},
	{`{"a":[` + strings.Repeat("0,", 9998) + `0]}`, ""},
	{`{"a":[` + strings.Repeat("0,", 9999) + `0]}`, "value"},
	{`{"a":[` + strings.Repeat("{},", 9998) + `{}]}`, ""},
}

func TestAsWritten(t *testing.T) {
	var texts []string
	for _, it := range written {
		texts = append(texts, it.text)
		if got := refused(it.text); got != it.word {
			t.Errorf("%.60s: %q, and %q is due", it.text, got, it.word)
		}
	}
	for at, got := range refusals(t, texts) {
		if got != written[at].word {
			t.Errorf("%.60s: the engine says %q, and %q is due", written[at].text, got, written[at].word)
		}
	}
}

// changed returns a text with some bytes removed, doubled or changed.
func changed(random *rand.Rand, text string) string {
	const bytesOf = "{}[]\",:\\u0019.eE-+dDab \ttrufalsn/\x01\x80\xc3"
	changed := []byte(text)
	for times := 1 + random.Intn(3); times > 0 && len(changed) > 0; times-- {
		at := random.Intn(len(changed))
		switch random.Intn(4) {
		case 0:
			changed = append(changed[:at], changed[at+1:]...)
		case 1:
			changed = append(changed[:at+1], changed[at:]...)
		default:
			changed[at] = bytesOf[random.Intn(len(bytesOf))]
		}
	}
	return strings.ReplaceAll(string(changed), "\n", " ")
}

// TestAsTheEngineReads changes inputs of requests. Inputs that end early and swallow the rest make another line altogether.
func TestAsTheEngineReads(t *testing.T) {
	random := rand.New(rand.NewSource(59))
	var texts []string
	for len(texts) < 20_000 {
		from := written[random.Intn(len(written))].text
		if len(from) > 300 {
			continue
		}
		text := changed(random, from)
		if _, fault := Whole([]byte(text), MaxNesting-1); fault != nil {
			// A text that is not a value by itself may still make the whole line valid.
			if whole := `{"client":"x","inputs":` + text + `,"service":"s"}`; json.Valid([]byte(whole)) {
				continue
			}
		}
		texts = append(texts, text)
	}
	differ := 0
	for at, got := range refusals(t, texts) {
		due := refused(texts[at])
		if got != due && differ < 20 {
			t.Errorf("%q: the engine says %q, and we say %q", texts[at], got, due)
			differ++
		}
	}
}

func TestSyntaxFaultPlace(t *testing.T) {
	_, _, fault := Members([]byte("{\n \"a\": x}"), MaxNesting)
	if fault == nil || fault.Line != 2 || fault.Column != 7 || fault.Offset != 8 {
		t.Errorf("the fault is %+v, and line 2, column 7, byte 8 is due", fault)
	}
}

func TestItems(t *testing.T) {
	text := []byte(` [ {"a":1} , 2, [ 3 ] ]`)
	items, fault := Items(text, MaxNesting)
	if fault != nil || len(items) != 3 {
		t.Fatalf("%d items, fault %v", len(items), fault)
	}
	for at, due := range []string{`{"a":1}`, `2`, `[ 3 ]`} {
		if got := string(text[items[at].Start:items[at].End]); got != due {
			t.Errorf("item %d is %q, and %q is due", at, got, due)
		}
	}
}

func TestValuePointer(t *testing.T) {
	text := []byte(`{"a":{"x/y":[0,1.5]}}`)
	members, _, _ := Members(text, MaxNesting)
	fault := Value(text, members[0].Value)
	if fault == nil || fault.Pointer != "/x~1y/1" {
		t.Errorf("the fault is %+v, and /x~1y/1 is due", fault)
	}
}

func TestCompact(t *testing.T) {
	tree, err := Tree([]byte(" { \"b\" : \"\\u00e9\\/\\u0001<\\u2028\" , \"a\" : [ true , null, \"\\n\" ], \"\" : {} } "))
	if err != nil {
		t.Fatal(err)
	}
	due := "{\"\":{},\"a\":[true,null,\"\\n\"],\"b\":\"\u00e9/\\u0001<\u2028\"}"
	if got := string(Compact(nil, tree)); got != due {
		t.Errorf("it is %s, and %s is due", got, due)
	}
}

func TestRenamed(t *testing.T) {
	for text, due := range map[string]string{
		`{"net price":1,"x":[{"net price":2}]}`:                       `{"net_price":1,"x":[{"net_price":2}]}`,
		`{"net price":{"net price":1,"net_price":2},"net_price_2":3}`: `{"net_price":{"net price":1,"net_price":2},"net_price_2":3}`,
	} {
		tree, err := Tree([]byte(text))
		if err != nil {
			t.Fatal(err)
		}
		got := Compact(nil, Renamed(tree, map[string]string{"net price": "net_price"}))
		if string(got) != due {
			t.Errorf("%s becomes %s, and %s is due", text, got, due)
		}
	}
}

func TestHasKey(t *testing.T) {
	table := map[string]string{"net price": "net_price"}
	for text, due := range map[string]bool{
		`{"net price":1}`:                     true,
		`{"x":[{"y":2},{"net price" : 2}]}`:   true,
		`{"x":"net price","y":["net price"]}`: false,
		`{"net_price":"\"net price\":1"}`:     false,
		`{"net\u0020price":1}`:                true,
		`{"x\"":1}`:                           true,
		`{"x":"\\","net price":1}`:            true,
		`{}`:                                  false,
	} {
		if HasKey([]byte(text), table) != due {
			t.Errorf("%s: %v is due", text, due)
		}
	}
}

func TestOneLine(t *testing.T) {
	for _, it := range []struct {
		text    string
		longest int
		due     string
	}{
		{`{"a": 1}`, 100, `{"a": 1}`},
		{"{\"a\":\n 1}", 100, `{"a":1}`},
		{`{"a":   1}`, 8, `{"a":1}`},
	} {
		if got := string(OneLine([]byte(it.text), it.longest)); got != it.due {
			t.Errorf("%q is %q, and %q is due", it.text, got, it.due)
		}
	}
}
