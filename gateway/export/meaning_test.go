package export

import (
	"bytes"
	"context"
	"encoding/json"
	"fmt"
	"math/big"
	"math/rand"
	"strings"
	"testing"

	"gateway/engine"
	"gateway/feel"
)

// texts makes random texts over the names of a place.
type texts struct{ *rand.Rand }

func (t texts) one(of ...string) string { return of[t.Intn(len(of))] }

func (t texts) expression(depth int) string {
	if depth == 0 {
		return t.one("0", "1", "2", "-1", `"a"`, `"b"`, "true", "false", "null", "[]", "a", "b", "n", "s", "f", "l", "m", "c",
			"c.p", "a.p", "b.p", "nobody")
	}
	x := func() string { return t.expression(depth - 1) }
	p := func() string { return "(" + x() + ")" }
	switch t.Intn(12) {
	case 0, 1, 2:
		return p() + t.one(" + ", "+", " - ", " * ") + p()
	case 3:
		return p() + " + " + p() + " + " + p()
	case 4, 5:
		return t.one("sum", "min", "max", "count") + "(" + x() + ")"
	case 6:
		return "[" + x() + ", " + x() + "]"
	case 7:
		return "if " + x() + " then " + x() + " else " + x()
	case 8:
		return p() + t.one(" = ", " != ", " < ", " >= ") + p()
	case 9:
		return p() + t.one(" and ", " or ") + p()
	case 10:
		return t.one("not", "abs") + "(" + x() + ")"
	}
	return t.one("-"+p(), p()+".p", p()+" between 0 and 1", "modulo("+x()+", "+x()+")")
}

func (t texts) test() string {
	x := func() string { return "(" + t.expression(t.Intn(3)) + ")" }
	switch t.Intn(4) {
	case 0:
		return t.one("< ", ">= ") + x()
	case 1:
		return t.one("[", "(") + x() + ".." + x() + t.one("]", ")")
	case 2:
		return t.one("1", `"a"`, "true", "null", "n", "s", "a", "l", "[1, 2]")
	}
	return x()
}

func (t texts) tests() string {
	list := t.test()
	for t.Intn(3) == 0 {
		list += ", " + t.test()
	}
	if t.Intn(3) == 0 {
		return "not(" + list + ")"
	}
	return list
}

// value returns a random value of a shape.
func (t texts) value(of shape, depth int) any {
	all := []any{nil, true, big.NewInt(int64(t.Intn(4) - 1)), t.one("a", "b", ""), nil, nil}
	if depth > 0 {
		list := []any{}
		for t.Intn(3) > 0 {
			list = append(list, t.value(of.member(), depth-1))
		}
		all[4], all[5] = list, map[string]any{"p": t.value(of.path("p"), depth-1)}
	}
	for {
		if i := t.Intn(len(all)); of.maybe(1<<i) && (depth > 0 || i < 4) || depth == 0 {
			if depth == 0 && !of.maybe(1<<i) {
				return nil
			}
			return all[i]
		}
	}
}

// shapes returns what the names in random texts may be.
func shapes() map[string]shape {
	text := shape{kinds: isText | isNull}
	return map[string]shape{"a": anything, "b": anything, "n": number, "s": text, "f": condition,
		"l": {kinds: isList | isNull, members: &number}, "m": {kinds: isList | isNull},
		"c": {kinds: isContext | isNull, entries: map[string]shape{"p": number}}}
}

// A trial is one of our texts with values, its result, and how it is written.
type trial struct {
	model, text, written string
	bound                map[string]any
	// due is what the standard gives for the written text.
	due any
}

func (t texts) bound() map[string]any {
	bound := map[string]any{}
	for name, s := range shapes() {
		bound[name] = t.value(s, 2)
	}
	return bound
}

const trials = 500

// TestRandomTextsMeanTheSame compares the engine's result of a text with the standard's meaning of the written text.
func TestRandomTextsMeanTheSame(t *testing.T) {
	r := texts{rand.New(rand.NewSource(57))}
	place := placeOf(shapes(), nil)
	var all []trial
	for len(all) < trials {
		one := trial{text: r.expression(1 + r.Intn(3)), bound: r.bound()}
		written, err := place.expression(one.text)
		if err != nil {
			t.Fatalf("%s: %v", one.text, err)
		}
		node, fault := feel.Expression(written, place.bound.reads, nil)
		if fault != nil {
			t.Fatalf("%s is written as %s: %v", one.text, written, fault)
		}
		one.written, one.due = written, standard{bound: one.bound}.value(node)
		one.model = said(t, one.text)
		all = append(all, one)
	}
	compare(t, all)
}

// TestRandomTestsMeanTheSame does the same for unary tests, with columns of each kind.
func TestRandomTestsMeanTheSame(t *testing.T) {
	r := texts{rand.New(rand.NewSource(58))}
	place := placeOf(shapes(), nil)
	var all []trial
	for len(all) < trials {
		column := r.one("a", "n", "s", "f", "l")
		one := trial{text: r.tests(), bound: r.bound()}
		written, err := place.tests(one.text, shapes()[column])
		if err != nil {
			t.Fatalf("%s: %v", one.text, err)
		}
		nodes, fault := feel.Tests(written, place.bound.reads, nil)
		if fault != nil {
			t.Fatalf("%s is written as %s: %v", one.text, written, fault)
		}
		one.written = column + ": " + written
		one.due = standard{bound: one.bound, input: one.bound[column]}.meets(nodes) == true
		one.model = fmt.Sprintf(`{"table":{"hit":"F","inputs":[%s],"outputs":[{"name":"o","default":"false"}],`+
			`"rules":[{"when":[%s],"then":["true"]}]}}`, said(t, column), said(t, one.text))
		all = append(all, one)
	}
	compare(t, all)
}

func said(t *testing.T, value any) string {
	t.Helper()
	text, err := json.Marshal(value)
	if err != nil {
		t.Fatal(err)
	}
	return string(text)
}

// compare asks the engine for all, each under its own model. A value past the limits is not an answer.
func compare(t *testing.T, all []trial) {
	t.Helper()
	var lines bytes.Buffer
	for _, one := range all {
		names := `"a","b","n","s","f","l","m","c"`
		fmt.Fprintf(&lines, `{"model":{"inputs":[%[1]s],"decisions":[{"name":"d","needs":[%[1]s],"expr":%[2]s}],"services":[{"name":"d",`+
			`"outputs":["d"],"encapsulated":[],"inputDecisions":[],"inputData":[%[1]s]}]}}`+"\n", names, one.model)
		fmt.Fprintf(&lines, `{"client":"c","service":"d","inputs":%s}`+"\n", said(t, one.bound))
	}
	output, _, err := engine.Once(context.Background(), lines.Bytes(), "serve", "--clients", "1")
	if err != nil {
		t.Fatal(err)
	}
	answers := []string{}
	for _, line := range strings.Split(strings.TrimSpace(string(output)), "\n") {
		if strings.Contains(line, `"client"`) {
			answers = append(answers, line)
		}
	}
	if len(answers) != len(all) {
		t.Fatalf("%d answers to %d requests: %s", len(answers), len(all), output[:200])
	}
	compared, nulls := 0, 0
	for i, one := range all {
		var answer struct {
			Result json.RawMessage
			Fault  string
		}
		if err := json.Unmarshal([]byte(answers[i]), &answer); err != nil || answer.Fault == "" && answer.Result == nil {
			t.Fatalf("%s: %v", answers[i], err)
		}
		if answer.Fault != "" {
			continue
		}
		compared++
		if one.due == nil {
			nulls++
		}
		if due := said(t, one.due); string(answer.Result) != due {
			t.Errorf("%s, written %s, of %s: here %s, in the standard %s", one.text, one.written, said(t, one.bound),
				answer.Result, due)
		}
	}
	if compared < len(all)*9/10 || nulls > compared*9/10 {
		t.Errorf("only %d of %d compared, %d null", compared, len(all), nulls)
	}
}
