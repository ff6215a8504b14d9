package service

import (
	"fmt"
	"strings"
	"testing"
)

// free returns which of some turns may put their requests in, and which may be answered.
func free(all ...*turn) string {
	var put, answer []string
	for at, t := range all {
		select {
		case <-t.mayPut:
			put = append(put, fmt.Sprint(at))
		default:
		}
		select {
		case <-t.mayAnswer:
			answer = append(answer, fmt.Sprint(at))
		default:
		}
	}
	return strings.Join(put, "") + "/" + strings.Join(answer, "")
}

func TestTurns(t *testing.T) {
	ts := newTurns()
	if ts.begin("") != nil {
		t.Error("without a name there is a turn")
	}
	ts.put(nil)
	ts.end(nil)
	a, b, c, d := ts.begin("ann"), ts.begin("ann"), ts.begin("ann"), ts.begin("ann")
	other := ts.begin("bob")
	for _, step := range []struct {
		said string
		do   func()
		due  string
	}{
		{"at first", func() {}, "0/0"},
		{"the second is refused", func() { ts.end(b) }, "0/0"},
		{"the first is put in", func() { ts.put(a) }, "02/0"},
		{"the third is put in", func() { ts.put(c) }, "023/0"},
		{"the third goes away", func() { ts.end(c) }, "023/0"},
		{"the first is answered", func() { ts.end(a) }, "023/03"},
		{"the fourth is put in", func() { ts.put(d) }, "023/03"},
	} {
		step.do()
		// The second is over before its turn, so its channels don't matter.
		if got := free(a, b, c, d); got != step.due {
			t.Errorf("%s: %s, and %s is due", step.said, got, step.due)
		}
	}
	if got := free(other); got != "0/0" {
		t.Errorf("another client has to wait: %s", got)
	}
	ts.end(d)
	ts.end(other)
	if len(ts.byName) != 0 {
		t.Errorf("there are still %d orders", len(ts.byName))
	}
	if e := ts.begin("ann"); free(e) != "0/0" {
		t.Error("a client that comes again has to wait")
	}
}
