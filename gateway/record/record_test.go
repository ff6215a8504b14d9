package record

import (
	"context"
	"fmt"
	"os"
	"path/filepath"
	"strings"
	"testing"
	"time"

	"gateway/engine"
	"gateway/engine/enginetest"
	"gateway/journal"
	"gateway/service"
)

func TestMain(m *testing.M) { enginetest.Main(m) }

// modelOf returns an imported table: from 5 on the price is its argument.
func modelOf(price int) string {
	return fmt.Sprintf(`{"inputs":["a_b"],"decisions":[{"name":"d_e","needs":["a_b"],"expr":{"table":{"hit":"U","inputs":["a_b"],`+
		`"outputs":[{"name":"p"}],"rules":[{"when":["< 500"],"then":["1"]},{"when":[">= 500"],"then":["%d"]}]}}}],`+
		`"services":[{"name":"s_t","outputs":["d_e"],"encapsulated":[],"inputDecisions":[],"inputData":["a_b"]}]}`, price)
}

const names = `"names":{"a_b":"a b","d_e":"d e","s_t":"s t"},"types":{"a_b":{"type":["number","null"],"multipleOf":0.01}},` +
	`"places":{"/decisions/0/expr/table/rules/1":{"id":"_two","name":"","annotations":["from five on"]}}`

// A written is a model as the journal writes it.
type written struct{ text, about string }

func (w *written) AppendLine(to []byte) []byte {
	return append(append(append(to, `{"model":`...), w.text...), "}\n"...)
}
func (w *written) AppendAbout(to []byte) []byte { return append(to, w.about...) }

// recorded returns a journal with entries as desk http writes them, after a file from an earlier version.
func recorded(t *testing.T) string {
	t.Helper()
	folder := t.TempDir()
	old := "{\"model\":" + modelOf(2) + "}\n{\"client\":\"2025-01-01T10:00:00Z\",\"close\":true}\n" +
		"{\"client\":\"old#0\",\"inputs\":{\"a_b\":600},\"service\":\"s_t\"}\n"
	if err := os.WriteFile(filepath.Join(folder, "2025-01-01T100000.000000Z.jsonl"), []byte(old), 0o640); err != nil {
		t.Fatal(err)
	}
	j, _, err := journal.Open(folder, journal.Options{Size: 1 << 20})
	if err != nil {
		t.Fatal(err)
	}
	of := &written{modelOf(2), `"release":{"sha256":"abc","name":"price","version":"2","who":"deploy"},` + names}
	for _, it := range []journal.Entry{
		{Asked: []byte(`{"client":"x1","inputs":{"a_b":712},"service":"s_t"}` + "\n"), About: []byte(`"id":"o1","request":"x1","time":"2026-11-29T07:00:00.001Z",` +
			`"token":"shop","client":"ann","release":"abc","result":2,"rules":[{"decision":"d e","rule":2,"id":"_two"}]`)},
		{Asked: []byte(`{"client":"x1","inputs":{"a_b":3},"service":"s_t"}` + "\n"), About: []byte(`"id":"o2","request":"x1","time":"2026-11-29T08:00:00.001Z",` +
			`"release":"abc","result":7,"rules":[{"decision":"d e","rule":1}]`)},
		{About: []byte(`"id":"o3#1","time":"2026-11-29T09:00:00.001Z","release":"abc","service":"s_t","inputs":{"a b":"hmac-sha256:00"},"redacted":["a b"],"result":1`)},
		{About: []byte(`"id":"o4","time":"2026-11-29T09:00:01.001Z","release":"abc","service":"s_t","inputs":{"a b":"x"},"problem":{"type":"value","status":422,"pointer":"/a b"}`)},
	} {
		if err := j.Record(of, []journal.Entry{it}); err != nil {
			t.Fatal(err)
		}
	}
	if err := j.Close(); err != nil {
		t.Fatal(err)
	}
	return folder
}

func TestFind(t *testing.T) {
	folder := recorded(t)
	for _, it := range []struct {
		filter Filter
		due    string
	}{
		{Filter{}, "old#0 o1 o2 o3#1 o4"},
		{Filter{ID: "x1"}, "o1 o2"},
		{Filter{ID: "o2"}, "o2"},
		{Filter{ID: "o"}, ""},
		{Filter{ID: "old"}, "old#0"},
		{Filter{ID: "o3"}, "o3#1"},
		{Filter{ID: "#3"}, "o2"},
		{Filter{Client: "ann"}, "o1"},
		{Filter{Client: "shop"}, "o1"},
		{Filter{From: "2026-11-29T08", To: "2026-11-29T09:00:01"}, "o2 o3#1"},
		{Filter{To: "2026"}, "old#0"},
		{Filter{Rule: "d e"}, "o1 o2"},
		{Filter{Rule: "d e:1"}, "o2"},
		{Filter{Rule: "_two"}, "o1"},
		{Filter{Rule: "d e:_two"}, "o1"},
		{Filter{Service: "s t", Release: "price 2"}, "o1 o2 o3#1 o4"},
		{Filter{Service: "s"}, ""},
		{Filter{Release: "ab"}, "o1 o2 o3#1 o4"},
	} {
		var found []string
		err := Each(folder, it.filter, func(c *Case) error {
			found = append(found, c.ID)
			return nil
		})
		if got := strings.Join(found, " "); err != nil || got != it.due {
			t.Errorf("%+v finds %q (%v), and %q is due", it.filter, got, err, it.due)
		}
	}
	if got, err := InputNames(folder, "s t"); err != nil || strings.Join(got, " ") != "a_b a b" && strings.Join(got, " ") != "a b" {
		t.Errorf("the inputs are %q (%v)", got, err)
	}
}

// Cases are decided again under the original model and under another, with the file's names and decimals.
func TestDecide(t *testing.T) {
	folder := recorded(t)
	path, err := engine.Path()
	if err != nil {
		t.Fatal(err)
	}
	asker := &Asker{Path: path}
	other, err := service.ReadSource([]byte(`{"model":` + modelOf(3) + `,` + names + `}`))
	if err != nil {
		t.Fatal(err)
	}
	due := map[string]struct {
		inputs     string
		then       string
		same, also bool
	}{
		"old#0": {`{"a_b":600}`, "2", true, true},
		"o1":    {`{"a b":7.12}`, "2", true, false},
		"o2":    {`{"a b":0.03}`, "1", false, false},
	}
	err = Each(folder, Filter{}, func(c *Case) error {
		it, is := due[c.ID]
		if c.CanDecide() != is {
			t.Errorf("%s: that it can be decided is %v", c.ID, c.CanDecide())
		}
		if !is {
			return nil
		}
		inputs, err := asker.Inputs(context.Background(), c)
		if err != nil || string(inputs) != it.inputs {
			t.Errorf("%s: the inputs are %s (%v)", c.ID, inputs, err)
		}
		then, err := asker.Decide(context.Background(), c, c.Head.Source)
		if err != nil || then.String() != it.then || then.Same(c) != it.same {
			t.Errorf("%s: %v (%v)", c.ID, then, err)
		}
		if c.ID == "old#0" {
			return nil
		}
		now, err := asker.Decide(context.Background(), c, other)
		if err != nil || now.Same(c) != it.also {
			t.Errorf("%s: now %v (%v)", c.ID, now, err)
		}
		if c.ID == "o1" && string(now.Rules) != `[{"decision":"d e","rule":2,"id":"_two","annotations":["from five on"]}]` {
			t.Errorf("the rules are %s", now.Rules)
		}
		return nil
	})
	if err != nil {
		t.Fatal(err)
	}
}

// A trial asks both models about each case that can be decided, and says by which rules they differ.
func TestTrial(t *testing.T) {
	path, err := engine.Path()
	if err != nil {
		t.Fatal(err)
	}
	folder := recorded(t)
	source := func(price int) *service.Source {
		it, err := service.ReadSource([]byte(`{"model":` + modelOf(price) + `,` + names + `}`))
		if err != nil {
			t.Fatal(err)
		}
		return it
	}
	lower, err := service.ReadSource([]byte(`{"model":` + strings.ReplaceAll(modelOf(2), "500", "800") + `,` + names + `}`))
	if err != nil {
		t.Fatal(err)
	}
	for _, it := range []struct {
		new   *service.Source
		due   string
		where string
	}{
		{source(2), "", ""},
		{source(3), "old#0 2 3 o1 2 3", "d e: rule 2, as before"},
		{lower, "old#0 2 1 o1 2 1", "d e: rule 2 -> rule 1"},
	} {
		var found []string
		counted := 0
		trial := &Trial{Asker: &Asker{Path: path}, Old: source(2), New: it.new, Asked: func(count int) error { counted = count; return nil }}
		tried, err := trial.Run(context.Background(), folder, Filter{}, func(d *Difference) error {
			found = append(found, d.Case.ID, d.Old, d.New)
			return nil
		})
		if err != nil {
			t.Fatal(err)
		}
		if got := strings.Join(found, " "); got != it.due || tried.Asked != 3 || tried.Left != 2 || counted != 3 || tried.Differing*3 != len(found) {
			t.Errorf("%s and %+v, and %s is due", got, tried, it.due)
		}
		if it.where != "" && (len(tried.By) != 1 || tried.By[it.where] != 2) {
			t.Errorf("by %v, and %s is due", tried.By, it.where)
		}
	}
}

// The caller can end a trial.
func TestTrialEnds(t *testing.T) {
	path, err := engine.Path()
	if err != nil {
		t.Fatal(err)
	}
	folder := recorded(t)
	source, _ := service.ReadSource([]byte(`{"model":` + modelOf(2) + `,` + names + `}`))
	other, _ := service.ReadSource([]byte(`{"model":` + modelOf(3) + `,` + names + `}`))
	full := fmt.Errorf("the disk is full")
	trial := &Trial{Asker: &Asker{Path: path}, Old: source, New: other}
	if _, err := trial.Run(context.Background(), folder, Filter{}, func(*Difference) error { return full }); err != full {
		t.Errorf("it ends with %v", err)
	}
}

// What a trial keeps of answers is limited, and says what it left out.
func TestLongAnswers(t *testing.T) {
	long := strings.Repeat("é", mostText)
	one, other := whole(long), whole(long+"x")
	if one == other || len(one) > mostText+200 || !strings.Contains(one, fmt.Sprintf(".. (%d bytes, SHA-256 ", len(long))) || whole("7") != "7" {
		t.Errorf("%q", one)
	}
	var rules []string
	for n := 1; n <= 25; n++ {
		rules = append(rules, fmt.Sprintf(`{"decision":"d","rule":%d}`, n))
	}
	rules = append(rules, `{"decision":"e","default":true}`)
	named := tables([]byte("[" + strings.Join(rules, ",") + "]"))
	if !strings.HasPrefix(named["d"], "rule 1, 2, 3,") || !strings.HasSuffix(named["d"], ", 20 and 5 more") || named["e"] != "its default" {
		t.Errorf("%v", named)
	}
	tried := &Tried{By: map[string]int{}}
	for n := 0; n < 2*mostKinds; n++ {
		tried.add(fmt.Sprint(n), 1)
	}
	if len(tried.By) != mostKinds+1 || tried.By[otherKinds] != mostKinds {
		t.Errorf("%d kinds, and %d others", len(tried.By), tried.By[otherKinds])
	}
}

// A request for which an engine dies, or that takes too long, has a problem, and the others have their answers.
func TestTrialOfRequestsThatTakeTooMuch(t *testing.T) {
	folder := recorded(t)
	source, _ := service.ReadSource([]byte(`{"model":` + modelOf(2) + `,` + names + `}`))
	path, err := engine.Path()
	if err != nil {
		t.Fatal(err)
	}
	// The engine ends or hangs at input 3, when it is asked to explain the model with price 3.
	script := filepath.Join(t.TempDir(), "engine")
	for became, does := range map[string]string{"died": "kill -9 $$", "late": "exec sleep 600"} {
		text := fmt.Sprintf(`#!/bin/sh
if [ "$1" != explain ]; then exec %[1]s "$@"; fi
read -r model
case $model in *'"then":["3"]'*) ;; *) { printf '%%s\n' "$model"; cat; } | %[1]s "$@"; exit;; esac
while read -r line; do
	case $line in *'"a_b":3}'*) %[2]s;; esac
	{ printf '%%s\n' "$model"; printf '%%s\n' "$line"; } | %[1]s explain > "$0.out"
	if [ -z "$said" ]; then sed -n 1p "$0.out"; said=1; fi
	sed 1d "$0.out"
done
`, path, does)
		if err := os.WriteFile(script, []byte(text), 0o700); err != nil {
			t.Fatal(err)
		}
		dear, _ := service.ReadSource([]byte(`{"model":` + modelOf(3) + `,` + names + `}`))
		trial := &Trial{Asker: &Asker{Path: script}, Old: source, New: dear, Patience: 30 * time.Second}
		var found []string
		tried, err := trial.Run(context.Background(), folder, Filter{}, func(d *Difference) error {
			found = append(found, d.Case.ID, d.Old, strings.SplitN(d.New, ":", 2)[0])
			return nil
		})
		if err != nil {
			t.Fatal(err)
		}
		if got := strings.Join(found, " "); got != "old#0 2 3 o1 2 3 o2 1 problem "+became || tried.Asked != 3 {
			t.Errorf("%s and %+v", got, tried)
		}
	}
}

// Long requests are asked in small pieces, so that a trial doesn't hold many.
func TestPiecesOfATrial(t *testing.T) {
	path, err := engine.Path()
	if err != nil {
		t.Fatal(err)
	}
	folder := t.TempDir()
	j, _, err := journal.Open(folder, journal.Options{Size: 64 << 20})
	if err != nil {
		t.Fatal(err)
	}
	const count, size = 40, 100_000
	entries := make([]journal.Entry, count)
	for at := range entries {
		entries[at].Asked = []byte(`{"client":"x","inputs":{"a_b":7,"pad":"` + strings.Repeat("x", size) + `"},"service":"s_t"}` + "\n")
		entries[at].About = []byte(fmt.Sprintf(`"id":"o%d","release":"abc","result":1`, at))
	}
	if err := j.Record(&written{modelOf(2), `"release":{"sha256":"abc"},` + names}, entries); err != nil {
		t.Fatal(err)
	}
	if err := j.Close(); err != nil {
		t.Fatal(err)
	}
	source, _ := service.ReadSource([]byte(`{"model":` + modelOf(2) + `,` + names + `}`))
	before := 0
	trial := &Trial{Asker: &Asker{Path: path}, Old: source, New: source, Asked: func(asked int) error {
		if asked-before > pieceBytes/size+1 {
			t.Errorf("%d are asked at once", asked-before)
		}
		before = asked
		return nil
	}}
	tried, err := trial.Run(context.Background(), folder, Filter{}, func(*Difference) error { return nil })
	if err != nil || tried.Asked != count || tried.Differing != 0 {
		t.Errorf("%+v (%v)", tried, err)
	}
}
