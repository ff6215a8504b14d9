package tell

import (
	"bytes"
	"context"
	"errors"
	"fmt"
	"io"
	"os"
	"path/filepath"
	"strings"
	"testing"
	"testing/iotest"
)

// engineThat returns a program that reads its input, writes these lines and exits with this status.
func engineThat(t *testing.T, status int, lines ...string) string {
	t.Helper()
	folder := t.TempDir()
	said, path := filepath.Join(folder, "said"), filepath.Join(folder, "engine")
	if err := os.WriteFile(said, []byte(strings.Join(lines, "\n")+"\n"), 0o600); err != nil {
		t.Fatal(err)
	}
	script := fmt.Sprintf("#!/bin/sh\n[ \"$1\" = help ] && echo 'or a path of an input' && exit\ncat > /dev/null\ncat %s\nexit %d\n", said, status)
	if err := os.WriteFile(path, []byte(script), 0o700); err != nil {
		t.Fatal(err)
	}
	return path
}

const ring = `{"inputs":[],"decisions":[{"name":"d","needs":["d"],"expr":"1"}],"services":[]}`

// TestWhatCannotBeWorded passes the engine's lines through unchanged, with its status and a line on standard error.
func TestWhatCannotBeWorded(t *testing.T) {
	for name, lines := range map[string][]string{
		"a place that is none":    {`{"fault":"cycle"}`, `{"fault":"cycle","pointer":"/decisions/99"}`},
		"what is no JSON":         {`{"fault":"cycle"}`, `{"fault":`},
		"a model that isn't read": {`{"lawful":true}`, `{"table":"/decisions/7/expr/table","complete":true}`},
	} {
		engine := engineThat(t, 3, lines...)
		var out, errOut bytes.Buffer
		status, err := Check(context.Background(), engine, CheckOptions{Tables: true}, strings.NewReader(ring), &out, &errOut)
		if due := strings.Join(lines, "\n") + "\n"; err != nil || status != 3 || out.String() != due {
			t.Errorf("%s: %d, %v: %q, and %q is due", name, status, err, out.String(), due)
		}
		if said := errOut.String(); !strings.HasPrefix(said, "desk: what was found could not be worded: ") || strings.Count(said, "\n") != 1 {
			t.Errorf("%s: %q on standard error", name, said)
		}
	}
}

// TestWhatCannotBeANotice writes nothing where a tool expects its own format.
func TestWhatCannotBeANotice(t *testing.T) {
	engine := engineThat(t, 3, `{"fault":"cycle"}`, `{"fault":"cycle","pointer":"/decisions/99"}`)
	for _, format := range []Format{SARIF, GitHub} {
		var out, errOut bytes.Buffer
		status, err := Check(context.Background(), engine, CheckOptions{Format: format}, strings.NewReader(ring), &out, &errOut)
		if err != nil || status != StatusFault || out.Len() > 0 || !strings.HasPrefix(errOut.String(), "desk: what was found could not be written as ") {
			t.Errorf("%s: %d, %v: %q, %q", format, status, err, out.String(), errOut.String())
		}
	}
}

// TestCheckWords needs nothing from the engine but faults and pointers.
func TestCheckWords(t *testing.T) {
	engine := engineThat(t, 3, `{"fault":"cycle"}`, `{"fault":"cycle","pointer":"/decisions/0"}`)
	var out, errOut bytes.Buffer
	status, err := Check(context.Background(), engine, CheckOptions{}, strings.NewReader(ring), &out, &errOut)
	due := "cycle: a decision needs itself\ncycle: 1 place\n  line 1, column 27: decisions[0] \"d\": needs itself, directly or through others\n    each needs the next: d, d\n"
	if err != nil || status != 3 || out.String() != due || errOut.Len() > 0 {
		t.Errorf("%d, %v: %q, %q; and %q is due", status, err, out.String(), errOut.String(), due)
	}
}

// TestDevicesThatFail uses one word for a failed read and one for a failed write, as the engine does.
func TestDevicesThatFail(t *testing.T) {
	engine := engineThat(t, 0, `{"lawful":true}`)
	var errOut bytes.Buffer
	status, err := Check(context.Background(), engine, CheckOptions{}, iotest.ErrReader(errors.New("no")), io.Discard, &errOut)
	if status != StatusFault || err != nil || errOut.String() != "read\n" {
		t.Errorf("read: %d, %v, %q", status, err, errOut.String())
	}
	errOut.Reset()
	full, err := os.OpenFile("/dev/full", os.O_WRONLY, 0)
	if err != nil {
		t.Skip(err)
	}
	defer full.Close()
	status, err = Check(context.Background(), engine, CheckOptions{Format: JSON}, strings.NewReader(ring), full, &errOut)
	if status != StatusFault || err != nil || errOut.String() != "write\n" {
		t.Errorf("write: %d, %v, %q", status, err, errOut.String())
	}
	if _, err = Check(context.Background(), filepath.Join(t.TempDir(), "none"), CheckOptions{}, strings.NewReader(ring), io.Discard, &errOut); err == nil {
		t.Error("a missing engine is no error")
	}
}

// TestExplainWords words the engine's lines, and passes through what is no explanation.
func TestExplainWords(t *testing.T) {
	model := `{"decisions":[{"expr":"a + 1","name":"d","needs":["a"]}],"inputs":["a"],"services":[{"encapsulated":[],"inputData":["a"],"inputDecisions":[],"name":"s","outputs":["d"]}]}`
	engine := engineThat(t, 0, `{"line":1,"model":true,"read":`+model+`,"sha256":"5f"}`,
		`{"client":"c","line":2,"model":"5f","service":"s","inputs":{"a":4},"decisions":[{"name":"d","value":5}],"result":5,"ticket":0}`,
		`{"client":"c","line":3,"refused":"service"}`)
	var out, errOut bytes.Buffer
	status, err := Explain(context.Background(), engine, ExplainOptions{Text: true}, strings.NewReader(""), &out, &errOut)
	due := "line 1: model 5f\n\nline 2: client \"c\", ticket 0, asks for s\n  model 5f\n  input a = 4\n  d = 5, from a + 1\n  result: 5\n\n" +
		"{\"client\":\"c\",\"line\":3,\"refused\":\"service\"}\n"
	if err != nil || status != 0 || out.String() != due || errOut.Len() > 0 {
		t.Errorf("%d, %v: %q, %q; and %q is due", status, err, out.String(), errOut.String(), due)
	}
}
