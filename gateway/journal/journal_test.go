package journal

import (
	"bytes"
	"errors"
	"fmt"
	"os"
	"path/filepath"
	"sort"
	"strings"
	"sync"
	"testing"
)

type namedModel string

func (m *namedModel) AppendLine(to []byte) []byte {
	return append(to, `{"model":"`+string(*m)+"\"}\n"...)
}

func open(t *testing.T, folder string, size int64) *Journal {
	t.Helper()
	j, repaired, err := Open(folder, Options{Size: size})
	if err != nil {
		t.Fatal(err)
	}
	if len(repaired) > 0 {
		t.Fatal(repaired)
	}
	return j
}

func add(t *testing.T, j *Journal, model *namedModel, text string) {
	t.Helper()
	if err := j.Append(model, []byte(text+"\n"), 1); err != nil {
		t.Fatal(err)
	}
}

// files returns a folder's files by name, each as its lines without times.
func files(t *testing.T, folder string) (all [][]string) {
	t.Helper()
	names, err := filepath.Glob(filepath.Join(folder, "*"+suffix))
	if err != nil {
		t.Fatal(err)
	}
	sort.Strings(names)
	for _, name := range names {
		text, err := os.ReadFile(name)
		if err != nil {
			t.Fatal(err)
		}
		if !bytes.HasSuffix(text, []byte("\n")) {
			t.Errorf("%s does not end with a line", name)
		}
		var kept []string
		for _, line := range strings.Split(strings.TrimSpace(string(text)), "\n") {
			if !strings.HasSuffix(line, `"close":true}`) {
				kept = append(kept, line)
			}
		}
		all = append(all, kept)
	}
	return all
}

func same(t *testing.T, got, due [][]string) {
	t.Helper()
	if fmt.Sprint(got) != fmt.Sprint(due) {
		t.Errorf("the files are %v, and %v are due", got, due)
	}
}

func TestEachFileHasOneModel(t *testing.T) {
	folder := t.TempDir()
	a, b := namedModel("a"), namedModel("b")
	j := open(t, folder, 1<<20)
	add(t, j, &a, `{"n":1}`)
	add(t, j, &b, `{"n":2}`)
	add(t, j, &a, `{"n":3}`)
	if err := j.Turn(); err != nil {
		t.Fatal(err)
	}
	add(t, j, &b, `{"n":4}`)
	if err := j.Close(); err != nil {
		t.Fatal(err)
	}
	same(t, files(t, folder), [][]string{{`{"model":"a"}`, `{"n":1}`, `{"n":3}`}, {`{"model":"b"}`, `{"n":2}`},
		{`{"model":"b"}`, `{"n":4}`}})
	if err := j.Append(&a, []byte("{}\n"), 1); !errors.Is(err, ErrClosed) {
		t.Errorf("a closed journal takes a line: %v", err)
	}
}

func TestFilesEndAtTheirSize(t *testing.T) {
	folder := t.TempDir()
	a := namedModel("a")
	j := open(t, folder, 200)
	for n := 0; n < 4; n++ {
		add(t, j, &a, `{"n":"`+strings.Repeat("x", 150)+`"}`)
	}
	if err := j.Close(); err != nil {
		t.Fatal(err)
	}
	if all := files(t, folder); len(all) != 4 {
		t.Errorf("there are %d files, and 4 are due", len(all))
	}
}

func TestManyAtOnce(t *testing.T) {
	folder := t.TempDir()
	models := []namedModel{"a", "b", "c", "d", "e", "f"}
	j := open(t, folder, 4<<10)
	var writers sync.WaitGroup
	for w := 0; w < 20; w++ {
		w := w
		writers.Add(1)
		go func() {
			defer writers.Done()
			for n := 0; n < 50; n++ {
				if err := j.Append(&models[(w+n)%len(models)], []byte(fmt.Sprintf("{\"n\":\"%d-%d\"}\n", w, n)), 1); err != nil {
					t.Error(err)
				}
			}
		}()
	}
	writers.Wait()
	if err := j.Close(); err != nil {
		t.Fatal(err)
	}
	seen := map[string]int{}
	for _, lines := range files(t, folder) {
		for at, line := range lines {
			if (at == 0) != strings.HasPrefix(line, `{"model"`) {
				t.Errorf("line %d is %s", at, line)
			}
			seen[line]++
		}
	}
	for w := 0; w < 20; w++ {
		for n := 0; n < 50; n++ {
			if line := fmt.Sprintf("{\"n\":\"%d-%d\"}", w, n); seen[line] != 1 {
				t.Errorf("%s stands there %d times", line, seen[line])
			}
		}
	}
}

func TestTornLinesAreDropped(t *testing.T) {
	for _, it := range []struct{ name, text, due string }{
		{"whole", "{\"model\":1}\n{\"n\":1}\n", "{\"model\":1}\n{\"n\":1}\n"},
		{"torn", "{\"model\":1}\n{\"n\":1}\n{\"n\"", "{\"model\":1}\n{\"n\":1}\n"},
		{"torn model", "{\"model\"", ""},
		{"zeros", "{\"model\":1}\n{\"n\":1}\n\x00\x00\x00\x00", "{\"model\":1}\n{\"n\":1}\n"},
		{"zeros and a line", "{\"model\":1}\n{\"n\":1}\n\x00\x00\"x\"}\n", "{\"model\":1}\n{\"n\":1}\n"},
		{"long", "{\"model\":1}\n{\"n\":\"" + strings.Repeat("x", 1<<20) + "\"}\n{\"n\"",
			"{\"model\":1}\n{\"n\":\"" + strings.Repeat("x", 1<<20) + "\"}\n"},
	} {
		folder := t.TempDir()
		path := filepath.Join(folder, "2026-03-01T000000.000000Z.jsonl")
		if err := os.WriteFile(path, []byte(it.text), 0o600); err != nil {
			t.Fatal(err)
		}
		j, repaired, err := Open(folder, Options{Size: 1 << 20})
		if err != nil {
			t.Fatal(err)
		}
		if err := j.Close(); err != nil {
			t.Fatal(err)
		}
		got, err := os.ReadFile(path)
		if it.due == "" && errors.Is(err, os.ErrNotExist) {
			err = nil
		}
		if err != nil || string(got) != it.due {
			t.Errorf("%s: %.40q (%v), and %.40q is due", it.name, got, err, it.due)
		}
		if (len(repaired) > 0) != (it.text != it.due) {
			t.Errorf("%s: told %q", it.name, repaired)
		}
	}
}

func TestOneProcessWrites(t *testing.T) {
	folder := t.TempDir()
	j := open(t, folder, 1<<20)
	if _, _, err := Open(folder, Options{Size: 1 << 20}); err == nil {
		t.Error("a folder was opened twice")
	}
	if err := j.Close(); err != nil {
		t.Fatal(err)
	}
	if err := open(t, folder, 1<<20).Close(); err != nil {
		t.Fatal(err)
	}
}

// A full device takes what fits into its buffers, and fails when that is written.
func TestAFileThatFailsIsCut(t *testing.T) {
	folder := t.TempDir()
	a := namedModel("a")
	j := open(t, folder, 1<<20)
	add(t, j, &a, `{"n":1}`)
	f := j.files[0]
	good := f.os
	full, err := os.OpenFile("/dev/full", os.O_WRONLY, 0)
	if err != nil {
		t.Skip(err)
	}
	f.to.Reset(full)
	if err := j.Append(&a, []byte("{\"n\":2}\n"), 1); err == nil {
		t.Error("a full device took a line")
	}
	if j.Fault() == nil || !j.Failing() {
		t.Error("the journal says nothing of its fault")
	}
	add(t, j, &a, `{"n":3}`)
	if j.Failing() {
		t.Error("the journal still fails")
	}
	_ = full.Close()
	_ = good.Close()
	if err := j.Close(); err != nil {
		t.Fatal(err)
	}
	same(t, files(t, folder), [][]string{{`{"model":"a"}`, `{"n":1}`}, {`{"model":"a"}`, `{"n":3}`}})
}

// A failed file has ended: its head is reported, and the chain continues from there.
func TestHeadOfAFileThatFails(t *testing.T) {
	folder := t.TempDir()
	var heads []string
	j, _, err := Open(folder, Options{Size: 1 << 20, Ended: func(_ string, _ uint64, sum string) { heads = append(heads, sum) }})
	if err != nil {
		t.Fatal(err)
	}
	a := namedModel("a")
	add(t, j, &a, `{"n":1}`)
	full, err := os.OpenFile("/dev/full", os.O_WRONLY, 0)
	if err != nil {
		t.Skip(err)
	}
	defer full.Close()
	j.files[0].to.Reset(full)
	if err := j.Append(&a, []byte("{\"n\":2}\n"), 1); err == nil {
		t.Error("a full device took a line")
	}
	add(t, j, &a, `{"n":3}`)
	if err := j.Close(); err != nil {
		t.Fatal(err)
	}
	if len(heads) != 2 || len(paths(t, folder)) != 2 {
		t.Fatalf("%v are the heads of %v", heads, paths(t, folder))
	}
	for n, head := range heads {
		if report := verified(t, folder, head); len(report.Faults) > 0 || report.At != uint64(2+2*n) {
			t.Errorf("head %d: %+v", n, report)
		}
	}
}

// What is recorded is on disk before the caller continues.
func TestSyncedBeforeItGoesOn(t *testing.T) {
	a := namedModel("a")
	j := open(t, t.TempDir(), 1<<20)
	add(t, j, &a, `{"n":1}`)
	begun, goOn := make(chan int64), make(chan struct{})
	syncFile = func(f *os.File) error {
		about, err := f.Stat()
		if err != nil {
			return err
		}
		begun <- about.Size()
		<-goOn
		return f.Sync()
	}
	defer func() { syncFile = (*os.File).Sync }()
	before := j.files[0].synced
	done := make(chan error, 1)
	go func() { done <- j.Append(&a, []byte("{\"n\":2}\n"), 1) }()
	if size := <-begun; size <= before {
		t.Errorf("%d bytes are there when they are to be synced, and %d were before", size, before)
	}
	select {
	case err := <-done:
		t.Errorf("it goes on before the disk has it: %v", err)
	default:
	}
	close(goOn)
	if err := <-done; err != nil {
		t.Error(err)
	}
	if err := j.Close(); err != nil {
		t.Fatal(err)
	}
}
