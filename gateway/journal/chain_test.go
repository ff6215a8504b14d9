package journal

import (
	"bytes"
	"crypto/sha256"
	"encoding/hex"
	"fmt"
	"os"
	"path/filepath"
	"strings"
	"testing"
	"time"
)

// record writes entries under two models, and returns the folder and the reported heads.
func record(t *testing.T, count int, options Options) (string, []string) {
	t.Helper()
	folder := filepath.Join(t.TempDir(), "journal")
	var heads []string
	options.Ended = func(_ string, _ uint64, sum string) { heads = append(heads, sum) }
	j, _, err := Open(folder, options)
	if err != nil {
		t.Fatal(err)
	}
	models := []namedModel{"a", "b"}
	for n := 0; n < count; n++ {
		entry := Entry{Asked: []byte(fmt.Sprintf("{\"n\":%d}\n", n)), About: []byte(fmt.Sprintf(`"id":"i%d","result":%d`, n, n))}
		if err := j.Record(&models[n/2%2], []Entry{entry}); err != nil {
			t.Fatal(err)
		}
	}
	if err := j.Close(); err != nil {
		t.Fatal(err)
	}
	return folder, heads
}

func verified(t *testing.T, folder, head string) *Report {
	t.Helper()
	report, err := Verify(folder, head)
	if err != nil {
		t.Fatal(err)
	}
	return report
}

func paths(t *testing.T, folder string) []string {
	t.Helper()
	names, err := filepath.Glob(filepath.Join(folder, "*"+suffix))
	if err != nil {
		t.Fatal(err)
	}
	return names
}

// The chain is that of the package comment, computed here from the files' text.
func TestChain(t *testing.T) {
	folder, heads := record(t, 1, Options{Size: 1 << 20})
	text, err := os.ReadFile(paths(t, folder)[0])
	if err != nil {
		t.Fatal(err)
	}
	lines := strings.SplitAfter(string(text), "\n")
	if len(lines) != 5 || lines[0] != "{\"model\":\"a\"}\n" || lines[2] != "{\"n\":0}\n" {
		t.Fatalf("the lines are %q", lines)
	}
	before := make([]byte, sha256.Size)
	for at := 0; at < 4; at += 2 {
		covered, _, _ := strings.Cut(lines[at]+lines[at+1], `,"chain":"`)
		sum := sha256.Sum256(append(append([]byte(nil), before...), covered...))
		due := fmt.Sprintf(`,"chain":"%x","close":true}`+"\n", sum)
		if !strings.HasSuffix(lines[at+1], due) {
			t.Errorf("%s does not end with %s", lines[at+1], due)
		}
		before = sum[:]
	}
	if !strings.HasPrefix(lines[3], `{"n":2,"id":"i0","result":0,"chain":"`) {
		t.Errorf("the entry is %s", lines[3])
	}
	if len(heads) != 1 || heads[0] != hex.EncodeToString(before) {
		t.Errorf("the head is %v, and %x is due", heads, before)
	}
	for _, it := range []struct {
		path string
		mode os.FileMode
	}{{paths(t, folder)[0], 0o600}, {folder, 0o700}, {filepath.Join(folder, lockName), 0o600}} {
		if about, err := os.Stat(it.path); err != nil || about.Mode().Perm() != it.mode {
			t.Errorf("%s has the mode %v (%v)", it.path, about.Mode(), err)
		}
	}
}

// A journal over several files, models and starts verifies, with each reported head.
func TestVerifiesAcrossFiles(t *testing.T) {
	folder, heads := record(t, 40, Options{Size: 800})
	a := namedModel("a")
	j := open(t, folder, 1<<20)
	add(t, j, &a, `{"n":41}`)
	if err := j.Close(); err != nil {
		t.Fatal(err)
	}
	for _, head := range append(heads, "") {
		report := verified(t, folder, head)
		files := uint64(len(paths(t, folder)))
		if len(report.Faults) > 0 || report.Files != files || report.Entries != 41+files || report.Last != 41+files {
			t.Errorf("%+v, and %d files", report, files)
		}
		if head != "" && report.At == 0 {
			t.Errorf("the head %s is not found", head)
		}
	}
	if report := verified(t, folder, strings.Repeat("ab", 32)); len(report.Faults) != 1 {
		t.Errorf("another head is found: %+v", report)
	}
}

// What is changed, cut, missing, doubled or inserted is found at its place.
func TestChangesAreFound(t *testing.T) {
	for _, it := range []struct {
		name   string
		change func(folder string, files []string, text []byte) []byte
		due    string
	}{
		{"an answer", func(_ string, _ []string, text []byte) []byte {
			return bytes.Replace(text, []byte(`"result":4`), []byte(`"result":5`), 1)
		},
			`:8: entry 7 is not`},
		{"a request", func(_ string, _ []string, text []byte) []byte {
			return bytes.Replace(text, []byte(`{"n":4}`), []byte(`{"n":9}`), 1)
		},
			`:8: entry 7 is not`},
		{"a line is missing", func(_ string, _ []string, text []byte) []byte {
			lines := bytes.SplitAfter(text, []byte("\n"))
			return bytes.Join(append(lines[:6:6], lines[8:]...), nil)
		}, "entries 7 to 7 are missing"},
		{"a line comes twice", func(_ string, _ []string, text []byte) []byte {
			lines := bytes.SplitAfter(text, []byte("\n"))
			return bytes.Join(append(lines[:6:6], lines[4:]...), nil)
		}, "entry 3 is there twice"},
		{"the file is cut", func(_ string, _ []string, text []byte) []byte { return text[:len(text)-9] }, "ends within an entry"},
		{"a file is missing", func(_ string, files []string, text []byte) []byte {
			_ = os.Remove(files[1])
			return text
		}, "are missing"},
		{"the first file is missing", func(_ string, files []string, text []byte) []byte { return nil }, "entries 1 to "},
	} {
		folder, _ := record(t, 12, Options{Size: 1100})
		files := paths(t, folder)
		text, err := os.ReadFile(files[0])
		if err != nil {
			t.Fatal(err)
		}
		changed := it.change(folder, files, text)
		if changed == nil {
			err = os.Remove(files[0])
		} else {
			err = os.WriteFile(files[0], changed, 0o600)
		}
		if err != nil {
			t.Fatal(err)
		}
		report := verified(t, folder, "")
		if !strings.Contains(fmt.Sprint(report.Faults), it.due) {
			t.Errorf("%s: %v, and %q is due; the file was\n%s", it.name, report.Faults, it.due, text)
		}
	}
}

// Entries are checked in batches, one of them with a long entry: faults are in the order of the entries.
func TestFaultsOfBatchesAreInOrder(t *testing.T) {
	folder := filepath.Join(t.TempDir(), "journal")
	j := open(t, folder, 1<<30)
	a, entries := namedModel("a"), smallEntries(6000)
	entries[3000].Asked = []byte("{\"long\":\"" + strings.Repeat("x", 6*batchBytes) + "\"}\n")
	if err := j.Record(&a, entries); err != nil {
		t.Fatal(err)
	}
	if err := j.Close(); err != nil {
		t.Fatal(err)
	}
	if report := verified(t, folder, ""); len(report.Faults) > 0 || report.Last != 6001 {
		t.Fatalf("%+v", report)
	}
	path := paths(t, folder)[0]
	text, err := os.ReadFile(path)
	if err != nil {
		t.Fatal(err)
	}
	due := []string{}
	for _, n := range []int{5, 1500, 2999, 3000, 3001, 5999} {
		due = append(due, fmt.Sprintf("entry %d is not what was recorded, or the one before it is not", n+2))
		id := fmt.Sprintf(`-b9a13761-%d"`, n)
		text = bytes.Replace(text, []byte(id), []byte(strings.Replace(id, "b9a", "b8a", 1)), 1)
	}
	if err := os.WriteFile(path, text, 0o600); err != nil {
		t.Fatal(err)
	}
	var said []string
	for _, fault := range verified(t, folder, "").Faults {
		said = append(said, fault.Text)
	}
	if strings.Join(said, "\n") != strings.Join(due, "\n") {
		t.Errorf("it says %q, and %q is due", said, due)
	}
}

// The list of faults is limited, even if each entry has one.
func TestMostFaultsAreListed(t *testing.T) {
	folder := filepath.Join(t.TempDir(), "journal")
	j := open(t, folder, 1<<30)
	a := namedModel("a")
	if err := j.Record(&a, smallEntries(5000)); err != nil {
		t.Fatal(err)
	}
	if err := j.Close(); err != nil {
		t.Fatal(err)
	}
	path := paths(t, folder)[0]
	text, err := os.ReadFile(path)
	if err != nil {
		t.Fatal(err)
	}
	text = bytes.ReplaceAll(text, []byte(`"result":950`), []byte(`"result":951`))
	if err := os.WriteFile(path, text, 0o600); err != nil {
		t.Fatal(err)
	}
	faults := verified(t, folder, "").Faults
	if len(faults) != mostFaults || !strings.HasPrefix(faults[mostFaults-1].Text, fmt.Sprintf("entry %d ", mostFaults+1)) {
		t.Errorf("%d faults, the last %v", len(faults), faults[len(faults)-1])
	}
}

// Deleting, replacing, cutting or extending a file of an open journal ends it, and nothing more is recorded.
func TestChangesUnderneathEndIt(t *testing.T) {
	for name, change := range map[string]func(path string) error{
		"deleted": os.Remove,
		"moved":   func(path string) error { return os.Rename(path, path+".old") },
		"cut":     func(path string) error { return os.Truncate(path, 20) },
		"emptied": func(path string) error { return os.Truncate(path, 0) },
		"longer":  func(path string) error { return os.WriteFile(path, make([]byte, 10_000), 0o600) },
		"replaced": func(path string) error {
			if err := os.Rename(path, path+".old"); err != nil {
				return err
			}
			text, err := os.ReadFile(path + ".old")
			if err != nil {
				return err
			}
			return os.WriteFile(path, text, 0o600)
		},
		"its folder is gone": func(path string) error { return os.RemoveAll(filepath.Dir(path)) },
	} {
		folder := filepath.Join(t.TempDir(), "journal")
		a := namedModel("a")
		j := open(t, folder, 1<<20)
		add(t, j, &a, `{"n":1}`)
		if err := j.Look(); err != nil {
			t.Errorf("%s: it is as it was left: %v", name, err)
		}
		if err := change(paths(t, folder)[0]); err != nil {
			t.Fatal(err)
		}
		if err := j.Append(&a, []byte("{\"n\":2}\n"), 1); err == nil {
			t.Errorf("%s: an entry is recorded", name)
		}
		if !j.Failing() || j.Fault() == nil || j.Look() == nil {
			t.Errorf("%s: the journal does not say so", name)
		}
		if err := j.Close(); err != nil {
			t.Errorf("%s: %v", name, err)
		}
	}
}

// Whole files are removed, oldest first, and an entry says so; a file removed in another way is missing.
func TestPruning(t *testing.T) {
	var removed []string
	folder, _ := record(t, 60, Options{Size: 500, Limit: 6000, Pruned: func(paths []string, _ uint64, _ error) { removed = append(removed, paths...) }})
	total := int64(0)
	for _, path := range paths(t, folder) {
		about, err := os.Stat(path)
		if err != nil {
			t.Fatal(err)
		}
		total += about.Size()
	}
	report := verified(t, folder, "")
	if len(removed) == 0 || total > 8000 || len(report.Faults) > 0 || report.First == 1 || report.Pruned != report.First-1 {
		t.Errorf("%d files were removed, %d bytes are left: %+v", len(removed), total, report)
	}
	if err := os.Remove(paths(t, folder)[0]); err != nil {
		t.Fatal(err)
	}
	if report := verified(t, folder, ""); len(report.Faults) != 1 {
		t.Errorf("one more is missing: %v", report.Faults)
	}
}

// Files past their time are removed when the next one begins, those of earlier versions too.
func TestOldFilesAreRemoved(t *testing.T) {
	folder, _ := record(t, 4, Options{Size: 1 << 20})
	old := filepath.Join(folder, "2020-01-01T000000.000000Z.jsonl")
	if err := os.WriteFile(old, []byte("{\"model\":1}\n{\"n\":1}\n"), 0o640); err != nil {
		t.Fatal(err)
	}
	past := time.Now().Add(-49 * time.Hour)
	for _, path := range paths(t, folder) {
		if err := os.Chtimes(path, past, past); err != nil {
			t.Fatal(err)
		}
	}
	a := namedModel("a")
	for _, it := range []struct {
		keep time.Duration
		due  int
	}{{50 * time.Hour, 4}, {48 * time.Hour, 2}} {
		j, _, err := Open(folder, Options{Size: 1 << 20, Keep: it.keep})
		if err != nil {
			t.Fatal(err)
		}
		add(t, j, &a, `{"n":5}`)
		if err := j.Close(); err != nil {
			t.Fatal(err)
		}
		if left := paths(t, folder); len(left) != it.due {
			t.Errorf("kept for %v: %v are left", it.keep, left)
		}
	}
	if report := verified(t, folder, ""); len(report.Faults) > 0 || report.Pruned == 0 {
		t.Errorf("%+v", report)
	}
}

// After a crash the chain continues after the last whole entry, wherever the next one was cut.
func TestTornEntries(t *testing.T) {
	whole, _ := record(t, 1, Options{Size: 1 << 20})
	text, err := os.ReadFile(paths(t, whole)[0])
	if err != nil {
		t.Fatal(err)
	}
	first := bytes.IndexByte(text, '\n') + 1
	begin := first + bytes.IndexByte(text[first:], '\n') + 1
	a := namedModel("a")
	for end := begin; end <= len(text); end++ {
		for _, zeros := range []int{0, 3} {
			folder := t.TempDir()
			path := filepath.Join(folder, filepath.Base(paths(t, whole)[0]))
			torn := append(append([]byte(nil), text[:end]...), make([]byte, zeros)...)
			if err := os.WriteFile(path, torn, 0o600); err != nil {
				t.Fatal(err)
			}
			j, _, err := Open(folder, Options{Size: 1 << 20})
			if err != nil {
				t.Fatal(err)
			}
			add(t, j, &a, `{"n":7}`)
			if err := j.Close(); err != nil {
				t.Fatal(err)
			}
			if report := verified(t, folder, ""); len(report.Faults) > 0 || report.First != 1 {
				t.Fatalf("torn at %d of %d: %+v", end, len(text), report)
			}
		}
	}
}
