package release

import (
	"errors"
	"fmt"
	"os"
	"path/filepath"
	"strings"
	"sync"
	"testing"
)

func active(t *testing.T, folder string) *Active {
	t.Helper()
	it, _, err := ReadActive(folder)
	if err != nil {
		t.Fatal(err)
	}
	return it
}

func TestFileNames(t *testing.T) {
	for _, it := range []struct{ name, version, due string }{
		{"loan", "1.2", "loan-1.2.json"}, {"a b", "1", "a_b-1-"}, {"a_b", "1", "a_b-1.json"}, {"../x", "1", "_x-1-"}, {"ä", "1", "_-1-"},
	} {
		if got := FileName(it.name, it.version); !strings.HasPrefix(got, it.due) || !isName(got) {
			t.Errorf("%s %s: %s, and %s is due", it.name, it.version, got, it.due)
		}
	}
	if FileName("a b", "1") == FileName("a/b", "1") || FileName("a b", "1") == FileName("a", "b 1") {
		t.Error("two releases have one file")
	}
}

// Releases are put once, put in force one after the other, and gone back from, one after the other.
func TestGoingBack(t *testing.T) {
	folder := filepath.Join(t.TempDir(), "releases")
	for n := 1; n <= 3; n++ {
		file := fmt.Sprintf("m-%d.json", n)
		if err := Put(folder, file, []byte(file)); err != nil {
			t.Fatal(err)
		}
		if err := Activate(folder, Active{File: file, Who: "ann"}, nil); err != nil {
			t.Fatal(err)
		}
	}
	if err := Put(folder, "m-2.json", []byte("m-2.json")); err != nil {
		t.Errorf("the same again: %v", err)
	}
	if err := Put(folder, "m-2.json", []byte("other")); !errors.Is(err, ErrExists) {
		t.Errorf("another text: %v", err)
	}
	if err := Activate(folder, Active{File: "m-9.json"}, nil); err == nil {
		t.Error("a release that isn't there is put in force")
	}
	if it := active(t, folder); it.File != "m-3.json" || fmt.Sprint(it.Former) != "[m-1.json m-2.json]" {
		t.Errorf("%+v", it)
	}
	named := func(file string) (Active, error) { return Active{File: file, Who: "bob"}, nil }
	for n := 2; n >= 1; n-- {
		next, err := Back(folder, named)
		if it := active(t, folder); err != nil || next.File != fmt.Sprintf("m-%d.json", n) || it.File != next.File || len(it.Former) != n-1 {
			t.Errorf("%d: %+v %v", n, next, err)
		}
	}
	if _, err := Back(folder, named); !errors.Is(err, ErrNone) {
		t.Errorf("nothing is before: %v", err)
	}
	if files, err := Files(folder); err != nil || fmt.Sprint(files) != "[m-1.json m-2.json m-3.json]" {
		t.Errorf("%v %v", files, err)
	}
}

// Whoever reads while releases are put in force has the whole of one of them.
func TestReadersSeeOneOrTheOther(t *testing.T) {
	folder := t.TempDir()
	for _, file := range []string{"a.json", "b.json"} {
		if err := Put(folder, file, []byte(file)); err != nil {
			t.Fatal(err)
		}
	}
	if err := Activate(folder, Active{File: "a.json"}, nil); err != nil {
		t.Fatal(err)
	}
	var writers sync.WaitGroup
	for _, file := range []string{"a.json", "b.json"} {
		file := file
		writers.Add(1)
		go func() {
			defer writers.Done()
			for n := 0; n < 50; n++ {
				if err := Activate(folder, Active{File: file, Why: strings.Repeat("x", 9000)}, nil); err != nil {
					t.Error(err)
				}
			}
		}()
	}
	for n := 0; n < 500; n++ {
		if it := active(t, folder); it.File != "a.json" && it.File != "b.json" {
			t.Errorf("%+v", it)
		}
	}
	writers.Wait()
	left, _ := filepath.Glob(filepath.Join(folder, ".new-*"))
	if len(left) > 0 {
		t.Errorf("%v are left", left)
	}
}

func TestNoReleases(t *testing.T) {
	folder := t.TempDir()
	if _, _, err := ReadActive(folder); !errors.Is(err, ErrNone) {
		t.Errorf("an empty folder: %v", err)
	}
	if _, _, err := ReadActive(filepath.Join(folder, "none")); err == nil || errors.Is(err, ErrNone) {
		t.Errorf("no folder: %v", err)
	}
	for _, text := range []string{`{`, `{"file":"../x.json"}`, `{"file":"active.json"}`, `{}`} {
		if err := os.WriteFile(filepath.Join(folder, activeName), []byte(text), 0o600); err != nil {
			t.Fatal(err)
		}
		if _, _, err := ReadActive(folder); err == nil || errors.Is(err, ErrNone) {
			t.Errorf("%s: %v", text, err)
		}
	}
}
