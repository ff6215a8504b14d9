package journal

import (
	"bytes"
	"crypto/sha256"
	"encoding/json"
	"errors"
	"fmt"
	"io"
	"os"
	"path/filepath"
	"runtime"
	"syscall"
)

// A Report is the result of verifying a journal.
type Report struct {
	// Files and Entries count those read, Lines those in files from earlier versions, which have no chain.
	Files, Entries, Lines uint64
	// First and Last are the numbers of the first and last entry, Pruned that of the last entry removed on purpose.
	First, Last, Pruned uint64
	// Head is the chain at the last entry.
	Head string
	// IsOpen means that a process is writing the journal: a partial entry is no fault then.
	IsOpen bool
	// At is the number of the entry with the requested sum, or 0.
	At uint64
	// Faults are what is wrong.
	Faults []Fault
}

// A Fault is one finding. Line is 0 if it is about a whole file or something missing.
type Fault struct {
	Path string
	Line int
	Text string
}

func (f Fault) String() string {
	switch {
	case f.Path == "":
		return f.Text
	case f.Line == 0:
		return f.Path + ": " + f.Text
	}
	return fmt.Sprintf("%s:%d: %s", f.Path, f.Line, f.Text)
}

// mostFaults limits the listed faults.
const mostFaults = 100

// A verifier walks the entries of a folder.
type verifier struct {
	checker *checker
	// at is the last entry.
	at     link
	report Report
	head   [sha256.Size]byte
	// path is that of the last entry, paths are all so far.
	path  string
	paths map[string]bool
}

// Verify reads a whole journal, and reports what is not as it was recorded. With a head it reports which entry has that sum.
func Verify(folder, head string) (*Report, error) {
	v := &verifier{paths: map[string]bool{}}
	if head != "" {
		is := false
		if v.head, is = sumOf(head); !is {
			return nil, fmt.Errorf("%q is no SHA-256 of 64 hexadecimal digits", head)
		}
	}
	r, err := NewReader(folder)
	if err != nil {
		return nil, err
	}
	defer r.Close()
	v.report.IsOpen = isOpen(folder)
	// One batch is read while each processor has one.
	v.checker = newChecker(runtime.GOMAXPROCS(0) + 1)
	err = v.read(r)
	v.report.Faults = v.checker.end()
	if err != nil {
		return nil, err
	}
	v.end(r.Cut, head)
	return &v.report, nil
}

// read takes all entries.
func (v *verifier) read(r *Reader) error {
	for {
		it, err := r.Next()
		if errors.Is(err, io.EOF) {
			return nil
		}
		if err != nil {
			return err
		}
		v.take(it)
	}
}

// isOpen reports whether a process has the journal open.
func isOpen(folder string) bool {
	lock, err := os.Open(filepath.Join(folder, lockName))
	if err != nil {
		return false
	}
	defer lock.Close()
	return syscall.Flock(int(lock.Fd()), syscall.LOCK_SH|syscall.LOCK_NB) != nil
}

func (v *verifier) fault(path string, line int, form string, words ...any) {
	if len(v.report.Faults) < mostFaults {
		v.report.Faults = append(v.report.Faults, Fault{path, line, fmt.Sprintf(form, words...)})
	}
}

var (
	beginsKey = []byte(`,"begins":true,`)
	prunedKey = []byte(`,"pruned":[`)
)

// take sends an entry to be checked against the chain.
func (v *verifier) take(it *Read) {
	if it.Path != v.path {
		v.path, v.paths[it.Path] = it.Path, true
		v.report.Files = uint64(len(v.paths))
	}
	if it.N == 0 {
		v.report.Lines++
		return
	}
	v.report.Entries++
	before, misplaced := v.follow(it)
	v.checker.add(it, before, misplaced)
	v.at = it.at
	if it.at.sum == v.head {
		v.report.At = it.N
	}
	if bytes.HasPrefix(it.About[bytes.IndexByte(it.About, ','):], prunedKey) {
		var about struct{ Last uint64 }
		if json.Unmarshal(it.About, &about) == nil && about.Last > v.report.Pruned {
			v.report.Pruned = about.Last
		}
	}
}

// follow returns the chain before an entry, or nil if it is not known, and what is wrong with the entry's place.
func (v *verifier) follow(it *Read) (before *link, misplaced string) {
	due := v.at.n + 1
	switch {
	case v.report.First == 0:
		v.report.First = it.N
		if it.N == 1 {
			return &v.at, ""
		}
	case it.N == due:
		return &v.at, ""
	case it.N < due:
		return nil, fmt.Sprintf("entry %d is there twice, or not in its place", it.N)
	default:
		misplaced = fmt.Sprintf("entries %d to %d are missing", due, it.N-1)
	}
	if sum, is := beforeOf(it); is {
		before = &link{it.N - 1, sum}
	}
	return before, misplaced
}

// beforeOf returns the chain before an entry that begins a file.
func beforeOf(it *Read) (sum [sha256.Size]byte, is bool) {
	if !bytes.HasPrefix(it.About[bytes.IndexByte(it.About, ','):], beginsKey) {
		return sum, false
	}
	var about struct{ Before string }
	if json.Unmarshal(it.About, &about) != nil {
		return sum, false
	}
	return sumOf(about.Before)
}

// end reports what is missing at the beginning and the end.
func (v *verifier) end(cut []string, head string) {
	r := &v.report
	for _, path := range cut {
		if r.IsOpen {
			continue
		}
		v.fault(path, 0, "the file ends within an entry: it was cut")
	}
	if r.First > 1 && r.Pruned < r.First-1 {
		v.fault("", 0, "entries %d to %d are missing, and no entry says that they were removed", r.Pruned+1, r.First-1)
	}
	if r.Last = v.at.n; r.Last > 0 {
		r.Head = v.at.String()
	}
	if head != "" && r.At == 0 {
		v.fault("", 0, "no entry has the sum %s: the chain is not the one of which it was the head, or that entry was removed", head)
	}
}
