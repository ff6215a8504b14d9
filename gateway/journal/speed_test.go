package journal

import (
	"crypto/sha256"
	"fmt"
	"os"
	"strings"
	"syscall"
	"testing"
)

// smallEntries returns entries of small requests.
func smallEntries(count int) []Entry {
	sum := strings.Repeat("0123456789abcdef", 4)
	asked := `{"client":"20261129T074646.763Z-b9a13761-2","inputs":{"weight":5},"service":"shipping"}` + "\n"
	entries := make([]Entry, count)
	for at := range entries {
		about := fmt.Sprintf(`"id":"20261129T074646.763Z-b9a13761-%d","time":"2026-11-29T07:46:46.763Z","release":"%s",`+
			`"program":"%s","engine":"%s","result":950,"rules":[{"decision":"price","rule":3}]`, at, sum, sum, sum)
		entries[at] = Entry{Asked: []byte(asked), About: []byte(about)}
	}
	return entries
}

// processorTime returns the processor time of this process so far, in seconds.
func processorTime(b *testing.B) float64 {
	var used syscall.Rusage
	if err := syscall.Getrusage(syscall.RUSAGE_SELF, &used); err != nil {
		b.Fatal(err)
	}
	seconds := func(it syscall.Timeval) float64 { return float64(it.Sec) + float64(it.Usec)/1e6 }
	return seconds(used.Utime) + seconds(used.Stime)
}

// BenchmarkVerify reads a journal of small requests, and computes SHA-256 of the same bytes alone. MB/s are by the clock,
// MB/processor-s by processor time.
func BenchmarkVerify(b *testing.B) {
	folder := b.TempDir()
	j, _, err := Open(folder, Options{Size: 64 << 20})
	if err != nil {
		b.Fatal(err)
	}
	model, entries := namedModel("a"), smallEntries(4000)
	for n := 0; n < 30; n++ {
		if err := j.Record(&model, entries); err != nil {
			b.Fatal(err)
		}
	}
	if err := j.Close(); err != nil {
		b.Fatal(err)
	}
	var text []byte
	names, _ := Files(folder)
	for _, name := range names {
		part, err := os.ReadFile(name)
		if err != nil {
			b.Fatal(err)
		}
		text = append(text, part...)
	}
	of := func(work func()) func(*testing.B) {
		return func(b *testing.B) {
			b.SetBytes(int64(len(text)))
			before := processorTime(b)
			for n := 0; n < b.N; n++ {
				work()
			}
			b.ReportMetric(float64(len(text))*float64(b.N)/1e6/(processorTime(b)-before), "MB/processor-s")
		}
	}
	b.Run("verify", of(func() {
		if report, err := Verify(folder, ""); err != nil || len(report.Faults) > 0 {
			b.Fatal(err, report)
		}
	}))
	b.Run("sha256", of(func() { sha256.Sum256(text) }))
}
