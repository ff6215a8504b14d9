package record

import (
	"context"
	"fmt"
	"syscall"
	"testing"

	"gateway/engine"
	"gateway/journal"
	"gateway/service"
)

// processorTime returns the processor time of this process and its children so far, in seconds.
func processorTime(b *testing.B) (all float64) {
	for _, of := range []int{syscall.RUSAGE_SELF, syscall.RUSAGE_CHILDREN} {
		var used syscall.Rusage
		if err := syscall.Getrusage(of, &used); err != nil {
			b.Fatal(err)
		}
		for _, it := range []syscall.Timeval{used.Utime, used.Stime} {
			all += float64(it.Sec) + float64(it.Usec)/1e6
		}
	}
	return all
}

// BenchmarkTrial asks two models about small recorded requests; one in ten gets another answer.
func BenchmarkTrial(b *testing.B) {
	const count = 10_000
	path, err := engine.Path()
	if err != nil {
		b.Fatal(err)
	}
	folder := b.TempDir()
	j, _, err := journal.Open(folder, journal.Options{Size: 64 << 20})
	if err != nil {
		b.Fatal(err)
	}
	entries := make([]journal.Entry, count)
	for n := range entries {
		asked := fmt.Sprintf(`{"client":"x%d","inputs":{"a_b":%d},"service":"s_t"}`+"\n", n, n%10*56)
		about := fmt.Sprintf(`"id":"o%d","request":"x%d","time":"2026-11-29T07:00:00.001Z","client":"ann","release":"abc",`+
			`"program":"abc","engine":"abc","result":2,"rules":[{"decision":"d e","rule":1}]`, n, n)
		entries[n] = journal.Entry{Asked: []byte(asked), About: []byte(about)}
	}
	if err := j.Record(&written{modelOf(2), `"release":{"sha256":"abc"},` + names}, entries); err != nil {
		b.Fatal(err)
	}
	if err := j.Close(); err != nil {
		b.Fatal(err)
	}
	var sides [2]*service.Source
	for at := range sides {
		if sides[at], err = service.ReadSource([]byte(`{"model":` + modelOf(2+at) + `,` + names + `}`)); err != nil {
			b.Fatal(err)
		}
	}
	before := processorTime(b)
	b.ResetTimer()
	for n := 0; n < b.N; n++ {
		t := &Trial{Asker: &Asker{Path: path}, Old: sides[0], New: sides[1]}
		found, err := t.Run(context.Background(), folder, Filter{}, func(*Difference) error { return nil })
		if err != nil || found.Asked != count || found.Differing != count/10 {
			b.Fatal(err, found)
		}
	}
	b.ReportMetric((processorTime(b)-before)/float64(b.N)/count*1e6, "processor-us/request")
}
