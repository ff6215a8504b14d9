package partition

import (
	"bytes"
	"encoding/json"
	"fmt"
	"math/rand"
	"testing"

	"gateway/rabbit/bus"
	"gateway/rabbit/ledger"
	"gateway/rabbit/process"
)

// A batchLog is a log with lines of several batches, and the expected answers.
type batchLog struct {
	log
	next   map[string]int64
	models map[string]int64 // of sendCounted
	in     map[string]int   // the addend of each batch's model, or 0
	last   int
	due    map[ledger.Place]string
}

func newBatchLog() *batchLog {
	return &batchLog{next: map[string]int64{}, in: map[string]int{}, due: map[ledger.Place]string{}}
}

// send appends a message of a batch with a model, if the addend isn't 0, and this many requests.
func (l *batchLog) send(batch string, addend, requests int) {
	if _, begun := l.next[batch]; !begun {
		l.in[batch] = l.last
	}
	offset, from := int64(len(l.lines)), ledger.Origin{Kind: ledger.Lines, Sender: "test", Named: true, Batch: batch, Number: l.next[batch]}
	var texts []string
	if addend > 0 {
		texts = append(texts, fmt.Sprintf(model, addend))
		l.in[batch], l.last = addend, addend
	}
	for ; requests > 0; requests-- {
		place := ledger.Place{Offset: offset, Index: int64(len(texts))}
		number := int(offset)*100 + len(texts)
		texts = append(texts, fmt.Sprintf(`{"key":"k%d","service":"s","inputs":{"a":%d},"id":0}`, number%90, number))
		l.due[place] = `"refused":"model"`
		if l.in[batch] > 0 {
			l.due[place] = fmt.Sprintf(`"result":%d,`, number*3+l.in[batch])
		}
	}
	l.next[batch] += int64(len(texts))
	l.put(from, texts...)
}

// end appends the end of a batch.
func (l *batchLog) end(batch string) {
	l.put(ledger.Origin{Kind: ledger.End, Sender: "test", Named: true, Batch: batch, Number: l.next[batch]})
	l.next[batch] = 1 << 40
}

// answered returns how many of the due answers are there, each right and once.
func (l *batchLog) answered(t *testing.T) int {
	t.Helper()
	var chain ledger.Chain
	chain.Reach(ledger.Start)
	found := map[ledger.Place]bool{}
	for _, message := range l.answers {
		part, _, err := bus.ReadPart(message)
		if err != nil {
			t.Fatal(err)
		}
		if part.Snapshot {
			chain.Reach(part.Upto)
		}
		if part.Snapshot || !chain.Fits(part.After, part.Upto) {
			continue
		}
		for _, text := range bytes.Split(bytes.TrimSpace(message.Body), []byte("\n")) {
			var read struct{ Offset, Place int64 }
			if err := json.Unmarshal(text, &read); err != nil {
				t.Fatal(err)
			}
			place := ledger.Place{Offset: read.Offset, Index: read.Place}
			due, is := l.due[place]
			if found[place] || is && !bytes.Contains(text, []byte(due)) {
				t.Errorf("%s: %s is due", text, due)
			}
			found[place] = is
		}
		chain.Reach(part.Upto)
	}
	count := 0
	for place := range l.due {
		if found[place] {
			count++
		}
	}
	return count
}

// Alternating batches are each decided by their own models, however often the partition is taken over, and a batch without a
// model by the one at its first line.
func TestBatchesKeepTheirModels(t *testing.T) {
	options := process.Options{Path: enginePath(t), Workers: 2, Longest: 1 << 20}
	random := rand.New(rand.NewSource(2))
	l := newBatchLog()
	l.send("before any", 0, 3)
	l.send("night", 1000, 5)
	l.send("day", 2000, 5)
	l.send("plain", 0, 5)
	l.send("night", 0, 5)
	l.send("before any", 0, 3)
	for message := 0; message < 40; message++ {
		addend := 0
		if random.Intn(5) == 0 {
			addend = 3000 + message
		}
		l.send([]string{"night", "day", "plain", "before any"}[random.Intn(4)], addend, random.Intn(20))
	}
	l.end("day")
	l.send("late", 0, 5)
	l.send("night", 0, 5)
	from := 0
	for {
		h := take(t, &l.log, from, options, 1000)
		h.read(t, 1+random.Intn(9))
		if random.Intn(2) == 0 {
			h.output.sinceMessages = snapshotMessages
			if err := h.Step(); err != nil {
				t.Fatal(err)
			}
			from = len(l.answers) - 1
		}
		h.work.end()
		if h.next == len(l.lines) {
			break
		}
	}
	if got := l.answered(t); got != len(l.due) {
		t.Errorf("%d of %d lines are answered", got, len(l.due))
	}
}
