package ledger

import (
	"bytes"
	"fmt"
	"testing"
	"time"
)

// source returns a closed partition of two that took some lines of a batch, including models.
func source(partition int, tickets int64, epoch int64, ended bool, lines ...string) Source {
	l := New(0)
	l.Tickets[3], l.Lines = tickets, tickets
	from := Origin{Kind: Lines, Sender: "a", Named: true, Epoch: epoch, Batch: "b", Sent: time.Unix(1000+epoch, 0)}
	for at, text := range lines {
		isModel := text[0] == 'm'
		if l.Senders.Take(from, int64(at), []byte(text), isModel).First {
			l.Models.Begin(from.Key())
		}
		if isModel {
			l.Models.Put(from.Key(), []byte(fmt.Sprintf("%q", text)))
		}
	}
	if ended {
		from.Kind, from.Number = End, int64(len(lines))
		l.Senders.Control(from)
	}
	return Source{Origination{Epoch: 0, Partitions: 2, Partition: partition}, l}
}

// A partition begins with what its sources know: the greatest tickets, the newest process, sections of each batch, and the
// model that the batch's next line needs. A snapshot has all of it, and the order of the sources' batches doesn't matter.
func TestMerge(t *testing.T) {
	sources := []Source{source(0, 7, 5, false, "m1", "x", "m2", "y"), source(1, 9, 4, false, "m1")}
	l := Merge(sources, 0)
	sender := l.Senders.Find("a")
	batch := sender.Batch("b")
	if l.Place != Start || l.Tickets[3] != 9 || l.Lines != 9 || sender.Epoch != 5 || batch.Count != 0 || batch.Ended || len(batch.Sections) != 2 {
		t.Fatalf("%+v, %+v", l, batch)
	}
	if got := string(l.Models.At(BatchKey{"a", "b"})); got != `"m1"` {
		t.Errorf("the next line is decided by %s", got)
	}
	if got := string(l.Models.Last()); got != `"m2"` {
		t.Errorf("in force is %s", got)
	}
	if first, second := batch.Sections[0], batch.Sections[1]; first.Count != 4 || first.Models != 2 || second.Count != 1 || second.Partition != 1 {
		t.Errorf("%+v", batch.Sections)
	}
	if batch.Had != 1 {
		t.Errorf("it has had %d models", batch.Had)
	}
	body, err := l.Snapshot("x")
	if err != nil {
		t.Fatal(err)
	}
	again, err := Read(body, 0)
	if err != nil {
		t.Fatal(err)
	}
	if other, err := again.Snapshot("x"); err != nil || !bytes.Equal(body, other) || !bytes.Contains(body, []byte(`"version":3`)) {
		t.Errorf("%v\n%s\n%s", err, body, other)
	}
	if other, err := Merge(sources, 0).Snapshot("x"); err != nil || !bytes.Equal(body, other) {
		t.Errorf("another owner begins with\n%s, not with\n%s", other, body)
	}
}

// A source that had a model before its first line knows more of the model than one without: the next line is decided without
// that model.
func TestMergeOfInheritedModels(t *testing.T) {
	first := Source{Origination{0, 2, 0}, New(0)}
	first.Models.Put(BatchKey{"other", ""}, []byte(`"o"`))
	second := source(1, 1, 1, false, "m1")
	sources := []Source{{Origination{1, 2, 0}, Merge([]Source{second}, 0)}, {Origination{1, 2, 1}, Merge([]Source{first}, 0)}}
	for _, order := range [][]Source{sources, {sources[1], sources[0]}} {
		l := Merge(order, 0)
		if got, had := string(l.Models.At(BatchKey{"a", "b"})), l.Senders.Find("a").Batch("b").Had; got != `"o"` || had != 0 {
			t.Errorf("the next line is decided by %s, after %d models", got, had)
		}
	}
}

// After a second change a batch has the sections of both, once.
func TestMergeAgain(t *testing.T) {
	whole := source(0, 1, 1, true, "x", "y")
	halves := []Source{{Origination{1, 2, 0}, Merge([]Source{whole}, 0)}, {Origination{1, 2, 1}, Merge([]Source{whole}, 0)}}
	batch := Merge(halves, 0).Senders.Find("a").Batch("b")
	if len(batch.Sections) != 3 || !batch.Ended || batch.Sections[0].Count != 2 || batch.Sections[2].Origination != halves[1].Origination {
		t.Errorf("%+v", batch)
	}
}

// A batch that has ended in one source continues with another's model. One without any line has not begun: its first line is
// decided by the current model.
func TestMergeOfEndedBatches(t *testing.T) {
	going := source(1, 1, 1, false, "x")
	going.Models.Put(BatchKey{"other", ""}, []byte(`"o"`))
	going.Models.Begin(BatchKey{"a", "b"})
	ended := source(0, 1, 1, true, "x", "y")
	ended.Models.Forget(BatchKey{"a", "b"})
	l := Merge([]Source{ended, going}, 0)
	if got, batch := string(l.Models.At(BatchKey{"a", "b"})), l.Senders.Find("a").Batch("b"); got != `"o"` || batch.Ended {
		t.Errorf("the next line is decided by %s, %+v", got, batch)
	}
	l = Merge([]Source{source(0, 1, 1, true), source(1, 1, 1, false)}, 0)
	if batch := l.Senders.Find("a").Batch("b"); batch != nil || len(l.Models.batches) > 0 {
		t.Errorf("%+v, %v", batch, l.Models.batches)
	}
	if batch := Merge([]Source{source(0, 1, 1, true), source(1, 1, 1, true)}, 0).Senders.Find("a").Batch("b"); batch == nil || !batch.Ended {
		t.Errorf("%+v", batch)
	}
}
