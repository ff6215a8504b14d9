package ledger

import (
	"bytes"
	"fmt"
	"reflect"
	"testing"
	"time"

	"gateway/rabbit/line"
)

func TestChain(t *testing.T) {
	at := func(offset, index int64) Place { return Place{offset, index} }
	var c Chain
	c.Reach(Start)
	for step, message := range []struct {
		after, upto Place
		fits        bool
	}{
		{Start, at(0, 5), true},
		{at(0, 5), at(2, 0), true},
		{at(0, 5), at(2, 0), false}, // the same again
		{at(3, 0), at(4, 0), false}, // one is missing before it
		{at(1, 0), at(3, 0), true},  // it overlaps
		{at(3, 0), at(4, 0), true},
	} {
		if fits := c.Fits(message.after, message.upto); fits != message.fits {
			t.Errorf("step %d: %v", step, fits)
		} else if fits {
			c.Reach(message.upto)
		}
	}
	if c.Upto != at(4, 0) {
		t.Errorf("it ends at %v", c.Upto)
	}
	middle := Chain{}
	if !middle.Fits(at(7, 1), at(8, 0)) {
		t.Error("a reader that begins in the middle takes nothing")
	}
}

// A senderLog gives messages to senders, one each second.
type senderLog struct {
	*Senders
	now time.Time
}

func newSenderLog(keep time.Duration) *senderLog {
	return &senderLog{NewSenders(nil, time.Time{}, keep), time.Unix(1_000_000, 0)}
}

// take takes a line of a named sender.
func (s *senderLog) take(sender string, epoch int64, batch string, number int64) Verdict {
	s.now = s.now.Add(time.Second)
	from := Origin{Kind: Lines, Sender: sender, Named: true, Epoch: epoch, Batch: batch, Sent: s.now}
	return s.Take(from, number, []byte{byte(number)}, false).Verdict
}

func (s *senderLog) control(kind Kind, sender string, epoch int64, batch string) bool {
	s.now = s.now.Add(time.Second)
	counts, _ := s.Control(Origin{Kind: kind, Sender: sender, Named: true, Epoch: epoch, Batch: batch, Sent: s.now})
	return counts
}

// Each line of a batch is taken once; a line with the same number in another batch is another line.
func TestSendersTakeEachLineOnce(t *testing.T) {
	s := newSenderLog(0)
	for step, got := range []bool{
		s.take("a", 1, "x", 0) == Taken, s.take("a", 1, "x", 1) == Taken,
		s.take("a", 1, "x", 0) == Repeated, s.take("a", 1, "x", 1) == Repeated,
		s.take("a", 1, "y", 0) == Taken, s.take("b", 1, "x", 0) == Taken, s.take("a", 1, "x", 2) == Taken,
	} {
		if !got {
			t.Errorf("step %d", step)
		}
	}
	taking := s.Take(Origin{Sender: "a", Named: true, Epoch: 1, Batch: "x"}, 5, nil, false)
	if taking.First || taking.Missing != 2 || taking.Adrift {
		t.Errorf("%+v", taking)
	}
}

// Once a newer process has claimed a name, no line of the older one is taken, no matter which is first.
func TestANewerProcessFencesTheOlder(t *testing.T) {
	s := newSenderLog(0)
	s.take("a", 5, "x", 0)
	s.control(Claim, "a", 9, "")
	s.control(Claim, "a", 7, "") // two claims in the other order
	for step, got := range []bool{
		s.take("a", 5, "x", 1) == Fenced, s.take("a", 7, "x", 1) == Fenced, s.take("a", 9, "x", 0) == Repeated,
		s.take("a", 9, "x", 1) == Taken, !s.control(End, "a", 7, "x"), s.take("a", 9, "x", 2) == Taken,
		s.control(End, "a", 9, "x"), s.take("a", 9, "x", 3) == Repeated,
	} {
		if !got {
			t.Errorf("step %d", step)
		}
	}
}

// Senders without a name push out no named one, and are forgotten at their end.
func TestNamelessSendersPushOutTheirOwnAlone(t *testing.T) {
	s := newSenderLog(0)
	s.take("named", 1, "x", 0)
	nameless := func(name string, kind Kind) {
		from := Origin{Kind: kind, Sender: name, Sent: s.now}
		if kind == End {
			s.Control(from)
			return
		}
		s.Take(from, 0, nil, false)
	}
	for number := 0; number <= MaximumNameless; number++ {
		nameless(fmt.Sprint(number), Lines)
	}
	nameless("5", End)
	if s.Find("named") == nil || s.Find("0") != nil || s.Find("1") == nil || s.Find("5") != nil {
		t.Error("another one than the oldest without a name is forgotten")
	}
	s.now = s.now.Add(namelessTime + time.Second)
	s.take("named", 1, "x", 1)
	if all := s.All(); len(all) != 1 || all[0].Name != "named" {
		t.Errorf("%d senders are known a day later", len(all))
	}
}

// Names and batches are remembered for their time, by the log's time stamps, and no sender has too many batches.
func TestWhatIsOldIsForgotten(t *testing.T) {
	s := newSenderLog(time.Hour)
	s.take("a", 1, "x", 0)
	s.take("b", 1, "x", 0)
	s.now = s.now.Add(59 * time.Minute)
	s.take("a", 1, "y", 0)
	s.now = s.now.Add(2 * time.Minute)
	s.take("a", 1, "z", 0)
	if a := s.Find("a"); s.Find("b") != nil || a.Batch("x") != nil || a.Batch("y") == nil {
		t.Errorf("known are %+v", s.All())
	}
	for number := 0; number < MaximumBatches; number++ {
		s.now = s.now.Add(-time.Second)
		s.take("a", 1, fmt.Sprint(number), 0)
	}
	if a := s.Find("a"); len(a.Batches) != MaximumBatches || a.Batch("z") != nil || a.Batch("0") == nil {
		t.Errorf("%d batches", len(a.Batches))
	}
}

func TestDigestsOfABatch(t *testing.T) {
	s := newSenderLog(0)
	for number := int64(0); number < 5; number++ {
		s.take("a", 1, "x", number)
	}
	batch := s.Find("a").Batch("x")
	if batch.Count != 5 || len(batch.Marks) != 3 {
		t.Fatalf("%+v", batch)
	}
	var digest Digest
	for number := byte(0); number < 4; number++ {
		digest = digest.With([]byte{number})
	}
	if mark, is := batch.Mark(4); !is || mark != digest {
		t.Error("the digest of four lines is another")
	}
	if _, is := batch.Mark(3); is {
		t.Error("three lines have a digest")
	}
}

// A batch keeps its own model; one without has the log's model at its first line.
func TestModelsOfBatches(t *testing.T) {
	m := NewModels()
	a, b, c := BatchKey{"s", "a"}, BatchKey{"s", "b"}, BatchKey{"s", "c"}
	m.Begin(a)
	if m.At(a) != nil {
		t.Error("there is a model before any")
	}
	m.Put(a, []byte("1"))
	m.Begin(b)
	m.Put(b, []byte("2"))
	m.Begin(c)
	if string(m.At(a)) != "1" || string(m.At(b)) != "2" || string(m.At(c)) != "2" || string(m.Last()) != "2" {
		t.Errorf("%q, %q, %q", m.At(a), m.At(b), m.At(c))
	}
}

func TestSnapshotsComeBack(t *testing.T) {
	l := New(time.Hour)
	sent := time.UnixMilli(1_700_000_000_123)
	from := func(sender, batch string) Origin {
		return Origin{Kind: Lines, Sender: sender, Named: sender != "b", Epoch: 1, Batch: batch, Sent: sent}
	}
	model := line.Line{Client: line.NoClient, Engine: []byte(`{"model":{"inputs":["a < b & é"]}}`)}
	for _, origin := range []Origin{from("b", ""), from(`a "name"`, "x"), from(`a "name"`, "y")} {
		l.Senders.Take(origin, 0, []byte("x"), false)
		l.Models.Begin(origin.Key())
	}
	l.Settle(Place{0, 0}, from(`a "name"`, "x").Key(), model, Outcome{InForce: true})
	l.Settle(Place{0, 1}, from("b", "").Key(), line.Line{Client: 5}, Outcome{HasTicket: true, Ticket: 41})
	l.Settle(Place{1, 0}, from("b", "").Key(), line.Line{Client: 5}, Outcome{})
	l.Skip(Place{1, 1})
	end := from(`a "name"`, "y")
	end.Kind = End
	l.Senders.Control(end)
	body, err := l.Snapshot("0.1.2")
	if err != nil {
		t.Fatal(err)
	}
	back, err := Read(body, time.Hour)
	if err != nil {
		t.Fatal(err)
	}
	again, err := back.Snapshot("0.1.2")
	if err != nil || !bytes.Equal(again, body) {
		t.Errorf("%s is not %s, %v", again, body, err)
	}
	if back.Place != l.Place || back.Lines != 3 || back.Tickets != l.Tickets || back.Tickets[5] != 42 ||
		!reflect.DeepEqual(back.Models, l.Models) || !reflect.DeepEqual(back.Senders.All(), l.Senders.All()) {
		t.Errorf("%+v is not %+v", back, l)
	}
}

func TestSnapshotsThatAreRefused(t *testing.T) {
	for _, body := range []string{``, `{"tickets":{"n64":1},"version":2,"model":-1}`, `{"version":1,"model":-1}`, `{"version":2,"model":0}`} {
		if _, err := Read([]byte(body), 0); err == nil {
			t.Errorf("%s is read", body)
		}
	}
}
