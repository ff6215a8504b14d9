package bus

import (
	"testing"

	"gateway/rabbit/answer"
	"gateway/rabbit/ledger"
)

// A partition with a lost log continues after the gap, with the tickets of its answers. A model answered since the last
// snapshot is lost, an open batch can't be sent again, and an ended one is known.
func TestWhatIsKnownWithoutALog(t *testing.T) {
	l := ledger.New(0)
	for _, batch := range []string{"ended", "open"} {
		l.Senders.Take(ledger.Origin{Kind: ledger.Lines, Sender: "a", Named: true, Batch: batch}, 0, []byte("x"), false)
	}
	l.Senders.Control(ledger.Origin{Kind: ledger.End, Sender: "a", Named: true, Batch: "ended", Number: 1})
	l.Skip(ledger.Place{Offset: 3})
	body, err := l.Snapshot("")
	if err != nil {
		t.Fatal(err)
	}
	answers := answer.Append(nil, ledger.Place{Offset: 4}, nil, nil, []byte(`{"line":1,"model":true}`))
	answers = answer.Append(answers, ledger.Place{Offset: 5}, []byte(`"k"`), []byte("1"), []byte(`{"client":"n05","result":1,"ticket":7}`))
	h := NewHistory(false, 0)
	for _, message := range []Message{
		of(TopicAnswers, PartHeaders(Part{Snapshot: true, Upto: ledger.Place{Offset: 3}}), body),
		of(TopicAnswers, PartHeaders(Part{After: ledger.Place{Offset: 3}, Upto: ledger.Place{Offset: 5}}), answers),
	} {
		if err := h.Take(message); err != nil {
			t.Fatal(err)
		}
	}
	gap := ledger.Gap{From: 6, To: 8}
	repaired := Repaired(h, gap)
	if repaired.Place != gap.Place() || repaired.Tickets[5] != 8 || !ledger.IsUnknown(repaired.Models.Last()) || repaired.Lines != 2 {
		t.Errorf("%+v", repaired)
	}
	sender := repaired.Senders.Find("a")
	if sender.Batch("ended").Missing != 0 || sender.Batch("open").Missing == 0 {
		t.Errorf("%+v, %+v", sender.Batch("ended"), sender.Batch("open"))
	}
}
