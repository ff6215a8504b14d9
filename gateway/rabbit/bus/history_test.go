package bus

import (
	"testing"

	"gateway/rabbit/answer"
	"gateway/rabbit/ledger"
)

// of returns a message of the answer stream.
func of(topic Topic, headers Headers, body []byte) Message {
	return Message{At: Settings{Partitions: 1}.Route(AnswersExchange, topic, 0), Headers: headers, Body: body}
}

// A history finds the last snapshot from answers and marks, skips an unreadable snapshot, and takes answers from the one before
// it.
func TestHistory(t *testing.T) {
	l := ledger.New(0)
	l.Skip(ledger.Place{Offset: 3})
	body, err := l.Snapshot("0.1.2")
	if err != nil {
		t.Fatal(err)
	}
	answers := answer.Append(nil, ledger.Place{Offset: 4}, []byte(`"k"`), []byte("1"), []byte(`{"client":"n05","result":1,"ticket":7}`))
	h := NewHistory(false, 0)
	for step, c := range []struct {
		message Message
		pointer int64
		upto    int64 // of the chain, once there is a snapshot
	}{
		{of(TopicMarks, Headers{MarkHeader: "x"}, nil), -1, 0},
		{of(TopicMarks, PointerHeaders(6), nil), 6, 0},
		{of(TopicAnswers, PartHeaders(Part{Snapshot: true, Upto: ledger.Place{Offset: 3}, SnapshotAt: 6}), body), 6, 3},
		{of(TopicAnswers, PartHeaders(Part{Snapshot: true, Upto: ledger.Place{Offset: 9}, SnapshotAt: 8}), []byte(`{"version":99}`)), 8, 3},
		{of(TopicMarks, PartHeaders(Part{Snapshot: true, Upto: ledger.Place{Offset: 9}, SnapshotAt: 8}), body), 8, 3},
		{of(TopicAnswers, PartHeaders(Part{After: ledger.Place{Offset: 3}, Upto: ledger.Place{Offset: 4}, SnapshotAt: 8}), answers), 8, 4},
	} {
		if err := h.Take(c.message); err != nil {
			t.Fatal(err)
		}
		if h.pointer != c.pointer || h.found != (c.upto > 0) || h.found && h.Upto().Offset != c.upto {
			t.Errorf("step %d: %+v", step, h)
		}
	}
	if h.At = 9; !h.mayBeLate() {
		t.Error("a snapshot counts before the one that is pointed to is read")
	}
	if h.At = 8; h.mayBeLate() {
		t.Error("a snapshot that is pointed to may be late")
	}
	if len(h.Unread) != 1 || len(h.Records) != 1 || h.Records[0].Client != 5 || h.Records[0].Outcome.Ticket != 7 {
		t.Errorf("%+v", h)
	}
}
