package bus

import (
	"strings"
	"testing"
	"time"

	"gateway/rabbit/ledger"
)

func TestHeadersComeBack(t *testing.T) {
	sent := time.Unix(5, 0)
	for _, from := range []ledger.Origin{
		{Kind: ledger.Lines, Sender: "a", Named: true, Epoch: 3, Batch: "night 1", Number: 5, Sent: sent},
		{Kind: ledger.Claim, Sender: "a", Named: true, Epoch: 3, Sent: sent},
		{Kind: ledger.End, Sender: "b", Number: 5, Sent: sent},
	} {
		message := Message{At: Route{RequestsExchange, "lines.0.of.1"}, Headers: OriginHeaders(from), Sent: sent}
		if back, err := ReadOrigin(message); err != nil || back != from {
			t.Errorf("%+v, %v", back, err)
		}
	}
	for _, part := range []Part{
		{After: ledger.Start, Upto: ledger.Place{Offset: 7, Index: 2}},
		{After: ledger.Place{Offset: 6, Index: 9}, Upto: ledger.Place{Offset: 7, Index: 2}, More: true, SnapshotAt: 5},
		{Snapshot: true, After: ledger.Start, Upto: ledger.Place{Offset: 7, Index: 2}},
	} {
		message := Message{At: Route{AnswersExchange, "answers.0.of.1"}, Headers: PartHeaders(part)}
		if back, is, err := ReadPart(message); err != nil || !is || back != part {
			t.Errorf("%+v, %v, %v", back, is, err)
		}
	}
}

func TestForeignHeaders(t *testing.T) {
	valid := Headers{"kind": "lines", "sender": "a", "named": false, "epoch": int64(0), "batch": "", "number": int32(4)}
	of := func(headers Headers) Message {
		return Message{At: Route{RequestsExchange, "lines.0.of.1"}, Headers: headers}
	}
	if from, err := ReadOrigin(of(valid)); err != nil || from.Number != 4 || from.Models != -1 {
		t.Errorf("narrow numbers: %+v, %v", from, err)
	}
	for name, value := range map[string]interface{}{"kind": "x", "sender": "\xff", "named": 1, "epoch": int64(-1),
		"batch": strings.Repeat("x", 256), "number": "0"} {
		headers := Headers{}
		for key, own := range valid {
			headers[key] = own
		}
		headers[name] = value
		if from, err := ReadOrigin(of(headers)); err == nil {
			t.Errorf("%v is read as %+v", headers, from)
		}
		delete(headers, name)
		if from, err := ReadOrigin(of(headers)); err == nil {
			t.Errorf("%v is read as %+v", headers, from)
		}
	}
	answers := Message{At: Route{AnswersExchange, "answers.0.of.1"}, Headers: Headers{MarkHeader: "x"}}
	if _, is, err := ReadPart(answers); is || err != nil {
		t.Errorf("a mark: %v, %v", is, err)
	}
	answers.Headers = Headers{"kind": "answers", "offset": int64(1)}
	if _, _, err := ReadPart(answers); err == nil {
		t.Error("answers without a place are read")
	}
}

// Messages published at another exchange or under another topic don't count.
func TestForeignTopics(t *testing.T) {
	lines := OriginHeaders(ledger.Origin{Kind: ledger.Lines, Sender: "a"})
	snapshot := PartHeaders(Part{Snapshot: true})
	for _, at := range []Route{{"", "desk.2.lines.0.of.1"}, {RequestsExchange, "marks.0.of.1"}, {AnswersExchange, "lines.0.of.1"}} {
		if from, err := ReadOrigin(Message{At: at, Headers: lines}); err == nil {
			t.Errorf("%v: %+v", at, from)
		}
	}
	for _, at := range []Route{{"", "desk.2.answers.0.of.1"}, {AnswersExchange, "marks.0.of.1"}, {RequestsExchange, "answers.0.of.1"}} {
		if _, is, err := ReadPart(Message{At: at, Headers: snapshot}); is || err != nil {
			t.Errorf("%v: %v, %v", at, is, err)
		}
	}
}
