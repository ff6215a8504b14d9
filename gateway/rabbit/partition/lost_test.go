package partition

import (
	"bytes"
	"errors"
	"fmt"
	"os"
	"regexp"
	"strings"
	"testing"

	"gateway/rabbit/broker"
	"gateway/rabbit/bus"
	"gateway/rabbit/ledger"
	"gateway/rabbit/logs"
	"gateway/rabbit/process"
)

// sendCounted sends with the number of earlier models of the batch, as a sender does.
func (l *batchLog) sendCounted(batch string, addend, requests int) {
	models := l.models[batch]
	l.send(batch, addend, requests)
	l.lines[len(l.lines)-1].Headers["models"] = models
	if addend > 0 {
		l.models[batch]++
	}
}

// cutLog has a batch with a model, whose messages 3 to 6 are to be cut, and one whose model is among these.
func cutLog() *batchLog {
	l := newBatchLog()
	l.models = map[string]int64{}
	l.sendCounted("kept", 1000, 4) // 0
	l.sendCounted("kept", 0, 5)    // 1
	l.sendCounted("kept", 0, 5)    // 2
	l.sendCounted("kept", 0, 5)    // 3, and so on
	l.sendCounted("adrift", 2000, 1)
	l.sendCounted("kept", 0, 5)
	l.sendCounted("adrift", 0, 1)
	l.sendCounted("kept", 0, 5)      // 7
	l.sendCounted("adrift", 0, 2)    // 8
	l.sendCounted("adrift", 3000, 2) // 9
	l.end("kept")
	l.end("adrift")
	for place := range l.due {
		switch {
		case place.Offset >= 3 && place.Offset <= 6:
			delete(l.due, place)
		case place.Offset == 8:
			l.due[place] = `"refused":"lost"`
		}
	}
	return l
}

// lostLines returns the lines of the answers that replace lost requests.
func (l *log) lostLines() (lost []string) {
	for _, message := range l.answers {
		for _, text := range strings.Split(string(message.Body), "\n") {
			if strings.HasPrefix(text, `{"lost":`) {
				lost = append(lost, text)
			}
		}
	}
	return lost
}

// Messages cut by retention are a line of the answers and are counted, also in lines if others of their batch came. What comes
// after them is answered, except lines of a batch whose model is lost.
func TestWhatIsLostIsKnown(t *testing.T) {
	options := process.Options{Path: enginePath(t), Workers: 1, Longest: 1 << 20}
	l := cutLog()
	first := take(t, &l.log, 0, options, 1000)
	first.read(t, 2)
	first.output.sinceMessages = snapshotMessages // a snapshot up to message 1
	if err := first.Step(); err != nil {
		t.Fatal(err)
	}
	from := len(l.answers) - 1
	first.read(t, 1)
	first.work.end()
	l.cut = 7
	second := take(t, &l.log, from, options, 1000)
	second.next = 7
	second.read(t, 2)
	second.work.end()
	third := take(t, &l.log, from, options, 1000) // what is known already is not written again
	third.next = 7
	third.read(t, 100)
	third.work.end()
	if lost := l.lostLines(); len(lost) != 1 || lost[0] != `{"lost":{"from":3,"to":6}}` {
		t.Errorf("%q are written", lost)
	}
	if got := l.answered(t); got != len(l.due) {
		t.Errorf("%d of %d lines are answered", got, len(l.due))
	}
	want := losses{gaps: 1, messages: 4, lines: 5 + 3 + 5 + 5} // with the 5 of message 2, which are answered
	if got := second.gauges.lost; got != want || third.gauges.lost != (losses{}) {
		t.Errorf("%+v are counted, and then %+v", got, third.gauges.lost)
	}
	if _, said := second.gauges.Ready(); !strings.Contains(said, "no broker") {
		t.Error(said)
	}
	second.gauges.setConnected(true)
	if is, said := second.gauges.Ready(); !is || !strings.HasSuffix(said, "; lost: 18 lines, and at most 4 messages in 1 gaps") {
		t.Errorf("%v, %s", is, said)
	}
}

// A single missing offset is the broker's own, and a batch whose end has the right number of lines is missing none.
func TestAnOffsetOfTheBrokerIsNotLost(t *testing.T) {
	options := process.Options{Path: enginePath(t), Workers: 1, Longest: 1 << 20}
	l := newBatchLog()
	l.send("whole", 1000, 4)
	l.put(ledger.Origin{}) // uses an offset, and is not read
	l.send("whole", 0, 4)
	l.end("whole")
	h := take(t, &l.log, 0, options, 1000)
	h.read(t, 1)
	h.next = 2
	h.read(t, 100)
	h.work.end()
	if lost := l.lostLines(); len(lost) > 0 || h.gauges.lost != (losses{}) {
		t.Errorf("%q, %+v", lost, h.gauges.lost)
	}
	if got := l.answered(t); got != len(l.due) {
		t.Errorf("%d of %d lines are answered", got, len(l.due))
	}
}

// An engine that refuses the current model ends the owner. The partition waits for another program; a process that can own no
// partition ends.
func TestAnEngineThatRefusesTheModelInForce(t *testing.T) {
	path := enginePath(t)
	l := filled(2, 40)
	h := take(t, l, 0, process.Options{Path: path, Workers: 1, Longest: 1 << 20}, 1000)
	h.read(t, 1)
	h.output.sinceMessages = snapshotMessages
	if err := h.Step(); err != nil {
		t.Fatal(err)
	}
	h.work.end()
	t.Setenv(brokenVariable, path)
	t.Setenv(olderVariable, "1")
	h = take(t, l, len(l.answers)-1, process.Options{Path: os.Args[0], Workers: 1, Longest: 1 << 20}, 1000)
	defer h.work.end()
	reason := h.readToFault(t)
	if !errors.Is(reason, errRefusedModel) {
		t.Fatal(reason)
	}
	var log bytes.Buffer
	two := bus.Settings{Partitions: 2}
	taker := newTaker(Options{Bus: broker.Broker{}, Log: logs.New(&log, "test"), Gauges: NewGauges()}, fixed(two))
	var final *bus.Final
	if err := taker.failed(two.Each()[1], reason); errors.As(err, &final) || fmt.Sprint(taker.partitions()) != "[0]" {
		t.Errorf("%v; then %v", err, taker.partitions())
	}
	taker.options.Gauges.setConnected(true)
	if is, said := taker.options.Gauges.Ready(); is || !strings.Contains(said, "partition 1 waits: the engine refuses the model in force") {
		t.Error(said)
	}
	if err := taker.failed(two.Each()[0], reason); !errors.As(err, &final) || !errors.Is(err, errRefusedModel) {
		t.Error(err)
	}
}

// readToFault lets the holder read a message, and returns why it can't continue.
func (h *holder) readToFault(t *testing.T) error {
	t.Helper()
	h.work.log = silent
	h.intake.take(h.log.lines[h.next])
	h.intake.take(h.log.lines[h.next+1])
	for {
		if err := h.Step(); err != nil {
			return err
		}
		batch, open := <-h.work.process.Answers()
		if !open {
			t.Fatal("the engine ended")
		}
		h.work.take(batch)
	}
}

// What was answered before it was cut still counts for tickets and numbers. A model among it is lost, and the lines that need
// it are refused, up to the next one.
func TestWhatIsAnsweredAndCut(t *testing.T) {
	options := process.Options{Path: enginePath(t), Workers: 1, Longest: 1 << 20}
	l := filled(1, 40)
	l.send(40, fmt.Sprintf(model, 7), request(1))
	l.send(42, request(1))
	other := ledger.Origin{Kind: ledger.Lines, Sender: "other", Named: true}
	for batch, lines := range [][]string{{request(1), request(1)}, {fmt.Sprintf(model, 9), request(1)}, {request(1)}} {
		other.Batch = fmt.Sprint(batch)
		l.put(other, lines...)
	}
	first := take(t, l, 0, options, 1000)
	first.read(t, 1)
	l.answers = append(l.answers, l.snapshot(t, first))
	from := len(l.answers) - 1
	first.read(t, 2)
	first.work.end()
	l.dropSnapshots(t, from+1) // as if the owner had died before
	l.cut = 3
	second := take(t, l, from, options, 1000)
	second.next = 3
	second.read(t, 100)
	second.work.end()
	if lost := l.lostLines(); len(lost) > 0 || second.gauges.lost != (losses{}) {
		t.Errorf("%q", lost)
	}
	var texts []string
	for _, of := range given(t, l) {
		texts = append(texts, of...)
	}
	all := strings.Join(texts, "\n")
	if got := strings.Count(all, `"refused":"lost"`); got != 2 {
		t.Errorf("%d lines are refused", got)
	}
	if got := strings.Count(all, `"result":12,`); got != 2 {
		t.Errorf("%d results are those of the last model in\n%s", got, all)
	}
	consecutive(t, given(t, l))
}

// snapshot returns what the holder would publish now.
func (l *log) snapshot(t *testing.T, h *holder) bus.Message {
	t.Helper()
	body, err := h.output.ledger.Snapshot("")
	if err != nil {
		t.Fatal(err)
	}
	headers := bus.PartHeaders(bus.Part{Snapshot: true, Upto: h.output.ledger.Place})
	return bus.Message{At: settings.Route(bus.AnswersExchange, bus.TopicAnswers, 0), Headers: headers, Body: body}
}

// dropSnapshots removes the snapshots from a message on.
func (l *log) dropSnapshots(t *testing.T, from int) {
	t.Helper()
	kept := l.answers[:from:from]
	for _, message := range l.answers[from:] {
		if part, _, err := bus.ReadPart(message); err != nil {
			t.Fatal(err)
		} else if !part.Snapshot {
			kept = append(kept, message)
		}
	}
	l.answers = kept
}

var ticket = regexp.MustCompile(`"ticket":(\d+)}$`)

// consecutive reports a client whose tickets aren't 0, 1, 2 and so on.
func consecutive(t *testing.T, answers map[string][]string) {
	t.Helper()
	for client, texts := range answers {
		next := 0
		for _, text := range texts {
			found := ticket.FindStringSubmatch(text)
			if found == nil || client == "" {
				continue
			}
			if found[1] != fmt.Sprint(next) {
				t.Errorf("client %s: %s comes next, and not %d", client, text, next)
				return
			}
			next++
		}
	}
}

// An owner that retention overtakes takes the partition over again: another one may have answered what is cut.
func TestAnOwnerThatIsOvertaken(t *testing.T) {
	l := filled(5, 4)
	in := take(t, l, 0, process.Options{}, 1000).intake
	in.take(l.lines[0])
	before := len(in.queue.entries)
	in.take(l.lines[3]) // the broker may use offsets itself
	if in.fault != nil || len(in.queue.entries) == before {
		t.Errorf("%v, %d entries after %d", in.fault, len(in.queue.entries), before)
	}
	before, in.offset, l.cut = len(in.queue.entries), 0, 4
	in.take(l.lines[4])
	if !errors.Is(in.fault, errOvertaken) || len(in.queue.entries) != before {
		t.Errorf("%v, %d entries after %d", in.fault, len(in.queue.entries), before)
	}
}
