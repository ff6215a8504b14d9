package partition

import (
	"fmt"
	"strings"
	"testing"

	"gateway/rabbit/bus"
	"gateway/rabbit/ledger"
	"gateway/rabbit/process"
)

// publishedAs sets the exchange and topic of the last message.
func (l *log) publishedAs(exchange string, topic bus.Topic) {
	l.lines[len(l.lines)-1].At = settings.Route(exchange, topic, 0)
}

// A model under the topic of requests is dropped, and so is a message that bypassed the request exchange. The requests around
// them are answered by the model that was properly sent.
func TestModelsNeedTheirTopic(t *testing.T) {
	options := process.Options{Path: enginePath(t), Workers: 1, Longest: 1 << 20}
	l := newBatchLog()
	l.send("right", 1000, 2)
	l.send("wrong", 2000, 2)
	l.publishedAs(bus.RequestsExchange, bus.TopicLines)
	for place := range l.due {
		if place.Offset == 1 { // they are answered by the model at the batch's first line
			l.due[place] = fmt.Sprintf(`"result":%d,`, (100+place.Index)*3+1000)
		}
	}
	l.put(ledger.Origin{Kind: ledger.Lines, Sender: "test", Batch: "past"}, fmt.Sprintf(model, 3000), request(1))
	l.publishedAs("", bus.TopicModels)
	l.send("right", 0, 2)
	h := take(t, &l.log, 0, options, 1000)
	h.read(t, 100)
	h.work.end()
	if got := l.answered(t); got != len(l.due) {
		t.Errorf("%d of %d lines are answered", got, len(l.due))
	}
	var all strings.Builder
	for _, message := range l.answers {
		all.Write(message.Body)
	}
	if got := strings.Count(all.String(), `"model":true`); got != 1 {
		t.Errorf("%d models are in force", got)
	}
	if got := strings.Count(all.String(), `"key":`); got != 6 {
		t.Errorf("%d requests are answered", got)
	}
}

// A mark under the topic of requests doesn't count, as a sender can publish it.
func TestMarksNeedTheirTopic(t *testing.T) {
	l := newBatchLog()
	in := take(t, &l.log, 0, process.Options{}, 1000).intake
	in.mark, in.upto.Offset = "mine", 5
	for _, topic := range []bus.Topic{bus.TopicLines, bus.TopicMarks} {
		route := settings.Route(bus.RequestsExchange, topic, 0)
		in.take(bus.Message{Offset: 3, At: route, Headers: bus.Headers{bus.MarkHeader: "mine"}})
		if got := in.fault != nil; got != (topic == bus.TopicMarks) {
			t.Errorf("%s: %v", topic, in.fault)
		}
	}
}
