package sender

import (
	"fmt"
	"io"
	"strings"
	"testing"

	"gateway/rabbit/bus"
	"gateway/rabbit/logs"
)

// Models have their own messages, each message has the number of its batch's models before it, and lines taken before count
// too.
func TestModelsHaveMessagesOfTheirOwn(t *testing.T) {
	s := &Sender{options: Options{Settings: bus.Settings{Partitions: 1}, Named: true, Log: logs.New(io.Discard, "test"), Gauges: NewGauges()}, changed: make(chan struct{}, 1)}
	l := newLane(s, 0)
	l.known = known{batch: batchOf(false, "m", "r1")}
	l.next = 2
	for _, text := range []string{"m", "r1", "r2", "r3", "m2", "m3", "r4"} {
		next := pending{text: []byte(text)}
		if strings.HasPrefix(text, "m") {
			next.model = &modelTally{}
		}
		if !l.put(next) {
			t.Fatal("there is no room")
		}
	}
	var got []string
	for {
		message, _, err := l.nextMessage()
		if err != nil {
			t.Fatal(err)
		}
		if message == nil {
			break
		}
		got = append(got, fmt.Sprintf("%s from %d after %d models", message.body, message.number, message.models))
	}
	want := "[r2\nr3 from 2 after 1 models m2\nm3 from 4 after 1 models r4 from 6 after 3 models]"
	if fmt.Sprint(got) != want {
		t.Errorf("%q", got)
	}
	if l.repeated != 2 {
		t.Errorf("%d lines are repeated", l.repeated)
	}
}
