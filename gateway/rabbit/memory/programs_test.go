package memory_test

import (
	"context"
	"errors"
	"fmt"
	"io"
	"math/rand"
	"os"
	"path/filepath"
	"strings"
	"testing"
	"time"

	"gateway/rabbit/answer"
	"gateway/rabbit/bus"
	"gateway/rabbit/ledger"
	lines "gateway/rabbit/line"
	"gateway/rabbit/logs"
	"gateway/rabbit/memory"
	"gateway/rabbit/receiver"
	"gateway/rabbit/sender"
)

// requests returns count requests, and how many of them belong to each partition.
func requests(t *testing.T, count, partitions int) (text string, of []int) {
	t.Helper()
	of = make([]int, partitions)
	for number := 0; number < count; number++ {
		raw := fmt.Sprintf(`{"key":"k%d","service":"s","inputs":{},"id":%d}`, number%97, number)
		read, err := lines.Read([]byte(raw))
		if err != nil {
			t.Fatal(err)
		}
		of[read.Partition(partitions)]++
		text += raw + "\n"
	}
	return text, of
}

// sending returns the options of desk send with this input.
func sending(on *live, name, batch string, input io.Reader) sender.Options {
	return sender.Options{Bus: on, Settings: on.Settings, Name: name, Named: true, Batch: batch, GiveUp: time.Nanosecond, Input: input,
		Log: logs.New(io.Discard, "test"), Check: func([]byte) error { return nil }, Gauges: sender.NewGauges()}
}

// until waits until is is true; the test's deadline ends it.
func until(is func() bool) {
	for !is() {
		time.Sleep(time.Millisecond)
	}
}

// The lines of all partitions but a sick one are sent, and the others are counted and reported. Sent again once it works, the
// batch has each line once.
func TestASenderWithASickPartition(t *testing.T) {
	const count, partitions, sick = 400, 4, 3
	on := newLive(partitions, sick)
	text, of := requests(t, count, partitions)
	options := sending(on, "a", "x", strings.NewReader(text))
	tally, err := sender.Send(context.Background(), options)
	want := sender.Tally{Sent: int64(count - of[sick]), Unsent: int64(of[sick])}
	if tally != want || !errors.Is(err, errSick) || !strings.HasPrefix(err.Error(), fmt.Sprintf("partition 3: %d lines were not sent", of[sick])) {
		t.Errorf("%+v, %v", tally, err)
	}
	if is, said := options.Gauges.Ready(); is || said != "partition 3 can't be reached: the stream is down" {
		t.Error(said)
	}
	on.heal()
	tally, err = sender.Send(context.Background(), sending(on, "a", "x", strings.NewReader(text)))
	if want = (sender.Tally{Sent: want.Unsent, Repeated: want.Sent}); tally != want || err != nil {
		t.Errorf("%+v, %v", tally, err)
	}
	for partition, due := range of {
		found := strings.Join(on.bodies(on.Settings.Queue(bus.Lines, partition)), "\n")
		if got := strings.Count(found, `"key"`); got != due {
			t.Errorf("partition %d has %d lines of %d", partition, got, due)
		}
	}
}

// A new process under a name ends the one before, which reports how many of its lines were taken.
func TestANewerProcessEndsTheOlder(t *testing.T) {
	on := newLive(2, -1)
	text, _ := requests(t, 20, 2)
	input, give := io.Pipe()
	type ended struct {
		sender.Tally
		error
	}
	older := make(chan ended, 1)
	go func() {
		tally, err := sender.Send(context.Background(), sending(on, "a", "older", input))
		input.Close()
		older <- ended{tally, err}
	}()
	io.WriteString(give, text)
	taken := func() (count int) {
		for partition := 0; partition < 2; partition++ {
			count += strings.Count(strings.Join(on.bodies(on.Settings.Queue(bus.Lines, partition)), "\n"), `"key"`)
		}
		return count
	}
	until(func() bool { return taken() == 20 })
	tally, err := sender.Send(context.Background(), sending(on, "a", "newer", strings.NewReader(text)))
	if err != nil || tally != (sender.Tally{Sent: 20}) {
		t.Errorf("the newer one: %+v, %v", tally, err)
	}
	io.WriteString(give, text) // or it has ended before
	give.Close()
	end := <-older
	var newer *bus.Superseded
	if !errors.As(end.error, &newer) || newer.Name != "a" || end.Sent != 20 {
		t.Errorf("the older one: %+v, %v", end.Tally, end.error)
	}
}

// A message has one copy while it may be confirmed, and a second one only after its connection is lost.
func TestAMessageIsPublishedAgainOnceItsConfirmIsLost(t *testing.T) {
	b := memory.New(rand.New(rand.NewSource(1)), settings)
	b.Steady = true
	var numbers []interface{}
	b.Rewrite = func(_ bus.Route, headers bus.Headers) bus.Headers {
		if headers["kind"] == string(ledger.Lines) {
			numbers = append(numbers, headers["number"])
		}
		return headers
	}
	ctx, opens := context.Background(), &recorder{Bus: b}
	s := sender.New(sender.Options{Bus: opens, Settings: settings, Name: "a", Named: true, Log: logs.New(io.Discard, "test")})
	if err := s.Claim(ctx); err != nil {
		t.Fatal(err)
	}
	if err := s.Take(ctx, []byte(`{"key":"k","service":"s","inputs":{},"id":1}`)); err != nil {
		t.Fatal(err)
	}
	lane := s.Lanes()[0]
	for copies := 1; copies <= 3; copies++ {
		if err := lane.Open(ctx); err != nil {
			t.Fatal(err)
		}
		for range make([]int, 100) {
			if more, err := lane.Step(); !more || err != nil {
				t.Fatal(more, err)
			}
		}
		if len(numbers) != copies || numbers[copies-1] != int64(0) {
			t.Errorf("%v were published over %d connections", numbers, copies)
		}
		opens.last.Fail(memory.ErrLink)
	}
}

// If a partition's answers can't be read, those of the others are written and the failure is reported. Once it works, so are
// its own.
func TestAReceiverWithASickPartition(t *testing.T) {
	on := newLive(2, 1)
	for partition := 0; partition < 2; partition++ {
		b, part := on.Bus, bus.Part{After: ledger.Start, Upto: ledger.Place{Offset: 0}}
		link, _ := b.Connect(context.Background(), "", "")
		appender, err := link.Appender()
		if err != nil {
			t.Fatal(err)
		}
		body := answer.Append(nil, part.Upto, []byte(`"k"`), []byte("1"), []byte(`{"ticket":0}`))
		if err := appender.Append(on.Settings.Route(bus.AnswersExchange, bus.TopicAnswers, partition), bus.PartHeaders(part), body); err != nil {
			t.Fatal(err)
		}
		if err := appender.Settle(); err != nil {
			t.Fatal(err)
		}
	}
	path := filepath.Join(t.TempDir(), "answers")
	output, err := os.Create(path)
	if err != nil {
		t.Fatal(err)
	}
	defer output.Close()
	gauges, done := receiver.NewGauges(), make(chan error, 1)
	ctx, stop := context.WithCancel(context.Background())
	go func() {
		done <- receiver.Receive(ctx, receiver.Options{Bus: on, Settings: on.Settings, Output: output, File: true, Log: logs.New(io.Discard, "test"), Gauges: gauges})
	}()
	written := func(partition int) bool {
		text, err := os.ReadFile(path)
		return err == nil && strings.Contains(string(text), fmt.Sprintf(`{"partition":%d,`, partition))
	}
	until(func() bool {
		_, said := gauges.Ready()
		return written(0) && said == "partition 1 can't be reached: the stream is down"
	})
	if written(1) {
		t.Error("what can't be read is written")
	}
	on.heal()
	until(func() bool { is, _ := gauges.Ready(); return is && written(1) })
	stop()
	if err := <-done; err != nil {
		t.Error(err)
	}
}
