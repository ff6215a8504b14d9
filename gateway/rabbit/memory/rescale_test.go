package memory_test

import (
	"context"
	"errors"
	"fmt"
	"io"
	"strings"
	"sync"
	"sync/atomic"
	"testing"
	"time"

	"gateway/rabbit/answer"
	"gateway/rabbit/bus"
	"gateway/rabbit/logs"
	"gateway/rabbit/receiver"
	"gateway/rabbit/rescale"
	"gateway/rabbit/sender"
)

// watching returns a watch of the number of partitions, which ends with the test.
func watching(t *testing.T, on *live) *bus.Watch {
	t.Helper()
	ctx, stop := context.WithCancel(context.Background())
	t.Cleanup(stop)
	watch, err := bus.StartWatch(ctx, on, logs.New(io.Discard, "test"), "test", on.Settings)
	if err != nil {
		t.Fatal(err)
	}
	return watch
}

// sendingNow returns the options of desk send with this input and the current number of partitions.
func sendingNow(t *testing.T, on *live, name, batch string, input io.Reader) sender.Options {
	watch := watching(t, on)
	known, err := watch.Look(context.Background())
	if err != nil {
		t.Fatal(err)
	}
	all, options := known.All, sending(on, name, batch, input)
	options.Scale, options.Settings, options.Earlier = watch, all[len(all)-1], all[:len(all)-1]
	options.GiveUp = 0 // after a change partitions take lines at different times
	return options
}

// changed changes the number of partitions.
func changed(t *testing.T, on *live, to int) {
	t.Helper()
	change, err := rescale.Run(context.Background(), rescale.Options{Bus: on, To: to, Declare: on.declare, Leave: on.leave, Log: logs.New(io.Discard, "test")})
	if err != nil || change.To.Partitions != to {
		t.Fatal(change, err)
	}
}

// A sender of before gets the new number, and how many of its lines count. Sent again, the batch has each line once. The
// partition processes and the receiver continue by themselves, from 2 to 4 and back.
func TestProgramsGoOnWithAnotherNumberOfPartitions(t *testing.T) {
	const count = 60
	on := newLive(2, -1)
	for range make([]int, 5) {
		defer own(on)()
	}
	receiving, stop := context.WithCancel(context.Background())
	var mutex sync.Mutex
	answered := map[string]int{}
	done := make(chan error, 1)
	watch := watching(t, on)
	go func() {
		done <- receiver.Receive(receiving, receiver.Options{Bus: on, Scale: watch, Log: logs.New(io.Discard, "test"), Each: func(line []byte, _ answer.Record) error {
			mutex.Lock()
			defer mutex.Unlock()
			if _, id, is := strings.Cut(string(line), `"id":`); is {
				id, _, _ = strings.Cut(id, ",")
				answered[id]++
			}
			return nil
		}})
	}()
	text, _ := requests(t, count, 2)
	lines := strings.SplitAfter(text, "\n")
	for round, to := range []int{4, 2} {
		batch := fmt.Sprint("batch ", round)
		input, give := io.Pipe()
		options := sendingNow(t, on, "a", batch, input)
		var confirmed sync.WaitGroup
		confirmed.Add(count / 2)
		options.Confirmed = func([]byte) { confirmed.Done() }
		type ended struct {
			sender.Tally
			error
		}
		older := make(chan ended, 1)
		go func() {
			tally, err := sender.Send(context.Background(), options)
			older <- ended{tally, err}
		}()
		again := strings.ReplaceAll(strings.Join(lines[:count/2], ""), `"id":`, fmt.Sprintf(`"id":%d`, round+1))
		io.WriteString(give, again)
		confirmed.Wait()
		changed(t, on, to)
		end := <-older
		var rescaled *bus.Rescaled
		if !errors.As(end.error, &rescaled) || rescaled.To.Partitions != to || end.Sent != count/2 {
			t.Fatalf("%+v, %v", end.Tally, end.error)
		}
		give.Close()
		whole := strings.ReplaceAll(text, `"id":`, fmt.Sprintf(`"id":%d`, round+1))
		tally, err := sender.Send(context.Background(), sendingNow(t, on, "a", batch, strings.NewReader(whole)))
		if err != nil || tally != (sender.Tally{Sent: count / 2, Repeated: count / 2}) {
			t.Fatalf("%+v, %v", tally, err)
		}
	}
	until(func() bool { mutex.Lock(); defer mutex.Unlock(); return len(answered) == 2*count })
	stop()
	if err := <-done; err != nil {
		t.Error(err)
	}
	for id, times := range answered {
		if times != 1 {
			t.Errorf("%s is answered %d times", id, times)
		}
	}
}

// Calls continue with another number of partitions, and each is answered once, also one made while nobody answered.
func TestCallsGoOnWithAnotherNumberOfPartitions(t *testing.T) {
	on := newLive(2, -1)
	c := asking(t, on, nil)
	stop := own(on)
	if got := <-put(t, c, "first", 1); string(got.Value) != "13" {
		t.Errorf("%+v", got)
	}
	stop()
	second := put(t, c, "second", 2)
	until(func() bool { return c.IsSent("second", 1) })
	changed(t, on, 3)
	third := put(t, c, "third", 3)
	until(func() bool { return c.IsSent("third", 1) })
	for range make([]int, 4) {
		defer own(on)()
	}
	if got := <-second; string(got.Value) != "16" {
		t.Errorf("%+v", got)
	}
	if got := <-third; string(got.Value) != "19" {
		t.Errorf("%+v", got)
	}
	for _, id := range []string{"second", "third"} {
		answered := 0
		for _, of := range watching(t, on).Scaling().All {
			for _, partition := range of.Each() {
				answered += strings.Count(strings.Join(on.bodies(partition.Queue(bus.Answers)), "\n"), fmt.Sprintf(`"call":"%s"`, id))
			}
		}
		if answered != 1 || len(second)+len(third) > 0 {
			t.Errorf("%s is answered %d times", id, answered)
		}
	}
	end(t, c)
}

// At brokers declared by an older program, programs work as before. Once the number is declared, it can be changed.
func TestPartitionsOfAnOlderProgram(t *testing.T) {
	on := newLive(2, -1)
	on.Older = true
	defer own(on)()
	defer own(on)()
	text, _ := requests(t, 20, 2)
	tally, err := sender.Send(context.Background(), sendingNow(t, on, "a", "x", strings.NewReader(text)))
	if err != nil || tally != (sender.Tally{Sent: 20}) {
		t.Errorf("%+v, %v", tally, err)
	}
	ctx, stop := context.WithTimeout(context.Background(), time.Minute)
	defer stop()
	options := rescale.Options{Bus: on, To: 4, Declare: on.declare, Leave: on.leave, Log: logs.New(io.Discard, "test")}
	if _, err := rescale.Run(ctx, options); !errors.Is(err, rescale.ErrUndeclared) {
		t.Error(err)
	}
	on.with(func() { on.Older = false })
	if newest, err := rescale.Declare(ctx, options, bus.Settings{Partitions: 7}); err != nil || newest != on.Settings {
		t.Error(newest, err)
	}
	changed(t, on, 4)
}

// A counting bus counts the messages read from the scale stream.
type counting struct {
	*live
	read *int64
}

type countingLink struct {
	bus.Link
	read *int64
}

type countingReader struct {
	bus.Reader
	read *int64
}

func (c counting) Connect(ctx context.Context, name, last string) (bus.Link, error) {
	link, err := c.live.Connect(ctx, name, last)
	return countingLink{link, c.read}, err
}

func (c countingLink) Read(what bus.Reading) (bus.Reader, error) {
	reader, err := c.Link.Read(what)
	if what.Stream == bus.Scale && err == nil {
		reader = countingReader{reader, c.read}
	}
	return reader, err
}

func (c countingReader) Next() (bus.Message, error) {
	message, err := c.Reader.Next()
	atomic.AddInt64(c.read, 1)
	return message, err
}

// A look reads what came since the last one, and not what was there at the start: each look leaves a mark for good.
func TestALookReadsWhatIsNew(t *testing.T) {
	const looks = 200
	on := counting{newLive(2, -1), new(int64)}
	ctx, stop := context.WithCancel(context.Background())
	defer stop()
	watch, err := bus.StartWatch(ctx, on, logs.New(io.Discard, "test"), "test", on.Settings)
	if err != nil {
		t.Fatal(err)
	}
	for range make([]int, looks) {
		if known, err := watch.Look(ctx); err != nil || len(known.All) != 1 {
			t.Fatal(known, err)
		}
	}
	// Some may reread what the watch hasn't read yet.
	if read := atomic.LoadInt64(on.read); read > looks*looks/4 {
		t.Errorf("%d looks read %d messages", looks, read)
	}
	changed(t, on.live, 4)
	if known, err := watch.Look(ctx); err != nil || len(known.All) != 2 || known.All[1].Partitions != 4 {
		t.Error(known, err)
	}
}
