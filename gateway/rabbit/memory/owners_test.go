package memory_test

import (
	"bytes"
	"context"
	"encoding/json"
	"errors"
	"fmt"
	"io"
	"os"
	"path/filepath"
	"strings"
	"time"

	"gateway/rabbit/bus"
	"gateway/rabbit/logs"
	"gateway/rabbit/memory"
	owning "gateway/rabbit/partition"
	engines "gateway/rabbit/process"
	"gateway/rabbit/receiver"
)

// An owner owns the partition, or believes so.
type owner struct {
	*owning.Owner
	world  *world
	link   *memory.Link
	engine *engine
	ticks  chan time.Time
	left   int // how often it may still find that a snapshot is due, once there is nothing else to do
}

// looks is how often an owner looks at the time, once there is nothing else to do.
const looks = 3

// takeOver takes a partition over, and notes which messages were cut by themselves.
func (w *world) takeOver(partition bus.Partition) (*owner, error) {
	link, err := w.Connect(context.Background(), "", "")
	if err != nil {
		return nil, err
	}
	o := &owner{world: w, link: link.(*memory.Link), ticks: make(chan time.Time, 1), left: looks}
	options := owning.Options{Bus: w.Bus, Deadline: time.Hour * 24, Log: logs.New(io.Discard, "test"), Gauges: owning.NewGauges(),
		Now: func() time.Time { return w.Clock }}
	options.Begin = func(engines.Options) (owning.Evaluator, error) {
		o.engine = &engine{tickets: map[string]int64{}, answers: make(chan []engines.Answer, 1)}
		return o.engine, nil
	}
	if o.Owner, err = owning.Begin(options, link, partition, w.scaling()); err != nil {
		link.Close()
		return nil, err
	}
	return o, nil
}

func (w *world) moveOwner(at int) error {
	err := w.owners[at].move(w.random.Intn(10))
	if err == nil {
		return nil
	}
	w.kill(at)
	if errors.Is(err, memory.ErrLink) || isOver(err) || strings.Contains(err.Error(), "retention has cut the log while it was read") {
		return nil
	}
	return err
}

func (w *world) kill(at int) {
	w.owners[at].link.Fail(memory.ErrLink)
	w.owners = append(w.owners[:at], w.owners[at+1:]...)
}

// move lets the owner read a message, get an answer or a confirm, or find that a snapshot may be due.
func (o *owner) move(what int) error {
	switch {
	case what == 0:
		o.world.Clock = o.world.Clock.Add(time.Duration(1+o.world.random.Intn(40)) * time.Second)
		o.left--
		o.ticks <- time.Time{}
	case what < 4 && o.link.Waits():
		o.link.Confirm(40)
	case what < 7 && o.link.Due():
		o.noteSingles()
		o.link.Deliver()
	case o.engine != nil && !o.engine.ended && len(o.engine.waiting) > 0:
		o.engine.hand(1 + o.world.random.Intn(len(o.engine.waiting)))
	default:
		return o.Step()
	}
	if err := o.Wait(o.ticks); err != nil {
		return err
	}
	return o.Step()
}

// isBusy reports whether the owner has something to do. A look at the time may give it more.
func (o *owner) isBusy() bool {
	if o.link.Waits() || o.link.Due() || o.engine != nil && !o.engine.ended && len(o.engine.waiting) > 0 {
		o.left = looks
	}
	return o.left > 0
}

// noteSingles notes messages that were cut by themselves, before the first one left.
func (o *owner) noteSingles() {
	lines := o.world.lines()
	if lines.Cut > 0 && lines.Cut < len(lines.Messages) {
		o.world.singles[lines.Messages[lines.Cut].Offset-1] = true
	}
}

// An engine answers as one with one worker does: a request gets three times its number plus the model's addend.
type engine struct {
	addend  int
	lines   int64
	tickets map[string]int64
	waiting []engines.Answer
	answers chan []engines.Answer
	ended   bool
}

func (e *engine) Answers() <-chan []engines.Answer { return e.answers }
func (e *engine) End()                             { e.ended = true }
func (e *engine) Err() error                       { return nil }

func (e *engine) Give(lines [][]byte) {
	for _, text := range lines {
		e.lines++
		e.waiting = append(e.waiting, engines.Answer{Text: []byte(e.answer(text))})
	}
}

// hand hands over count answers.
func (e *engine) hand(count int) {
	e.answers <- e.waiting[:count]
	e.waiting = e.waiting[count:]
}

func (e *engine) answer(text []byte) string {
	var read struct {
		Resize, Client string
		Inputs         struct{ A int }
		Model          struct{ Addend int }
	}
	if err := json.Unmarshal(text, &read); err != nil {
		panic(err)
	}
	switch {
	case read.Resize != "":
		return fmt.Sprintf(`{"client":"%s","line":%d,"capacity":64}`, read.Resize, e.lines)
	case bytes.HasPrefix(text, []byte(`{"model":`)):
		e.addend = read.Model.Addend
		return fmt.Sprintf(`{"line":%d,"model":true}`, e.lines)
	case e.addend == 0:
		return fmt.Sprintf(`{"client":"%s","line":%d,"refused":"model"}`, read.Client, e.lines)
	}
	e.tickets[read.Client]++
	return fmt.Sprintf(`{"client":"%s","result":%d,"ticket":%d}`, read.Client, read.Inputs.A*3+e.addend, e.tickets[read.Client]-1)
}

// A receiving is a process of desk receive with its connections.
type receiving struct {
	*receiver.Receiver
	output  *os.File
	links   map[*receiver.Reader]*memory.Link
	streams map[*receiver.Reader]bus.Reader
}

// receive moves the receiver: it is started, reads a message, saves its place, loses its connection, or is killed.
func (w *world) receive() error {
	r := w.receiver
	if r == nil {
		return w.startReceiver()
	}
	r.Rescaled()
	readers := r.Readers()
	if len(readers) == 0 {
		return nil
	}
	reader := readers[w.random.Intn(len(readers))]
	link := r.links[reader]
	switch what := w.random.Intn(20); {
	case what == 0:
		w.killReceiver()
	case what == 1 && link != nil:
		link.Fail(memory.ErrLink)
		delete(r.links, reader)
	case what < 5:
		return r.Save()
	case link == nil:
		return r.open(reader)
	case link.Due():
		return r.read(reader)
	}
	return nil
}

func (w *world) startReceiver() error {
	output, err := os.OpenFile(w.output(), os.O_RDWR|os.O_CREATE, 0o600)
	if err != nil {
		return err
	}
	r, err := receiver.New(receiver.Options{Bus: w.Bus, Scale: w, Place: filepath.Join(w.folder, "place"), Output: output,
		File: true, Log: logs.New(io.Discard, "test")})
	w.receiver = &receiving{Receiver: r, output: output, links: map[*receiver.Reader]*memory.Link{}, streams: map[*receiver.Reader]bus.Reader{}}
	return err
}

func (w *world) killReceiver() {
	w.receiver.output.Close()
	w.receiver = nil
}

func (r *receiving) open(reader *receiver.Reader) error {
	link, stream, err := reader.Open(context.Background())
	if errors.Is(err, memory.ErrLink) {
		return nil
	}
	if err != nil {
		return err
	}
	r.links[reader], r.streams[reader] = link.(*memory.Link), stream
	return nil
}

func (r *receiving) read(reader *receiver.Reader) error {
	r.links[reader].Deliver()
	message := <-r.streams[reader].Arrivals()
	reader.Took(message)
	return r.Add(reader.Partition(), message)
}

// receiveAll lets the receiver read all that is there.
func (w *world) receiveAll() error {
	if w.receiver == nil {
		if err := w.startReceiver(); err != nil {
			return err
		}
	}
	defer w.killReceiver()
	w.receiver.Rescaled()
	for isDue := true; isDue; {
		isDue = false
		for _, reader := range w.receiver.Readers() {
			if w.receiver.links[reader] == nil {
				if err := w.receiver.open(reader); err != nil {
					return err
				}
			}
			if w.receiver.links[reader].Due() {
				isDue = true
				if err := w.receiver.read(reader); err != nil {
					return err
				}
			}
		}
	}
	return w.receiver.Save()
}
