package memory_test

import (
	"context"
	"encoding/json"
	"errors"
	"fmt"
	"io"
	"strings"

	"gateway/rabbit/bus"
	"gateway/rabbit/logs"
	"gateway/rabbit/memory"
	"gateway/rabbit/sender"
)

// startSender starts a process with a new batch, or with one that was sent before, whole or in part.
func (w *world) startSender() error {
	of := batch{fmt.Sprintf("nameless %d", len(w.texts)), ""}
	named := !w.Chance(4)
	if named {
		of = batch{[]string{"a", "b"}[w.random.Intn(2)], fmt.Sprint(w.random.Intn(4))}
	}
	if w.inputs[of] == nil {
		w.input(of)
	}
	p, err := w.newProcess(of, named)
	if p != nil {
		w.senders = append(w.senders, p)
	}
	return err
}

// newProcess returns a process that has read the number of partitions, now and then an earlier one.
func (w *world) newProcess(of batch, named bool) (*process, error) {
	p := &process{of: of, named: named, opens: &recorder{Bus: w.Bus}}
	link, err := w.Connect(context.Background(), "", "")
	if err != nil {
		return nil, err
	}
	scale, err := bus.ReadScale(link)
	if err != nil {
		return nil, nil // it starts another time
	}
	known, read := scale.All, started(scale.Scaling)
	if len(known) > 1 && !w.Steady && w.Chance(5) {
		known, read = known[:len(known)-1], started{}
	}
	p.settings = known[len(known)-1]
	p.lanes, p.numbers = make([]laneState, p.settings.Partitions), make([][]int, p.settings.Partitions)
	p.Sender = sender.New(sender.Options{Bus: p.opens, Settings: p.settings, Earlier: known[:len(known)-1], Name: of.sender, Named: named, Batch: of.id,
		Log: logs.New(io.Discard, "test"), Check: func([]byte) error { return nil }, AtOnce: 1, Scale: read, Numbered: p.numbered, Taken: func(upto []int64) { p.upto = upto }})
	if err := p.Claim(context.Background()); err != nil {
		return nil, err
	}
	return p, nil
}

// A started is what a process read at its start of the number of partitions.
type started bus.Scaling

func (s started) Scaling() bus.Scaling                    { return bus.Scaling(s) }
func (s started) Newest() (bus.Settings, <-chan struct{}) { return bus.Settings{}, nil }

// numbered notes a line's number in its partition.
func (p *process) numbered(text []byte, partition int, number int64) {
	for int64(len(p.numbers[partition])) <= number {
		p.numbers[partition] = append(p.numbers[partition], -1)
	}
	p.numbers[partition][number] = numberOf(text)
}

// numberOf returns the number within a line.
func numberOf(text []byte) int {
	var read struct {
		ID    *int
		Model struct{ Number int }
	}
	if err := json.Unmarshal(text, &read); err != nil {
		panic(err)
	}
	if read.ID != nil {
		return *read.ID
	}
	return read.Model.Number
}

// feed gives the lanes their lines, once each partition has said what it knows of the batch, if that matters.
func (w *world) feed(p *process) error {
	if p.named && p.settings.Epoch > 0 {
		for _, l := range p.Lanes() {
			if !l.IsClaimed() {
				return nil
			}
		}
		p.Gather()
	}
	for _, number := range w.inputs[p.of] {
		if err := p.Take(context.Background(), w.texts[number].text); err != nil {
			return err
		}
	}
	p.fed = true
	return p.End()
}

// moveSender moves a sender, and drops one that has ended.
func (w *world) moveSender(at int) error {
	goesOn, err := w.moveProcess(w.senders[at])
	if err != nil || goesOn {
		return err
	}
	w.senders = append(w.senders[:at], w.senders[at+1:]...)
	return nil
}

// moveProcess moves a process, and reports whether it continues.
func (w *world) moveProcess(p *process) (goesOn bool, err error) {
	if p.reason == nil {
		goesOn, err = w.move(p)
		var final *bus.Final
		var newer *bus.Superseded
		var changed *bus.Rescaled
		switch {
		case errors.As(err, &newer), errors.As(err, &changed):
			p.reason = err
			if changed != nil {
				p.reason = changed
			}
		case errors.As(err, &final): // lines of its batch are lost, so it can't be sent again
			if !strings.Contains(err.Error(), "the broker has lost") {
				return false, err
			}
			return false, nil
		case err != nil && !errors.Is(err, memory.ErrLink) && !errors.Is(err, bus.ErrMissing) && !isUnbegun(err):
			return false, err
		default:
			return err != nil || goesOn, nil
		}
	}
	var changed *bus.Rescaled
	if errors.As(p.reason, &changed) && !w.isClosed(p.settings) {
		return true, nil // it waits until each log is closed
	}
	p.release()
	w.end(p, p.reason)
	return false, nil
}

// release ends its lanes' connections.
func (p *process) release() {
	for at := range p.lanes {
		if link := p.lanes[at].link; link != nil {
			link.Fail(memory.ErrLink)
		}
	}
}

// isClosed reports whether each log of these settings is closed.
func (w *world) isClosed(of bus.Settings) bool {
	for _, partition := range of.Each() {
		if w.closeOf(partition) < 0 {
			return false
		}
	}
	return true
}

// closeOf returns the offset at which a log is closed, or -1.
func (w *world) closeOf(partition bus.Partition) int64 {
	for _, message := range w.Stream(partition.Queue(bus.Lines)).Messages {
		if _, is := bus.ReadClose(message, partition.Of); is {
			return message.Offset
		}
	}
	return -1
}

// move moves the sender, and reports whether it continues.
func (w *world) move(p *process) (more bool, err error) {
	ctx := context.Background()
	if !p.fed {
		if err := w.feed(p); err != nil {
			return false, err
		}
	}
	if newest, _ := w.Newest(); newest.Epoch > p.settings.Epoch && w.Chance(8) && !p.looked && !w.flaws.noScale {
		return false, &bus.Rescaled{To: newest} // it was watching
	}
	isClosed := p.each(func(at int) bool { return p.lanes[at].closed })
	if p.named && !w.flaws.noLook && (isClosed || w.Chance(10)) {
		if err := p.Check(ctx); err != nil {
			return false, err
		}
	}
	if isClosed {
		w.end(p, nil)
		return false, nil
	}
	if !p.looked && p.fed && p.each(func(at int) bool { return p.Lanes()[at].IsSettled() }) {
		return true, w.look(p)
	}
	at := w.random.Intn(len(p.lanes))
	if p.lanes[at].closed {
		return true, nil
	}
	return true, w.moveLane(p, at)
}

func (p *process) each(is func(at int) bool) bool {
	for at := range p.lanes {
		if !is(at) {
			return false
		}
	}
	return true
}

// look looks at the number of partitions.
func (w *world) look(p *process) error {
	if w.flaws.noScale {
		p.opens.hidesScale = true
	}
	err := p.Look(context.Background())
	p.looked, p.opens.hidesScale = err == nil, false
	return err
}

// moveLane moves one of its lanes.
func (w *world) moveLane(p *process, at int) (err error) {
	ctx, lane, state := context.Background(), p.Lanes()[at], &p.lanes[at]
	switch {
	case state.link == nil:
		return p.open(at)
	case state.link.Waits():
		state.link.Confirm(4)
		for isFirst := true; err == nil && (isFirst || state.link.IsTold()); isFirst = false { // the lane may be woken for its lines first
			err = lane.Wait(ctx)
		}
	case !p.fed:
		return nil
	}
	more := true
	if err == nil {
		more, err = lane.Step()
	}
	if err != nil {
		state.link.Close()
		state.link = nil
		return err
	}
	state.closed = !more
	return nil
}

// open opens a lane's connection.
func (p *process) open(at int) error {
	lane, state := p.Lanes()[at], &p.lanes[at]
	if err := lane.Open(context.Background()); err != nil {
		return err
	}
	state.link = p.opens.last
	return nil
}

// A counted is how many of its lines a process reported to count.
type counted struct {
	of    batch
	epoch int64 // of the process
	sent  int64
}

// end takes what a sender reports at its end: that all of its batch was sent, or how much of it counts, and which lines.
func (w *world) end(p *process, reason error) {
	tally, err := p.Ended(context.Background(), reason)
	if reason == nil && err != nil {
		panic(fmt.Sprint(tally, err))
	}
	if err == nil {
		for _, number := range w.inputs[p.of] {
			w.reported[number] = true
		}
		return
	}
	w.counted = append(w.counted, counted{p.of, p.Epoch(), tally.Sent})
	for partition, upto := range p.upto {
		for number, line := range p.numbers[partition] {
			if int64(number) < upto && line >= 0 {
				w.reported[line] = true
			}
		}
	}
}

func (w *world) killSender(at int) {
	w.senders[at].release()
	w.senders = append(w.senders[:at], w.senders[at+1:]...)
}

// repeatAll ends what is running, and lets each batch be sent again as a whole.
func (w *world) repeatAll() error {
	if err := w.finishChange(); err != nil {
		return err
	}
	if err := w.answerAll(); err != nil {
		return err
	}
	for _, p := range w.senders {
		if p.reason != nil {
			if _, err := w.moveProcess(p); err != nil {
				return err
			}
		}
	}
	w.senders = nil
	var all []batch
	for _, text := range w.texts {
		if of := text.of; len(all) == 0 || all[len(all)-1] != of {
			all = append(all, of)
		}
	}
	for _, of := range all {
		if of.id == "" {
			continue
		}
		p, err := w.newProcess(of, true)
		for moves, goesOn := 0, true; err == nil && goesOn; moves++ {
			if goesOn, err = w.moveProcess(p); moves > 3000 {
				return fmt.Errorf("batch %v, sent again, never ends: %+v %v", of, p.lanes, p.String())
			}
		}
		if err != nil {
			return fmt.Errorf("batch %v, sent again: %w", of, err)
		}
	}
	return nil
}

// String returns its state.
func (p *process) String() string {
	text := fmt.Sprintf("settings %+v, fed %v, looked %v, reason %v:", p.settings, p.fed, p.looked, p.reason)
	for at, l := range p.Lanes() {
		text += fmt.Sprintf(" lane %d (claimed %v, settled %v, link %v, closed %v)", at, l.IsClaimed(), l.IsSettled(), p.lanes[at].link != nil, p.lanes[at].closed)
	}
	return text
}
