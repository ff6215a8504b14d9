package memory_test

import (
	"context"
	"errors"
	"fmt"
	"math/rand"
	"os"
	"path/filepath"
	"time"

	"gateway/rabbit/bus"
	"gateway/rabbit/ledger"
	"gateway/rabbit/memory"
	"gateway/rabbit/sender"
)

// A world has partitions in memory, with the programs' owners, senders and receivers. A seeded scheduler moves one of them at a
// time, by one step. What the network and the machines may do is a step too: messages come late or twice, confirms are lost,
// processes die or pause for long, and retention cuts.
type world struct {
	*memory.Bus
	random    *rand.Rand
	flaws     flaws
	rescales  bool // whether the number of partitions changes
	change    *changing
	owners    []*owner
	senders   []*process
	receiver  *receiving
	folder    string
	inputs    map[batch][]int // the line numbers of each batch
	texts     []line          // of these numbers
	reported  map[int]bool    // the lines that a sender reported as sent
	counted   []counted       // how many of their lines processes reported to count
	singles   map[int64]bool  // offsets of messages that were cut by themselves: nobody can distinguish them from the bus's own
	retention bool            // whether retention cuts
	messages  int             // published so far, by which a flaw names batches
}

// A flaws breaks rules, so that the checker has something to find.
type flaws struct{ noLook, noBatches, noSenders, noScale, noSections bool }

// A batch is one of a sender.
type batch struct{ sender, id string }

// A line is a line of an input: a model with an addend, or a request with a number.
type line struct {
	of     batch
	index  int // in its batch
	key    string
	addend int // of a model, or 0
	text   []byte
}

// settings are those of worlds with a fixed number of partitions.
var settings = bus.Settings{Partitions: 1}

func newWorld(folder string, seed int64, retention bool, flaws flaws) *world {
	return newWorldOf(folder, seed, settings, retention, flaws)
}

func newWorldOf(folder string, seed int64, of bus.Settings, retention bool, flaws flaws) *world {
	random := rand.New(rand.NewSource(seed))
	w := &world{Bus: memory.New(random, of), random: random, flaws: flaws, folder: folder, inputs: map[batch][]int{},
		reported: map[int]bool{}, singles: map[int64]bool{}, retention: retention}
	if flaws.noBatches {
		w.Rewrite = w.withoutBatches
	}
	switch {
	case flaws.noSenders:
		w.Alter = withoutSenders
	case flaws.noSections:
		w.Alter = withoutSections
	}
	return w
}

// withoutBatches makes each message a batch.
func (w *world) withoutBatches(_ bus.Route, headers bus.Headers) bus.Headers {
	if headers["kind"] == string(ledger.Lines) {
		w.messages++
		headers["batch"], headers["number"], headers["models"] = fmt.Sprintf("%v, message %d", headers["batch"], w.messages), int64(0), int64(0)
	}
	return headers
}

// withoutSenders removes the senders from a snapshot, as if they had been forgotten.
func withoutSenders(message bus.Message) bus.Message {
	return altered(message, func(l *ledger.Ledger) { l.Senders = ledger.NewSenders(nil, time.Time{}, 0) })
}

// altered returns a message with a change to its ledger, if it is a snapshot.
func altered(message bus.Message, change func(*ledger.Ledger)) bus.Message {
	if part, is, err := bus.ReadPart(message); err == nil && is && part.Snapshot {
		l, err := ledger.Read(message.Body, 0)
		if err != nil {
			panic(err)
		}
		change(l)
		if message.Body, err = l.Snapshot(""); err != nil {
			panic(err)
		}
	}
	return message
}

func (w *world) lines() *memory.Stream   { return w.Stream(w.Settings.Queue(bus.Lines, 0)) }
func (w *world) answers() *memory.Stream { return w.Stream(w.Settings.Queue(bus.Answers, 0)) }

// input makes a batch of some lines.
func (w *world) input(of batch) {
	for count, index := 1+w.random.Intn(8), 0; index < count; index++ {
		number := len(w.texts)
		next := line{of: of, index: index}
		if w.Chance(4) {
			next.addend = 1000 * (1 + w.random.Intn(1000))
			next.text = []byte(fmt.Sprintf(`{"model":{"addend":%d,"number":%d}}`, next.addend, number))
		} else {
			next.key = fmt.Sprintf("k%d", w.random.Intn(5))
			next.text = []byte(fmt.Sprintf(`{"key":"%s","service":"s","inputs":{"a":%d},"id":%d}`, next.key, number, number))
		}
		w.texts = append(w.texts, next)
		w.inputs[of] = append(w.inputs[of], number)
	}
}

// run moves the world by steps. Then nothing fails any more, and an owner answers what is there.
func (w *world) run(steps int) error {
	for ; steps > 0; steps-- {
		if err := w.step(); err != nil {
			return err
		}
	}
	w.Steady = true
	for w.Late() > 0 {
		w.Come()
	}
	w.owners = nil
	if w.rescales {
		if err := w.repeatAll(); err != nil {
			return err
		}
	}
	if err := w.answerAll(); err != nil {
		return err
	}
	return w.receiveAll()
}

// answerAll lets an owner of each partition answer what is there.
func (w *world) answerAll() error {
	for _, of := range w.scaling().All {
		for _, partition := range of.Each() {
			last, err := w.takeOver(partition)
			for err == nil && last.isBusy() {
				err = last.move(w.random.Intn(10))
			}

			if err != nil && !isOver(err) {
				return err
			}
		}
	}
	return nil
}

// scaling returns the number of partitions.
func (w *world) scaling() bus.Scaling {
	var scaling bus.Scaling
	for _, message := range w.Stream(bus.Scale).Messages {
		scaling.Take(message)
	}
	return scaling
}

// Scaling and Newest are for receivers.
func (w *world) Scaling() bus.Scaling { return w.scaling() }

func (w *world) Newest() (bus.Settings, <-chan struct{}) {
	scaling := w.scaling()
	newest, _ := scaling.Newest()
	return newest, nil
}

func (w *world) step() error {
	switch at := w.random.Intn(100); {
	case at < 6 && len(w.senders) < 4:
		return w.startSender()
	case at < 42 && len(w.senders) > 0:
		return w.moveSender(w.random.Intn(len(w.senders)))
	case at < 44 && len(w.senders) > 0:
		w.killSender(w.random.Intn(len(w.senders)))
	case at < 47 && len(w.owners) < w.mostOwners():
		if o, err := w.takeOver(w.anyPartition()); err == nil {
			w.owners = append(w.owners, o)
		} else if !errors.Is(err, memory.ErrLink) && !isOver(err) && !isUnbegun(err) {
			return err
		}
	case at < 49 && len(w.owners) > 0:
		w.kill(w.random.Intn(len(w.owners)))
	case at < 51 && w.Late() > 0:
		w.Come()
	case at < 55 && w.retention:
		w.cut()
	case at < 55 && w.rescales:
		return w.moveChange()
	case at < 60:
		return w.receive()
	case len(w.owners) > 0:
		return w.moveOwner(w.random.Intn(len(w.owners)))
	}
	return nil
}

// cut lets retention cut messages that no snapshot has, if nobody has read or answered them: batches of what is answered and
// cut before a snapshot has it are forgotten.
func (w *world) cut() {
	known, read := ledger.Start, ledger.Start
	for _, message := range w.answers().Messages {
		if part, is, _ := bus.ReadPart(message); is && part.Snapshot && known.Before(part.Upto) {
			known = part.Upto
		} else if is && read.Before(part.Upto) {
			read = part.Upto
		}
	}
	lines, most := w.lines(), len(w.lines().Messages)
	if len(w.owners) > 0 || w.Late() > 0 || known.Before(read) {
		for most > 0 && lines.Messages[most-1].Offset >= known.Offset {
			most--
		}
	}
	if more := most - 1 - lines.Cut; more > 0 {
		lines.Cut += 1 + w.random.Intn(more)
	}
}

// A process is a process of desk send with one batch.
type process struct {
	*sender.Sender
	opens    *recorder
	settings bus.Settings
	of       batch
	named    bool
	lanes    []laneState
	fed      bool  // whether the lanes have its lines
	looked   bool  // whether it has looked at the number of partitions
	reason   error // why it has to end
	numbers  [][]int
	upto     []int64
}

// A laneState is the state of a lane.
type laneState struct {
	link   *memory.Link // or nil
	closed bool         // whether it has sent all
}

// A recorder knows the link that was opened last: a process is moved through it.
type recorder struct {
	*memory.Bus
	last       *memory.Link
	hidesScale bool // whether the scale stream can't be read
}

func (r *recorder) Connect(ctx context.Context, name, last string) (bus.Link, error) {
	link, err := r.Bus.Connect(ctx, name, last)
	r.last = link.(*memory.Link)
	if r.hidesScale {
		return scaleless{r.last}, nil
	}
	return link, err
}

// A scaleless link reads no scale stream.
type scaleless struct{ *memory.Link }

func (s scaleless) Read(what bus.Reading) (bus.Reader, error) {
	if what.Stream == bus.Scale {
		return nil, bus.ErrMissing
	}
	return s.Link.Read(what)
}

// output returns the path of the answers.
func (w *world) output() string { return filepath.Join(w.folder, "answers") }

// clear removes an earlier history's files.
func (w *world) clear() error {
	for _, name := range []string{w.output(), filepath.Join(w.folder, "place")} {
		if err := os.Remove(name); err != nil && !errors.Is(err, os.ErrNotExist) {
			return err
		}
	}
	return nil
}
