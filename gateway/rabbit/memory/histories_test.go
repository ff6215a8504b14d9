package memory_test

import (
	"bytes"
	"encoding/json"
	"fmt"
	"os"
	"strconv"
	"strings"
	"testing"

	"gateway/rabbit/bus"
	"gateway/rabbit/ledger"
)

// historySteps is the length of a history.
const historySteps = 400

// historiesVariable is how many histories of each kind are tried; the default is histories.
const (
	historiesVariable = "DESK_TEST_HISTORIES"
	histories         = 60
)

// A checker reads the answers as a receiver does, and trusts nobody.
type checker struct {
	*world
	parts    map[bus.Partition]*part
	counts   map[int]int       // how often each request was answered
	byKey    map[string]int    // the last answered line of each batch and key
	received map[counted]int64 // how many requests of each process count; its sent isn't set
	models   map[counted]map[int]bool
	lost     bool // whether something is lost so far: then a line may be refused because its model is
	gaps     []ledger.Gap
}

// A part is what one partition's answers say.
type part struct {
	*checker
	at      bus.Partition
	chain   ledger.Chain
	log     map[int64]bus.Message // by offset
	written [][]byte              // the answers that count
	last    map[batch]int
	models  map[int]bool
	started map[batch][]int // for each batch, the addends of which one applies at its first line, or where it continues
	inForce int             // the addend, or 0
	tickets map[string]int64
	firsts  [][]byte // the snapshots before the first line, all the same
	lasts   [][]byte // and those at the end
}

// check returns the first fault.
func (w *world) check() error {
	c := &checker{world: w, parts: map[bus.Partition]*part{}, counts: map[int]int{}, byKey: map[string]int{}, received: map[counted]int64{},
		models: map[counted]map[int]bool{}}
	scaling := w.scaling()
	for _, of := range scaling.All {
		for _, at := range of.Each() {
			before, _ := scaling.Before(of.Epoch)
			if err := c.begin(at, before).check(); err != nil {
				return fmt.Errorf("partition %v: %w", at, err)
			}
		}
	}
	if err := c.complete(); err != nil {
		return err
	}
	return c.isReceived()
}

// begin returns a partition before its first line.
func (c *checker) begin(at bus.Partition, before bus.Settings) *part {
	p := &part{checker: c, at: at, last: map[batch]int{}, models: map[int]bool{}, started: map[batch][]int{}, tickets: map[string]int64{},
		log: map[int64]bus.Message{}}
	c.parts[at] = p
	for _, message := range c.Stream(at.Queue(bus.Lines)).Messages {
		p.log[message.Offset] = message
	}
	p.chain.Reach(ledger.Start)
	if at.Of.Epoch == 0 {
		return p
	}
	known := map[batch]bool{}
	for _, number := range bus.Sources(before, at.Of, at.Number) {
		for of := range c.parts[bus.Partition{Of: before, Number: number}].started {
			known[of] = true
		}
	}
	for index, number := range bus.Sources(before, at.Of, at.Number) {
		source := c.parts[bus.Partition{Of: before, Number: number}]
		if index == 0 {
			p.inForce = source.inForce
		}
		for client, ticket := range source.tickets {
			if p.tickets[client] < ticket {
				p.tickets[client] = ticket
			}
		}
		for of := range known {
			if addends := source.started[of]; addends != nil {
				p.started[of] = append(p.started[of], addends...)
			} else {
				p.started[of] = append(p.started[of], source.inForce)
			}
		}
	}
	return p
}

// check reads the answers.
func (p *part) check() error {
	for _, message := range p.Stream(p.at.Queue(bus.Answers)).Messages {
		said, is, err := bus.ReadPart(message)
		if err != nil {
			return err
		}
		if is && said.Snapshot {
			p.chain.Reach(said.Upto)
			if said.IsFirst() {
				p.firsts = append(p.firsts, message.Body)
			} else if said.Closed != (bus.Settings{}) {
				p.lasts = append(p.lasts, message.Body)
			}
			continue
		}
		if !is || !p.chain.Fits(said.After, said.Upto) {
			continue
		}
		for _, text := range bytes.Split(bytes.TrimSpace(message.Body), []byte("\n")) {
			if err := p.take(text); err != nil {
				return fmt.Errorf("%s: %w", text, err)
			}
		}
		p.chain.Reach(said.Upto)
	}
	for _, same := range [][][]byte{p.firsts, p.lasts} {
		for _, body := range same {
			if !bytes.Equal(body, same[0]) {
				return fmt.Errorf("two owners publish\n%s\n%s", same[0], body)
			}
		}
	}
	return nil
}

type simAnswer struct {
	Offset, Place int64
	Lost          *ledger.Gap
	Answer        struct {
		Client, Refused string
		Result          int
		Ticket          *int64
	}
}

// take takes a line of the answers.
func (p *part) take(text []byte) error {
	var read simAnswer
	if err := json.Unmarshal(bytes.Replace(text, []byte(`"model":true`), []byte(`"model":1`), 1), &read); err != nil {
		return err
	}
	if read.Lost != nil {
		p.gaps, p.lost = append(p.gaps, *read.Lost), true
		p.written = append(p.written, text)
		return nil
	}
	place := ledger.Place{Offset: read.Offset, Index: read.Place}
	if !p.chain.Upto.Before(place) {
		return nil
	}
	p.written = append(p.written, text)
	if at := p.closeOf(p.at); at >= 0 && place.Offset > at {
		return fmt.Errorf("the log is closed at offset %d", at)
	}
	raw := bytes.Split(p.log[place.Offset].Body, []byte("\n"))[place.Index]
	number := numberOf(raw)
	if err := p.count(number, place); err != nil {
		return err
	}
	return p.compare(number, read)
}

// count counts an answered line.
func (p *part) count(number int, place ledger.Place) error {
	sent := p.texts[number]
	from, err := bus.ReadOrigin(p.log[place.Offset])
	if err != nil {
		return err
	}
	by := counted{of: sent.of, epoch: from.Epoch}
	if sent.addend > 0 {
		if p.models[number] {
			return fmt.Errorf("model %d is answered twice", number)
		}
		p.models[number] = true
		if p.checker.models[by] == nil {
			p.checker.models[by] = map[int]bool{}
		}
		p.checker.models[by][number] = true
		return nil
	}
	if p.counts[number]++; p.counts[number] > 1 {
		return fmt.Errorf("line %d is answered twice", number)
	}
	p.received[by]++
	key := fmt.Sprintf("%v %s", sent.of, sent.key)
	if last, is := p.byKey[key]; is && last >= sent.index {
		return fmt.Errorf("line %d comes after line %d of its batch and key", sent.index, last)
	}
	p.byKey[key] = sent.index
	return nil
}

// compare compares an answer with the expected one.
func (p *part) compare(number int, read simAnswer) error {
	sent := p.texts[number]
	if last, is := p.last[sent.of]; is && last >= sent.index {
		return fmt.Errorf("line %d comes after line %d of its batch", sent.index, last)
	}
	if _, is := p.started[sent.of]; !is {
		p.started[sent.of] = []int{p.inForce}
	}
	p.last[sent.of] = sent.index
	if sent.addend > 0 {
		p.inForce = sent.addend
		return nil
	}
	if due := p.due(sent); !p.isDue(due, number, read) {
		return fmt.Errorf("%d is due, and one of %v", number*3, due)
	}
	if read.Answer.Ticket == nil {
		return nil
	}
	if *read.Answer.Ticket != p.tickets[read.Answer.Client] {
		return fmt.Errorf("ticket %d is due", p.tickets[read.Answer.Client])
	}
	p.tickets[read.Answer.Client]++
	return nil
}

// isDue reports whether an answer fits a model with one of these addends.
func (p *part) isDue(addends []int, number int, read simAnswer) bool {
	if read.Answer.Refused == "lost" && p.retention {
		return true
	}
	for _, addend := range addends {
		switch {
		case addend == 0 && (read.Answer.Refused == "model" || p.retention):
			return true
		case read.Answer.Refused == "" && read.Answer.Result == number*3+addend:
			return true
		}
	}
	return false
}

// due returns the addends of the model for a request: the last before it in its batch, or the one at the batch's first line.
func (p *part) due(sent line) []int {
	for index := sent.index; index >= 0; index-- {
		if addend := p.texts[p.inputs[sent.of][index]].addend; addend > 0 {
			return []int{addend}
		}
	}
	return p.started[sent.of]
}

// complete reports a line that a sender reported as sent and that has no answer and isn't reported lost; and a process with
// another count than it reported.
func (c *checker) complete() error {
	at := map[int][]int64{}
	for _, p := range c.parts {
		for _, message := range p.log {
			if from, err := bus.ReadOrigin(message); err != nil || from.Kind != ledger.Lines {
				continue
			}
			for _, raw := range bytes.Split(message.Body, []byte("\n")) {
				at[numberOf(raw)] = append(at[numberOf(raw)], message.Offset)
			}
		}
	}
	for number := range c.reported {
		isAnswered := c.counts[number] > 0
		for _, p := range c.parts {
			isAnswered = isAnswered || p.models[number]
		}
		if !isAnswered && !c.isLost(at[number]) {
			return fmt.Errorf("line %d (%s) is at offsets %v, and has no answer", number, c.texts[number].text, at[number])
		}
	}
	for _, said := range c.counted {
		by := counted{of: said.of, epoch: said.epoch}
		if requests, models := c.received[by], int64(len(c.models[by])); !c.retention && (said.sent < requests || said.sent > requests+models) {
			return fmt.Errorf("of the process with epoch %d %d lines of batch %v count, it said, and %d requests and %d models do", said.epoch, said.sent,
				said.of, requests, models)
		}
	}
	return nil
}

// isReceived reports if a receiver, however often it was killed, hasn't written each answer that counts once and in order.
func (c *checker) isReceived() error {
	text, err := os.ReadFile(c.output())
	if err != nil {
		return err
	}
	found := map[bus.Partition][]byte{}
	epochs := map[string]int64{} // the last number of partitions under which each key was answered
	for _, written := range bytes.SplitAfter(text, []byte("\n")) {
		var read struct {
			Partition int
			Epoch     int64
			Key       string
		}
		if len(written) == 0 {
			continue
		}
		if err := json.Unmarshal(written, &read); err != nil {
			return err
		}
		if read.Key != "" && read.Epoch < epochs[read.Key] {
			return fmt.Errorf("%s comes after answers of later partitions", written)
		}
		epochs[read.Key] = read.Epoch
		at := bus.Partition{Of: c.scaling().All[read.Epoch], Number: read.Partition}
		found[at] = append(found[at], written...)
	}
	for at, p := range c.parts {
		prefix := fmt.Sprintf(`{"partition":%d,`, at.Number)
		if at.Of.Epoch > 0 {
			prefix += fmt.Sprintf(`"epoch":%d,`, at.Of.Epoch)
		}
		var due []byte
		for _, line := range p.written {
			due = append(append(append(due, prefix...), line[1:]...), '\n')
		}
		if !bytes.Equal(found[at], due) {
			return fmt.Errorf("partition %v: %d bytes are received, and %d are due:\n%s\n%s", at, len(found[at]), len(due), found[at], due)
		}
	}
	return nil
}

// isLost reports whether one of these offsets is reported lost, or was cut by itself.
func (c *checker) isLost(offsets []int64) bool {
	for _, offset := range offsets {
		if c.singles[offset] {
			return true
		}
		for _, gap := range c.gaps {
			if gap.From <= offset && offset <= gap.To {
				return true
			}
		}
	}
	return false
}

// tried runs a history.
func tried(folder string, seed int64, retention bool, flaws flaws) (*world, error) {
	w := newWorld(folder, seed, retention, flaws)
	return w, w.try(historySteps)
}

// try runs a history of so many steps.
func (w *world) try(steps int) error {
	if err := w.clear(); err != nil {
		return err
	}
	if err := w.run(steps); err != nil {
		return err
	}
	return w.check()
}

// triedRescales runs a history with changes of the number of partitions.
func triedRescales(folder string, seed int64, flaws flaws) (*world, error) {
	w := newWorldOf(folder, seed, bus.Settings{Partitions: 1 + int(seed)%4}, false, flaws)
	w.rescales = true
	return w, w.try(3 * historySteps)
}

func count(t *testing.T) int64 {
	if text := os.Getenv(historiesVariable); text != "" {
		number, err := strconv.ParseInt(text, 10, 64)
		if err != nil {
			t.Fatal(err)
		}
		return number
	}
	return histories
}

// memoryFolder returns a folder in memory, if there is one.
func memoryFolder(t *testing.T) string {
	folder, err := os.MkdirTemp("/dev/shm", "desk")
	if err != nil {
		return t.TempDir()
	}
	t.Cleanup(func() { os.RemoveAll(folder) })
	return folder
}

// Whatever brokers, network and processes do, what senders reported as sent is answered once, in order and by the right model.
func TestHistories(t *testing.T) {
	folder := memoryFolder(t)
	for _, retention := range []bool{false, true} {
		answered, reported, cut := 0, 0, 0
		for seed := int64(0); seed < count(t); seed++ {
			w, err := tried(folder, seed, retention, flaws{})
			if err != nil {
				t.Fatalf("seed %d, retention %v: %v", seed, retention, err)
			}
			answered, reported, cut = answered+len(w.answers().Messages), reported+len(w.reported), cut+w.lines().Cut
		}
		t.Logf("retention %v: %d messages of answers, %d lines told as sent, %d messages cut", retention, answered, reported, cut)
	}
}

// The checker finds the faults of a process that doesn't look for newer ones, of missing batches, and of forgotten senders.
func TestHistoriesWithFlaws(t *testing.T) {
	folder := memoryFolder(t)
	for name, flaws := range map[string]flaws{"no look for newer processes": {noLook: true}, "no batches": {noBatches: true}, "no senders": {noSenders: true}} {
		var found error
		seed := int64(0)
		for ; found == nil && seed < 200; seed++ {
			_, found = tried(folder, seed, false, flaws)
		}
		if found == nil {
			t.Errorf("%s: nothing is found", name)
		} else {
			t.Logf("%s: seed %d: %s", name, seed-1, strings.SplitN(found.Error(), "\n", 2)[0])
		}
	}
}

// While the number of partitions changes, and processes that change it are killed, what senders reported as sent is answered
// once, in key order and by the right model; tickets continue; and a batch sent again has each line once.
func TestRescaleHistories(t *testing.T) {
	folder := memoryFolder(t)
	answered, reported, changes := 0, 0, 0
	for seed := int64(0); seed < count(t); seed++ {
		w, err := triedRescales(folder, seed, flaws{})
		if err != nil {
			t.Fatalf("seed %d: %v", seed, err)
		}
		answered, reported, changes = answered+len(w.answers().Messages), reported+len(w.reported), changes+len(w.scaling().All)-1
	}
	t.Logf("%d messages of answers of the first partition, %d lines told as sent, %d changes", answered, reported, changes)
}

// The checker finds the faults of a sender that doesn't look at the number of partitions, and of batches without sections.
func TestRescaleHistoriesWithFlaws(t *testing.T) {
	folder := memoryFolder(t)
	for name, flaws := range map[string]flaws{"no look at the number": {noScale: true}, "no sections": {noSections: true}} {
		var found error
		seed := int64(0)
		for ; found == nil && seed < 200; seed++ {
			_, found = triedRescales(folder, seed, flaws)
		}
		if found == nil {
			t.Errorf("%s: nothing is found", name)
		} else {
			t.Logf("%s: seed %d: %s", name, seed-1, strings.SplitN(found.Error(), "\n", 2)[0])
		}
	}
}
