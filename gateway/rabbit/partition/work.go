package partition

import (
	"errors"
	"fmt"
	"time"

	"gateway/rabbit/answer"
	"gateway/rabbit/bus"
	"gateway/rabbit/ledger"
	"gateway/rabbit/line"
	"gateway/rabbit/logs"
	"gateway/rabbit/process"
)

// readyBytes is how many bytes of answers may wait for their turn before the engine gets one line at a time.
const readyBytes = 4 * bus.WindowBytes

// A work lets the engine answer a queue's entries. If the engine dies, exceeds a line's deadline, or answers too much before
// its turn, it is started again, and given its lines one at a time: so the faulty line is found, and refused.
type work struct {
	log      *logs.Log
	options  process.Options
	deadline int // in ticks
	queue    *queue
	ledger   *ledger.Ledger // of all that is settled
	process  Evaluator
	begin    func(process.Options) (Evaluator, error)
	restarts func() // is called when the engine is started again

	next     int                        // the queue's first entry that isn't given
	models   *ledger.Models             // each batch's model at that entry
	inForce  []byte                     // the engine's model, or nil
	going    [][]byte                   // given, and not yet passed to the engine
	fault    error                      // why the partition can't be owned any longer
	model    *entry                     // a given, unanswered model: nothing else is given before
	waiting  [line.Clients + 1][]*entry // given, for each client and for none; some of the first may be answered
	byLine   handed                     // by number in the engine's input
	lines    int64                      // lines given to the engine
	greeting int                        // how many of the engine's first lines are unanswered
	base     [line.Clients]int64        // the tickets before the engine's first
	failed   int                        // how many engines in a row ended before they were greeted
	pause    time.Time                  // no engine is started before
	taken    time.Time                  // when the partition was taken over, until the first engine has started
	started  time.Time                  // when the engine was started
	careful  int                        // how many entries of the queue are given one at a time
	died     *entry                     // the entry at which the engine died alone
	oldest   *entry                     // the first unanswered entry
	age      int                        // for how many ticks
	lonely   bool                       // whether the engine had no other entry all that time
}

// An Evaluator is an engine. It answers the given lines, in each client's order.
type Evaluator interface {
	Give(lines [][]byte)
	Answers() <-chan []process.Answer
	End()
	Err() error
}

// beginProcess starts an engine process.
func beginProcess(options process.Options) (Evaluator, error) {
	started, err := process.Start(options)
	if err != nil {
		return nil, err
	}
	return started, nil
}

// The pause after an engine died at no line: twice as long each time.
const (
	shortestPause = 250 * time.Millisecond
	longestPause  = 10 * time.Second
)

// greeting is a line that every engine answers, and that changes nothing.
var greeting = []byte(fmt.Sprintf(`{"resize":"%s","capacity":%d}`, line.ClientName(0), process.Capacity))

var (
	errConfused     = errors.New("the engine answered what it wasn't asked")
	errRefusedModel = errors.New("the engine refuses the model in force: a program that takes it has to own the partition")
)

// give gives the engine the entries that it may have.
func (w *work) give() error {
	err := w.choose()
	if w.process != nil && len(w.going) > 0 {
		w.process.Give(w.going)
	}
	w.going = nil
	return err
}

// choose chooses the entries that the engine may have.
func (w *work) choose() error {
	for w.next < len(w.queue.entries) {
		e := w.queue.entries[w.next]
		if e.settled() {
			w.passed(e)
			continue
		}
		if w.model == nil && ledger.IsUnknown(w.needed(e)) && !e.line.IsModel() {
			w.refuse(e, answer.Lost)
			continue
		}
		ready, err := w.ready(e)
		if err != nil || !ready {
			return err
		}
		w.giveOne(e)
	}
	return nil
}

// needed returns the model for the queue's first entry that isn't given.
func (w *work) needed(e *entry) []byte {
	if e.first {
		return w.models.Last()
	}
	return w.models.At(e.from.Key())
}

// ready prepares the engine for an entry, and reports whether it is ready.
func (w *work) ready(e *entry) (bool, error) {
	if w.careful > 0 && w.byLine.open > 0 || w.queue.ready > bus.WindowBytes || w.model != nil || w.greeting > 0 {
		return false, nil
	}
	model := w.needed(e)
	if ledger.IsUnknown(model) { // unless it is a model, which needs none
		model = w.inForce
	}
	if w.process == nil {
		if w.next > 0 || time.Now().Before(w.pause) {
			return false, nil // all before it is settled first, so that the ledger has the tickets
		}
		return false, w.start(model)
	}
	if ledger.SameModel(model, w.inForce) {
		return true, nil
	}
	if w.byLine.open > 0 { // each is answered by the model under which it was given
		return false, nil
	}
	if model == nil { // no line unloads a model
		w.end()
		return false, nil
	}
	w.greet(model)
	return false, nil
}

// passed notes that the next entry is given, or settled.
func (w *work) passed(e *entry) {
	w.next++
	w.advance(e)
}

// advance notes what an entry changes in the loaded models.
func (w *work) advance(e *entry) {
	if e.lost != nil && e.lost.hasModel() {
		w.models.Lose()
	}
	if e.first {
		w.models.Begin(e.from.Key())
	}
	if e.outcome.InForce {
		w.models.Put(e.from.Key(), e.line.Engine)
	}
	if e.ends {
		w.models.Forget(e.from.Key())
	}
}

func (w *work) giveOne(e *entry) {
	w.passed(e)
	w.lines++
	e.given, e.asked = true, w.lines
	w.byLine.add(e)
	w.waiting[e.line.Client] = append(w.waiting[e.line.Client], e)
	if e.line.IsModel() {
		w.model = e
	}
	w.going = append(w.going, e.line.Engine)
}

// start starts an engine, and greets it. It gets lines once it has answered, so an engine that can do nothing is not taken for
// one that dies at a line.
func (w *work) start(model []byte) error {
	started, err := w.begin(w.options)
	if err != nil {
		return err
	}
	w.process, w.lines, w.base, w.started = started, 0, w.ledger.Tickets, time.Now()
	w.byLine = handed{}
	w.greet(model)
	return nil
}

// greet gives the engine a model, if there is one, and a greeting.
func (w *work) greet(model []byte) {
	before := w.lines
	if model != nil {
		w.lines++
		w.going = append(w.going, model)
	}
	w.lines++
	w.going = append(w.going, greeting)
	w.greeting, w.inForce = int(w.lines-before), model
}

// end ends the engine, and takes back its lines.
func (w *work) end() {
	if w.process != nil {
		w.process.End()
	}
	w.process, w.byLine, w.waiting, w.next = nil, handed{}, [line.Clients + 1][]*entry{}, 0
	w.models, w.inForce, w.model, w.going = w.ledger.Models.Clone(), nil, nil, nil
	w.oldest, w.age, w.greeting = nil, 0, 0
}

// again starts the engine again, carefully.
func (w *work) again(reason error) {
	w.log.Warning("%v; it is begun anew", reason)
	w.end()
	w.restarts()
	for _, e := range w.queue.entries {
		e.forget()
	}
	w.queue.ready = 0
	for _, e := range w.queue.entries {
		w.queue.ready += len(e.text)
	}
	w.careful = len(w.queue.entries)
}

// ended notes that the engine has ended by itself, or must end.
func (w *work) ended(reason error) {
	if w.greeting > 0 {
		w.neverGreeted(reason)
		return
	}
	e := w.byLine.only() // the one that the engine is processing
	w.again(reason)
	if e != nil && e == w.died {
		w.refuse(e, answer.Died)
	}
	w.died = e
}

// neverGreeted notes that an engine could do nothing, which is no line's fault.
func (w *work) neverGreeted(reason error) {
	if w.failed++; w.failed == 1 || w.failed%100 == 0 {
		w.log.Error("%d engines in a row could not begin: %v", w.failed, reason)
	}
	pause := longestPause
	if w.failed < 7 {
		pause = shortestPause << (w.failed - 1)
	}
	w.end()
	w.restarts()
	w.pause = time.Now().Add(pause)
}

// tick notes that a tick has passed. It counts as one, however late it comes: so a process that was stopped and continues gives
// each line its time.
func (w *work) tick() {
	head := w.queue.head()
	if head == nil || w.greeting == 0 && (!head.given || head.answered) {
		w.oldest, w.age = nil, 0
		return
	}
	if head != w.oldest {
		w.oldest, w.age, w.lonely = head, 0, w.byLine.open == 1
		return
	}
	w.lonely = w.lonely && w.byLine.open == 1
	if w.age++; w.age >= w.deadline {
		w.late(head)
	}
}

// late notes that the engine has not answered the first entry in time. If it had others meanwhile, these may be at fault.
func (w *work) late(head *entry) {
	if w.greeting > 0 {
		w.neverGreeted(errors.New("the engine does not answer"))
		return
	}
	lonely := w.lonely
	w.again(fmt.Errorf("the engine has not answered line %v in its time", head.place))
	if lonely {
		w.refuse(head, answer.Deadline)
	}
}

// refuse answers an entry without the engine.
func (w *work) refuse(e *entry, reason answer.Reason) {
	w.log.Warning("line %v is refused: %s", e.place, reason)
	e.refuse(reason)
	w.queue.ready += len(e.text)
}

// take takes the engine's answers.
func (w *work) take(batch []process.Answer) {
	for _, given := range batch {
		if err := w.takeOne(given); err != nil { // as if it had died there
			w.ended(fmt.Errorf("%w: %.100q", err, given.Text))
			return
		}
	}
	if w.queue.ready > readyBytes {
		w.again(fmt.Errorf("%d bytes of answers wait for line %v", w.queue.ready, w.queue.head().place))
	}
}

func (w *work) takeOne(given process.Answer) error {
	a, err := answer.Read(given.Text)
	if err != nil {
		return err
	}
	if w.greeting > 0 {
		return w.greeted(a)
	}
	e := w.find(a)
	if e == nil {
		return errConfused
	}
	w.answer(e, a)
	if given.TooLong {
		w.log.Warning("line %v is refused: its answer has over %d bytes", e.place, w.options.Longest)
		e.reason = answer.TooLong
		e.text = answer.Refusal(e.line.Client, e.number, e.reason, &e.outcome.Ticket)
	}
	w.queue.ready += len(e.text)
	if e == w.died {
		w.died = nil
	}
	return nil
}

func (w *work) greeted(a answer.Answer) error {
	switch {
	case w.greeting == 2 && a.Client == line.NoClient && !a.InForce:
		w.fault = errRefusedModel
		return w.fault
	case !a.InForce && a.Client != 0:
		return errConfused
	}
	if w.greeting--; w.greeting == 0 {
		w.failed, w.oldest = 0, nil // the first line's time begins now
		w.reportBegun()
	}
	return nil
}

// reportBegun reports how long the first engine after a takeover took.
func (w *work) reportBegun() {
	if w.taken.IsZero() {
		return
	}
	now := time.Now()
	w.log.Info("the engine has begun, %v behind the log, %v after its start",
		now.Sub(w.taken).Round(time.Millisecond), now.Sub(w.started).Round(time.Millisecond))
	w.taken = time.Time{}
}

// answer answers an entry as the engine did, except for the ticket or line number: the engine counts from its start, the log
// from its own.
func (w *work) answer(e *entry, a answer.Answer) {
	number := e.number
	if a.Ticket {
		number = w.base[a.Client] + a.Number
		e.outcome = ledger.Outcome{HasTicket: true, Ticket: number}
	}
	e.outcome.InForce = a.InForce
	e.text = a.With(number)
	e.answered = true
	if e == w.model {
		w.model = nil
		if a.InForce {
			w.models.Put(e.from.Key(), e.line.Engine)
			w.inForce = e.line.Engine
		}
	}
}

// find finds the answered entry: the one with the line's number, or else the client's first unanswered one.
func (w *work) find(a answer.Answer) *entry {
	e := w.byLine.at(a.Number)
	if a.Ticket {
		e = w.firstOf(a.Client)
	}
	if e != nil {
		w.byLine.remove(e)
	}
	return e
}

func (w *work) firstOf(client int) *entry {
	for len(w.waiting[client]) > 0 {
		e := w.waiting[client][0]
		w.waiting[client] = w.waiting[client][1:]
		if !e.answered {
			return e
		}
	}
	return nil
}

// dropped notes that the queue's first entry is gone.
func (w *work) dropped(e *entry) {
	if w.next > 0 {
		w.next--
	} else {
		w.advance(e)
	}
	if w.careful > 0 {
		w.careful--
	}
}
