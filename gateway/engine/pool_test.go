package engine

import (
	"context"
	"errors"
	"fmt"
	"os"
	"path/filepath"
	"strings"
	"sync"
	"testing"
	"time"

	"gateway/engine/enginetest"
)

func TestMain(m *testing.M) { enginetest.Main(m) }

func desk() string {
	if path := os.Getenv(PathVariable); path != "" {
		return path
	}
	return "../../dist/desk"
}

// adding returns a model of the service s, which adds a number to its input a.
func adding(n int) *Model {
	return NewModel([]byte(fmt.Sprintf(`{"decisions":[{"expr":"a + %d","name":"d","needs":["a"]}],"inputs":["a"],`+
		`"services":[{"encapsulated":[],"inputData":["a"],"inputDecisions":[],"name":"s","outputs":["d"]}]}`, n)))
}

// slow returns a model of the service s, whose decision takes longer for a longer list b: every rule hits and makes a
// list of that length.
func slow(rules int) *Model {
	rule := `{"then":["b.x"],"when":[]}`
	return NewModel([]byte(`{"decisions":[{"expr":{"table":{"hit":"F","inputs":[],"outputs":[{"name":"o"}],"rules":[` +
		strings.Repeat(rule+",", rules-1) + rule + `]}},"name":"d","needs":["b"]}],"inputs":["b"],` +
		`"services":[{"encapsulated":[],"inputData":["b"],"inputDecisions":[],"name":"s","outputs":["d"]}]}`))
}

// waits returns a request to adding at which the engine of enginetest waits for a file.
func waits(file string) string {
	return `"inputs":{"a":1,` + enginetest.Until(file) + `},"service":"s"}`
}

func start(t *testing.T, options Options, model *Model) *Pool {
	t.Helper()
	if options.Path == "" {
		options.Path = desk()
	}
	if options.Deadline == 0 {
		options.Deadline = 20 * time.Second
	}
	if options.Patience == 0 {
		options.Patience = time.Minute
	}
	if options.Died == nil {
		options.Died = func(int, error) {}
	}
	p := Start(options, model)
	ctx, stop := context.WithTimeout(context.Background(), time.Minute)
	defer stop()
	if err := p.Settle(ctx); err != nil {
		t.Fatal(err)
	}
	return p
}

func end(t *testing.T, p *Pool) {
	t.Helper()
	ctx, stop := context.WithTimeout(context.Background(), time.Minute)
	defer stop()
	if err := p.Close(ctx); err != nil {
		t.Fatal(err)
	}
}

// asked notes the outcomes of requests.
type asked struct {
	mu       sync.Mutex
	outcomes []Outcome
	times    []int
	order    []int
	left     sync.WaitGroup
}

func (a *asked) job(model *Model, rest string) *Job {
	a.mu.Lock()
	defer a.mu.Unlock()
	a.left.Add(1)
	a.outcomes = append(a.outcomes, Outcome{})
	a.times = append(a.times, 0)
	return &Job{Model: model, Rest: []byte(rest), Place: len(a.times) - 1, Done: a.done}
}

func (a *asked) done(job *Job, outcome Outcome) {
	a.mu.Lock()
	a.outcomes[job.Place] = outcome
	a.times[job.Place]++
	a.order = append(a.order, job.Place)
	a.mu.Unlock()
	a.left.Done()
}

func (a *asked) once(t *testing.T) {
	t.Helper()
	a.left.Wait()
	for at, times := range a.times {
		if times != 1 {
			t.Errorf("request %d was answered %d times", at, times)
		}
	}
}

func adds(n int) string {
	return fmt.Sprintf(`"inputs":{"a":%d},"service":"s"}`, n)
}

func put(t *testing.T, p *Pool, client string, jobs ...*Job) {
	t.Helper()
	if err := p.Put(client, jobs); err != nil {
		t.Fatal(err)
	}
}

func TestEachIsAnsweredInOrder(t *testing.T) {
	model := adding(1)
	p := start(t, Options{Processes: 3}, model)
	var all asked
	for n := 0; n < 5000; n++ {
		client := ""
		if n%2 == 0 {
			client = fmt.Sprintf("c%d", n%20)
		}
		put(t, p, client, all.job(model, adds(n)))
	}
	all.once(t)
	last := map[int]int{}
	for _, n := range all.order {
		if got := string(all.outcomes[n].Value); got != fmt.Sprint(n+1) {
			t.Errorf("request %d has %q", n, got)
		}
		if n%2 == 0 && last[n%20] > n {
			t.Errorf("request %d of its client was answered after %d", n, last[n%20])
		}
		if n%2 == 0 {
			last[n%20] = n
		}
	}
	end(t, p)
}

func TestRefusalsAreOfTheirRequests(t *testing.T) {
	model := adding(1)
	p := start(t, Options{Processes: 1}, model)
	var all asked
	for n := 0; n < 300; n++ {
		rest := adds(n)
		switch n % 4 {
		case 1:
			rest = `"inputs":{"a":1.5},"service":"s"}`
		case 2:
			rest = `"inputs":{"a":},"service":"s"}`
		}
		put(t, p, fmt.Sprint(n%5), all.job(model, rest))
	}
	all.once(t)
	for n, outcome := range all.outcomes {
		due := []string{"", "value", "syntax", ""}[n%4]
		if outcome.Word != due || due == "" && string(outcome.Value) != fmt.Sprint(n+1) {
			t.Errorf("request %d: %+v, and %q is due", n, outcome, due)
		}
	}
	end(t, p)
}

// killBusy kills an engine's process, once all is answered that was out when the previous one was killed: a request
// that is asked again alone is given up if the process ends at it, whoever ended that.
func killBusy(e *engine) {
	for {
		e.mu.Lock()
		free := e.process != nil && e.taken != nil && e.alone == nil && e.again.len() == 0
		if free {
			e.process.kill()
		}
		e.mu.Unlock()
		if free {
			return
		}
		time.Sleep(50 * time.Microsecond)
	}
}

// Processes are killed while requests are out. Each request still gets its own result, once.
func TestKilledEngines(t *testing.T) {
	model := adding(7)
	deaths := make(chan struct{}, 1000)
	p := start(t, Options{Processes: 2, Died: func(int, error) { deaths <- struct{}{} }}, model)
	var all asked
	for n := 0; n < 20_000; n++ {
		put(t, p, fmt.Sprint(n%10), all.job(model, adds(n)))
		if n%4000 == 2000 {
			killBusy(p.engines[(n/4000)%2])
		}
	}
	all.once(t)
	last := map[int]int{}
	for _, n := range all.order {
		if got := string(all.outcomes[n].Value); got != fmt.Sprint(n+7) {
			t.Errorf("request %d has %q, %+v", n, got, all.outcomes[n].Kind)
		}
		if last[n%10] > n {
			t.Errorf("request %d of its client was answered after %d", n, last[n%10])
		}
		last[n%10] = n
	}
	end(t, p)
	if len(deaths) == 0 {
		t.Error("no engine was killed")
	}
}

// One request takes longer than the deadline, among others that don't. Only it is given up.
func TestPoison(t *testing.T) {
	model, never := adding(1), filepath.Join(t.TempDir(), "never")
	p := start(t, Options{Path: enginetest.Waiting(t, desk()), Processes: 1, Deadline: 3 * time.Second}, model)
	var all asked
	for n := 0; n < 40; n++ {
		rest := adds(n)
		if n == 20 {
			rest = waits(never)
		}
		put(t, p, fmt.Sprint(n%4), all.job(model, rest))
	}
	all.once(t)
	for n, outcome := range all.outcomes {
		due := Result
		if n == 20 {
			due = Late
		}
		if outcome.Kind != due {
			t.Errorf("request %d: kind %d, and %d is due", n, outcome.Kind, due)
		}
	}
	end(t, p)
}

// Models are switched while requests are put in. Each is answered under its own.
func TestSwitch(t *testing.T) {
	first := adding(0)
	p := start(t, Options{Processes: 2}, first)
	var all asked
	var due []int
	model := first
	for n := 0; n < 10_000; n++ {
		if n%1000 == 999 {
			model = adding(n)
			p.Switch(model, func() {})
		}
		if n == 5500 {
			e := p.engines[0]
			e.mu.Lock()
			if e.process != nil {
				e.process.kill()
			}
			e.mu.Unlock()
		}
		// The model in force was put at the last number that ends with 999.
		due = append(due, n)
		if k := (n + 1) / 1000; k > 0 {
			due[n] += k*1000 - 1
		}
		put(t, p, fmt.Sprint(n%7), all.job(model, adds(n)))
	}
	if err := p.Put("", []*Job{{Model: first}}); !errors.Is(err, ErrSwitched) {
		t.Errorf("a request of another model was put in: %v", err)
	}
	all.once(t)
	for n, outcome := range all.outcomes {
		if string(outcome.Value) != fmt.Sprint(due[n]) {
			t.Errorf("request %d has %q (kind %d), and %d is due", n, outcome.Value, outcome.Kind, due[n])
		}
	}
	ctx, stop := context.WithTimeout(context.Background(), time.Minute)
	defer stop()
	if err := p.Settle(ctx); err != nil {
		t.Error(err)
	}
	end(t, p)
}

// Requests for which no engine is free in time are given up. Those that an engine has are answered, however long it
// takes.
func TestDroppedAndWaited(t *testing.T) {
	model, file := adding(1), filepath.Join(t.TempDir(), "go")
	p := start(t, Options{Path: enginetest.Waiting(t, desk()), Processes: 1, Patience: 3 * time.Second}, model)
	var all asked
	jobs := []*Job{all.job(model, waits(file))}
	for n := 1; n < 300; n++ {
		jobs = append(jobs, all.job(model, adds(n)))
	}
	waited := make(chan struct{}, 1)
	jobs[299].Done = func(job *Job, outcome Outcome) {
		all.done(job, outcome)
		waited <- struct{}{}
	}
	jobs[100].Drop()
	put(t, p, "a", jobs...)
	<-waited
	if err := os.WriteFile(file, nil, 0o600); err != nil {
		t.Fatal(err)
	}
	all.once(t)
	kinds := map[Kind]int{}
	for _, outcome := range all.outcomes {
		kinds[outcome.Kind]++
	}
	if kinds[Result] != windowJobs || kinds[Dropped] != 1 || kinds[Waited] != 300-windowJobs-1 {
		t.Errorf("kinds of outcomes: %v", kinds)
	}
	end(t, p)
}

func TestCheckAndTry(t *testing.T) {
	ctx := context.Background()
	valid, _, err := Check(ctx, desk(), 0, adding(1).Text)
	if err != nil || len(valid.Services) != 1 || valid.Services[0].Parameters[0] != "a" {
		t.Errorf("%+v, %v", valid, err)
	}
	var faulty *FaultyModel
	_, _, err = Check(ctx, desk(), 0, []byte(strings.Replace(string(adding(1).Text), "a + 1", "a +", 1)))
	if !errors.As(err, &faulty) || faulty.Fault != "expression" || len(faulty.Places) != 1 {
		t.Errorf("%+v", err)
	}
	if err := Try(ctx, desk(), 1<<30, adding(1)); err != nil {
		t.Error(err)
	}
	if err := Try(ctx, desk(), 64<<20, slow(30_000)); err == nil {
		t.Error("a model of a megabyte was taken with 64 MiB of address space")
	}
	if version, err := Version(ctx, desk()); err != nil || version == "" {
		t.Errorf("%q, %v", version, err)
	}
}

func TestReadReply(t *testing.T) {
	for _, it := range []struct {
		text  string
		due   Kind
		value string
	}{
		{`{"client":"lane3","result":{"ticket":1},"ticket":12}`, Result, `{"ticket":1}`},
		{`{"client":"lane15","result":",\"ticket\":3}","ticket":0}`, Result, `",\"ticket\":3}"`},
		{`{"client":"lane0","fault":"limit","ticket":1}`, Limit, ""},
		{`{"client":"lane0","line":4,"refused":"value"}`, Refused, ""},
		{`{"line":4,"refused":"syntax"}`, Refused, ""},
	} {
		r, err := readReply([]byte(it.text), false)
		if err != nil || r.outcome.Kind != it.due || string(r.outcome.Value) != it.value {
			t.Errorf("%s: %+v, %v", it.text, r, err)
		}
	}
	for _, text := range []string{``, `{}`, `null`, `{"client":"lane16","result":1,"ticket":1}`, `{"client":"lane1","result":1}`} {
		if r, err := readReply([]byte(text), false); err == nil {
			t.Errorf("%q is read as %+v", text, r)
		}
	}
}
