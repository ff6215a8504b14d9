package service

import (
	"bufio"
	"context"
	"encoding/csv"
	"encoding/json"
	"errors"
	"io"
	"net/http"
	"strconv"
	"time"

	"gateway/release"
)

// A Trial asks two models the selected recorded requests.
type Trial struct {
	Old, New *Source
	// Client, Service, Rule, Release, From and To select requests; empty ones select all.
	Client, Service, Rule, Release, From, To string
	// Asked gets the number of requests asked so far, and ends the trial with an error. Take gets each request with a
	// different answer, in order.
	Asked func(count int) error
	Take  func(*TrialDifference) error
}

// A TrialDifference is a recorded request with a different answer.
type TrialDifference struct {
	ID      string          `json:"id"`
	Request string          `json:"request,omitempty"`
	Time    string          `json:"time,omitempty"`
	Service string          `json:"service"`
	Inputs  json.RawMessage `json:"inputs"`
	// Old and New are the results, or why there is none. Rules says by which rules they differ.
	Old   string `json:"old"`
	New   string `json:"new"`
	Rules string `json:"rules"`
}

// A TrialCount is how many answers differ by some rules.
type TrialCount struct {
	Rules string `json:"rules"`
	Count int    `json:"count"`
}

// A Tried is the outcome of a trial. Left counts the requests that can't be asked again.
type Tried struct {
	Asked     int          `json:"asked"`
	Differing int          `json:"differing"`
	Left      int          `json:"left"`
	By        []TrialCount `json:"by"`
}

// A Trier compares two models.
type Trier interface {
	// Changes returns the differences between the models themselves, as JSON.
	Changes(old, new *Source) (json.RawMessage, error)
	// Try asks both the requests of a journal.
	Try(ctx context.Context, folder string, it *Trial) (*Tried, error)
}

// A trying is one trial, whose findings are written as they come.
type trying struct {
	service *Service
	request *http.Request
	to      *bufio.Writer
	table   *csv.Writer
	flush   func()
	trial   *Trial
	// most is how many differing requests may be listed, listed how many are.
	most, listed int
}

// mostTried is how many differing requests are listed by default.
const mostTried = 1000

// trialPath answers POST /v1/trial: it asks two models the recorded requests. The answer is lines of JSON as
// differences are found, or CSV.
func (s *Service) trialPath(w http.ResponseWriter, r *http.Request) {
	t, who, p := s.newTrial(r)
	var changes json.RawMessage
	if p == nil {
		select {
		case s.trying <- struct{}{}:
			defer func() { <-s.trying }()
		default:
			p = problemBusy.with("another trial is under way")
		}
	}
	if p == nil {
		var err error
		if changes, err = s.options.Trier.Changes(t.trial.Old, t.trial.New); err != nil {
			p = problemInside.with(err.Error())
		}
	}
	if p != nil {
		limitWrite(r, longAnswer+1)
		p.write(w, w.Header().Get("X-Request-Id"))
		return
	}
	t.begin(w)
	tried, err := t.run(changes)
	if err == nil {
		err = s.keepTried(t.trial, tried, who)
	}
	t.end(tried, err)
}

// newTrial reads what to try.
func (s *Service) newTrial(r *http.Request) (*trying, caller, *problem) {
	if r.Method != http.MethodPost {
		p := problemMethod.with("it takes POST")
		p.allow = http.MethodPost
		return nil, caller{}, p
	}
	who, p := s.reader(r)
	if p != nil {
		return nil, who, p
	}
	if s.recorder == nil || s.options.Trier == nil {
		return nil, who, problemPath.with("no journal is kept, so there are no recorded requests")
	}
	t, p := s.readTrial(r)
	if p == nil {
		t.trial.Old, p = s.sourceOf(r.URL.Query().Get("against"))
	}
	return t, who, p
}

// readTrial reads the query of a trial.
func (s *Service) readTrial(r *http.Request) (*trying, *problem) {
	query := r.URL.Query()
	t := &trying{service: s, request: r, most: mostTried, trial: &Trial{Client: query.Get("client"), Service: query.Get("service"),
		Rule: query.Get("rule"), Release: query.Get("release"), From: query.Get("from"), To: query.Get("to")}}
	if said := query.Get("most"); said != "" {
		var err error
		if t.most, err = strconv.Atoi(said); err != nil || t.most < 0 {
			return nil, problemHeader.with("most is a number, not " + said)
		}
	}
	if said := query.Get("csv"); said == "true" {
		t.table = &csv.Writer{}
	} else if said != "" && said != "false" {
		return nil, problemHeader.with("csv is true or false")
	}
	if query.Get("model") == "" {
		return nil, problemHeader.with("model is due: the SHA-256 of a release, or of a model that was checked")
	}
	var p *problem
	t.trial.New, p = s.sourceOf(query.Get("model"))
	return t, p
}

// sourceOf returns the model with a SHA-256: the one in force, which is also the default, a checked one, or a release.
func (s *Service) sourceOf(sum string) (*Source, *problem) {
	inForce := s.model.Load()
	if sum == "" || sum == inForce.wholeSum {
		return inForce.source, nil
	}
	if model := s.shelf.find(sum); model != nil {
		return model.source, nil
	}
	if s.options.Releases != "" {
		all, err := s.releases()
		if err != nil {
			return nil, problemInside.with(err.Error())
		}
		for _, it := range all {
			if it.Sum == sum {
				return s.sourceIn(it.File)
			}
		}
	}
	return nil, problemUnkept.with("no model with the SHA-256 " + sum + " is kept")
}

// begin begins the answer.
func (t *trying) begin(w http.ResponseWriter) {
	header := w.Header()
	t.to = bufio.NewWriterSize(&piecewise{w, t.request}, 64<<10)
	t.flush = func() {
		_ = t.to.Flush()
		if flusher, is := w.(http.Flusher); is {
			flusher.Flush()
		}
	}
	if t.table == nil {
		header["Content-Type"] = contentLines
		return
	}
	header["Content-Type"] = contentCSV
	header["Content-Disposition"] = []string{`attachment; filename="differing.csv"`}
	t.table = csv.NewWriter(t.to)
	_ = t.table.Write([]string{"id", "request", "time", "service", "inputs", "old", "new", "rules"})
}

// A piecewise writer gives the caller time for each piece that is written, however long it took to find.
type piecewise struct {
	to      io.Writer
	request *http.Request
}

func (p *piecewise) Write(text []byte) (int, error) {
	limitWrite(p.request, longAnswer+1)
	return p.to.Write(text)
}

var (
	contentLines = []string{"application/x-ndjson"}
	contentCSV   = []string{"text/csv; charset=utf-8"}
)

// errEnding ends a trial because the service is ending.
var errEnding = errors.New("the service is about to end")

func (t *trying) run(changes json.RawMessage) (*Tried, error) {
	side := func(source *Source) releasePage { return releasePage{source.Sum(), *source.namedBy()} }
	if err := t.line(map[string]any{"old": side(t.trial.Old), "new": side(t.trial.New), "changes": changes}); err != nil {
		return nil, err
	}
	t.trial.Take = t.take
	t.trial.Asked = func(count int) error {
		if t.service.stopping.Load() {
			return errEnding
		}
		return t.line(map[string]int{"asked": count})
	}
	return t.service.options.Trier.Try(t.request.Context(), t.service.options.Journal, t.trial)
}

// line writes a line of JSON, and flushes; CSV has no such lines.
func (t *trying) line(value any) error {
	defer t.flush()
	if t.table != nil {
		t.table.Flush()
		return t.table.Error()
	}
	text, err := plainJSON(value)
	if err == nil {
		_, err = t.to.Write(append(text, '\n'))
	}
	return err
}

// take lists a request with a different answer.
func (t *trying) take(it *TrialDifference) error {
	if t.table != nil {
		return t.table.Write([]string{it.ID, it.Request, it.Time, it.Service, string(it.Inputs), it.Old, it.New, it.Rules})
	}
	if t.listed == t.most {
		return nil
	}
	t.listed++
	text, err := plainJSON(map[string]any{"difference": it})
	if err == nil {
		_, err = t.to.Write(append(text, '\n'))
	}
	return err
}

// end writes the outcome. An incomplete CSV ends with the connection.
func (t *trying) end(tried *Tried, err error) {
	if err == nil {
		if tried.By == nil {
			tried.By = []TrialCount{}
		}
		_ = t.line(struct {
			IsDone bool `json:"done"`
			Listed int  `json:"listed"`
			*Tried
		}{true, t.listed, tried})
		return
	}
	t.service.options.Log("a trial ended early: %v", err)
	if t.table != nil {
		panic(http.ErrAbortHandler)
	}
	p := faultProblem(err)
	if errors.Is(err, errEnding) {
		p = problemStopping.with("")
	}
	_ = t.line(map[string]any{"problem": p})
}

// keepTried notes that a release of the folder was tried.
func (s *Service) keepTried(it *Trial, tried *Tried, who caller) error {
	if s.options.Releases == "" {
		return nil
	}
	all, err := s.releases()
	if err != nil {
		return err
	}
	sum := it.New.Sum()
	for _, kept := range all {
		if kept.Sum == sum {
			return release.KeepTried(s.options.Releases, release.Tried{Sum: sum, Against: it.Old.Sum(), Over: []string{s.options.Journal},
				Asked: tried.Asked, Differing: tried.Differing, Who: who.name(), When: time.Now().UTC().Format(time.RFC3339)})
		}
	}
	return nil
}
