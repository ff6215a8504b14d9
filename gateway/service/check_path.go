package service

import (
	"context"
	"encoding/json"
	"errors"
	"fmt"
	"net/http"
	"sync"

	"gateway/engine"
	"gateway/tell"
)

// A wholePage is a model with all that is known about it, for drawing it.
type wholePage struct {
	Sum      string `json:"sha256"`
	IsLawful bool   `json:"lawful"`
	Fault    string `json:"fault,omitempty"`
	// Findings are the lines of `desk check --json` after the first: faults or warnings, each with its place.
	Findings []json.RawMessage `json:"findings"`
	analysed
	imported
}

// An analysed is what was found about the tables of a model.
type analysed struct {
	// Tables are the lines that `--tables` adds; null if there are none for a reason.
	Tables []json.RawMessage `json:"tables"`
	// Gives has in words what decisions can give, by their words, but those whose numbers are counted.
	Gives map[string]string `json:"gives,omitempty"`
	// Missing is that reason.
	Missing missing `json:"tablesMissing,omitempty"`
}

// A missing says why the lines about a model's tables were not made.
type missing string

const (
	// missingUnasked is for the model alone, missingFault for a model with a fault.
	missingUnasked missing = "unasked"
	missingFault   missing = "fault"
	// missingEngine is for an engine that can't check tables.
	missingEngine missing = "engine"
	// missingLate means that the check took too long, missingDied that the engine ended during it.
	missingLate missing = "late"
	missingDied missing = "died"
)

// missingFor returns the reason for an error of the engine.
func missingFor(err error) missing {
	if errors.Is(err, context.DeadlineExceeded) {
		return missingLate
	}
	return missingDied
}

func newWhole(source *Source, sum string, findings []json.RawMessage) *wholePage {
	if findings == nil {
		findings = []json.RawMessage{}
	}
	return &wholePage{
		Sum: sum, IsLawful: true, Findings: findings, analysed: analysed{Missing: missingUnasked}, imported: source.imported(),
	}
}

func (m *served) whole() *wholePage {
	return newWhole(m.source, m.wholeSum, m.warnings)
}

// mostKept is how many checked models are kept without being put.
const mostKept = 8

// A shelf keeps the last models that were checked and not put, so that they can be tried.
type shelf struct {
	mu     sync.Mutex
	models []*served
}

// key returns the sum by which a model is found: that of its text if nothing else is known.
func (m *served) key() string {
	if m.wholeSum == "" {
		return m.engine.Sum
	}
	return m.wholeSum
}

func (s *shelf) add(model *served) {
	s.mu.Lock()
	defer s.mu.Unlock()
	for _, other := range s.models {
		if other.key() == model.key() && string(other.source.Places) == string(model.source.Places) {
			return
		}
	}
	if s.models = append(s.models, model); len(s.models) > mostKept {
		s.models = append([]*served(nil), s.models[1:]...)
	}
}

// find returns the most recently checked model with a SHA-256, or nil.
func (s *shelf) find(sum string) *served {
	s.mu.Lock()
	defer s.mu.Unlock()
	for at := len(s.models) - 1; at >= 0; at-- {
		if s.models[at].key() == sum {
			return s.models[at]
		}
	}
	return nil
}

// asked returns the model that a request names by its SHA-256: the one in force, which is also the default, or a kept
// one.
func (s *Service) asked(r *http.Request) (*served, *problem) {
	inForce := s.model.Load()
	sum := r.URL.Query().Get("model")
	if sum == "" || sum == inForce.wholeSum {
		return inForce, nil
	}
	if model := s.shelf.find(sum); model != nil {
		return model, nil
	}
	return nil, problemUnkept.with("no model with the SHA-256 " + sum + " is kept")
}

// checkPath answers POST /v1/check. It checks a model, and keeps it so that it can be tried. It doesn't put it in
// force.
func (s *Service) checkPath(w http.ResponseWriter, r *http.Request) {
	page, p := s.checked(w, r)
	limitWrite(r, longAnswer+1)
	if p != nil {
		p.write(w, w.Header().Get("X-Request-Id"))
		return
	}
	writePage(w, http.StatusOK, page)
}

func (s *Service) checked(w http.ResponseWriter, r *http.Request) (*wholePage, *problem) {
	body, p := s.askedBody(w, r)
	if p != nil {
		return nil, p
	}
	defer s.bodies.give(int64(len(body)))
	source, p := s.source(body)
	if p != nil {
		return nil, p
	}
	select {
	case s.explaining <- struct{}{}:
		defer func() { <-s.explaining }()
	case <-r.Context().Done():
		return nil, problemLeft.with("")
	}
	ctx, stop := context.WithTimeout(r.Context(), putPatience)
	defer stop()
	model, err := s.read(ctx, source, "checked")
	var faulty *engine.FaultyModel
	switch {
	case errors.As(err, &faulty):
		page := newWhole(source, source.Sum(), faulty.Places)
		page.IsLawful, page.Fault, page.Missing = false, faulty.Fault, missingFault
		return page, nil
	case err != nil:
		return nil, faultProblem(err)
	}
	s.shelf.add(model)
	page := model.whole()
	if page.analysed, err = s.tables(ctx, model); err != nil {
		s.options.Log("%v", err)
		page.Missing = missingFor(err)
	}
	return page, nil
}

// An analysis is what was found about the tables of a model, once that was asked.
type analysis struct {
	mu    sync.Mutex
	found []engine.Place
	gives map[string]string
}

// tables returns a model's tables checked, once.
func (s *Service) tables(ctx context.Context, model *served) (analysed, error) {
	if !s.knows.Tables {
		return analysed{Missing: missingEngine}, nil
	}
	it := &model.analysis
	it.mu.Lock()
	defer it.mu.Unlock()
	if it.found != nil {
		return analysed{Tables: it.found, Gives: it.gives}, nil
	}
	text, err := s.withDomains(model.source)
	var found []engine.Place
	if err == nil {
		found, err = engine.Tables(ctx, s.options.Engine, s.options.Memory, text)
	}
	var faulty *engine.FaultyModel
	if errors.As(err, &faulty) {
		// Domains of the file that can't be taken: it is looked at without them.
		found, err = engine.Tables(ctx, s.options.Engine, s.options.Memory, model.source.Text)
	}
	if err == nil {
		it.found, err = tell.TableLines(model.source.Text, found)
	}
	if err == nil && s.knows.Gives {
		it.gives = s.gives(ctx, model, text)
	}
	return analysed{Tables: it.found, Gives: it.gives}, err
}

// withDomains returns a model's text with the domains of its inputs and their components, if there are any and the engine reads them.
func (s *Service) withDomains(source *Source) ([]byte, error) {
	if !s.knows.Gives || len(source.Domains) == 0 {
		return source.Text, nil
	}
	text, err := plainJSON(imported{Model: source.Text, Domains: source.Domains})
	if err != nil {
		return nil, fmt.Errorf("writing the domains: %w", err)
	}
	return text, nil
}

// gives has in words what a model's decisions can give, but those whose numbers are counted: the engine's numbers are others than the
// file's.
func (s *Service) gives(ctx context.Context, model *served, text []byte) map[string]string {
	lines, err := engine.Gives(ctx, s.options.Engine, s.options.Memory, text)
	var found map[string]string
	if err == nil {
		found, err = tell.GivesWords(lines)
	}
	if err != nil {
		s.options.Log("what decisions can give is not known: %v", err)
	}
	for word := range found {
		if model.typeOf(word).IsCounted() {
			delete(found, word)
		}
	}
	return found
}

// A tablesPage is what was found about the tables of a model.
type tablesPage struct {
	Sum string `json:"sha256"`
	analysed
}

// tablesPath answers GET /v1/tables with what is found about the tables of a model, which may take long.
func (s *Service) tablesPath(w http.ResponseWriter, r *http.Request) {
	if !takes(w, r, http.MethodGet, http.MethodHead) {
		return
	}
	page, p := s.tablesOf(r)
	limitWrite(r, longAnswer+1)
	if p != nil {
		p.write(w, w.Header().Get("X-Request-Id"))
		return
	}
	writePage(w, http.StatusOK, page)
}

func (s *Service) tablesOf(r *http.Request) (*tablesPage, *problem) {
	if _, p := s.caller(r); p != nil {
		return nil, p
	}
	model, p := s.asked(r)
	if p != nil {
		return nil, p
	}
	page := &tablesPage{Sum: model.wholeSum}
	p = s.explained(r.Context(), theTables, func(ctx context.Context) (err error) {
		page.analysed, err = s.tables(ctx, model)
		return err
	})
	return page, p
}

// askedBody reads the body of a POST from someone with the right to call.
func (s *Service) askedBody(w http.ResponseWriter, r *http.Request) ([]byte, *problem) {
	if r.Method != http.MethodPost {
		p := problemMethod.with("it takes POST")
		p.allow = http.MethodPost
		return nil, p
	}
	if _, p := s.caller(r); p != nil {
		return nil, p
	}
	return s.readBody(w, r)
}

// explainStart is the path of explanations, before the service. These requests are not journaled.
const explainStart = "/v1/explain/"

// explainPath answers POST /v1/explain/SERVICE.
func (s *Service) explainPath(w http.ResponseWriter, r *http.Request) {
	id := w.Header().Get("X-Request-Id")
	body, p := s.askedBody(w, r)
	if p != nil {
		p.write(w, id)
		return
	}
	c, p := s.askedCall(r, body)
	if p != nil {
		s.bodies.give(int64(len(body)))
		p.write(w, id)
		return
	}
	defer c.release()
	if p = c.explain(r.Context(), r.URL.Query().Get("misses") == "true"); p != nil {
		p.write(w, id)
		return
	}
	w.Header()["Desk-Model"] = c.model.sum
	c.write(w, r, id)
}

// askedCall makes the call for an explanation, without asking an engine first.
func (s *Service) askedCall(r *http.Request, body []byte) (*call, *problem) {
	model, p := s.asked(r)
	if p != nil {
		return nil, p
	}
	name, p := nameBelow(r.URL, explainStart)
	if p != nil {
		return nil, p
	}
	c, p := s.newCall(model, name, body, false)
	if p != nil {
		return nil, p
	}
	if len(c.jobs) > maxExplained {
		return nil, problemLong.with("at most 100 requests of a list are explained")
	}
	c.isUnasked = true
	c.users.Store(1)
	c.bytes.Store(int64(len(body)))
	return c, nil
}
