package service

import (
	"bytes"
	"context"
	"encoding/json"
	"errors"
	"fmt"
	"net/http"
	"strconv"
	"strings"
	"time"

	"gateway/engine"
	"gateway/lines"
	"gateway/release"
)

// modelPath answers GET and PUT /v1/model.
func (s *Service) modelPath(w http.ResponseWriter, r *http.Request) {
	id := w.Header().Get("X-Request-Id")
	if s.partitions != nil && r.Method == http.MethodPut {
		p := problemMethod.with("partitions answer by the model of the command line")
		p.allow = "GET, HEAD"
		p.write(w, id)
		return
	}
	if !takes(w, r, http.MethodGet, http.MethodHead, http.MethodPut) {
		return
	}
	who, p := s.caller(r)
	if p == nil && r.Method == http.MethodPut {
		s.putPath(w, r, id, who)
		return
	}
	if p != nil {
		p.write(w, id)
		return
	}
	model := s.model.Load()
	w.Header()["Desk-Model"] = model.sum
	w.Header().Set("ETag", `"`+model.wholeSum+`"`)
	if r.URL.Query().Get("text") == "true" {
		model.writeText(w)
		return
	}
	if r.URL.Query().Get("whole") == "true" {
		writePage(w, http.StatusOK, model.whole())
		return
	}
	writePage(w, http.StatusOK, model.page(s.version))
}

// writeText answers with a text that puts the same model if sent back: the compact text, or what desk import writes if
// the file has names or types.
func (m *served) writeText(w http.ResponseWriter) {
	text := m.engine.Text
	if m.wholeSum != m.engine.Sum {
		var err error
		if text, err = m.source.text(); err != nil {
			problemInside.with(err.Error()).write(w, w.Header().Get("X-Request-Id"))
			return
		}
	}
	writeJSON(w, http.StatusOK, text)
}

// listPath answers GET /v1/services, with or without a slash at its end.
func (s *Service) listPath(w http.ResponseWriter, r *http.Request) {
	if !takes(w, r, http.MethodGet, http.MethodHead) {
		return
	}
	if _, p := s.caller(r); p != nil {
		p.write(w, w.Header().Get("X-Request-Id"))
		return
	}
	model := s.model.Load()
	w.Header()["Desk-Model"] = model.sum
	writePage(w, http.StatusOK, map[string]any{"services": model.servicePages()})
}

// Where a model in force may come from.
const (
	originFiles = "command line"
	originPut   = "put"
)

// A putPage is the answer of PUT /v1/model.
type putPage struct {
	Sum      string            `json:"sha256"`
	Release  *Release          `json:"release"`
	Before   string            `json:"before"`
	Kept     bool              `json:"kept"`
	Services []string          `json:"services"`
	Warnings []json.RawMessage `json:"warnings"`
}

func (s *Service) putPath(w http.ResponseWriter, r *http.Request, id string, who caller) {
	page, model, p := s.putModel(w, r, who)
	s.logPut(id, who, page, p)
	if p != nil {
		s.metrics.puts.WithLabelValues(strconv.Itoa(p.Status)).Inc()
		p.write(w, id)
		return
	}
	s.metrics.puts.WithLabelValues(strconv.Itoa(http.StatusOK)).Inc()
	w.Header()["Desk-Model"] = model.sum
	w.Header().Set("ETag", `"`+model.wholeSum+`"`)
	writePage(w, http.StatusOK, page)
}

// putModel reads a model, has it checked, keeps it and puts it in force.
func (s *Service) putModel(w http.ResponseWriter, r *http.Request, who caller) (*putPage, *served, *problem) {
	if !who.mayPut {
		return nil, nil, problemRight.with("")
	}
	body, p := s.readBody(w, r)
	if p != nil {
		return nil, nil, p
	}
	defer s.bodies.give(int64(len(body)))
	source, p := s.source(body)
	if p != nil {
		return nil, nil, p
	}
	s.putting.Lock()
	defer s.putting.Unlock()
	if s.stopping.Load() {
		return nil, nil, problemStopping.with("")
	}
	before, after := s.model.Load(), ""
	if match := r.Header.Get("If-Match"); match != "" && match != "*" {
		if after = before.wholeSum; !strings.Contains(match, `"`+after+`"`) {
			return nil, nil, problemMatch.with("the model in force has the SHA-256 " + after)
		}
	}
	source.Release = s.released(source, before, who, r.URL.Query().Get)
	if p = source.Release.problem(); p != nil {
		return nil, nil, p
	}
	// The model is put even if the caller goes away.
	ctx, stop := context.WithTimeout(context.Background(), putPatience)
	defer stop()
	model, err := s.read(ctx, source, originPut)
	if err != nil {
		return nil, nil, faultProblem(err)
	}
	if p := s.putInForce(ctx, before, model, after); p != nil {
		return nil, nil, p
	}
	page := &putPage{Sum: model.wholeSum, Release: source.Release, Before: before.wholeSum,
		Kept: s.statePath != "" || s.options.Releases != "", Services: model.serviceNames(), Warnings: model.warnings}
	if page.Warnings == nil {
		page.Warnings = []json.RawMessage{}
	}
	return page, model, nil
}

// putInForce keeps a model, and puts it in force for whatever comes from now on. If after isn't empty, it is the
// SHA-256 of the model that has to be in force.
func (s *Service) putInForce(ctx context.Context, before, model *served, after string) *problem {
	var err error
	switch {
	case s.options.Releases != "":
		err = s.keepRelease(model, after)
	case s.statePath != "":
		err = writeState(s.statePath, model.source)
	}
	switch {
	case errors.Is(err, release.ErrExists):
		return problemVersion.with(err.Error())
	case errors.Is(err, errMatch):
		return problemMatch.with(err.Error())
	}
	if err != nil {
		s.options.Log("%v", err)
		return problemState.with("")
	}
	s.inForce(ctx, model, func() { s.logModel(fmt.Sprintf("a model was put by %s", model.source.Release.Who), before, model) })
	return nil
}

// logModel logs that another model is in force, if the log is text.
func (s *Service) logModel(said string, before, model *served) {
	if s.options.Access == nil {
		s.options.Log("%s: SHA-256 %s, before it %s", said, model.wholeSum, before.wholeSum)
	}
}

// inForce puts a model in force for whatever comes from now on, and calls say at once.
func (s *Service) inForce(ctx context.Context, model *served, say func()) {
	s.pool.Switch(model.engine, func() {
		model.since = time.Now()
		s.model.Store(model)
	})
	say()
	if err := s.pool.Settle(ctx); err != nil {
		s.options.Log("a model is in force, and not all engines have taken it yet: %v", err)
	}
}

// source reads a body as a model.
func (s *Service) source(body []byte) (*Source, *problem) {
	if s.options.ReadDMN != nil && isXML(body) {
		source, err := s.options.ReadDMN(body)
		if err != nil {
			return nil, faultProblem(err)
		}
		return source, nil
	}
	source, err := ReadSource(body)
	var fault *lines.SyntaxFault
	if errors.As(err, &fault) {
		return nil, syntaxProblem(fault)
	}
	if err != nil {
		return nil, problemModel.with(err.Error())
	}
	return source, nil
}

// isXML reports whether a text begins like XML, in any encoding.
func isXML(text []byte) bool {
	begin := bytes.TrimLeft(text, "\xef\xbb\xbf\xff\xfe\x00 \t\r\n")
	return len(begin) > 0 && begin[0] == '<'
}

// Faulty is the error of a model with faults at places of a file.
type Faulty interface {
	error
	// Errors returns each place as JSON.
	Errors() []json.RawMessage
}

func faultProblem(err error) *problem {
	var faulty *engine.FaultyModel
	if errors.As(err, &faulty) {
		p := problemModel.with(faulty.Error())
		p.Fault, p.Errors = faulty.Fault, faulty.Places
		return p
	}
	var places Faulty
	if errors.As(err, &places) {
		p := problemModel.with(places.Error())
		p.Errors = places.Errors()
		return p
	}
	switch {
	case errors.Is(err, errLongModel):
		return problemModel.with(err.Error())
	case errors.Is(err, engine.ErrEnded):
		return problemModel.with(err.Error() + "; it may need more memory than --memory allows")
	case errors.Is(err, context.DeadlineExceeded):
		return problemLate.with("checking the model takes longer than a minute")
	}
	return problemInside.with(err.Error())
}
