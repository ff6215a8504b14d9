package service

import (
	"bufio"
	"bytes"
	"crypto/rand"
	"encoding/hex"
	"encoding/json"
	"fmt"
	"net"
	"net/http"
	"net/url"
	"sort"
	"strconv"
	"strings"
	"sync/atomic"
	"time"

	"gateway/openapi"
	"gateway/page"
	"gateway/types"
)

// servicesPath comes before the name of a service; listStart is the path of their list.
const (
	servicesPath = "/v1/services/"
	listStart    = "/v1/services"
)

func servicePath(name string) string {
	return servicesPath + url.PathEscape(name)
}

// pages returns the paths that don't depend on the model.
func (s *Service) pages() map[string]http.HandlerFunc {
	pages := map[string]http.HandlerFunc{
		"/v1/model":     s.modelPath,
		listStart:       s.listPath,
		servicesPath:    s.listPath,
		"/openapi.json": s.openAPIPath,
		"/healthz":      s.healthPath,
		"/readyz":       s.readyPath,
		"/metrics":      s.metrics.handler().ServeHTTP,
		"/problems/":    s.problemsPath,
		"/v1/check":     s.checkPath,
		"/v1/coverage":  s.coveragePath,
		"/v1/tables":    s.tablesPath,
		"/v1/trial":     s.trialPath,
		"/v1/releases":  s.releasesPath,
		"/":             page.Handle,
	}
	if s.options.Admin != nil {
		delete(pages, "/metrics")
	}
	return pages
}

// handler returns the handler of all paths.
func (s *Service) handler() http.Handler {
	pages := s.pages()
	below := map[string]http.HandlerFunc{"/problems/": s.problemsPath, explainStart: s.explainPath, page.Files: page.Handle}
	if s.partitions != nil {
		below[answersPath] = s.answersOf
	}
	return http.HandlerFunc(func(w http.ResponseWriter, r *http.Request) {
		start := time.Now()
		header := w.Header()
		id := requestID(r, start)
		header["X-Request-Id"] = []string{id}
		header["Desk-Engine"] = s.engineHeader
		if s.stopping.Load() {
			header["Connection"] = []string{"close"}
		}
		isCall := strings.HasPrefix(r.URL.Path, servicesPath) && len(r.URL.Path) > len(servicesPath)
		p := s.siteProblem(r)
		if p == nil {
			p = queryProblem(r)
		}
		if p != nil {
			if isCall {
				s.metrics.called(p.Status, time.Since(start))
			}
			p.write(w, id)
			return
		}
		if isCall {
			v := &visit{trace: s.traceOf(w, r)}
			status := s.servicesPath(w, r, id, v)
			took := time.Since(start)
			s.metrics.called(status, took)
			s.visited(v, id, status, took)
			return
		}
		path := pages[r.URL.Path]
		for start, of := range below {
			if path == nil && strings.HasPrefix(r.URL.Path, start) {
				path = of
			}
		}
		if path == nil {
			problemPath.with(r.URL.Path).write(w, id)
			return
		}
		// Putting or checking a model may take long, and so may explanations. All else is at hand.
		if r.Method != http.MethodPut && r.Method != http.MethodPost {
			limitWrite(r, longAnswer+1)
		}
		path(w, r)
	})
}

// adminHandler answers operators.
func (s *Service) adminHandler() http.Handler {
	pages := map[string]http.HandlerFunc{"/healthz": s.healthPath, "/readyz": s.readyPath, "/metrics": s.metrics.handler().ServeHTTP}
	return http.HandlerFunc(func(w http.ResponseWriter, r *http.Request) {
		id := requestID(r, time.Now())
		w.Header()["X-Request-Id"] = []string{id}
		path := pages[r.URL.Path]
		if path == nil {
			problemPath.with(r.URL.Path).write(w, id)
			return
		}
		path(w, r)
	})
}

// maxID is the most bytes of a caller's id. With the number of a request in a list it is a client's name in the
// journal, which has at most 64.
const maxID = 57

// requestID returns the caller's X-Request-Id if it has 1 to 57 letters, digits and signs of `-._~:/+=@`, or else one
// that begins with the time.
func requestID(r *http.Request, now time.Time) string {
	if values := r.Header["X-Request-Id"]; len(values) == 1 && isID(values[0]) {
		return values[0]
	}
	return ownID(now)
}

// idTime is the form of the beginning of generated ids.
const idTime = "20060102T150405.000Z"

// ownID returns a unique id.
func ownID(now time.Time) string {
	id := make([]byte, 0, 48)
	id = now.UTC().AppendFormat(id, idTime+"-")
	id = append(id, idStart...)
	return string(strconv.AppendUint(id, idCount.Add(1), 10))
}

// idStart distinguishes the ids of two processes, idCount those of one.
var (
	idStart = func() string {
		var random [4]byte
		_, _ = rand.Read(random[:])
		return hex.EncodeToString(random[:]) + "-"
	}()
	idCount atomic.Uint64
)

func isID(id string) bool {
	if len(id) == 0 || len(id) > maxID {
		return false
	}
	for at := 0; at < len(id); at++ {
		c := id[at]
		letter := c|0x20 >= 'a' && c|0x20 <= 'z'
		if !letter && (c < '0' || c > '9') && strings.IndexByte("-._~:/+=@", c) < 0 {
			return false
		}
	}
	return true
}

// takes reports whether a method is one of these, and answers if it isn't.
func takes(w http.ResponseWriter, r *http.Request, methods ...string) bool {
	for _, method := range methods {
		if r.Method == method {
			return true
		}
	}
	p := problemMethod.with("it takes " + strings.Join(methods, ", "))
	p.allow = strings.Join(methods, ", ")
	p.write(w, w.Header().Get("X-Request-Id"))
	return false
}

func writeJSON(w http.ResponseWriter, status int, text []byte) {
	header := w.Header()
	header["Content-Type"] = contentJSON
	header["Content-Length"] = []string{strconv.Itoa(len(text))}
	w.WriteHeader(status)
	_, _ = w.Write(text)
}

// plainJSON writes a value as JSON, with no unnecessary escapes.
func plainJSON(value any) ([]byte, error) {
	var text bytes.Buffer
	encoder := json.NewEncoder(&text)
	encoder.SetEscapeHTML(false)
	err := encoder.Encode(value)
	return bytes.TrimSuffix(text.Bytes(), []byte("\n")), err
}

func writePage(w http.ResponseWriter, status int, page any) {
	text, err := plainJSON(page)
	if err != nil {
		problemInside.with(err.Error()).write(w, w.Header().Get("X-Request-Id"))
		return
	}
	writeJSON(w, status, append(text, '\n'))
}

func (s *Service) healthPath(w http.ResponseWriter, r *http.Request) {
	if takes(w, r, http.MethodGet, http.MethodHead) {
		writePage(w, http.StatusOK, map[string]string{"status": "alive"})
	}
}

// unready says why requests should go elsewhere; empty if they needn't.
func (s *Service) unready() string {
	switch {
	case s.stopping.Load():
		return "the service is about to end"
	case s.pool.Ready() == 0:
		return "no engine is ready"
	case s.recorder != nil && s.recorder.journal.Failing():
		return "the journal cannot be written"
	}
	if s.partitions != nil {
		if is, said := s.partitions.Ready(); !is {
			return said
		}
	}
	return ""
}

func (s *Service) readyPath(w http.ResponseWriter, r *http.Request) {
	if !takes(w, r, http.MethodGet, http.MethodHead) {
		return
	}
	if s.recorder != nil {
		// This also notices if the journal's files are gone.
		_ = s.recorder.journal.Look()
	}
	page := map[string]any{"status": "ready", "engines": s.pool.Ready(), "due": s.pool.Processes(),
		"release": s.model.Load().release()}
	status := http.StatusOK
	if why := s.unready(); why != "" {
		page["status"], status = why, http.StatusServiceUnavailable
	}
	writePage(w, status, page)
}

func (s *Service) problemsPath(w http.ResponseWriter, r *http.Request) {
	if !takes(w, r, http.MethodGet, http.MethodHead) {
		return
	}
	word := strings.TrimPrefix(r.URL.Path, "/problems/")
	kind := problemKinds[word]
	if kind == nil && word != "" {
		problemPath.with(r.URL.Path).write(w, w.Header().Get("X-Request-Id"))
		return
	}
	w.Header().Set("Content-Type", "text/plain; charset=utf-8")
	to := bufio.NewWriter(w)
	defer to.Flush()
	if kind != nil {
		fmt.Fprintf(to, "%s (%d)\n\n%s\n", kind.title, kind.status, kind.page)
		return
	}
	words := make([]string, 0, len(problemKinds))
	for word := range problemKinds {
		words = append(words, word)
	}
	sort.Strings(words)
	for _, word := range words {
		fmt.Fprintf(to, "%-10s %d  %s\n", word, problemKinds[word].status, problemKinds[word].title)
	}
}

func (s *Service) openAPIPath(w http.ResponseWriter, r *http.Request) {
	if !takes(w, r, http.MethodGet, http.MethodHead) {
		return
	}
	model := s.model.Load()
	page, err := model.openAPI(s.version, s.tokens.Load() != nil)
	if err != nil {
		problemInside.with(err.Error()).write(w, w.Header().Get("X-Request-Id"))
		return
	}
	w.Header()["Desk-Model"] = model.sum
	writeJSON(w, http.StatusOK, page)
}

// openAPI describes the services in OpenAPI. isGuarded means that callers need tokens.
func (m *served) openAPI(version string, isGuarded bool) ([]byte, error) {
	var services []openapi.Service
	for _, form := range m.lawful.Services {
		service := openapi.Service{Name: m.nameOf(form.Name), Strict: m.isStrict, Result: m.resultSchema(form.Name)}
		known := m.services[form.Name].ofCallers()
		var needs map[string]*types.Needs
		if m.isStrict && known.isStrict {
			needs = m.needs
		}
		for _, word := range m.services[form.Name].inputs {
			schema, trial := m.schemas(word)
			service.Inputs = append(service.Inputs, openapi.Input{Name: m.nameOf(word), Schema: schema, Trial: trial,
				Required: m.isStrict && isOneOf(word, known.required) || isOneOf(word, known.needed), NotNull: known.notNull[word],
				Needs: m.namedNeeds(needs[word])})
		}
		services = append(services, service)
	}
	return openapi.Page(m.wholeSum, version, isGuarded, services)
}

// namedNeeds returns what an input has to have, in the file's names.
func (m *served) namedNeeds(of *types.Needs) (all []openapi.Need) {
	of.Each(func(word string, within *types.Needs) {
		all = append(all, openapi.Need{Name: m.nameOf(word), Within: m.namedNeeds(within)})
	})
	return all
}

// longAnswer is the most bytes of an answer that the system takes whether or not the caller reads.
const longAnswer = 4096

// limitWrite limits how long a caller may take to read an answer of this many bytes. Without it the limit is that of
// the whole exchange.
func limitWrite(r *http.Request, bytes int) {
	if bytes <= longAnswer {
		return
	}
	if connection, is := r.Context().Value(connectionKey{}).(net.Conn); is {
		_ = connection.SetWriteDeadline(time.Now().Add(writePatience))
	}
}
