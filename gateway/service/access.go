package service

import (
	"crypto/rand"
	"encoding/hex"
	"net/http"
	"strconv"
	"time"

	"gateway/lines"
)

// A logLine is one line of the log as JSON: about a call, or about what someone did.
type logLine struct {
	text []byte
}

// line begins a line; nil if the log is text.
func (s *Service) line(level, event string) *logLine {
	if s.options.Access == nil {
		return nil
	}
	text := time.Now().UTC().AppendFormat([]byte(`{"time":"`), "2006-01-02T15:04:05.000000Z")
	t := &logLine{append(text, '"')}
	t.word("level", level)
	t.word("event", event)
	return t
}

// word adds a text, unless it is empty.
func (t *logLine) word(key, text string) {
	if text == "" {
		return
	}
	t.key(key)
	t.text = lines.AppendQuoted(t.text, text)
}

func (t *logLine) number(key string, n int64) {
	t.key(key)
	t.text = strconv.AppendInt(t.text, n, 10)
}

func (t *logLine) key(key string) {
	t.text = append(append(append(t.text, `,"`...), key...), `":`...)
}

func (s *Service) write(t *logLine) { s.options.Access(append(t.text, "}\n"...)) }

// A trace is the traceparent of a call (W3C Trace Context): the one received, and the one sent back.
type trace struct{ taken, given string }

// Places in a traceparent: 00-TRACE-SPAN-FLAGS.
const (
	traceLength  = 55
	traceAt      = 3
	spanAt       = 36
	traceFlagsAt = 53
)

// traceOf reads the header, and gives the answer one of the same trace. Without one it begins a trace if the log is
// JSON.
func (s *Service) traceOf(w http.ResponseWriter, r *http.Request) (it trace) {
	if values := r.Header["Traceparent"]; len(values) == 1 && isTrace(values[0]) {
		it.taken = values[0]
	} else if s.options.Access == nil {
		return it
	}
	var random [24]byte
	_, _ = rand.Read(random[:])
	text := hex.EncodeToString(random[:])
	if it.taken != "" {
		it.given = it.taken[:spanAt] + text[:16] + it.taken[traceFlagsAt-1:]
	} else {
		it.given = "00-" + text[16:] + "-" + text[:16] + "-00"
	}
	w.Header()["Traceparent"] = []string{it.given}
	return it
}

// isTrace reports whether a text is a traceparent of version 00 with a trace and a span.
func isTrace(text string) bool {
	if len(text) != traceLength || text[:traceAt] != "00-" || text[spanAt-1] != '-' || text[traceFlagsAt-1] != '-' {
		return false
	}
	for _, part := range []string{text[traceAt : spanAt-1], text[spanAt : traceFlagsAt-1], text[traceFlagsAt:]} {
		if !isHexadecimal(part) {
			return false
		}
	}
	return !isZero(text[traceAt:spanAt-1]) && !isZero(text[spanAt:traceFlagsAt-1])
}

func isHexadecimal(text string) bool {
	for at := 0; at < len(text); at++ {
		if c := text[at]; (c < '0' || c > '9') && (c < 'a' || c > 'f') {
			return false
		}
	}
	return true
}

func isZero(text string) bool {
	for at := 0; at < len(text); at++ {
		if text[at] != '0' {
			return false
		}
	}
	return true
}

// A visit is what the log says about a call besides its status.
type visit struct {
	service, record string
	who             caller
	trace           trace
	requests        int
	queue, engine   time.Duration
}

// see notes what kind of call it was.
func (v *visit) see(c *call) {
	v.service, v.requests = c.decision.name, len(c.outcomes)
	for _, job := range c.jobs {
		if job.Queue > v.queue {
			v.queue = job.Queue
		}
		if job.Work > v.engine {
			v.engine = job.Work
		}
	}
}

// visited writes the line of a call.
func (s *Service) visited(v *visit, id string, status int, took time.Duration) {
	level := "info"
	if status >= http.StatusInternalServerError {
		level = "error"
	}
	t := s.line(level, "call")
	if t == nil {
		return
	}
	t.word("id", id)
	if v.record != id {
		t.word("record", v.record)
	}
	t.word("parent", v.trace.taken)
	t.word("traceparent", v.trace.given)
	t.word("caller", v.who.token)
	t.word("client", v.who.named)
	t.word("service", v.service)
	t.number("status", int64(status))
	t.number("requests", int64(v.requests))
	t.number("queueMicros", v.queue.Microseconds())
	t.number("engineMicros", v.engine.Microseconds())
	t.number("allMicros", took.Microseconds())
	s.write(t)
}

// refusedToken logs that a caller had no token of the file.
func (s *Service) refusedToken(r *http.Request) {
	if t := s.line("warn", "token"); t != nil {
		t.word("from", r.RemoteAddr)
		t.word("method", r.Method)
		t.word("path", r.URL.Path)
		t.number("status", http.StatusUnauthorized)
		s.write(t)
	}
}

// logPut logs that someone put a model; p is why it was refused, or nil.
func (s *Service) logPut(id string, who caller, page *putPage, p *problem) {
	t := s.line("info", "put")
	if t == nil {
		return
	}
	t.word("id", id)
	t.word("caller", who.token)
	if p != nil {
		t.number("status", int64(p.Status))
		t.word("problem", p.kind.word)
	} else {
		t.number("status", http.StatusOK)
		t.word("name", page.Release.Name)
		t.word("version", page.Release.Version)
		t.word("why", page.Release.Why)
		t.word("sha256", page.Sum)
		t.word("before", page.Before)
	}
	s.write(t)
}

// logRelease logs that a release of the folder is in force.
func (s *Service) logRelease(who string, before, model *served) {
	if t := s.line("info", "release"); t != nil {
		t.word("caller", who)
		t.word("name", model.source.namedBy().Name)
		t.word("version", model.source.namedBy().Version)
		t.word("why", model.source.namedBy().Why)
		t.word("sha256", model.wholeSum)
		t.word("before", before.wholeSum)
		s.write(t)
	}
}
