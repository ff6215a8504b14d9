package service

import (
	"errors"
	"io"
	"net/http"
	"net/url"
	"strings"
	"time"

	"gateway/engine"
)

// statusGone is counted if the caller went away before its answer.
const statusGone = 499

// An asking is the head and body of a call, and the call's turn among those of its client.
type asking struct {
	who     caller
	id      string // unique
	name    string
	explain bool
	body    []byte
	turn    *turn
}

// servicesPath answers POST /v1/services/SERVICE, and returns the status. It notes in v what to log.
func (s *Service) servicesPath(w http.ResponseWriter, r *http.Request, id string, v *visit) int {
	if !takes(w, r, http.MethodPost) {
		return http.StatusMethodNotAllowed
	}
	asked, p := s.readAsking(w, r)
	v.who, v.service = asked.who, asked.name
	if p != nil {
		p.write(w, id)
		return p.Status
	}
	defer s.turns.end(asked.turn)
	name := s.naming(w, r, id, asked.who)
	v.record = name.own
	c, p := s.ask(asked)
	if p != nil {
		if c != nil {
			p = c.keep(name, p)
		}
		s.bodies.give(int64(len(asked.body)))
		p.write(w, id)
		return p.Status
	}
	defer c.release()
	defer s.clients.leave(c.client)
	// The jobs have copied what they need.
	asked.body = nil
	err := c.wait(r.Context())
	if errors.Is(err, errLater) {
		v.see(c)
		return c.later(w, id, asked.id)
	}
	if err != nil {
		// A caller that only closed its own side reads this.
		problemLeft.with("").write(w, id)
		return statusGone
	}
	if asked.explain {
		p = c.explain(r.Context(), false)
	}
	p = c.keep(name, p)
	s.metrics.asked(c)
	v.see(c)
	w.Header()["Desk-Model"] = c.model.sum
	return c.answer(w, r, id, asked.turn, p)
}

// naming returns how a call is identified. If it is recorded the answer has its own id.
func (s *Service) naming(w http.ResponseWriter, r *http.Request, id string, who caller) naming {
	name := naming{own: id, who: who}
	if s.recorder == nil {
		return name
	}
	if values := r.Header["X-Request-Id"]; len(values) == 1 && values[0] == id {
		name.own, name.given = ownID(time.Now()), id
	}
	w.Header()["Desk-Record"] = []string{name.own}
	return name
}

// answer sends the answer, or a problem of the whole call. If engines were asked it follows the answers of earlier
// calls, and is on its way when answer returns.
func (c *call) answer(w http.ResponseWriter, r *http.Request, id string, t *turn, p *problem) int {
	if len(c.jobs) > 0 {
		t.waitToAnswer()
	}
	status := http.StatusOK
	if p != nil {
		status = p.Status
		p.write(w, id)
	} else {
		status = c.write(w, r, id)
	}
	if flusher, is := w.(http.Flusher); is && t != nil {
		flusher.Flush()
	}
	return status
}

// readAsking reads a call's head and body. The body's bytes are held in the service's budget.
func (s *Service) readAsking(w http.ResponseWriter, r *http.Request) (it asking, p *problem) {
	if it.who, p = s.caller(r); p != nil {
		return it, p
	}
	if it.name, p = nameBelow(r.URL, servicesPath); p != nil {
		return it, p
	}
	if it.explain, p = wantsExplanation(r.URL.RawQuery); p != nil {
		return it, p
	}
	if s.recorder != nil && s.recorder.journal.Fault() != nil {
		return it, problemJournal.with("")
	}
	if it.body, p = s.readBody(w, r); p != nil {
		return it, p
	}
	it.turn = s.turns.begin(it.who.client)
	if s.partitions != nil {
		it.id = ownID(time.Now())
	}
	return it, nil
}

// nameBelow returns the name of the service in a path below its start.
func nameBelow(path *url.URL, start string) (string, *problem) {
	if path.RawPath == "" {
		// The path is in its default form, so its decoded text loses nothing.
		return strings.TrimPrefix(path.Path, start), nil
	}
	name, err := url.PathUnescape(strings.TrimPrefix(path.EscapedPath(), start))
	if err != nil {
		return "", problemPath.with(path.Path)
	}
	return name, nil
}

// wantsExplanation reads the parameter of a call: explain, true or false.
func wantsExplanation(query string) (bool, *problem) {
	if query == "" {
		return false, nil
	}
	values, err := url.ParseQuery(query)
	if err != nil {
		return false, problemHeader.with("the parameters cannot be read: " + err.Error())
	}
	wanted := values.Get("explain")
	if wanted != "" && wanted != "true" && wanted != "false" {
		return false, problemHeader.with("explain is true or false")
	}
	return wanted == "true", nil
}

// ask makes a call and puts its requests in, under the current model. With a problem it still returns the call if its
// requests were read.
func (s *Service) ask(asked asking) (*call, *problem) {
	for {
		c, p := s.newCall(s.model.Load(), asked.name, asked.body, true)
		if p != nil {
			return c, p
		}
		if asked.explain && len(c.jobs) > maxExplained {
			return nil, problemLong.with("at most 100 requests of a list are explained")
		}
		if p := c.wholeProblem(); p != nil {
			return nil, p
		}
		c.users.Store(1)
		c.bytes.Store(int64(len(asked.body)))
		p, err := c.put(&asked)
		if errors.Is(err, engine.ErrSwitched) {
			continue
		}
		if err != nil {
			p = problemInside.with(err.Error())
		}
		if p != nil {
			return nil, p
		}
		return c, nil
	}
}

// write writes the answer.
func (c *call) write(w http.ResponseWriter, r *http.Request, id string) int {
	if c.isList {
		text := c.appendList(nil)
		limitWrite(r, len(text))
		writeJSON(w, http.StatusOK, text)
		return http.StatusOK
	}
	if p := c.problemAt(0); p != nil {
		limitWrite(r, len(p.Decisions))
		p.write(w, id)
		return p.Status
	}
	text := c.appendResult(make([]byte, 0, len(c.outcomes[0].Value)+16), 0)
	limitWrite(r, len(text))
	writeJSON(w, http.StatusOK, append(text, '\n'))
	return http.StatusOK
}

// firstRoom is how much room a body gets before it arrives.
const firstRoom = 16 << 10

// readBody reads a whole body. Its bytes are held in the service's budget as they arrive.
func (s *Service) readBody(w http.ResponseWriter, r *http.Request) ([]byte, *problem) {
	if r.ContentLength > MaxBody {
		return nil, s.tooLong(w)
	}
	room := int64(firstRoom)
	if r.ContentLength >= 0 && r.ContentLength < room {
		room = r.ContentLength + 1
	}
	body := make([]byte, 0, room)
	for {
		if len(body) == cap(body) {
			body = roomier(body, r.ContentLength)
		}
		n, err := r.Body.Read(body[len(body):cap(body)])
		if !s.bodies.take(int64(n)) {
			s.bodies.give(int64(len(body)))
			return nil, problemFull.with("too many bytes of bodies are held")
		}
		body = body[:len(body)+n]
		if len(body) > MaxBody {
			s.bodies.give(int64(len(body)))
			return nil, s.tooLong(w)
		}
		if err == io.EOF {
			return body, nil
		}
		if err != nil {
			s.bodies.give(int64(len(body)))
			w.Header()["Connection"] = []string{"close"}
			return nil, problemSyntax.with("the body did not come whole: " + err.Error())
		}
	}
}

// roomier returns a full body with room for more: for all that is to come, unless that is far more than has come.
func roomier(body []byte, length int64) []byte {
	room := 4 * int64(len(body))
	if length < room && length >= int64(len(body)) {
		room = length + 1
	}
	return append(make([]byte, 0, room), body...)
}

func (s *Service) tooLong(w http.ResponseWriter) *problem {
	w.Header()["Connection"] = []string{"close"}
	return problemLong.with("a body has at most 16 MiB")
}

// logJournal logs that the journal fails, at most once a second.
func (s *Service) logJournal(err error) {
	now := time.Now().Unix()
	if last := s.metrics.lastFault.Swap(now); last != now {
		s.options.Log("%v", err)
	}
}
