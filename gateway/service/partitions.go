package service

import (
	"context"
	"errors"
	"fmt"
	"net/http"
	"strings"
	"time"

	"gateway/engine"
	"gateway/rabbit/calls"
)

// Partitions answer the calls in place of the service's engines.
type Partitions interface {
	// Put puts the requests of a call in. Each job gets its answer.
	Put(call calls.Call, jobs []*engine.Job) error
	// IsSent reports whether the partitions have all requests of a call. It is then sure to be answered.
	IsSent(id string, requests int) bool
	// Find returns what is kept of the answers to a call, or nil. IsOver reports whether a call's answers are no longer
	// kept.
	Find(id string) *calls.Kept
	IsOver(made time.Time) bool
	// Ready reports whether each partition is reachable, and in words.
	Ready() (bool, string)
	// Done is closed once nothing more is sent, and Err says why.
	Done() <-chan struct{}
	Err() error
	// Close sends what was put in, and ends.
	Close(ctx context.Context) error
}

// answersPath comes before the id of a call that was answered with status 202.
const answersPath = "/v1/answers/"

var (
	problemUnsent = &problemKind{"unsent", http.StatusServiceUnavailable, "The brokers have not confirmed the request",
		"It may be answered all the same: Location is where to ask. Or try again after as many seconds as Retry-After says."}
	problemOver = &problemKind{"over", http.StatusGone, "The answer is not kept any longer",
		"Answers of partitions are kept for as long as --keep-answers says, and as long as there is room."}
)

// errLater means that a call has no answer yet, and should be asked for later.
var errLater = errors.New("the answer comes later")

// openPartitions opens the partitions for the model.
func (s *Service) openPartitions() error {
	if s.options.OpenPartitions == nil {
		return nil
	}
	var err error
	s.partitions, err = s.options.OpenPartitions(s.model.Load().engine.AppendLine(nil))
	return err
}

// partitionsEnded returns a channel that is closed if the partitions can't be asked any longer; nil if there are none.
func (s *Service) partitionsEnded() <-chan struct{} {
	if s.partitions == nil {
		return nil
	}
	return s.partitions.Done()
}

// hand hands the requests of a call to engines, or to partitions. A call without a client is a key of its own.
func (c *call) hand(client, id string) error {
	if c.service.partitions == nil {
		return c.service.pool.Put(client, c.jobs)
	}
	key := client
	if key == "" {
		key = id
	}
	return c.service.partitions.Put(calls.Call{ID: id, Key: key, Service: c.decision.word, IsList: c.isList}, c.jobs)
}

// wholeProblem returns the problem of a list if partitions could not answer one of its requests, as it is put in as a
// whole; else nil.
func (c *call) wholeProblem() *problem {
	if c.service.partitions == nil || !c.isList {
		return nil
	}
	for at, p := range c.problems {
		if p != nil {
			whole := *p
			whole.Detail = fmt.Sprintf("request %d of the list: %s", at+1, p.Detail)
			return &whole
		}
	}
	return nil
}

// waitPartitions waits for all outcomes, up to the limit for partitions.
func (c *call) waitPartitions(ctx context.Context) error {
	while := time.NewTimer(c.service.options.Wait)
	defer while.Stop()
	select {
	case <-c.done:
		return nil
	case <-while.C:
		return errLater
	case <-ctx.Done():
		return errGone
	}
}

// later answers a call whose answer comes later, and returns the status.
func (c *call) later(w http.ResponseWriter, id, asked string) int {
	w.Header()["Location"] = []string{answersPath + asked}
	if !c.service.partitions.IsSent(asked, len(c.jobs)) {
		problemUnsent.with("").write(w, id)
		return http.StatusServiceUnavailable
	}
	return writeWaiting(w, asked)
}

// writeWaiting says that an answer isn't there yet, and returns the status.
func writeWaiting(w http.ResponseWriter, id string) int {
	w.Header()["Retry-After"] = []string{"1"}
	writePage(w, http.StatusAccepted, map[string]string{"status": "waiting", "answer": answersPath + id})
	return http.StatusAccepted
}

// answersOf answers GET /v1/answers/ID with the answer that the call would have had.
func (s *Service) answersOf(w http.ResponseWriter, r *http.Request) {
	own := w.Header().Get("X-Request-Id")
	if !takes(w, r, http.MethodGet, http.MethodHead) {
		return
	}
	who, p := s.caller(r)
	if p != nil {
		p.write(w, own)
		return
	}
	id := strings.TrimPrefix(r.URL.Path, answersPath)
	stamp, _, _ := strings.Cut(id, "-")
	made, err := time.Parse(idTime, stamp)
	if err != nil {
		problemPath.with(r.URL.Path).write(w, own)
		return
	}
	found := s.partitions.Find(id)
	switch {
	case found == nil && s.partitions.IsOver(made):
		problemOver.with("").write(w, own)
	case found == nil:
		writeWaiting(w, id)
	case found.Key != id && found.Key != who.client:
		problemPath.with(r.URL.Path).write(w, own)
	case !found.IsWhole():
		writeWaiting(w, id)
	default:
		s.writeKept(w, r, own, found)
	}
}

// writeKept writes the answer that the call would have had.
func (s *Service) writeKept(w http.ResponseWriter, r *http.Request, id string, found *calls.Kept) {
	model := s.model.Load()
	of := model.services[found.Service]
	if of == nil {
		problemService.with(fmt.Sprintf("%q is no service of the model", found.Service)).write(w, id)
		return
	}
	c := &call{service: s, model: model, decision: of, isList: found.IsList, outcomes: found.Outcomes,
		problems: make([]*problem, len(found.Outcomes))}
	w.Header()["Desk-Model"] = model.sum
	c.write(w, r, id)
}
