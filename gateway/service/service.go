package service

import (
	"context"
	"crypto/tls"
	"errors"
	"fmt"
	"log"
	"net"
	"net/http"
	"os"
	"path/filepath"
	"runtime"
	"runtime/debug"
	"strings"
	"sync"
	"sync/atomic"
	"time"

	"gateway/engine"
	"gateway/journal"
)

// A Service answers requests over HTTP.
type Service struct {
	options Options
	version string
	// engineHeader is the header with the engine's version.
	engineHeader []string
	// knows is what the engine's check knows.
	knows engine.Known
	pool  *engine.Pool
	// partitions answer the calls; nil where the engines do.
	partitions Partitions
	// recorder is nil if no journal is kept.
	recorder  *recorder
	statePath string
	clients   *clients
	turns     *turns
	bodies    budget
	metrics   *metrics
	model     atomic.Pointer[served]
	tokens    atomic.Pointer[tokens]
	shelf     shelf
	// explaining limits how many explanations are made at once.
	explaining chan struct{}
	// trying lets one trial run at a time.
	trying chan struct{}
	// putting lets one model be put at a time; following is what was seen of the folder of releases.
	putting   sync.Mutex
	following following
	// readReleases is what was read from release files.
	readReleases readReleases
	// stopping is true once the service is ending.
	stopping atomic.Bool
	// isOverridden is true if the model of the command line isn't served, since another was put before.
	isOverridden bool
	places       *connections
	// refusedAt is the second at which a refused connection was last logged.
	refusedAt atomic.Int64
	// isPrivate is true if only this machine may call, and without a token.
	isPrivate bool
}

var errLongModel = errors.New("the model is too long")

// Most memory that a call needs is garbage at its end. So little stays that Go's default would collect garbage many
// times a second. Let it grow to nine times what stays, and to heapLimit in all.
const (
	garbagePercent = 800
	heapLimit      = 512 << 20
)

// leastAtOnce is the least number of processors for this program, so that a long body doesn't hold up small ones.
const leastAtOnce = 2

// atOnce returns on how many of the processors this program runs at once: on half of them, or on all that the engines
// leave. On more, its threads would take time from the engines just to wake each other.
func atOnce(processors, engines int) int {
	number := processors - engines
	if half := processors / 2; number < half {
		number = half
	}
	if number < leastAtOnce {
		number = leastAtOnce
	}
	if number > processors {
		number = processors
	}
	return number
}

// setRuntime tells Go's runtime how many processors and how much memory to use. The environment overrides the
// processors.
func setRuntime(engines int) {
	debug.SetGCPercent(garbagePercent)
	debug.SetMemoryLimit(heapLimit)
	if os.Getenv("GOMAXPROCS") == "" {
		runtime.GOMAXPROCS(atOnce(runtime.NumCPU(), engines))
	}
}

// Run serves until the context ends and all accepted requests are answered.
func Run(ctx context.Context, options Options) error {
	setRuntime(options.Processes)
	s, err := newService(ctx, options)
	if err == nil {
		err = s.begin(ctx)
	}
	if err != nil && ctx.Err() != nil {
		options.Log("ended before it began to serve")
		return nil
	}
	if err != nil {
		return err
	}
	go s.renew(ctx)
	if options.Releases != "" {
		go s.follow(ctx)
	}
	return s.serve(ctx)
}

func newService(ctx context.Context, options Options) (*Service, error) {
	version, err := engine.Version(ctx, options.Engine)
	if err != nil {
		return nil, err
	}
	s := &Service{options: options, version: version, engineHeader: []string{version}, statePath: options.State}
	s.knows = engine.Knows(ctx, options.Engine)
	if options.AddressLimit == 0 {
		s.options.AddressLimit = MaxConnections / 2
	}
	s.places, s.isPrivate = newConnections(MaxConnections, s.options.AddressLimit), isPrivate(options.Listener) && !options.IsOpen
	s.clients, s.turns = newClients(options.ClientLimit, options.Limit), newTurns()
	s.bodies.limit = bodiesLimit
	s.explaining, s.trying = make(chan struct{}, options.Processes), make(chan struct{}, 1)
	s.metrics = newMetrics(s)
	if s.statePath == "" && options.Journal != "" && options.Releases == "" {
		s.statePath = filepath.Join(options.Journal, stateName)
	}
	return s, s.loadTokens()
}

// stateName is the file in the journal's folder that keeps the model last put.
const stateName = "model.json"

func (s *Service) loadTokens() error {
	if s.options.Tokens == "" {
		return nil
	}
	all, err := readTokens(s.options.Tokens)
	if err != nil {
		return err
	}
	s.tokens.Store(&all)
	return nil
}

// begin opens the journal, reads the model and starts the engines.
func (s *Service) begin(ctx context.Context) error {
	if s.options.Journal != "" {
		if err := s.openJournal(); err != nil {
			return err
		}
	}
	model, err := s.firstModel(ctx)
	if err != nil {
		return err
	}
	s.model.Store(model)
	s.pool = engine.Start(engine.Options{
		Path: s.options.Engine, Processes: s.options.Processes, Memory: s.options.Memory, Tells: s.recorder != nil,
		Measures: s.options.Access != nil,
		Deadline: s.options.Deadline, Patience: waitPatience, Died: s.died,
	}, model.engine)
	ctx, stop := context.WithTimeout(ctx, putPatience)
	defer stop()
	if err := s.pool.Settle(ctx); err != nil {
		return err
	}
	return s.openPartitions()
}

// openJournal opens the journal.
func (s *Service) openJournal() error {
	r := &recorder{}
	var err error
	if r.redact, err = newRedactor(s.options.Redact, s.options.RedactKey); err != nil {
		return err
	}
	if r.engine, err = programOf(s.options.Engine, s.version); err != nil {
		return err
	}
	own, err := os.Executable()
	if err != nil {
		return fmt.Errorf("finding this program: %w", err)
	}
	if r.program, err = programOf(own, s.options.Version); err != nil {
		return err
	}
	opened, repaired, err := journal.Open(s.options.Journal, journal.Options{Size: s.options.JournalSize, Keep: s.options.Keep,
		Limit: s.options.JournalLimit, Synced: s.metrics.synced, Ended: s.fileEnded, Pruned: s.filesPruned})
	if err != nil {
		return err
	}
	for _, sentence := range repaired {
		s.options.Log("journal: %s", sentence)
	}
	if n, sum := opened.Begun(); n > 0 {
		s.options.Log("journal: it goes on after entry %d, whose sum is %s", n, sum)
	}
	r.journal = opened
	s.recorder = r
	return nil
}

// fileEnded logs the head of the journal's chain, to be kept where the journal's owner can't change it.
func (s *Service) fileEnded(path string, last uint64, sum string) {
	s.options.Log("journal: %s ended; the head of the chain is %s, at entry %d", path, sum, last)
}

func (s *Service) filesPruned(paths []string, last uint64, err error) {
	if err != nil {
		s.options.Log("journal: not all of %s could be removed: %v", strings.Join(paths, ", "), err)
		return
	}
	s.options.Log("journal: %s were removed, with the entries up to %d", strings.Join(paths, ", "), last)
}

// firstModel returns the release in force, or the model last put if one was kept, or else that of the command line.
func (s *Service) firstModel(ctx context.Context) (*served, error) {
	if s.options.Releases != "" {
		if s.options.Journal != "" {
			s.logUnserved(filepath.Join(s.options.Journal, stateName))
		}
		return s.firstRelease(ctx)
	}
	if s.statePath == "" {
		return s.read(ctx, s.options.Model, originFiles)
	}
	put, err := readState(s.statePath)
	if err != nil {
		return nil, err
	}
	if put == nil {
		return s.read(ctx, s.options.Model, originFiles)
	}
	model, err := s.read(ctx, put, originPut)
	if err != nil {
		return nil, fmt.Errorf("the model last put, in %s: %w", s.statePath, err)
	}
	if model.wholeSum != s.options.Model.Sum() {
		s.isOverridden = true
		s.options.Log("serving the model last put, from %s, and not %s; to go back, remove that file. %s", s.statePath,
			s.options.Named, put.namedBy().story())
	}
	return model, nil
}

// logUnserved logs that a model was put before there was a folder of releases, whose files are served now.
func (s *Service) logUnserved(path string) {
	switch put, err := readState(path); {
	case err != nil:
		s.options.Log("the model last put is not known: %v", err)
	case put != nil:
		s.options.Log("the model last put, in %s, is not served, since %s has releases. %s", path, s.options.Releases, put.namedBy().story())
	}
}

// story says who put a model.
func (r *Release) story() string {
	if r.Who == "" {
		return "Who put it was not kept"
	}
	text := fmt.Sprintf("It was put by %s, %s, as %s %s", r.Who, r.When, r.Name, r.Version)
	if r.Why != "" {
		text += ": " + r.Why
	}
	return text
}

func (s *Service) died(number int, err error) {
	s.metrics.restarts.Inc()
	s.options.Log("engine %d ended and is begun anew: %v", number, err)
}

// renew begins new journal files, and reads the tokens again, whenever Turn says so.
func (s *Service) renew(ctx context.Context) {
	for {
		select {
		case <-ctx.Done():
			return
		case <-s.options.Turn:
		}
		if s.recorder != nil {
			if err := s.recorder.journal.Turn(); err != nil {
				s.options.Log("%v", err)
			}
		}
		if err := s.loadTokens(); err != nil {
			s.options.Log("the tokens stay as they were: %v", err)
		}
		if s.options.Releases != "" {
			s.followOnce(ctx, true)
		}
		said := "the journal has new files, and the tokens were read again"
		if s.options.Reload != nil {
			if err := s.options.Reload(); err != nil {
				s.options.Log("the certificates stay as they were: %v", err)
			} else {
				said += ", and so were the certificates"
			}
		}
		s.options.Log("%s", said)
	}
}

type connectionKey struct{}

// serve answers until the context ends, and then ends in order: no new connections, then accepted requests, then the
// engines, then the journal.
func (s *Service) serve(ctx context.Context) error {
	server := s.server(s.handler(), s.places)
	open := s.options.Listener
	if s.options.TLS != nil {
		open = tls.NewListener(open, s.options.TLS)
	}
	listener := &boundListener{Listener: open, places: s.places, ended: make(chan struct{}), refused: s.refusedConnection}
	failed := make(chan error, 1)
	go func() {
		failed <- server.Serve(listener)
	}()
	if s.options.Admin != nil {
		stop := s.serveAdmin()
		defer stop()
	}
	model := s.model.Load()
	s.options.Log("serving %s, SHA-256 %s, on %s with %d engines of version %s",
		s.originOf(model), model.wholeSum, s.url(), s.options.Processes, s.version)
	notify("READY=1")
	select {
	case err := <-failed:
		return fmt.Errorf("serving: %w", err)
	case <-s.partitionsEnded():
		return fmt.Errorf("asking the partitions: %w", s.partitions.Err())
	case <-ctx.Done():
	}
	return s.stop(server, listener, failed)
}

func (s *Service) originOf(model *served) string {
	switch model.origin {
	case originPut:
		return "the model last put"
	case originRelease:
		return "the release " + model.called()
	}
	return s.options.Named
}

// server returns a server whose connections are counted.
func (s *Service) server(handler http.Handler, places *connections) *http.Server {
	return &http.Server{
		Handler:           handler,
		ReadHeaderTimeout: headerPatience,
		ReadTimeout:       readPatience,
		WriteTimeout:      s.options.answerPatience(),
		IdleTimeout:       idlePatience,
		MaxHeaderBytes:    maxHeader,
		ErrorLog:          log.New(&logWriter{s.options.Log}, "", 0),
		ConnState:         places.see,
		ConnContext: func(ctx context.Context, connection net.Conn) context.Context {
			return context.WithValue(ctx, connectionKey{}, connection)
		},
	}
}

// serveAdmin answers operators, and returns a function that ends it.
func (s *Service) serveAdmin() func() {
	places := newConnections(maxAdmin, maxAdmin)
	server := s.server(s.adminHandler(), places)
	listener := &boundListener{Listener: s.options.Admin, places: places, ended: make(chan struct{}), refused: func(net.Addr) {}}
	go func() {
		if err := server.Serve(listener); !errors.Is(err, http.ErrServerClosed) {
			s.options.Log("nobody can look after the service any more: %v", err)
		}
	}()
	s.options.Log("looked after at %s", s.options.Admin.Addr())
	return func() { _ = server.Close() }
}

// url returns the service's address.
func (s *Service) url() string {
	at := s.options.Listener.Addr()
	switch {
	case at.Network() == "unix":
		return "unix:" + at.String()
	case s.options.TLS != nil:
		return "https://" + at.String()
	}
	return "http://" + at.String()
}

// stop ends in order. Ended receives once no connection is accepted any more.
func (s *Service) stop(server *http.Server, listener net.Listener, ended <-chan error) error {
	notify("STOPPING=1")
	s.options.Log("ending: what was taken is answered")
	ctx, stop := context.WithTimeout(context.Background(), stopPatience)
	defer stop()
	s.stopping.Store(true)
	if !s.options.Shared {
		if err := shutOut(s.options.Listener); err != nil {
			s.options.Log("connections that were not accepted yet may be cut off: %v", err)
		}
	}
	_ = listener.Close()
	<-ended
	// The holder of an open connection may have sent a request that isn't read yet. Each answer says that it is the
	// last.
	for until := time.Now().Add(drainPatience); s.places.count() > 0 && time.Now().Before(until); {
		time.Sleep(10 * time.Millisecond)
	}
	var first error
	note := func(err error) {
		if err != nil && first == nil {
			first = err
		}
	}
	if err := server.Shutdown(ctx); err != nil {
		note(fmt.Errorf("ending: some requests took too long: %w", err))
		_ = server.Close()
	}
	if s.partitions != nil {
		note(s.partitions.Close(ctx))
	}
	note(s.pool.Close(ctx))
	if s.recorder != nil {
		note(s.recorder.journal.Close())
	}
	if first == nil {
		s.options.Log("ended: all that was taken is answered")
	}
	return first
}

// notify reports the state of the service to systemd, if that started it as such.
func notify(state string) {
	path := os.Getenv("NOTIFY_SOCKET")
	if path == "" {
		return
	}
	if path[0] == '@' {
		path = "\x00" + path[1:]
	}
	connection, err := net.DialUnix("unixgram", nil, &net.UnixAddr{Name: path, Net: "unixgram"})
	if err != nil {
		return
	}
	defer connection.Close()
	_, _ = connection.Write([]byte(state))
}

// logWriter passes on lines of net/http.
type logWriter struct {
	log func(form string, words ...any)
}

func (w *logWriter) Write(text []byte) (int, error) {
	w.log("http: %s", text)
	return len(text), nil
}
