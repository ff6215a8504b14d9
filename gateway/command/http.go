package command

import (
	"bytes"
	"context"
	"encoding/json"
	"errors"
	"fmt"
	"io"
	"net"
	"os"
	"os/signal"
	"runtime"
	"strconv"
	"strings"
	"syscall"
	"time"

	"github.com/spf13/cobra"
	"github.com/spf13/pflag"

	"gateway/dmn"
	"gateway/engine"
	"gateway/lines"
	"gateway/profile"
	"gateway/service"
)

// httpOptions are the options of http.
type httpOptions struct {
	service     service.Options
	listen      string
	admin       string
	open        bool
	tls         tlsFiles
	reading     profile.Options
	deadline    duration
	memory      size
	journalSize size
	// journalLimit is 0 for a journal of any size, keep for one kept forever.
	journalLimit size
	log          string
	keep         days
	partitions   bool
	wait         duration
	keepAnswers  duration
}

func httpCommand() *cobra.Command {
	options := httpOptions{deadline: duration(2 * time.Second), memory: 1 << 30, journalSize: 256 << 20, wait: duration(2 * time.Second),
		keepAnswers: duration(10 * time.Minute)}
	c := &cobra.Command{
		Use:   "http [OPTIONS] MODEL.json|FILE.dmn..|-",
		Short: "Answers requests to the services of a model over HTTP",
		Long: `Engines beside the service evaluate; one that hangs or ends is replaced. On SIGTERM the service answers all that it took,
and ends with status 0. SIGHUP begins new journal files, and reads the tokens and
the release in force again. docs/HTTP.md has every path.

Where others than this machine can reach the address, callers need tokens (--tokens), unless --open says that anyone may
call.`,
		Example: `  desk http examples/parcel.json
  curl http://127.0.0.1:8080/v1/services/shipping -d '{"weight":5,"express":false}'`,
		ValidArgsFunction: completeFiles("json", "dmn"),
		RunE: func(c *cobra.Command, files []string) error {
			if len(files) == 0 && options.service.Releases == "" {
				return wrong("a model is due: %s", usageOf(c))
			}
			return runHTTP(c, files, options)
		},
	}
	flags := c.Flags()
	flags.StringVar(&options.listen, "listen", "",
		"Listen at this `ADDRESS`, or unix:FILE (default 127.0.0.1:8080, or the socket that systemd passes)")
	flags.StringVar(&options.admin, "admin", "", "Answer /healthz, /readyz and /metrics at this `ADDRESS` too, and /metrics there alone")
	flags.BoolVar(&options.open, "open", false, "Let anyone call who can reach the address, by any name, without a token")
	options.tls.add(flags)
	flags.IntVar(&options.service.AddressLimit, "address-limit", service.MaxConnections/2, "Allow this `NUMBER` of connections from one address")
	processesFlag(flags, &options.service.Processes)
	flags.Var(&options.deadline, "deadline", "Give one request this long, 10ms to 1h")
	flags.Var(&options.memory, "memory", "Limit the address space of each engine, from 32MiB on; 0 for no limit")
	flags.StringVar(&options.service.Tokens, "tokens", "", "Ask callers for one of the tokens in this `FILE`")
	flags.StringVar(&options.service.Journal, "journal", "", "Record each answer in this `FOLDER` before it is given")
	flags.Var(&options.journalSize, "journal-size", "Begin another file of the journal at about this size")
	flags.Var(&options.journalLimit, "journal-limit", "Remove the oldest files of the journal past this size in all; 0 for none")
	flags.Var(&options.keep, "keep", "Remove files of the journal after this time, as 400d; 0 for never")
	flags.StringArrayVar(&options.service.Redact, "redact", nil,
		"Keep an HMAC of the input of this `NAME` in the journal, not its value; may come several times")
	flags.StringVar(&options.service.RedactKey, "redact-key", "", "Read the key of the HMACs from this `FILE`")
	flags.StringVar(&options.service.Releases, "releases", "",
		"Serve the release in force in this `FOLDER`, and follow it; MODEL is served until there is one")
	flags.StringVar(&options.service.State, "state", "",
		"Keep the model last put in this `FILE` (default model.json in the journal's folder)")
	flags.IntVar(&options.service.ClientLimit, "client-limit", 10_000, "Allow this `NUMBER` of unanswered requests per client")
	flags.IntVar(&options.service.Limit, "limit", 50_000, "Allow this `NUMBER` of unanswered requests in all")
	flags.BoolVar(&options.service.Lenient, "lenient", false, "Ignore inputs that a .dmn file doesn't have, and take a missing or null one as null")
	flags.StringVar(&options.log, "log", logText, "Write the log in this `FORM`: text, or json, which has a line for each call too")
	partitionFlags(flags, &options)
	readingFlags(flags, &options.reading)
	return c
}

func runHTTP(c *cobra.Command, files []string, o httpOptions) error {
	options := o.service
	options.Deadline, options.Memory, options.JournalSize = time.Duration(o.deadline), uint64(o.memory), int64(o.journalSize)
	options.JournalLimit, options.Keep, options.Version = int64(o.journalLimit), time.Duration(o.keep), version
	if err := setPartitions(&options, c, o); err != nil {
		return err
	}
	if err := options.Check(); err != nil {
		return wrong("%w", err)
	}
	if err := setLog(&options, c.ErrOrStderr(), o.log); err != nil {
		return err
	}
	options.Turn = turns()
	// A log without a reader ends no service.
	signal.Notify(make(chan os.Signal, 1), syscall.SIGPIPE)
	ctx, stop := untilStopped(c)
	defer stop()
	return reported(c.ErrOrStderr(), serveHTTP(ctx, c, files, o, options))
}

// untilStopped returns a context that ends with SIGTERM or SIGINT.
func untilStopped(c *cobra.Command) (context.Context, context.CancelFunc) {
	return signal.NotifyContext(c.Context(), os.Interrupt, syscall.SIGTERM)
}

// turns returns a channel that receives a value for each SIGHUP.
func turns() <-chan struct{} {
	hangUp := make(chan os.Signal, 1)
	signal.Notify(hangUp, syscall.SIGHUP)
	turn := make(chan struct{})
	go func() {
		for range hangUp {
			turn <- struct{}{}
		}
	}()
	return turn
}

// maxProcesses is the most engines.
const maxProcesses = 64

// processesFlag adds the option for the number of engines.
func processesFlag(flags *pflag.FlagSet, count *int) {
	flags.IntVar(count, "processes", enginesFor(runtime.NumCPU()), "Run this `NUMBER` of engines, 1 to 64")
	flags.Lookup("processes").DefValue = "one per processor, at most 64"
}

// enginesFor returns the default number of engines on a machine.
func enginesFor(processors int) int { return least(processors, maxProcesses) }

// maxTried limits the pieces that engines are asked at once in a trial.
const maxTried = 2

func serveHTTP(ctx context.Context, c *cobra.Command, files []string, o httpOptions, options service.Options) error {
	var err error
	if options.Engine, err = engine.Path(); err != nil {
		return err
	}
	for _, note := range engineNotes(options.Engine) {
		options.Log("%s", note)
	}
	if len(files) > 0 {
		if options.Model, err = readModel(c, files, o.reading, options.Log); err != nil {
			return err
		}
	}
	options.ReadDMN = putDMN(o.reading, options.Log)
	options.Trier = &trier{path: options.Engine, memory: options.Memory, atOnce: least(options.Processes, maxTried),
		patience: options.Deadline + service.ExplainPatience}
	options.Named = strings.Join(files, " ")
	if err = setTLS(&options, o.tls); err != nil {
		return err
	}
	options.IsOpen = o.open
	isGuarded := o.open || options.Tokens != "" || o.tls.clientCA != ""
	if options.Listener, options.Shared, err = listen(o.listen, isGuarded); err != nil {
		return err
	}
	defer options.Listener.Close()
	if o.admin != "" {
		if options.Admin, err = listenAt("--admin", o.admin); err != nil {
			return err
		}
		defer options.Admin.Close()
	}
	return service.Run(ctx, options)
}

// reported adds a faulty model's places, one a line, and the status of such a model.
func reported(to io.Writer, err error) error {
	var faulty *engine.FaultyModel
	var places refusedPlaces
	var fault *lines.SyntaxFault
	switch {
	case errors.As(err, &faulty):
		for _, place := range faulty.Places {
			fmt.Fprintf(to, "%s\n", place)
		}
	case errors.As(err, &places):
		for _, place := range places {
			fmt.Fprintln(to, place)
		}
		return ended(statusRefused)
	case errors.As(err, &fault), errors.Is(err, service.ErrNoModel):
	default:
		return err
	}
	return refused(err)
}

// errOpen refuses to serve everyone unless asked to.
var errOpen = errors.New("anyone who can reach it would be answered; give --tokens FILE, or --open")

// defaultAddress is the default address of the service.
const defaultAddress = "127.0.0.1:8080"

// listen opens the address, or takes systemd's socket; shared says which. It refuses an address that other machines can reach
// unless mayBeOpen.
func listen(address string, mayBeOpen bool) (listener net.Listener, shared bool, err error) {
	if shared = address == "" && isPassed(); shared {
		listener, err = passed()
	} else {
		listener, err = listenAt("--listen", address)
	}
	if err != nil {
		return nil, shared, err
	}
	if at, is := listener.Addr().(*net.TCPAddr); is && !mayBeOpen && !at.IP.IsLoopback() {
		listener.Close()
		return nil, shared, wrong("listening at %s: %w", at, errOpen)
	}
	return listener, shared, nil
}

func listenAt(option, address string) (net.Listener, error) {
	if address == "" {
		address = defaultAddress
	}
	if path := strings.TrimPrefix(address, unixStart); path != address {
		return listenUnix(path)
	}
	if _, _, err := net.SplitHostPort(address); err != nil {
		return nil, wrong("%s %s: an address has a port, as %s, or is unix:FILE", option, address, defaultAddress)
	}
	listener, err := net.Listen("tcp", address)
	if err != nil {
		return nil, fmt.Errorf("listening: %w", err)
	}
	return listener, nil
}

// isPassed reports whether systemd passes a socket to this process.
func isPassed() bool {
	return os.Getenv("LISTEN_PID") == strconv.Itoa(os.Getpid()) && os.Getenv("LISTEN_FDS") != ""
}

// firstPassed is the first descriptor from systemd.
const firstPassed = 3

func passed() (net.Listener, error) {
	syscall.CloseOnExec(firstPassed)
	file := os.NewFile(firstPassed, "socket")
	defer file.Close()
	listener, err := net.FileListener(file)
	if err != nil {
		return nil, fmt.Errorf("listening at the socket that systemd passed: %w", err)
	}
	return listener, nil
}

// readModel reads the command line's files: one JSON model, or DMN files.
func readModel(c *cobra.Command, files []string, options profile.Options, log func(string, ...any)) (*service.Source, error) {
	if err := oneStdin(files); err != nil {
		return nil, err
	}
	if len(files) > 1 || files[0] != dash && isDMN(files[0], nil) {
		return readDMN(files, func(path string) (*dmn.File, error) { return readFile(c, path) }, options, log)
	}
	text, err := readAll(c, files[0])
	if err != nil {
		return nil, fmt.Errorf("reading the model: %w", err)
	}
	if isDMN(files[0], text) {
		return readDMN(files, func(path string) (*dmn.File, error) { return dmn.Read(stdinName, bytes.NewReader(text)) }, options, log)
	}
	source, err := service.ReadSource(text)
	if err != nil {
		return nil, fmt.Errorf("%s: %w", shownAs(files[0]), err)
	}
	return source, nil
}

// putDMN reads uploaded DMN files.
func putDMN(options profile.Options, log func(string, ...any)) func(text []byte) (*service.Source, error) {
	return func(text []byte) (*service.Source, error) {
		return readDMN([]string{"the body"}, func(path string) (*dmn.File, error) {
			return dmn.Read(path, bytes.NewReader(text))
		}, options, log)
	}
}

// refusedPlaces is the error of DMN files with unsupported places.
type refusedPlaces []profile.Refusal

func (r refusedPlaces) Error() string {
	if len(r) == 1 {
		return r[0].String()
	}
	return fmt.Sprintf("%d places can't be taken; the first: %s", len(r), r[0])
}

// Errors returns each place as JSON.
func (r refusedPlaces) Errors() []json.RawMessage {
	var all []json.RawMessage
	for _, place := range r {
		text, err := json.Marshal(struct {
			Line    int    `json:"line"`
			Column  int    `json:"column"`
			Where   string `json:"where,omitempty"`
			Element string `json:"element,omitempty"`
			Name    string `json:"name,omitempty"`
			ID      string `json:"id,omitempty"`
			Text    string `json:"text,omitempty"`
			Said    string `json:"said"`
			Hint    string `json:"hint,omitempty"`
		}{place.Line, place.Column, place.Where, place.Element, place.Name, place.ID, place.Text, place.Why, place.Instead})
		if err == nil {
			all = append(all, text)
		}
	}
	return all
}

// readDMN reads DMN files, and translates them to one model.
func readDMN(paths []string, read func(path string) (*dmn.File, error), options profile.Options,
	log func(string, ...any)) (*service.Source, error) {
	var files []*dmn.File
	var refused refusedPlaces
	for _, path := range paths {
		file, err := read(path)
		var fault *dmn.Fault
		switch {
		case errors.As(err, &fault):
			refused = append(refused, profile.RefusalOf(shownAs(path), fault))
		case err != nil:
			return nil, fmt.Errorf("reading the model: %w", err)
		default:
			files = append(files, file)
		}
	}
	if len(refused) > 0 {
		return nil, refused
	}
	report := profile.Run(files, options)
	if report.Result == nil {
		return nil, refusedPlaces(report.Refusals)
	}
	if err := report.Result.UnknownNullable(); err != nil {
		log("%v", err)
	}
	for _, place := range report.Refusals {
		log("%s", place)
	}
	if summary := report.Summary(); summary != "" {
		log("%s", summary)
	}
	text, err := wholeImport(report.Result)
	if err != nil {
		return nil, fmt.Errorf("reading the model: %w", err)
	}
	return service.ReadSource(text)
}
