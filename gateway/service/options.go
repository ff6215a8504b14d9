package service

import (
	"crypto/tls"
	"fmt"
	"net"
	"time"
)

// Options say what a service should do.
type Options struct {
	// Engine is the file of the engine.
	Engine string
	// Model is from the command line, Named is how that names it.
	Model *Source
	Named string
	// ReadDMN reads .dmn files that are put; nil if they are refused.
	ReadDMN func(text []byte) (*Source, error)
	// Trier compares models over the journal; nil if that is refused.
	Trier Trier
	// Listener accepts connections. Shared means that its socket stays open when the service ends, so that another
	// process takes the waiting connections.
	Listener net.Listener
	Shared   bool
	// Admin accepts connections of operators; nil if they use Listener too.
	Admin net.Listener
	// TLS has the certificates of connections; nil for plain text. Reload reads its files again.
	TLS    *tls.Config
	Reload func() error
	// OpenPartitions opens partitions that answer the calls, given the model's line; nil if engines answer. Wait is how
	// long a call waits for them.
	OpenPartitions func(model []byte) (Partitions, error)
	Wait           time.Duration
	// IsOpen lets anyone call.
	IsOpen bool
	// AddressLimit is the most connections of one address at once.
	AddressLimit int
	// Lenient ignores inputs that a service doesn't know, even if the model has the types of its inputs.
	Lenient bool
	// Processes is the number of engines, Memory the limit of each one's address space in bytes (0 is none), and
	// Deadline how long an engine may take for one request.
	Processes int
	Memory    uint64
	Deadline  time.Duration
	// Tokens is a file of tokens, Journal a folder, State a file that keeps the model last put. Each may be empty.
	Tokens, Journal, State string
	// Releases is the folder of releases to follow, or empty.
	Releases string
	// JournalSize is about how many bytes a journal file may have. Keep is how long files are kept, and JournalLimit
	// how many bytes they may have in all; 0 is no limit.
	JournalSize, JournalLimit int64
	Keep                      time.Duration
	// Redact has the names of inputs whose values stay out of the journal, RedactKey the file with the key of their
	// sums.
	Redact    []string
	RedactKey string
	// Version is this program's.
	Version string
	// ClientLimit and Limit are the most unanswered requests of one client and in all.
	ClientLimit, Limit int
	// Log writes a line for the operator.
	Log func(form string, words ...any)
	// Access writes a line of the JSON log: one for each call, put, release and refused token; nil if the log is text.
	Access func(line []byte)
	// Turn receives when the journal should begin new files and the tokens should be read again.
	Turn <-chan struct{}
}

// Limits of the service.
const (
	// MaxBody is the most bytes of a body.
	MaxBody = 16 << 20
	// MaxList is the most requests in one call.
	MaxList = 10_000
	// bodiesLimit is the most bytes of unanswered bodies, in all.
	bodiesLimit = 256 << 20
	// MaxConnections is the most connections at once. More wait until one ends.
	MaxConnections = 8192
	// maxAdmin is the most connections of operators at once.
	maxAdmin  = 256
	maxHeader = 16 << 10

	headerPatience = 5 * time.Second
	readPatience   = 30 * time.Second
	writePatience  = 30 * time.Second
	idlePatience   = 75 * time.Second
	// waitPatience is how long a request may wait for an engine.
	waitPatience = 30 * time.Second
	// drainPatience is how long open connections may bring another request once the service is ending.
	drainPatience = 2 * time.Second
	// stopPatience is how long accepted requests may take then.
	stopPatience = 45 * time.Second
	// putPatience is how long engines may take to get a new model.
	putPatience = 60 * time.Second
	// engineRequests is the most requests that an engine has at once.
	engineRequests = 128
)

// answerPatience returns the longest that an answer can take, from the request's header on.
func (o *Options) answerPatience() time.Duration {
	return readPatience + waitPatience + (engineRequests+2)*o.Deadline + writePatience
}

// Check says what is wrong with the numbers in the options.
func (o *Options) Check() error {
	switch {
	case o.Processes < 1 || o.Processes > 64:
		return fmt.Errorf("--processes is a number from 1 to 64, not %d", o.Processes)
	case o.Deadline < 10*time.Millisecond || o.Deadline > time.Hour:
		return fmt.Errorf("--deadline is a time from 10ms to 1h, not %v", o.Deadline)
	case o.Memory != 0 && o.Memory < 32<<20:
		return fmt.Errorf("--memory is at least 32MiB: an engine takes some of it for itself")
	case o.ClientLimit < 1 || o.Limit < o.ClientLimit:
		return fmt.Errorf("--client-limit is at least 1, and --limit at least as much")
	case o.AddressLimit < 1 || o.AddressLimit > MaxConnections:
		return fmt.Errorf("--address-limit is a number from 1 to %d, not %d", MaxConnections, o.AddressLimit)
	case o.JournalSize < 1<<20:
		return fmt.Errorf("--journal-size is at least 1MiB")
	case o.JournalLimit != 0 && o.JournalLimit < 2*o.JournalSize:
		return fmt.Errorf("--journal-limit is at least twice --journal-size")
	case o.Keep < 0 || o.Keep != 0 && o.Keep < time.Hour:
		return fmt.Errorf("--keep is at least 1h")
	case o.Journal == "" && (o.JournalLimit != 0 || o.Keep != 0 || len(o.Redact) > 0):
		return fmt.Errorf("--keep, --journal-limit and --redact need --journal")
	case o.Releases != "" && o.State != "":
		return fmt.Errorf("--releases keeps what is put as releases, so --state can't be given too")
	case o.OpenPartitions != nil && (o.Journal != "" || o.Releases != "" || o.State != ""):
		return fmt.Errorf("--partitions has no --journal, --releases or --state: the brokers keep the answers, and the model is that of the " +
			"command line")
	case (len(o.Redact) > 0) != (o.RedactKey != ""):
		return fmt.Errorf("--redact needs --redact-key, and --redact-key needs --redact")
	}
	return nil
}
