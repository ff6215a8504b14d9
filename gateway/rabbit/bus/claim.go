package bus

import (
	"fmt"
	"time"

	"gateway/rabbit/ledger"
)

// A Claim is one process's claim of a name. The stream Registry has the claims of all names. A claim's place there is the epoch
// of its process: of two processes with one name the later claim has the greater epoch, wherever else their lines meet.
//
// A process claims its name in the registry before any partition, and checks the registry after its last line is confirmed. If
// it finds no newer claim then, no partition has skipped one of its lines: a newer claim before that line would have been in
// the registry already.
//
// Kafka: the transactional.id. Its coordinator keeps the epochs, and each partition fences older ones by itself; here each
// partition's log has its own claim, and its owner and readers fence.
type Claim struct {
	Epoch    int64
	name     string
	reader   Reader
	appender Appender
}

// TokenHeader is the header by which a process finds its own message.
const TokenHeader = "token"

// A Superseded error means that a newer process has claimed the name.
type Superseded struct {
	Name  string
	Epoch int64 // the newer process's
	Since time.Time
}

func (s *Superseded) Error() string {
	return fmt.Sprintf("another process sends as %q since %s", s.Name, s.Since.UTC().Format(time.RFC3339))
}

// ClaimName claims a name, which gives the process the greatest epoch.
//
// Kafka: initTransactions. It ends what an older producer has begun, while our batches continue.
func ClaimName(link Link, name string) (*Claim, error) {
	c, err := openClaim(link, name, From{Place: Last})
	if err == nil {
		err = c.claim()
	}
	if err != nil {
		return nil, fmt.Errorf("claiming the name %q: %w", name, err)
	}
	return c, nil
}

// FindClaim continues the claim with this epoch over another link.
func FindClaim(link Link, name string, epoch int64) (*Claim, error) {
	c, err := openClaim(link, name, FromOffset(offsetOf(epoch)))
	if err != nil {
		return nil, err
	}
	c.Epoch = epoch
	return c, nil
}

func openClaim(link Link, name string, from From) (*Claim, error) {
	appender, err := link.Appender()
	if err != nil {
		return nil, err
	}
	reader, err := link.Read(Reading{Stream: Registry, From: from, Window: MostOpen})
	if err != nil {
		return nil, err
	}
	return &Claim{name: name, reader: reader, appender: appender}, nil
}

// offsetOf returns the place of the claim of an epoch; 0 is no epoch.
func offsetOf(epoch int64) int64 { return epoch - 1 }

// epochOf returns the epoch of a claim.
func epochOf(claim Message) int64 { return claim.Offset + 1 }

// claim appends the claim, and waits for its place.
func (c *Claim) claim() error {
	token, err := NewMark()
	if err != nil {
		return err
	}
	headers := OriginHeaders(ledger.Origin{Kind: ledger.Claim, Sender: c.name, Named: true})
	headers[TokenHeader] = token
	if err := c.append(headers); err != nil {
		return err
	}
	for {
		message, err := c.reader.Next()
		if err != nil {
			return err
		}
		if message.Headers[TokenHeader] == token {
			c.Epoch = epochOf(message)
			return nil
		}
	}
}

func (c *Claim) append(headers Headers) error {
	if err := c.appender.Append(RegistryRoute, headers, nil); err != nil {
		return err
	}
	return c.appender.Settle()
}

// Reader reads the registry; pass what arrives to Look.
func (c *Claim) Reader() Reader { return c.reader }

// Look takes the registry's next message. The error is *Superseded if it is a newer claim of the name.
//
// Kafka: ProducerFencedException, at the producer's next call.
func (c *Claim) Look(message Message) error {
	from, err := ReadOrigin(message)
	if err == nil && from.Kind == ledger.Claim && from.Sender == c.name && epochOf(message) > c.Epoch {
		return &Superseded{Name: c.name, Epoch: epochOf(message), Since: from.Sent}
	}
	return nil
}

// Check reads the registry up to its end. The error is *Superseded if there is a newer claim of the name.
func (c *Claim) Check() error {
	token, err := NewMark()
	if err != nil {
		return err
	}
	if err := c.append(Headers{TokenHeader: token}); err != nil {
		return err
	}
	for {
		message, err := c.reader.Next()
		if err != nil {
			return err
		}
		if err := c.Look(message); err != nil {
			return err
		}
		if message.Headers[TokenHeader] == token {
			return nil
		}
	}
}
