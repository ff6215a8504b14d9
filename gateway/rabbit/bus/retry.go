package bus

import (
	"context"
	"errors"
	"fmt"
	"math/rand"
	"time"

	"gateway/rabbit/logs"
)

// Pauses between two attempts.
const (
	firstPause   = 250 * time.Millisecond
	longestPause = 10 * time.Second // if no broker is reached
	reachedPause = 2 * time.Second  // the longest if one is
	// steady is how long work must last before its failure counts as the first again.
	steady = 30 * time.Second
)

// each is how many failures in a row there are between two reports.
const each = 100

// A Final error is not retried: what it says must be done first.
type Final struct{ Reason error }

func (f *Final) Error() string { return f.Reason.Error() }

func (f *Final) Unwrap() error { return f.Reason }

// A pace says how long to wait after a failure: twice as long each time. Pauses without a reachable broker, and pauses after
// failures at one, grow independently.
type pace struct {
	away bool
	next time.Duration
}

// pause returns the longest wait after work that lasted this long.
func (p *pace) pause(failure error, lasted time.Duration) time.Duration {
	away, longest := errors.Is(failure, ErrAway), reachedPause
	if away {
		longest = longestPause
	}
	if away != p.away || lasted > steady || p.next == 0 {
		p.away, p.next = away, firstPause
	}
	pause := p.next
	if p.next *= 2; p.next > longest {
		p.next = longest
	}
	return pause
}

// Again does the work on a bus until it ends without an error or with a final one, the context ends, or the bus says that it
// can't be done: the user lacks permission, or the request is wrong. After a failure it waits, at most twice as long each time:
// up to 10 s if no broker is reached, and up to 2 s if one is. It reports the first failure in a row and each hundredth.
func Again(ctx context.Context, on Bus, log *logs.Log, work func(ctx context.Context) error) error {
	var pace pace
	var doubts doubts
	for failures := 1; ; failures++ {
		begun := time.Now()
		err := work(ctx)
		if err == nil || ctx.Err() != nil {
			return ctx.Err()
		}
		var final *Final
		if errors.As(err, &final) {
			return err
		}
		if err := doubts.final(on.Judge(err), err); err != nil {
			return err
		}
		lasted := time.Since(begun)
		if lasted > steady {
			failures = 1
		}
		if failures == 1 || failures%each == 0 {
			log.Warning("failure %d in a row: %v; trying again", failures, err)
		}
		pause := pace.pause(err, lasted)
		// Not all return at once.
		on.Pause(ctx, pause/2+time.Duration(rand.Int63n(int64(pause/2))))
		if ctx.Err() != nil {
			return ctx.Err()
		}
	}
}

// doubtful is how often in a row a permission or certificate may be doubted.
const doubtful = 5

// A doubts counts doubted failures in a row.
type doubts struct{ count int }

// final returns the failure as a final one if it can't pass.
func (d *doubts) final(is Judgement, failure error) error {
	switch is {
	case Refused, Wrong:
	case Doubted, Untrusted:
		if d.count++; d.count < doubtful {
			return nil
		}
	default:
		d.count = 0
		return nil
	}
	return &Final{is.withAdvice(failure)}
}

// withAdvice returns a failure that can't pass, with what to do.
func (j Judgement) withAdvice(failure error) error {
	switch j {
	case Wrong:
		return fmt.Errorf("the broker can't do this: %w", failure)
	case Untrusted:
		return fmt.Errorf("the broker's certificate isn't trusted: %w (SSL_CERT_FILE names a CA of your own)", failure)
	}
	return fmt.Errorf("the broker's user has no right to this: %w (ops/rabbitmq/rights gives the rights)", failure)
}
