package sender

import (
	"time"

	"gateway/rabbit/bus"
)

const (
	inVain   = 2  // after this many vain waits in a row, lines don't wait
	tryAfter = 16 // after this many messages since then waiting is tried again
)

// A gathering decides how long lines wait for more after the last message. A wait is vain if no line comes in its last half, as
// when each request waits for the previous answer: then waiting costs time and saves nothing.
type gathering struct {
	begun time.Time // when the present lines began to wait, or zero
	vain  int       // how many vain waits there were in a row
	since int       // how many messages were sent since the last wait
}

// rest returns how much longer lines wait at now, if the last message was sent at last.
func (g *gathering) rest(now, last time.Time) time.Duration {
	rest := bus.LineGather - now.Sub(last)
	if rest <= 0 || g.vain >= inVain && g.since < tryAfter {
		return 0
	}
	if g.begun.IsZero() {
		g.begun = now
	}
	return rest
}

// sent notes that a message is sent at now, whose last line came at came.
func (g *gathering) sent(now, came time.Time) {
	switch {
	case g.begun.IsZero():
		g.since++
	case now.Sub(came) > now.Sub(g.begun)/2:
		*g = gathering{vain: g.vain + 1}
	default:
		*g = gathering{}
	}
}
