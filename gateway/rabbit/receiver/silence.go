package receiver

import (
	"errors"
	"time"

	"gateway/rabbit/bus"
)

// errSilent means that another broker is to be tried.
var errSilent = errors.New("the broker may have further messages, and sends none")

// A silence is that of a reader without messages. If a stream's copy hangs at a broker, for example because retention cut what
// it was about to copy, its readers get no more messages, and no error. So if no message came for a while, the stream's end is
// requested, which its leader knows.
type silence struct {
	link   bus.Link
	stream string
	last   int64 // the offset of the last message at the last look
	asked  bool  // whether an answer is still due
	ends   chan int64
	end    bus.End
}

func newSilence(link bus.Link, stream string) *silence {
	return &silence{link: link, stream: stream, last: -1, ends: make(chan int64, 1)}
}

// look requests the end if this was the last message at the last look too. The broker may be slow, so the answer comes in ends.
func (s *silence) look(last int64) {
	if last != s.last || s.asked {
		s.last = last
		return
	}
	s.asked = true
	go func() { s.ends <- s.offset() }()
}

// offset returns the offset of the stream's last message, or -1 if unknown.
func (s *silence) offset() int64 {
	if s.end == nil {
		end, err := s.link.End(s.stream)
		if err != nil {
			return -1
		}
		s.end = end
	}
	offset, err := s.end.Offset()
	if err != nil {
		s.end = nil
		return -1
	}
	return offset
}

// pauseOf returns how often to check for silence.
func pauseOf(options Options) time.Duration {
	if pause := options.Idle / 3; pause > 0 && pause < bus.Patience {
		return pause
	}
	return bus.Patience
}

// leave leaves the broker if the stream has more messages and this reader was silent. The end may be too high, so this is done
// once for each end. A stream that is read from now on, and from which nothing came yet, isn't left, as messages would be
// missed.
func (r *Reader) leave(link bus.Link, s *silence, end int64) error {
	s.asked = false
	if end <= r.last || end == r.end || s.last != r.last || r.last < 0 && r.begin.Place == bus.Next {
		return nil
	}
	r.end, r.left = end, link.Address()
	r.options.Log.OfPartition(r.partition).Info("no message for %v, and some may be there: another broker is tried", r.pause.Round(time.Millisecond))
	return errSilent
}
