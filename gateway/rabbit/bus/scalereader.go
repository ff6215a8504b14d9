package bus

import "math/rand"

// scaleOpen limits the scale stream's messages in flight.
const scaleOpen = 512

// Each look at the stream leaves a mark in it. To keep looks equally cheap, owners write down what everything before says,
// after stateAfter to twice as many messages, and looks begin scaleBack messages before the end. If no such record is among
// these, as after a long time without an owner, all is read.
const (
	stateAfter = 250
	scaleBack  = 4 * stateAfter
)

// A ScaleReader has read that stream up to its recent end. Pass what arrives later to Take.
type ScaleReader struct {
	Scaling
	reader Reader
	from   int64     // the offset from which it reads
	known  bool      // whether it knows what is before
	early  []Message // records read while it didn't
	stated int64     // the offset up to which the newest state record reaches
	after  int64     // after how many more messages it is written down
}

// ReadScale reads the stream with the number of partitions.
func ReadScale(link Link) (*ScaleReader, error) {
	last, err := lastOfScale(link)
	if err != nil {
		return nil, err
	}
	end, err := endOf(last)
	if err != nil {
		return nil, err
	}
	return readScale(link, end, func(message Message) bool { return message.Offset >= end })
}

// LookAtScale reads the whole stream so far, after what is known: it marks the end.
func LookAtScale(link Link, known Scaling) (*Scaling, error) {
	if known.next > 0 {
		return lookFrom(link, known)
	}
	last, err := lastOfScale(link)
	if err != nil {
		return nil, err
	}
	isMark, err := markScale(link)
	if err != nil {
		return nil, err
	}
	end, err := endOf(last)
	if err != nil {
		return nil, err
	}
	r, err := readScale(link, end, isMark)
	if err != nil {
		return nil, err
	}
	return &r.Scaling, r.reader.Close()
}

// lookFrom reads what comes after what is known.
func lookFrom(link Link, known Scaling) (*Scaling, error) {
	r := &ScaleReader{Scaling: known.copied(), from: known.next, known: true}
	if err := r.open(link); err != nil {
		return nil, err
	}
	isMark, err := markScale(link)
	if err != nil {
		return nil, err
	}
	if err := r.readTo(isMark); err != nil {
		return nil, err
	}
	return &r.Scaling, r.reader.Close()
}

// markScale marks the stream's end, and returns what recognizes the mark.
func markScale(link Link) (isMark func(Message) bool, err error) {
	mark, err := NewMark()
	if err != nil {
		return nil, err
	}
	publisher, err := link.Appender()
	if err != nil {
		return nil, err
	}
	if err := publisher.Append(LookRoute, Headers{MarkHeader: mark}, nil); err != nil {
		return nil, err
	}
	if err := publisher.Settle(); err != nil {
		return nil, err
	}
	return func(message Message) bool { return message.Headers[MarkHeader] == mark }, publisher.Close()
}

// lastOfScale starts to read the last messages.
func lastOfScale(link Link) (Reader, error) {
	return link.Read(Reading{Stream: Scale, From: From{Place: Last}, Window: MostOpen, Brief: true})
}

// endOf returns the offset of one of the last messages.
func endOf(last Reader) (int64, error) {
	message, err := last.Next()
	if err != nil {
		return 0, err
	}
	return message.Offset, last.Close()
}

// readScale reads the stream's end up to a message, or all of it if that doesn't say what was before.
func readScale(link Link, end int64, isLast func(Message) bool) (*ScaleReader, error) {
	if from := end - scaleBack; from > 0 {
		r := &ScaleReader{from: from, after: keepAfter()}
		if err := r.open(link); err != nil {
			return nil, err
		}
		if err := r.readTo(isLast); err != nil || r.known {
			return r, err
		}
		if err := r.reader.Close(); err != nil {
			return nil, err
		}
	}
	r := &ScaleReader{known: true, after: keepAfter()}
	if err := r.open(link); err != nil {
		return nil, err
	}
	return r, r.readTo(isLast)
}

// keepAfter differs between processes, so that one of them writes first.
func keepAfter() int64 { return stateAfter + rand.Int63n(stateAfter) }

func (r *ScaleReader) open(link Link) (err error) {
	r.reader, err = link.Read(Reading{Stream: Scale, From: FromOffset(r.from), Window: scaleOpen})
	return err
}

// readTo reads up to a message.
func (r *ScaleReader) readTo(isLast func(Message) bool) error {
	for {
		message, err := r.reader.Next()
		if err != nil {
			return err
		}
		if r.Take(message); isLast(message) {
			return nil
		}
	}
}

// Take takes the stream's next message, and reports whether it counts.
func (r *ScaleReader) Take(message Message) bool {
	state, is := readState(message)
	if is && state.next > r.stated {
		r.stated = state.next
	}
	switch {
	case r.known:
		return r.Scaling.Take(message)
	case is && state.next >= r.from:
		r.begin(state)
		r.next = message.Offset + 1
		return true
	case message.Topic(RequestsExchange) == TopicScale:
		r.early = append(r.early, message)
	}
	return false
}

// begin takes what all messages before an offset say. Those after it were read.
func (r *ScaleReader) begin(state Scaling) {
	upto := state.next
	r.Scaling, r.known = state, true
	for _, message := range r.early {
		if message.Offset >= upto {
			r.Scaling.Take(message)
		}
	}
	r.early = nil
}

// isLong reports whether it is time to write down the state: enough messages follow the newest state record.
func (r *ScaleReader) isLong() bool { return len(r.All) > 0 && r.next-r.stated > r.after }

// Arrivals has later messages.
func (r *ScaleReader) Arrivals() <-chan Message { return r.reader.Arrivals() }

// copied returns a copy.
func (s *Scaling) copied() Scaling {
	return Scaling{All: append([]Settings(nil), s.All...), Open: s.Open, next: s.next}
}
