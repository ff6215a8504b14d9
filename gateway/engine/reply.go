package engine

import (
	"bufio"
	"bytes"
	"encoding/json"
	"errors"
	"fmt"
)

// MaxAnswer is the most bytes of an engine's answer. A longer result is given up.
const MaxAnswer = 16 << 20

// A reply is one line that an engine wrote.
type reply struct {
	// lane is the one that it names, or -1.
	lane int
	// line is the number of the line that it answers, or 0 if it has a ticket.
	line uint64
	// ticket is that of a result.
	ticket uint64
	// outcome is the outcome of a request.
	outcome Outcome
	// model is true if a model was taken.
	model bool
}

// readLine reads a line without its newline. Of one over MaxAnswer bytes it returns the beginning, and that it was cut.
// The bytes are valid until the next call.
func readLine(from *bufio.Reader) (text []byte, cut bool, err error) {
	text, err = from.ReadSlice('\n')
	if err == nil {
		return text[:len(text)-1], false, nil
	}
	room := append([]byte(nil), text...)
	for errors.Is(err, bufio.ErrBufferFull) {
		text, err = from.ReadSlice('\n')
		if len(room)+len(text) > MaxAnswer {
			cut = true
			continue
		}
		room = append(room, text...)
	}
	if err != nil {
		return nil, false, err
	}
	return bytes.TrimSuffix(room, []byte("\n")), cut, nil
}

// mostReplies is how many replies are read before their requests are settled.
const mostReplies = 64

// readReplies waits for a line of an engine, and reads it and those that came with it. Replies returned with an error
// came before it.
func readReplies(from *bufio.Reader, replies []reply) ([]reply, error) {
	return repliesBy(readLine, from, replies)
}

// A lineReader reads a line without its newline, or its beginning and that it was cut.
type lineReader func(from *bufio.Reader) (text []byte, cut bool, err error)

func repliesBy(read lineReader, from *bufio.Reader, replies []reply) ([]reply, error) {
	for {
		text, cut, err := read(from)
		if err != nil {
			return replies, err
		}
		r, err := readReply(text, cut)
		if err != nil {
			return replies, err
		}
		replies = append(replies, r)
		if len(replies) == mostReplies || !hasLine(from) {
			return replies, nil
		}
	}
}

// hasLine reports whether a whole line is there without waiting.
func hasLine(from *bufio.Reader) bool {
	there, _ := from.Peek(from.Buffered())
	return bytes.IndexByte(there, '\n') >= 0
}

var (
	clientKey = []byte(`{"client":"` + lanePrefix)
	resultKey = []byte(`","result":`)
	ticketKey = []byte(`,"ticket":`)
)

// readReply reads a line of an engine.
func readReply(text []byte, cut bool) (reply, error) {
	lane, rest := laneOf(text)
	if lane < 0 || !bytes.HasPrefix(rest, resultKey) {
		if r, is, err := readExplained(text, lane, rest, cut); is || err != nil {
			return r, err
		}
		return readOther(text, lane)
	}
	if cut {
		return reply{lane: lane, outcome: Outcome{Kind: Huge}, ticket: anyTicket}, nil
	}
	value := rest[len(resultKey):]
	at := bytes.LastIndex(value, ticketKey)
	if at < 0 {
		return reply{}, strange(text)
	}
	ticket, is := number(bytes.TrimSuffix(value[at+len(ticketKey):], []byte("}")))
	if !is {
		return reply{}, strange(text)
	}
	kept := append([]byte(nil), value[:at]...)
	return reply{lane: lane, ticket: ticket, outcome: Outcome{Kind: Result, Value: kept}}, nil
}

// laneOf returns the lane that a line begins with, and what follows its name; or -1.
func laneOf(text []byte) (int, []byte) {
	if !bytes.HasPrefix(text, clientKey) {
		return -1, text
	}
	rest := text[len(clientKey):]
	at := bytes.IndexByte(rest, '"')
	if at < 0 {
		return -1, text
	}
	lane, is := number(rest[:at])
	if !is || lane >= Lanes {
		return -1, text
	}
	return int(lane), rest[at:]
}

// mostDigits is how many digits a number surely below 2^64 may have.
const mostDigits = 19

// number reads a number of digits only.
func number(text []byte) (n uint64, is bool) {
	if len(text) == 0 || len(text) > mostDigits {
		return 0, false
	}
	for _, c := range text {
		if c < '0' || c > '9' {
			return 0, false
		}
		n = n*10 + uint64(c-'0')
	}
	return n, true
}

// readOther reads a line that isn't a result.
func readOther(text []byte, lane int) (reply, error) {
	var parts struct {
		Line    uint64
		Model   bool
		Fault   string
		Refused string
		Ticket  *uint64
	}
	if err := json.Unmarshal(text, &parts); err != nil {
		return reply{}, strange(text)
	}
	r := reply{lane: lane, line: parts.Line, model: parts.Model}
	switch {
	case parts.Ticket != nil && lane >= 0 && parts.Fault == "limit":
		r.ticket, r.outcome = *parts.Ticket, Outcome{Kind: Limit}
	case parts.Line > 0 && parts.Refused != "":
		r.outcome = Outcome{Kind: Refused, Word: parts.Refused}
		if parts.Fault != "" {
			r.outcome.Word = parts.Fault
		}
	case parts.Line > 0 && parts.Model:
	default:
		return reply{}, strange(text)
	}
	return r, nil
}

func strange(text []byte) error {
	if len(text) > 200 {
		text = text[:200]
	}
	return fmt.Errorf("the engine wrote a line that is none of its own: %q", text)
}
