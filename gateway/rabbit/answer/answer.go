// Package answer reads the engine's answers, and writes the lines of the answer stream.
package answer

import (
	"bytes"
	"errors"
	"fmt"
	"strconv"

	"gateway/rabbit/ledger"
	"gateway/rabbit/line"
)

// A Reason is why a line is refused without the engine.
type Reason string

// The reasons.
const (
	Deadline Reason = "deadline" // its evaluation took too long
	Died     Reason = "died"     // the engine died at it twice
	TooLong  Reason = "answer"   // its answer is too long
	Lost     Reason = "lost"     // the broker has lost the model of its batch
)

// An Answer is one parsed line of the engine. Head and Tail are the text around its number.
type Answer struct {
	Client  int // or line.NoClient
	Numbers bool
	Ticket  bool  // whether the number is a ticket; otherwise it is the line's
	Number  int64 // the ticket, or the line's number in the engine's input
	InForce bool  // whether a model was loaded
	head    []byte
	tail    []byte
}

const (
	clientKey = `{"client":"`
	lineKey   = `"line":`
	ticketKey = `"ticket":`
)

var errAnswer = errors.New("no answer of the engine")

// Read reads a line of the engine, without its newline.
func Read(text []byte) (Answer, error) {
	a := Answer{Client: line.NoClient}
	if bytes.HasPrefix(text, []byte(clientKey)) && len(text) > len(clientKey)+line.ClientNameBytes {
		client, known := line.ClientNumber(text[len(clientKey) : len(clientKey)+line.ClientNameBytes])
		if !known {
			return a, errAnswer
		}
		a.Client = client
	}
	// The ticket is the last member, so the last text spelled like its key is the key.
	at, key := bytes.LastIndex(text, []byte(ticketKey)), ticketKey
	a.Ticket = at >= 0 && isTicket(text[at+len(ticketKey):])
	if !a.Ticket {
		// An answer without a ticket has no values before it, so this text is the key.
		at, key = bytes.Index(text, []byte(lineKey)), lineKey
	}
	if at < 0 {
		return a, errAnswer
	}
	begin := at + len(key)
	end := begin
	for end < len(text) && text[end] >= '0' && text[end] <= '9' {
		end++
	}
	number, err := strconv.ParseInt(string(text[begin:end]), 10, 64)
	if err != nil {
		return a, errAnswer
	}
	a.Number, a.head, a.tail = number, text[:begin], text[end:]
	a.InForce = a.Client == line.NoClient && bytes.Equal(a.tail, []byte(`,"model":true}`))
	return a, nil
}

func isTicket(rest []byte) bool {
	digits := bytes.TrimRight(rest, "}")
	return len(digits) > 0 && len(rest) == len(digits)+1 && bytes.Trim(digits, "0123456789") == nil
}

// With returns the answer with another number.
func (a Answer) With(number int64) []byte {
	text := make([]byte, 0, len(a.head)+20+len(a.tail))
	text = append(text, a.head...)
	text = strconv.AppendInt(text, number, 10)
	return append(text, a.tail...)
}

// Refusal returns the answer to a line that is refused without the engine. It has the line's ticket if the engine gave it one.
func Refusal(client int, number int64, reason Reason, ticket *int64) []byte {
	text := []byte{'{'}
	if client != line.NoClient {
		text = append(text, fmt.Sprintf(`"client":"%s",`, line.ClientName(client))...)
	}
	text = append(text, fmt.Sprintf(`"line":%d,"refused":"%s"`, number, reason)...)
	if ticket != nil {
		text = append(text, fmt.Sprintf(`,"ticket":%d`, *ticket)...)
	}
	return append(text, '}')
}

// Append appends a line of the answer stream, with its newline. Key and id are nil for a model.
func Append(body []byte, place ledger.Place, key, id, text []byte) []byte {
	body = append(body, `{"offset":`...)
	body = strconv.AppendInt(body, place.Offset, 10)
	body = append(body, `,"place":`...)
	body = strconv.AppendInt(body, place.Index, 10)
	if key != nil {
		body = append(append(body, `,"key":`...), key...)
		body = append(append(body, `,"id":`...), id...)
	}
	body = append(append(body, `,"answer":`...), text...)
	return append(body, '}', '\n')
}

// AppendLost appends a line of the answer stream that replaces lost requests, with its newline.
func AppendLost(body []byte, gap ledger.Gap) []byte {
	body = strconv.AppendInt(append(body, lostKey...), gap.From, 10)
	body = strconv.AppendInt(append(body, lostUpto...), gap.To, 10)
	return append(body, lostEnd+"\n"...)
}

// Unreceived returns the line that replaces answers that were cut before they were received: those after one place, up to
// another.
func Unreceived(after, upto ledger.Place) []byte {
	from := after.Offset
	if after.Offset < upto.Offset {
		from++
	}
	return []byte(fmt.Sprintf(`%s%d%s%d,"answers":true%s`, lostKey, from, lostUpto, upto.Offset, lostEnd))
}

// LostMember is the member that marks a line about something lost.
const LostMember = "lost"

// The texts of such a line.
const (
	lostKey  = `{"lost":{"from":`
	lostUpto = `,"to":`
	lostEnd  = `}}`
)

// A Record is what a line of the answer stream says about its place and the lines after it.
type Record struct {
	Place   ledger.Place
	Client  int // or line.NoClient
	Outcome ledger.Outcome
	Lost    bool // whether it replaces lost requests
}

// ReadRecord reads a line of the answer stream, without its newline.
func ReadRecord(text []byte) (Record, error) {
	var r Record
	if bytes.HasPrefix(text, []byte(lostKey)) {
		return readLost(text)
	}
	rest, err := numberAfter(text, `{"offset":`, &r.Place.Offset)
	if err == nil {
		rest, err = numberAfter(rest, `,"place":`, &r.Place.Index)
	}
	if err != nil {
		return r, err
	}
	r.Client = clientOf(rest)
	r.Outcome.InForce = bytes.HasPrefix(rest, []byte(`,"answer":{"line":`)) && bytes.HasSuffix(rest, []byte(`,"model":true}}`))
	at := bytes.LastIndex(rest, []byte(ticketKey))
	if at < 0 || !bytes.HasSuffix(rest, []byte("}}")) || !isTicket(rest[at+len(ticketKey):len(rest)-1]) {
		return r, nil
	}
	r.Outcome.HasTicket = true
	_, err = numberAfter(rest[at:], ticketKey, &r.Outcome.Ticket)
	return r, err
}

// clientOf finds the client after a record's place, in the key, the id and the answer.
func clientOf(rest []byte) int {
	const key, id, client = `,"key":`, `,"id":`, `,"answer":{"client":"`
	at := 0
	for _, name := range []string{key, id} {
		if !bytes.HasPrefix(rest[at:], []byte(name)) {
			return line.NoClient
		}
		at = line.ValueEnd(rest, at+len(name))
	}
	begin := at + len(client)
	if !bytes.HasPrefix(rest[at:], []byte(client)) || begin+line.ClientNameBytes > len(rest) {
		return line.NoClient
	}
	number, known := line.ClientNumber(rest[begin : begin+line.ClientNameBytes])
	if !known {
		return line.NoClient
	}
	return number
}

func readLost(text []byte) (Record, error) {
	var gap ledger.Gap
	rest, err := numberAfter(text, lostKey, &gap.From)
	if err == nil {
		rest, err = numberAfter(rest, lostUpto, &gap.To)
	}
	if err == nil && string(rest) != lostEnd {
		err = errRecord
	}
	return Record{Place: gap.Place(), Lost: true}, err
}

var errRecord = errors.New("no line of an answers' stream")

func numberAfter(text []byte, key string, number *int64) ([]byte, error) {
	if !bytes.HasPrefix(text, []byte(key)) {
		return nil, errRecord
	}
	rest := text[len(key):]
	end := 0
	for end < len(rest) && rest[end] >= '0' && rest[end] <= '9' {
		end++
	}
	value, err := strconv.ParseInt(string(rest[:end]), 10, 64)
	if err != nil {
		return nil, errRecord
	}
	*number = value
	return rest[end:], nil
}
