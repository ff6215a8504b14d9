package engine

import (
	"bufio"
	"bytes"
	"errors"
)

// A Decided is a decision table on the way to a result, with the rules that decided.
type Decided struct {
	// Decision is the decision's word, Path the JSON Pointer of the part of its expression that has the table, such as
	// "/result" of a context; empty if the expression is the table.
	Decision, Path string
	// Rules are the numbers of the rules, from 1. IsDefault means that no rule hit and some output has its default.
	Rules     []int
	IsDefault bool
}

// Keys of lines of `desk explain` whose values are dropped if a line is too long.
var leftOut = [][]byte{[]byte("inputs"), []byte("decisions")}

var lineKey = []byte(`","line":`)

// readExplained reads a reply of `desk explain` to an answered request; false for other lines.
func readExplained(text []byte, lane int, rest []byte, cut bool) (reply, bool, error) {
	if lane < 0 || !bytes.HasPrefix(rest, lineKey) {
		return reply{}, false, nil
	}
	r := reply{lane: lane, ticket: anyTicket, outcome: Outcome{IsLong: true}}
	isAnswer, kind := cut, Huge
	eachMember(text, func(key, value []byte) {
		switch string(key) {
		case "result":
			isAnswer, kind = true, Result
			r.outcome.Value = append([]byte(nil), value...)
		case "fault":
			isAnswer, kind = true, Limit
		case "decisions":
			r.outcome.IsLong = value[0] != '['
			r.outcome.Decided = DecidedIn(value)
		case "ticket":
			r.ticket, _ = number(value)
		}
	})
	r.outcome.Kind = kind
	if cut {
		r.outcome, r.ticket = Outcome{Kind: Huge, IsLong: true}, anyTicket
	}
	return r, isAnswer, nil
}

// DecidedIn finds the tables with deciding rules among an explanation's decisions. It reads the text once.
func DecidedIn(decisions []byte) []Decided {
	w := &walker{text: decisions}
	w.list(func(int) { w.part("") })
	return w.all
}

// A walker walks the decisions of an explanation. at is where the next value begins, name the decision's name.
type walker struct {
	text []byte
	at   int
	name string
	all  []Decided
}

// skip skips a value.
func (w *walker) skip() { w.at = valueEnd(w.text, w.at) }

// begins enters a list or object; false if another value is there, which is skipped.
func (w *walker) begins(with byte) bool {
	if w.at < len(w.text) && w.text[w.at] == with {
		w.at++
		return true
	}
	w.skip()
	return false
}

// more reports whether a list or object has another part, and moves past a comma or the end.
func (w *walker) more() bool {
	if w.at >= len(w.text) {
		return false
	}
	switch w.text[w.at] {
	case ']', '}':
		w.at++
		return false
	case ',':
		w.at++
	}
	return w.at < len(w.text)
}

// list calls take with the index of each item; take moves past it.
func (w *walker) list(take func(at int)) {
	if !w.begins('[') {
		return
	}
	for at := 0; w.more(); at++ {
		take(at)
	}
}

// object calls take with the key of each member; take moves past its value.
func (w *walker) object(take func(key string)) {
	if !w.begins('{') {
		return
	}
	for w.more() {
		end := textEnd(w.text, w.at)
		if end >= len(w.text) || end < w.at+2 {
			w.at = len(w.text)
			return
		}
		key := string(w.text[w.at+1 : end-1])
		w.at = end + 1
		take(key)
	}
}

// part reads a part: a decision, an entry, a member or a result.
func (w *walker) part(path string) {
	w.object(func(key string) {
		switch key {
		case "name":
			if start := w.at; path == "" {
				w.skip()
				w.name = unquoted(w.text[start:w.at])
				return
			}
			w.skip()
		case "table":
			w.table(path)
		case "entries":
			w.list(func(at int) { w.part(path + "/context/" + decimal(at) + "/expr") })
		case "members":
			w.list(func(at int) { w.part(path + "/list/" + decimal(at)) })
		case "result":
			w.part(path + "/result")
		default:
			w.skip()
		}
	})
}

// table reads a table, and adds it if a rule or a default of it decided.
func (w *walker) table(path string) {
	it := Decided{Decision: w.name, Path: path}
	w.object(func(key string) {
		start := w.at
		switch key {
		case "defaults":
			w.skip()
			it.IsDefault = string(w.text[start:w.at]) == "true"
		case "decided":
			w.list(func(int) {
				start := w.at
				w.skip()
				n, _ := number(w.text[start:w.at])
				it.Rules = append(it.Rules, int(n))
			})
		default:
			w.skip()
		}
	})
	if len(it.Rules) > 0 || it.IsDefault {
		w.all = append(w.all, it)
	}
}

// readExplainedLine reads a line as readLine does. Of one over MaxAnswer bytes it drops the inputs and the decisions; cut means that
// it is still too long.
func readExplainedLine(from *bufio.Reader) (text []byte, cut bool, err error) {
	text, err = from.ReadSlice('\n')
	if err == nil {
		return text[:len(text)-1], false, nil
	}
	room := append([]byte(nil), text...)
	var short *shortener
	for errors.Is(err, bufio.ErrBufferFull) {
		text, err = from.ReadSlice('\n')
		if short == nil && len(room)+len(text) > MaxAnswer {
			short = &shortener{}
			short.feed(room)
			room = nil
		}
		if short == nil {
			room = append(room, text...)
		} else {
			short.feed(text)
		}
	}
	if err != nil {
		return nil, false, err
	}
	if short != nil {
		room, cut = short.kept, short.isFull
	}
	return bytes.TrimSuffix(room, []byte("\n")), cut, nil
}

// A shortener takes a line in pieces, and keeps it without the values of its keys inputs and decisions.
type shortener struct {
	kept []byte
	// depth is the number of open lists and objects; key is the last text, if that may be a key of the line.
	depth             int
	inText, isEscaped bool
	key               []byte
	// isOut means that what follows is dropped, isFull that over MaxAnswer bytes were to be kept.
	isOut, isFull bool
}

func (s *shortener) feed(text []byte) {
	for _, c := range text {
		if s.isOut && s.depth == 1 && !s.inText && (c == ',' || c == '}') {
			s.isOut = false
			s.keep([]byte("null"))
		}
		if !s.isOut {
			s.keep([]byte{c})
		}
		s.step(c)
	}
}

func (s *shortener) keep(text []byte) {
	if s.isFull = s.isFull || len(s.kept)+len(text) > MaxAnswer; !s.isFull {
		s.kept = append(s.kept, text...)
	}
}

// step takes a byte.
func (s *shortener) step(c byte) {
	switch {
	case s.isEscaped:
		s.isEscaped = false
	case s.inText && c == '\\':
		s.isEscaped = true
	case c == '"':
		if s.inText = !s.inText; s.inText {
			s.key = s.key[:0]
		}
	case s.inText:
		if s.depth == 1 && !s.isOut && len(s.key) < len("decisions")+1 {
			s.key = append(s.key, c)
		}
	case c == '{' || c == '[':
		s.depth++
	case c == '}' || c == ']':
		s.depth--
	case c == ':' && s.depth == 1:
		s.isOut = bytes.Equal(s.key, leftOut[0]) || bytes.Equal(s.key, leftOut[1])
	}
}
