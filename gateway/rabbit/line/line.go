// Package line reads the lines that go through the partitions, and computes a key's partition and engine client. Keys, ids and
// numbers keep every byte as sent.
package line

import (
	"bytes"
	"encoding/json"
	"errors"
	"fmt"
	"strconv"
	"unicode/utf8"
)

// Limits of a line.
const (
	MaximumBytes    = 1 << 20 // of a line, as the engine reads it
	MaximumKeyBytes = 255     // of a key, in UTF-8
	MaximumIDBytes  = 4096    // of an id, as JSON
	MaximumDepth    = 127     // nesting of lists and objects
)

// Clients is the number of client names for the keys of a partition, as many as one engine serves.
const Clients = 64

// NoClient is the client of a line without a key, a model.
const NoClient = Clients

// ClientNameBytes is the length of client names.
const ClientNameBytes = 3

// A Line is a request or a model.
type Line struct {
	Key    []byte // the key as JSON; nil of a model
	ID     []byte // the id as JSON; nil of a model
	Client int    // the number of the key's client, or NoClient
	Engine []byte // the line for the engine
	hash   uint64

	service, inputs []byte // of a request, as JSON
}

// ErrShape means that a text is JSON, but neither a request nor a model.
var ErrShape = errors.New(`neither {"key":k,"service":s,"inputs":o,"id":x} nor {"model":M}`)

// IsModel reports whether the line is a model, which goes to every partition.
func (l Line) IsModel() bool { return l.Client == NoClient }

// Partition returns the key's partition among this many.
func (l Line) Partition(partitions int) int { return int(l.hash % uint64(partitions)) }

// ClientName returns a client's name in the engine.
func ClientName(client int) string { return clientNames[client] }

var clientNames = func() (names [Clients]string) {
	for client := range names {
		names[client] = fmt.Sprintf("n%02d", client)
	}
	return names
}()

// ClientNumber returns the number of the client with this name, if there is one.
func ClientNumber(name []byte) (int, bool) {
	if len(name) != ClientNameBytes || name[0] != 'n' {
		return 0, false
	}
	number, err := strconv.ParseUint(string(name[1:]), 10, 8)
	return int(number), err == nil && number < Clients
}

// Read reads one line without its newline. It reports the first of these faults: too long, not UTF-8, not JSON, neither a
// request nor a model, nested too deep, a key or id that is too long.
func Read(text []byte) (Line, error) {
	l, err := Look(text)
	if err == nil && !l.IsModel() {
		l.Engine = l.engine()
	}
	return l, err
}

// Look is Read without the request for the engine: Engine is nil.
func Look(text []byte) (Line, error) {
	if l, is := usual(text); is {
		return l, nil
	}
	return anyLine(text)
}

// engine returns the request for the engine.
func (l *Line) engine() []byte {
	const client, service, inputs = `{"client":"`, `","service":`, `,"inputs":`
	text := make([]byte, 0, len(client)+ClientNameBytes+len(service)+len(l.service)+len(inputs)+len(l.inputs)+1)
	text = append(append(text, client...), ClientName(l.Client)...)
	text = append(append(text, service...), l.service...)
	text = append(append(text, inputs...), l.inputs...)
	return append(text, '}')
}

// anyLine reads any line.
func anyLine(text []byte) (Line, error) {
	switch {
	case len(text) > MaximumBytes:
		return Line{}, fmt.Errorf("over %d bytes", MaximumBytes)
	case !utf8.Valid(text):
		return Line{}, errors.New("no UTF-8")
	case !json.Valid(text):
		return Line{}, errors.New("no JSON")
	}
	found, err := members(bytes.TrimSpace(text))
	if err != nil {
		return Line{}, err
	}
	if model, is := found["model"]; is && len(found) == 1 {
		return Line{Client: NoClient, Engine: join([]byte(`{"model":`), model, []byte(`}`))}, nil
	}
	return request(found)
}

func request(found map[string][]byte) (Line, error) {
	key, service, inputs, id := found["key"], found["service"], found["inputs"], found["id"]
	if len(found) != 4 || key == nil || service == nil || inputs == nil || id == nil {
		return Line{}, ErrShape
	}
	var name string
	if err := json.Unmarshal(key, &name); err != nil || key[0] != '"' || len(name) == 0 || len(name) > MaximumKeyBytes {
		return Line{}, fmt.Errorf("the key is no text of 1 to %d bytes", MaximumKeyBytes)
	}
	if len(id) > MaximumIDBytes {
		return Line{}, fmt.Errorf("the id has over %d bytes", MaximumIDBytes)
	}
	if service[0] != '"' || inputs[0] != '{' {
		return Line{}, errors.New("the service is no text, or the inputs are no object")
	}
	l := Line{Key: key, ID: id, service: service, inputs: inputs}
	l.place([]byte(name))
	return l, nil
}

// join concatenates texts.
func join(parts ...[]byte) []byte { return bytes.Join(parts, nil) }

// members returns an object's members, with their values as written. The text is JSON.
func members(text []byte) (map[string][]byte, error) {
	if len(text) == 0 || text[0] != '{' {
		return nil, ErrShape
	}
	found := make(map[string][]byte, 4)
	at := skipSpace(text, 1)
	for text[at] != '}' {
		end, _ := value(text, at)
		name := string(text[at+1 : end-1])
		at = skipSpace(text, skipSpace(text, end)+1)
		end, depth := value(text, at)
		if _, twice := found[name]; twice || len(found) == 4 {
			return nil, ErrShape
		}
		if depth+1 > MaximumDepth {
			return nil, fmt.Errorf("nested over %d deep", MaximumDepth)
		}
		found[name] = text[at:end:end]
		at = skipSpace(text, end)
		if text[at] == ',' {
			at = skipSpace(text, at+1)
		}
	}
	return found, nil
}

func skipSpace(text []byte, at int) int {
	for text[at] == ' ' || text[at] == '\t' || text[at] == '\n' || text[at] == '\r' {
		at++
	}
	return at
}

// ValueEnd returns the end of the JSON value that begins at at.
func ValueEnd(text []byte, at int) int {
	end, _ := value(text, at)
	return end
}

// value returns the end of the value that begins at at, and its nesting.
func value(text []byte, at int) (end, deepest int) {
	depth := 0
	for at < len(text) {
		switch text[at] {
		case '"':
			at = stringEnd(text, at)
			if depth == 0 {
				return at, deepest
			}
			continue
		case '{', '[':
			depth++
			if depth > deepest {
				deepest = depth
			}
		case '}', ']':
			depth--
			if depth < 0 {
				return at, deepest
			}
			if depth == 0 {
				return at + 1, deepest
			}
		case ',', ' ', '\t', '\n', '\r':
			if depth == 0 {
				return at, deepest
			}
		}
		at++
	}
	return at, deepest
}

func stringEnd(text []byte, at int) int {
	at++
	for text[at] != '"' {
		if text[at] == '\\' {
			at++
		}
		at++
	}
	return at + 1
}
