package calls

import (
	"bytes"
	"encoding/json"

	"gateway/engine"
	"gateway/rabbit/answer"
)

// callStart begins the id of a call's request.
const callStart = `,"id":{"call":"`

// read reads a line of the answers, and reports whether it answers a call's request.
func read(text []byte) (key string, id name, outcome engine.Outcome, is bool) {
	if !bytes.Contains(text, []byte(callStart)) {
		return "", id, outcome, false
	}
	var line struct {
		Key    string
		ID     json.RawMessage
		Answer struct {
			Result  json.RawMessage
			Fault   string
			Refused string
		}
	}
	if json.Unmarshal(text, &line) != nil || json.Unmarshal(line.ID, &id) != nil || id.Call == "" || id.Of < 1 || id.Of > mostRequests ||
		id.At < 0 || id.At >= id.Of {
		return "", id, outcome, false
	}
	given := line.Answer
	switch {
	case given.Fault != "":
		outcome.Kind = engine.Limit
	case given.Refused != "":
		outcome = refused(given.Refused)
	default:
		outcome.Value = append([]byte(nil), given.Result...)
	}
	return line.Key, id, outcome, true
}

// mostRequests limits the requests of a call.
const mostRequests = 10_000

// refused returns the outcome of a refusal, by the engine or without it.
func refused(word string) engine.Outcome {
	switch answer.Reason(word) {
	case answer.Deadline:
		return engine.Outcome{Kind: engine.Late}
	case answer.Died:
		return engine.Outcome{Kind: engine.Died}
	case answer.TooLong:
		return engine.Outcome{Kind: engine.Huge}
	}
	return engine.Outcome{Kind: engine.Refused, Word: word}
}
