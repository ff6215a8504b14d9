package bus

import (
	"strings"
	"time"
)

// Headers are a message's headers. Their values are strings, integers and booleans.
type Headers map[string]interface{}

// A Message is a message of a stream.
type Message struct {
	Offset  int64
	At      Route // where it was appended
	Headers Headers
	Body    []byte
	Sent    time.Time
}

// Topic returns the topic of a message that was appended at this exchange, or "".
func (m Message) Topic(exchange string) Topic {
	if m.At.Exchange != exchange {
		return ""
	}
	topic, _, _ := strings.Cut(m.At.Key, ".")
	return Topic(topic)
}
