package service

import (
	"bytes"
	"crypto/hmac"
	"crypto/sha256"
	"encoding/hex"
	"fmt"
	"hash"
	"os"
	"sort"

	"gateway/lines"
)

func newHash() hash.Hash { return sha256.New() }

// A redactor replaces the values of inputs by keyed sums in the journal.
type redactor struct {
	names map[string]bool
	key   []byte
}

// leastKey is the least number of bytes in a key.
const leastKey = 16

// newRedactor reads the key from a file; nil if nothing is redacted.
func newRedactor(names []string, path string) (*redactor, error) {
	if len(names) == 0 {
		return nil, nil
	}
	text, err := os.ReadFile(path)
	if err != nil {
		return nil, fmt.Errorf("reading the key of --redact: %w", err)
	}
	r := &redactor{names: map[string]bool{}, key: bytes.TrimRight(text, "\r\n")}
	if len(r.key) < leastKey {
		return nil, fmt.Errorf("reading the key of --redact: %s has %d bytes, and at least %d are due", path, len(r.key), leastKey)
	}
	for _, name := range names {
		r.names[name] = true
	}
	return r, nil
}

// inputs returns the inputs of a request as recorded, and the names of the redacted ones. If anything is redacted, so
// is each input that the service doesn't have, as its name may be misspelt. The text may not be an object.
func (r *redactor) inputs(m *served, d *decisionService, text []byte) ([]byte, []string) {
	if r == nil || !r.isDue(m, d) {
		return text, nil
	}
	members, other, fault := lines.Members(text, lines.MaxNesting)
	if other || fault != nil {
		return []byte("null"), []string{}
	}
	var names []string
	made := []byte{'{'}
	for _, member := range members {
		value := text[member.Value.Start:member.Value.End]
		if r.isHidden(m, d, member.Key) && string(value) != "null" {
			names = append(names, m.nameOf(member.Key))
			value = r.sum(m.nameOf(member.Key), value)
		}
		if len(made) > 1 {
			made = append(made, ',')
		}
		made = append(append(lines.AppendQuoted(made, member.Key), ':'), value...)
	}
	if names == nil {
		return text, nil
	}
	sort.Strings(names)
	return append(made, '}'), names
}

// isDue reports whether a service has an input to redact.
func (r *redactor) isDue(m *served, d *decisionService) bool {
	for _, input := range d.inputs {
		if r.names[input] || r.names[m.nameOf(input)] {
			return true
		}
	}
	return false
}

func (r *redactor) isHidden(m *served, d *decisionService, key string) bool {
	word := key
	if other, is := m.words[key]; is {
		word = other
	}
	return !d.parameters[word] || r.names[word] || r.names[m.nameOf(word)]
}

// sum replaces a value: it is the same for the same value of an input.
func (r *redactor) sum(name string, value []byte) []byte {
	mac := hmac.New(sha256.New, r.key)
	mac.Write([]byte(name))
	mac.Write([]byte{0})
	mac.Write(value)
	return []byte(`"hmac-sha256:` + hex.EncodeToString(mac.Sum(nil)) + `"`)
}
