package service

import (
	"crypto/sha256"
	"encoding/hex"
	"encoding/json"

	"gateway/lines"
)

// A Release says which model it is, and who put it. Each part may be empty.
type Release struct {
	Name    string `json:"name,omitempty"`
	Version string `json:"version,omitempty"`
	Who     string `json:"who,omitempty"`
	// When is in universal time, as RFC 3339 writes it.
	When string `json:"when,omitempty"`
	Why  string `json:"why,omitempty"`
}

// Sum returns the SHA-256, in hexadecimal, of all that decides: of the model's compact text if there is nothing else,
// or of the compact text of an object with domains, model, names, locals, required and types.
func (s *Source) Sum() string {
	if len(s.Names)+len(s.Locals)+len(s.Types)+len(s.Domains) == 0 {
		return sumOf(s.Text)
	}
	text := []byte(`{`)
	if len(s.Domains) > 0 {
		text = append(append(append(text, `"domains":`...), compactNames(s.Domains)...), ',')
	}
	text = append(append(text, `"locals":`...), compactNames(s.Locals)...)
	text = append(append(text, `,"model":`...), s.Text...)
	text = append(append(text, `,"names":`...), compactNames(s.Names)...)
	if len(s.Required) > 0 {
		required, _ := plainJSON(s.Required)
		text = append(append(text, `,"required":`...), required...)
	}
	text = append(append(text, `,"types":`...), compactTypes(s.Types)...)
	return sumOf(append(text, '}'))
}

func sumOf(text []byte) string {
	sum := sha256.Sum256(text)
	return hex.EncodeToString(sum[:])
}

func compactNames(names map[string]string) []byte {
	tree := make(map[string]any, len(names))
	for word, name := range names {
		tree[word] = name
	}
	return lines.Compact(nil, tree)
}

func compactTypes(types map[string]json.RawMessage) []byte {
	tree := make(map[string]any, len(types))
	for word, text := range types {
		// Invalid JSON is refused when the types are read.
		tree[word], _ = lines.Tree(text)
	}
	return lines.Compact(nil, tree)
}
