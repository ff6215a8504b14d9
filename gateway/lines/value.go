package lines

import (
	"bytes"
	"encoding/json"
	"fmt"
	"sort"
	"strconv"
	"strings"
)

// A ValueFault says why the engine refuses an input's value.
type ValueFault struct {
	// Pointer is the JSON Pointer (RFC 6901) of the place within the input.
	Pointer string
	Reason  string
}

// Value says why the engine would refuse an input's value, or returns nil. span is that of the input in a scanned text. Of a
// repeated key only the last member counts.
func Value(text []byte, span Span) *ValueFault {
	if span.Bad < 0 && span.Nodes <= MaxNodes && span.Depth <= MaxDepth {
		return nil
	}
	// Something breaks a limit, unless its key comes again.
	value, err := Tree(text[span.Start:span.End])
	if err != nil {
		return &ValueFault{Reason: err.Error()}
	}
	if fault := badNumber(value, ""); fault != nil {
		return fault
	}
	return tooLarge(value)
}

func tooLarge(value any) *ValueFault {
	nodes, depth := measure(value)
	if nodes > MaxNodes {
		return &ValueFault{Reason: fmt.Sprintf("it has %d parts, and at most %d are taken", nodes, MaxNodes)}
	}
	if depth > MaxDepth {
		return &ValueFault{Reason: fmt.Sprintf("it is %d deep, and at most %d are taken", depth, MaxDepth)}
	}
	return nil
}

// Size says why a value is too large for the engine, or returns nil. It takes any numbers.
func Size(text []byte, span Span) *ValueFault {
	if span.Nodes <= MaxNodes && span.Depth <= MaxDepth {
		return nil
	}
	value, err := Tree(text[span.Start:span.End])
	if err != nil {
		return &ValueFault{Reason: err.Error()}
	}
	return tooLarge(value)
}

// Tree reads a valid JSON text into Go values, with numbers as json.Number. Of a repeated key the last member stays.
func Tree(text []byte) (any, error) {
	decoder := json.NewDecoder(bytes.NewReader(text))
	decoder.UseNumber()
	var value any
	if err := decoder.Decode(&value); err != nil {
		return nil, fmt.Errorf("reading a JSON text: %w", err)
	}
	return value, nil
}

// IsWhole reports whether a number is valid in the engine: whole, without point and exponent, in range.
func IsWhole(number string) bool {
	n, err := strconv.ParseInt(number, 10, 64)
	return err == nil && n >= -MaxNumber && number != "-0"
}

// badNumber finds the first number that the engine refuses, in the engine's order.
func badNumber(value any, pointer string) *ValueFault {
	switch value := value.(type) {
	case json.Number:
		if !IsWhole(value.String()) {
			return &ValueFault{pointer, fmt.Sprintf("%s is no whole number from -%d to %d, written in digits alone",
				Brief([]byte(value), 40), int64(MaxNumber), int64(MaxNumber))}
		}
	case []any:
		for at, part := range value {
			if fault := badNumber(part, fmt.Sprintf("%s/%d", pointer, at)); fault != nil {
				return fault
			}
		}
	case map[string]any:
		for _, key := range Keys(value) {
			if fault := badNumber(value[key], pointer+"/"+Token(key)); fault != nil {
				return fault
			}
		}
	}
	return nil
}

// Keys returns an object's keys, sorted by bytes.
func Keys(object map[string]any) []string {
	keys := make([]string, 0, len(object))
	for key := range object {
		keys = append(keys, key)
	}
	sort.Strings(keys)
	return keys
}

// Escapes of keys in JSON Pointers, and back.
var (
	toToken   = strings.NewReplacer("~", "~0", "/", "~1")
	fromToken = strings.NewReplacer("~1", "/", "~0", "~")
)

// Token returns a key as a token of a JSON Pointer.
func Token(key string) string {
	return toToken.Replace(key)
}

// Untoken returns the key of a token of a JSON Pointer.
func Untoken(token string) string {
	return fromToken.Replace(token)
}

func measure(value any) (nodes, depth int) {
	nodes, depth = 1, 1
	part := func(value any) {
		n, d := measure(value)
		nodes += n
		if d >= depth {
			depth = d + 1
		}
	}
	switch value := value.(type) {
	case []any:
		for _, item := range value {
			part(item)
		}
	case map[string]any:
		for _, item := range value {
			part(item)
		}
	}
	return nodes, depth
}

// Compact writes a value as the engine does: without blanks, keys sorted by bytes.
func Compact(to []byte, value any) []byte {
	switch value := value.(type) {
	case nil:
		return append(to, "null"...)
	case bool:
		return strconv.AppendBool(to, value)
	case string:
		return AppendQuoted(to, value)
	case json.Number:
		return append(to, value...)
	case []any:
		to = append(to, '[')
		for at, item := range value {
			if at > 0 {
				to = append(to, ',')
			}
			to = Compact(to, item)
		}
		return append(to, ']')
	case map[string]any:
		return compactObject(to, value)
	}
	return to
}

func compactObject(to []byte, object map[string]any) []byte {
	to = append(to, '{')
	for at, key := range Keys(object) {
		if at > 0 {
			to = append(to, ',')
		}
		to = append(AppendQuoted(to, key), ':')
		to = Compact(to, object[key])
	}
	return append(to, '}')
}
