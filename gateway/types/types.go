// Package types checks values against the JSON Schemas that desk import writes for types of DMN files. The keywords are type,
// enum, minimum, maximum, exclusiveMinimum, exclusiveMaximum, multipleOf, format, items and properties; per and unit; and for
// dates and durations formatMinimum and its kin. Other keywords have no effect.
//
// The engine counts in whole numbers. With multipleOf 0.01 they are hundredths; with per 1200 they are 1200ths: quotients,
// whose decimals need not end. With format date they are days; with format time or date-time, which has an offset if offset is
// true, seconds; and with format duration the unit, second or month. Seconds may have decimals.
package types

import (
	"encoding/json"
	"fmt"
	"math/big"
	"strconv"
	"strings"
	"time"

	"gateway/decimal"
	"gateway/lines"
)

// A Type is a parsed schema.
type Type struct {
	kinds []string
	enum  []any
	// listed has the values of enum as texts.
	listed     []string
	ends       []bound
	items      *Type
	properties map[string]*Type
	// order has the property names, sorted by bytes.
	order []string
	// moment reads dates and durations; nil for other types.
	moment *moment
	// clock is the zone of the clock that fills an input of the type, or nil.
	clock *time.Location
	// unit is what the engine's whole numbers count: for a type without kinds, in all its parts.
	unit decimal.Unit
}

// A bound is one end of a number range.
type bound struct {
	at          *big.Rat
	text        string
	below, open bool
	// whole is the end in the type's unit, if isWhole.
	whole   int64
	isWhole bool
}

// A form is a schema as written.
type form struct {
	Type             any             `json:"type"`
	Enum             []any           `json:"enum"`
	Minimum          json.Number     `json:"minimum"`
	Maximum          json.Number     `json:"maximum"`
	ExclusiveMinimum json.Number     `json:"exclusiveMinimum"`
	ExclusiveMaximum json.Number     `json:"exclusiveMaximum"`
	MultipleOf       json.Number     `json:"multipleOf"`
	Per              json.Number     `json:"per"`
	Format           string          `json:"format"`
	Earliest         string          `json:"formatMinimum"`
	Latest           string          `json:"formatMaximum"`
	After            string          `json:"formatExclusiveMinimum"`
	Before           string          `json:"formatExclusiveMaximum"`
	Unit             string          `json:"unit"`
	Clock            string          `json:"clock"`
	Offset           bool            `json:"offset"`
	Decimals         int             `json:"decimals"`
	Items            json.RawMessage `json:"items"`
	Properties       map[string]json.RawMessage
}

// Read reads a schema.
func Read(text json.RawMessage) (*Type, error) {
	decoder := json.NewDecoder(strings.NewReader(string(text)))
	decoder.UseNumber()
	var it form
	if err := decoder.Decode(&it); err != nil {
		return nil, fmt.Errorf("reading a type: %w", err)
	}
	t := &Type{enum: it.Enum, properties: map[string]*Type{}, moment: momentOf(&it)}
	switch kind := it.Type.(type) {
	case string:
		t.kinds = []string{kind}
	case []any:
		for _, name := range kind {
			t.kinds = append(t.kinds, fmt.Sprint(name))
		}
	}
	for _, value := range it.Enum {
		t.listed = append(t.listed, string(lines.Compact(nil, value)))
	}
	if err := t.filledBy(it.Clock); err != nil {
		return nil, fmt.Errorf("reading a type: %w", err)
	}
	if err := t.countedBy(&it); err != nil {
		return nil, fmt.Errorf("reading a type: %w", err)
	}
	t.bound(it.Minimum, true, false)
	t.bound(it.Maximum, false, false)
	t.bound(it.ExclusiveMinimum, true, true)
	t.bound(it.ExclusiveMaximum, false, true)
	t.boundMoment(it.Earliest, true, false)
	t.boundMoment(it.Latest, false, false)
	t.boundMoment(it.After, true, true)
	t.boundMoment(it.Before, false, true)
	return t, t.parts(&it)
}

func (t *Type) bound(limit json.Number, below, open bool) {
	at, is := new(big.Rat).SetString(limit.String())
	if !is {
		return
	}
	end := bound{at: at, text: limit.String(), below: below, open: open}
	if units, err := t.unit.Units(limit.String()); err == nil {
		end.whole, err = strconv.ParseInt(units, 10, 64)
		end.isWhole = err == nil
	}
	t.ends = append(t.ends, end)
}

func (t *Type) parts(it *form) (err error) {
	if it.Items != nil {
		if t.items, err = Read(it.Items); err != nil {
			return err
		}
	}
	for name, text := range it.Properties {
		if t.properties[name], err = Read(text); err != nil {
			return fmt.Errorf("%s: %w", name, err)
		}
	}
	all := make(map[string]any, len(t.properties))
	for name := range t.properties {
		all[name] = nil
	}
	t.order = lines.Keys(all)
	return nil
}

// Check says why a value doesn't have this type, or returns nil. Numbers are json.Number.
func (t *Type) Check(value any) *lines.ValueFault {
	return t.check(value, "")
}

func (t *Type) check(value any, pointer string) *lines.ValueFault {
	if !t.isOfKind(value) {
		return &lines.ValueFault{Pointer: pointer,
			Reason: fmt.Sprintf("%s is not of the type: %s", shown(value), strings.Join(t.kinds, " or "))}
	}
	if !t.isListed(value) {
		return &lines.ValueFault{Pointer: pointer,
			Reason: fmt.Sprintf("%s is not among the allowed values: %s", shown(value), shown(t.enum))}
	}
	switch value := value.(type) {
	case json.Number:
		return t.checkNumber(value, pointer)
	case string:
		return t.checkText(value, pointer)
	case []any:
		return t.checkItems(value, pointer)
	case map[string]any:
		return t.checkProperties(value, pointer)
	}
	return nil
}

func (t *Type) checkNumber(value json.Number, pointer string) *lines.ValueFault {
	at, is := new(big.Rat).SetString(value.String())
	return t.checkEnds(at, is, value.String(), pointer)
}

// checkEnds checks a number, shown as text, against the bounds.
func (t *Type) checkEnds(at *big.Rat, is bool, text, pointer string) *lines.ValueFault {
	for _, end := range t.ends {
		if is && end.holds(at) {
			continue
		}
		return &lines.ValueFault{Pointer: pointer, Reason: fmt.Sprintf("%s is not allowed: it has to be %s", text, end)}
	}
	return nil
}

func (b bound) holds(at *big.Rat) bool {
	order := at.Cmp(b.at)
	return order > 0 && b.below || order < 0 && !b.below || order == 0 && !b.open
}

func (b bound) String() string {
	words := map[[2]bool]string{{true, false}: "at least ", {true, true}: "more than ", {false, false}: "at most ",
		{false, true}: "less than "}
	return words[[2]bool{b.below, b.open}] + b.text
}

func (t *Type) checkItems(value []any, pointer string) *lines.ValueFault {
	if t.items == nil {
		return nil
	}
	for at, item := range value {
		if fault := t.items.check(item, fmt.Sprintf("%s/%d", pointer, at)); fault != nil {
			return fault
		}
	}
	return nil
}

// checkProperties checks the properties that the value has. A missing one is null, as everywhere.
func (t *Type) checkProperties(value map[string]any, pointer string) *lines.ValueFault {
	for _, name := range t.order {
		part, is := value[name]
		if !is {
			continue
		}
		if fault := t.properties[name].check(part, pointer+"/"+lines.Token(name)); fault != nil {
			return fault
		}
	}
	return nil
}

func (t *Type) isOfKind(value any) bool {
	for _, kind := range t.kinds {
		if kindOf(value) == kind || kind == "number" && kindOf(value) == "integer" {
			return true
		}
	}
	return len(t.kinds) == 0
}

func kindOf(value any) string {
	switch value := value.(type) {
	case nil:
		return "null"
	case bool:
		return "boolean"
	case string:
		return "string"
	case json.Number:
		if lines.IsWhole(value.String()) {
			return "integer"
		}
		return "number"
	case []any:
		return "array"
	}
	return "object"
}

// TakesNull reports whether null has this type.
func (t *Type) TakesNull() bool { return t.takes("null") && t.isListedText([]byte("null")) }

func (t *Type) isListed(value any) bool {
	return len(t.enum) == 0 || t.isListedText(lines.Compact(nil, t.moment.plain(value)))
}

func shown(value any) string {
	return lines.Brief(lines.Compact(nil, value), 120)
}
