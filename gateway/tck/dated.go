package tck

import (
	"encoding/json"
	"fmt"

	"gateway/lines"
	"gateway/types"
)

// A dated value is a date, time or duration as a cases file writes it.
type dated struct{ kind, text string }

// datedKinds are the XML Schema types of such values.
var datedKinds = map[string]bool{"date": true, "time": true, "dateTime": true, "duration": true, "dayTimeDuration": true,
	"yearMonthDuration": true}

// MarshalJSON writes its text.
func (d dated) MarshalJSON() ([]byte, error) { return json.Marshal(d.text) }

// placed returns an input's value with dates as texts, if its type has dates.
func placed(of *types.Type, value any) (any, error) {
	var err error
	switch value := value.(type) {
	case dated:
		if !of.IsMoment() {
			return nil, fmt.Errorf("the profile has no values of the type %s", value.kind)
		}
		return value.text, nil
	case []any:
		for i := range value {
			if value[i], err = placed(of.Item(), value[i]); err != nil {
				return nil, fmt.Errorf("item %d: %w", i+1, err)
			}
		}
	case map[string]any:
		for _, key := range lines.Keys(value) {
			if value[key], err = placed(of.Property(key), value[key]); err != nil {
				return nil, fmt.Errorf("%s: %w", key, err)
			}
		}
	}
	return value, nil
}

// asDue returns an expected value of a type, with dates and durations in the form of results. A value that no result can have
// is unchanged.
func asDue(of *types.Type, value any) any {
	if of == nil {
		return value
	}
	switch value := value.(type) {
	case dated:
		if units, fault := of.Units(value.text); fault == nil && of.IsMoment() {
			return of.Decimals(units)
		}
	case []any:
		for i := range value {
			value[i] = asDue(of.Item(), value[i])
		}
	case map[string]any:
		for key, part := range value {
			value[key] = asDue(of.Property(key), part)
		}
	}
	return value
}
