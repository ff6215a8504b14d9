package types

import (
	"encoding/json"
	"fmt"
	"math/big"
	"strconv"
	"time"

	"gateway/calendar"
	"gateway/lines"
)

// A moment reads and writes dates, times or durations, which the engine has as whole numbers. Those with an offset are never
// results; explanations have their dates and times in UTC.
type moment struct {
	name string
	// at is what a clock fills an input of the type with, or nil.
	at    func(now time.Time, zone *time.Location) int64
	read  func(text string) (int64, error)
	write func(number int64) string
}

// momentOf returns the moment of a form's format, or nil.
func momentOf(it *form) *moment {
	tick := calendar.Tick{Decimals: it.Decimals}
	switch {
	case it.Decimals < 0 || it.Decimals > calendar.MostDecimals:
		return nil
	case it.Format == "date":
		return &moment{name: "date", read: calendar.Day, write: calendar.DayText, at: calendar.DayAt}
	case it.Format == "time" && it.Offset:
		return &moment{name: "time", read: calendar.Sorted(tick.Time, true)}
	case it.Format == "time":
		return &moment{name: "time", read: calendar.Sorted(tick.Time, false), write: tick.TimeText}
	case it.Format == "date-time" && it.Offset:
		return &moment{name: "date and time", read: calendar.Sorted(tick.DateTime, true), write: instantText(tick),
			at: func(now time.Time, _ *time.Location) int64 { return tick.At(now) }}
	case it.Format == "date-time":
		return &moment{name: "date and time", read: calendar.Sorted(tick.DateTime, false), write: tick.DateTimeText}
	case it.Format == "duration" && it.Unit == "second":
		return &moment{name: "days and time duration", read: tick.Duration, write: tick.DurationText}
	case it.Format == "duration" && it.Unit == "month":
		return &moment{name: "years and months duration", read: calendar.Months, write: calendar.MonthsText}
	}
	return nil
}

// instantText writes dates and times that have lost their offsets in UTC, for explanations.
func instantText(tick calendar.Tick) func(number int64) string {
	return func(number int64) string {
		if text := tick.DateTimeText(number); text != "" {
			return text + "Z"
		}
		return ""
	}
}

// checkText checks a text against the type's format.
func (t *Type) checkText(text, pointer string) *lines.ValueFault {
	number, fault := t.moment.units(text, pointer)
	if fault != nil || t.moment == nil {
		return fault
	}
	at, is := new(big.Rat).SetString(fmt.Sprint(number))
	return t.checkEnds(at, is, shown(text), pointer)
}

// boundMoment is bound for a date or duration.
func (t *Type) boundMoment(limit string, below, open bool) {
	if limit == "" || t.moment == nil {
		return
	}
	if at, err := t.moment.read(limit); err == nil {
		t.ends = append(t.ends, bound{at: new(big.Rat).SetInt64(at), text: limit, below: below, open: open})
	}
}

// plain returns a text in its moment's canonical form: P12M becomes P1Y.
func (m *moment) plain(value any) any {
	text, is := value.(string)
	if m == nil || !is || m.write == nil {
		return value
	}
	if number, err := m.read(text); err == nil {
		return m.write(number)
	}
	return value
}

// units returns a text as the engine has it; without a moment, the text.
func (m *moment) units(text, pointer string) (any, *lines.ValueFault) {
	if m == nil {
		return text, nil
	}
	number, err := m.read(text)
	if err != nil {
		return nil, &lines.ValueFault{Pointer: pointer, Reason: fmt.Sprintf("%s is no %s: %v", shown(text), m.name, err)}
	}
	return json.Number(strconv.FormatInt(number, 10)), nil
}

// filledBy reads the zone of the clock that fills an input.
func (t *Type) filledBy(zone string) (err error) {
	if zone == "" {
		return nil
	}
	if t.clock, err = calendar.Zone(zone); err != nil {
		return fmt.Errorf("the clock in %s: %w", zone, err)
	}
	return nil
}

// HasClock reports whether a clock fills inputs of this type.
func (t *Type) HasClock() bool {
	return t != nil && t.clock != nil && t.moment != nil && t.moment.at != nil
}

// At returns what a clock fills an input with, as the engine has it.
func (t *Type) At(now time.Time) json.Number {
	return json.Number(strconv.FormatInt(t.moment.at(now, t.clock), 10))
}

// shown returns a number of the engine as a text; one beyond the years stays as it is.
func (m *moment) shown(number json.Number) any {
	value, err := strconv.ParseInt(number.String(), 10, 64)
	if err != nil || m.write == nil {
		return number
	}
	if text := m.write(value); text != "" {
		return text
	}
	return number
}
