package calendar

import (
	"strings"
	"testing"
)

// whole has whole seconds.
var whole = Tick{}

// TestTicks has fractions of a second.
func TestTicks(t *testing.T) {
	milli := Tick{3}
	for text, due := range map[string]int64{"12:30:15.5": 45_015_500, "12:30:15.050": 45_015_050, "00:00:00.001": 1, "00:01:00.001+00:02": -59_999} {
		ticks, hasOffset, err := milli.Time(text)
		if back := milli.TimeText(ticks); err != nil || ticks != due || !hasOffset && back != strings.TrimRight(text, "0") {
			t.Errorf("%s: %d is due, and %d, %s came", text, due, ticks, milli.TimeText(ticks))
		}
	}
	if _, _, err := milli.Time("12:30:15.0005"); err != ErrFraction {
		t.Error(err)
	}
	for text, due := range map[string]string{"PT0.5S": "PT0.5S", "-P1DT0.001S": "-P1DT0.001S", "PT60.25S": "PT1M0.25S", "PT0.000S": "PT0S", "P1D": "P1D", "PT1.000S": "PT1S"} {
		if ticks, err := milli.Duration(text); err != nil || milli.DurationText(ticks) != due {
			t.Errorf("%s: %s is due, and %d, %s came, %v", text, due, ticks, milli.DurationText(ticks), err)
		}
	}
	most := Tick{MostDecimals}
	for _, text := range []string{"0001-01-01T00:00:00.000001", "9999-12-31T23:59:59.999999", "1969-12-31T23:59:59"} {
		if ticks, _, err := most.DateTime(text); err != nil || most.DateTimeText(ticks) != text {
			t.Errorf("%s: %d, %s came, %v", text, ticks, most.DateTimeText(ticks), err)
		}
	}
	for text, due := range map[string]int{"12:00:00": 0, "12:00:00.50Z": 1, "PT0.125S": 3, "": 0, "P1D": 0, "12:00:00.000": 0, "2026-01-01T12:00:00.123456+02:00": 6} {
		if came := DecimalsIn(text); came != due {
			t.Errorf("%q has %d decimals, and %d came", text, due, came)
		}
	}
}
