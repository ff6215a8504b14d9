package calendar

import (
	"strings"
	"testing"
	"time"
)

func TestTimes(t *testing.T) {
	for text, due := range map[string]int64{"00:00:00": 0, "23:59:59": 86399, "12:30:15": 45015, "12:30:15.000": 45015, "12:30:15Z": 45015,
		"00:30:00+02:00": -5400, "23:30:00-05:30": 104400, "12:00:00-00:00": 43200, "12:00:00+14:00": -7200} {
		seconds, hasOffset, err := whole.Time(text)
		if err != nil || seconds != due || hasOffset != strings.ContainsAny(text, "Z+-") {
			t.Errorf("%s: %d is due, and %d, %v, %v came", text, due, seconds, hasOffset, err)
		}
	}
	for _, text := range []string{"24:00:00", "12:60:00", "12:00:60", "12:00", "1:00:00", "T12:00:00", "12:00:00.5", "12:00:00+2:00", "12:00:00+15:00",
		"12:00:00@Europe/Berlin", "12:00:00z", "", "12:00:00+02:00:00"} {
		if seconds, _, err := whole.Time(text); err == nil {
			t.Errorf("%q is no time, and %d came", text, seconds)
		}
	}
	for _, text := range []string{"2026-01-31", "2026-02-30T00:00:00", "2026-01-31 00:00:00", "2026-01-31T24:00:00", "2026-01-31T00:00", ""} {
		if seconds, _, err := whole.DateTime(text); err == nil {
			t.Errorf("%q is no date and time, and %d came", text, seconds)
		}
	}
}

// TestDateTimes compares dates with times with Go's calendar.
func TestDateTimes(t *testing.T) {
	base := time.Date(1, 1, 1, 0, 0, 0, 0, time.UTC).Unix() - secondsOfDay
	for _, text := range []string{"0001-01-01T00:00:00", "1969-12-31T23:59:59", "2024-02-29T12:30:15", "9999-12-31T23:59:59"} {
		at, err := time.Parse("2006-01-02T15:04:05", text)
		if err != nil {
			t.Fatal(err)
		}
		seconds, hasOffset, err := whole.DateTime(text)
		if err != nil || hasOffset || seconds != at.Unix()-base || whole.DateTimeText(seconds) != text {
			t.Errorf("%s: %d is due, and %d, %v, %s came", text, at.Unix()-base, seconds, err, whole.DateTimeText(seconds))
		}
	}
	for _, text := range []string{"2026-03-29T00:30:00+02:00", "2025-12-31T23:30:00-05:30", "2026-01-01T00:00:00Z", "2026-01-01T00:00:00-00:00"} {
		at, err := time.Parse(time.RFC3339, text)
		if err != nil {
			t.Fatal(err)
		}
		if seconds, hasOffset, err := whole.DateTime(text); err != nil || !hasOffset || seconds != at.Unix()-base {
			t.Errorf("%s: %d is due, and %d, %v, %v came", text, at.Unix()-base, seconds, hasOffset, err)
		}
	}
	if whole.DateTimeText(secondsOfDay-1) != "" || whole.DateTimeText((LastDay+1)*secondsOfDay) != "" || whole.TimeText(-1) != "" || whole.TimeText(secondsOfDay) != "" {
		t.Error("what is past the years has a text")
	}
	if _, err := Sorted(whole.DateTime, false)("2026-01-01T00:00:00Z"); err != errOffset {
		t.Error(err)
	}
	if _, err := Sorted(whole.Time, true)("00:00:00"); err != errNoOffset {
		t.Error(err)
	}
}
