package calendar

import (
	"strings"
	"testing"
	"time"
)

// TestDays compares each day with Go's calendar.
func TestDays(t *testing.T) {
	at := time.Date(1, 1, 1, 0, 0, 0, 0, time.UTC)
	for day := FirstDay; day <= LastDay; day++ {
		year, month, ofMonth := Date(day)
		if year != at.Year() || month != int(at.Month()) || ofMonth != at.Day() {
			t.Fatalf("day %d is %v, and came out as %d-%d-%d", day, at, year, month, ofMonth)
		}
		if back, err := DayOf(year, month, ofMonth); err != nil || back != day {
			t.Fatalf("%d-%d-%d is day %d, and came out as %d, %v", year, month, ofMonth, day, back, err)
		}
		at = at.AddDate(0, 0, 1)
	}
	if at.Year() != LastYear+1 {
		t.Errorf("the last day is before %v", at)
	}
}

func TestDateTexts(t *testing.T) {
	// The numbers are those of Python's datetime.date.toordinal.
	for text, due := range map[string]int64{"0001-01-01": 1, "9999-12-31": 3652059, "1970-01-01": 719163, "2000-02-29": 730179,
		"2026-11-29": 739949, "1900-02-28": 693654} {
		if day, err := Day(text); err != nil || day != due || DayText(day) != text {
			t.Errorf("%s is day %d, and came out as %d, %v, %s", text, due, day, err, DayText(day))
		}
	}
	for text, due := range map[string]string{"2026-02-30": "February 2026 has 28 days", "1900-02-29": "February 1900 has 28 days",
		"2026-04-31": "April 2026 has 30 days", "2026-13-01": "a year has 12 months", "2026-00-01": "a year has 12 months",
		"2026-01-00": "January 2026 has 31 days", "0000-01-01": "years from 1 to 9999 are taken", "2026-2-3": errForm.Error(),
		"26-02-03": errForm.Error(), "20260203": errForm.Error(), "": errForm.Error(), "2026-01-01T": errForm.Error(),
		"-001-01-01": errForm.Error(), "2026-1 -01": errForm.Error(), "2026-+1-01": errForm.Error(), "12026-01-01": errForm.Error()} {
		if _, err := Day(text); err == nil || err.Error() != due {
			t.Errorf("%q: %s is due, and %v came", text, due, err)
		}
	}
	if DayText(0) != "" || DayText(LastDay+1) != "" {
		t.Error("a day past the years has a text")
	}
}

func TestMonths(t *testing.T) {
	day := func(text string) int64 {
		at, err := Day(text)
		if err != nil {
			t.Fatal(err)
		}
		return at
	}
	for _, row := range []struct {
		from   string
		months int64
		due    string
	}{{"2008-02-29", 216, "2026-02-28"}, {"2025-08-31", 6, "2026-02-28"}, {"2024-01-31", 1, "2024-02-29"}, {"2024-03-31", -1, "2024-02-29"},
		{"2026-01-15", -13, "2024-12-15"}, {"9999-12-31", 1, ""}, {"0001-01-31", -1, ""}, {"0001-01-01", 119987, "9999-12-01"},
		{"2026-01-01", 1 << 62, ""}, {"2026-01-01", -1 << 62, ""}} {
		at, fine := AddMonths(day(row.from), row.months)
		if fine != (row.due != "") || fine && DayText(at) != row.due {
			t.Errorf("%s and %d months: %q is due, and %s came", row.from, row.months, row.due, DayText(at))
		}
	}
	for _, row := range []struct {
		from, to string
		due      int64
	}{{"2008-02-29", "2026-02-28", 215}, {"2000-01-31", "2026-02-28", 312}, {"2000-01-28", "2026-02-28", 313}, {"2027-01-15", "2026-01-14", -12},
		{"2027-01-15", "2026-01-15", -12}, {"2027-01-15", "2026-01-16", -11}, {"2026-01-31", "2026-01-30", 0}} {
		if came := MonthsBetween(day(row.from), day(row.to)); came != row.due {
			t.Errorf("from %s to %s: %d months are due, and %d came", row.from, row.to, row.due, came)
		}
	}
}

func TestDurations(t *testing.T) {
	for text, due := range map[string]string{"P1D": "P1D", "P0D": "PT0S", "PT36H": "P1DT12H", "-PT90M": "-PT1H30M", "P1DT2H3M4S": "P1DT2H3M4S",
		"PT4.0S": "PT4S", "PT0.000S": "PT0S"} {
		if seconds, err := whole.Duration(text); err != nil || whole.DurationText(seconds) != due || IsMonths(text) {
			t.Errorf("%s: %s is due, and %d came, %v", text, due, seconds, err)
		}
	}
	for text, due := range map[string]string{"P1Y": "P1Y", "P14M": "P1Y2M", "-P1Y14M": "-P2Y2M", "P0Y": "P0M"} {
		if months, err := Months(text); err != nil || MonthsText(months) != due || !IsMonths(text) {
			t.Errorf("%s: %s is due, and %d came, %v", text, due, months, err)
		}
	}
	for _, text := range []string{"P", "PT", "P1DT", "P1Y2D", "1D", "P1W", "P-1D", "P1M2D", "p1d", "P1S", "PT1D", " P1D", "+P1D", "P1.5D", "PT.5S", "",
		"P99999999999999999999D"} {
		if seconds, err := whole.Duration(text); err == nil {
			t.Errorf("%q is no duration, and %d came", text, seconds)
		}
	}
	for _, text := range []string{"P", "P1D", "P1Y2D", "P1YT", "PT1M", "P1.5Y", "P1M1Y", "P99999999999999999999Y"} {
		if months, err := Months(text); err == nil || IsMonths(text) && text[1:4] != "999" {
			t.Errorf("%q is no duration, and %d came", text, months)
		}
	}
	if _, err := whole.Duration("PT0.5S"); err != ErrFraction {
		t.Errorf("a fraction of a second: %v", err)
	}
	long := strings.Repeat("9", 1_000_000)
	before := time.Now()
	if _, err := whole.Duration("PT" + long + "S"); err != ErrLong {
		t.Errorf("a long duration: %v", err)
	}
	if months, err := Months("P" + strings.Repeat("0", 1_000_000) + "1M"); err != nil || months != 1 {
		t.Errorf("a duration with zeros: %d, %v", months, err)
	}
	t.Logf("long durations took %v", time.Since(before))
	if text := whole.DurationText(-1 << 63); text != "-P106751991167300DT15H30M8S" {
		t.Errorf("the least duration is %s", text)
	}
}
