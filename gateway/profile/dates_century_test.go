package profile_test

import (
	"fmt"
	"testing"
	"time"

	"gateway/profile"
)

// TestCenturies checks the parts of dates, and the dates a day and a month later, against Go's calendar: over a
// century, and at both ends of the years.
func TestCenturies(t *testing.T) {
	d := startDesk(t)
	file := dateFile(`{a: [d.year, d.month, d.day, d.weekday], b: [d + duration("P1D"), d - duration("P1M"), d + k]}`)
	result, _ := dateAnswer(t, d, file, `{}`, profile.Options{})
	if result == nil {
		t.Fatal("it is refused")
	}
	months := func(at time.Time, n int) string {
		first := time.Date(at.Year(), at.Month()+time.Month(n), 1, 0, 0, 0, 0, time.UTC)
		last := first.AddDate(0, 1, -1)
		if day := first.AddDate(0, 0, at.Day()-1); day.Before(last) {
			return day.Format("2006-01-02")
		}
		return last.Format("2006-01-02")
	}
	for _, span := range []struct{ from, to, step int }{{1950, 2050, 17}, {1, 5, 1}, {1896, 1904, 1}, {2396, 2404, 1}, {9995, 9999, 1}} {
		at, end := time.Date(span.from, 2, 1, 0, 0, 0, 0, time.UTC), time.Date(span.to, 12, 30, 0, 0, 0, 0, time.UTC)
		for ; at.Before(end); at = at.AddDate(0, 0, span.step) {
			due := fmt.Sprintf(`{"a":[%d,%d,%d,%d],"b":["%s","%s","%s"]}`, at.Year(), at.Month(), at.Day(), (int(at.Weekday())+6)%7+1,
				at.AddDate(0, 0, 1).Format("2006-01-02"), months(at, -1), months(at, -13*(span.from/9000)))
			inputs := fmt.Sprintf(`{"d":"%s","k":"-P%dM"}`, at.Format("2006-01-02"), 13*(span.from/9000))
			if came := countedAsk(d, result, "q", inputs); came != due {
				t.Fatalf("%s: %s is due, and %s came", inputs, due, came)
			}
		}
	}
}
