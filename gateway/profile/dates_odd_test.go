package profile_test

import (
	"strings"
	"testing"

	"gateway/profile"
)

// TestOddForms tests calls and parts of dates that mean nothing: each is refused.
func TestOddForms(t *testing.T) {
	d := startDesk(t)
	for _, text := range []string{`date()`, `date(1, 2, 3, 4)`, `date(1, 2)`, `date(null, null, null)`, `date(d, 1, 1)`, `date(from: d, x: 1)`, `date("")`, `date(year: 2026, month: 1)`,
		`duration()`, `duration(5)`, `duration(d)`, `duration("P1D", "P1D")`, `duration(from: "")`, `time()`, `time(1, 2)`, `time(-1, 0, 0)`, `time(12.5, 0, 0)`,
		`time(99999999999999, 0, 0)`, `date and time()`, `date and time(d)`, `date and time(d, t)`, `date and time(1)`, `years and months duration(d)`,
		`years and months duration(d, t)`, `years and months duration()`, `today`, `now`, `@""`, `@"P"`, `@"2026"`, `@"12:00"`, `@"2026-01-01T"`, `d.year.month`, `d.`, `d.years`,
		`t.day`, `k.days`, `d + `, `d - d - d`, `d + t + d`, `t + d + d`, `d * d`, `t * t`, `d / d`, `t ** 2`, `-t`, `+d`, `d in`, `d in t`, `d in (t)`, `[d, t]`,
		`[d, [d]]`, `{a: d}.b`, `d[1]`, `d(1)`, `sum(t, t)`, `min(d, t)`, `max(l, d)`, `decimal(d, 2)`, `floor(t)`, `string(d)`, `d instance of function`, `if d < t then 1 else 2`,
		`for x in l return x`, `every x in l satisfies x > d`, `l[1]`, `count(d)`, `not(t)`, `d between t and t`, `date("2026-01-31") < "2026-01-31"`, `time("12:00:00") + 5`} {
		_, came := dateAnswer(t, d, dateFile(text), `{}`, profile.Options{})
		if !strings.HasPrefix(came, "refused: ") {
			t.Errorf("%s is taken: %s", text, came)
		}
	}
}
