package profile_test

import (
	"strings"
	"testing"

	"gateway/profile"
)

// TestHintsOfDates follows the hints in refusals of dates: what they say to write is accepted, and gives what was
// meant. The expected answers are worked out by hand.
func TestHintsOfDates(t *testing.T) {
	d := startDesk(t)
	for _, c := range []struct{ text, hint, inputs, due string }{
		{`d + 30`, `d + duration("P30D")`, `{"d":"2026-01-31"}`, `"2026-03-02"`},
		{`d - n`, `d - n * duration("P1D")`, `{"d":"2026-03-02","n":30}`, `"2026-01-31"`},
		{`(if b then d else e) + 7`, `(if b then d else e) + duration("P7D")`, `{"d":"2026-02-25","b":true}`, `"2026-03-04"`},
		{`k + n`, `k + n * duration("P1M")`, `{"k":"P1Y","n":3}`, `"P1Y3M"`},
		{`(d - e).years`, `years and months duration(a, b).years`, "", ""},
		{`date("2026-02-30")`, `date("2026-01-31")`, `{}`, `"2026-01-31"`},
		{`duration("P1Y1D")`, `duration("P30D")`, `{}`, `"P30D"`},
		{`d > "2026-01-01"`, `date("2026-01-31")`, `{}`, `"2026-01-31"`},
		{`n * d`, "", "", ""},
	} {
		_, came := dateAnswer(t, d, dateFile(c.text), `{}`, profile.Options{})
		if !strings.HasPrefix(came, "refused: ") || !strings.Contains(came, "; instead: "+c.hint) {
			t.Errorf("%s: %q is due, and it is %s", c.text, c.hint, came)
		}
		if c.due == "" {
			continue
		}
		if _, came := dateAnswer(t, d, dateFile(c.hint), c.inputs, profile.Options{}); came != c.due {
			t.Errorf("%s for %s: %s is due, and %s came", c.hint, c.text, c.due, came)
		}
	}
}
