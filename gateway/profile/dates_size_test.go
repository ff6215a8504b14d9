package profile_test

import (
	"fmt"
	"strings"
	"testing"
	"time"

	"gateway/profile"
)

// TestManyDates measures files that need much of the calendar: each is imported or refused within seconds.
func TestManyDates(t *testing.T) {
	var seasons, later, literals [][]string
	for i := 0; i < 2000; i++ {
		seasons = append(seasons, []string{fmt.Sprintf("?.month = %d and ?.year > %d", i%12+1, i), `"x"`})
		literals = append(literals, []string{fmt.Sprintf("[date(%d, 1, 1)..date(\"%04d-12-31\")]", i+1, i+1), `"x"`})
		if i < 400 {
			later = append(later, []string{fmt.Sprintf("< date(%d, 1, 1)", i+1), fmt.Sprintf(`d + duration("P%dM")`, i)})
		}
	}
	ins, outs := []column{{text: "d"}}, []column{{text: "r"}}
	for name, c := range map[string]struct {
		logic string
		taken bool
	}{
		"parts in each rule":    {table("", ins, outs, seasons...), true},
		"literals in each rule": {table("", ins, outs, literals...), true},
		"months in each rule":   {table("", ins, outs, later...), true},
		"a chain of months":     {literal("d" + strings.Repeat(` + duration("P1M")`, 200)), true},
		"a chain of days":       {literal("d" + strings.Repeat(` + duration("P1D")`, 1000)), true},
		"a chain too long":      {literal("d" + strings.Repeat(` + duration("P1M")`, 37_000)), false},
		"a long list":           {literal("d in [" + strings.Repeat(`date("2026-01-31"), `, 20_000) + `date("2026-01-31")]`), true},
		"parts of parts":        {literal(strings.Repeat("(d + duration(\"P1M\")).day * duration(\"P1D\") + ", 200) + "d"), true},
	} {
		t.Run(name, func(t *testing.T) {
			file := definitions(input("d", "date"), decision("q", "", c.logic, "d"))
			before := time.Now()
			report := run(t, profile.Options{}, file)
			took := time.Since(before)
			t.Logf("%d bytes in %v", len(file), took)
			if (report.Result != nil) != c.taken {
				t.Errorf("taken is %v: %.300s", report.Result != nil, said(report.Refusals))
			}
			if report.Result != nil {
				d := startDesk(t)
				d.model(report.Result)
				countedAsk(d, report.Result, "q", `{"d":"2026-01-31"}`)
			}
		})
	}
}
