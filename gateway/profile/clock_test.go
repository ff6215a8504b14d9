package profile_test

import (
	"strings"
	"testing"

	"gateway/profile"
)

// TestClock asks for the day, an input filled by a clock.
func TestClock(t *testing.T) {
	d := startDesk(t)
	for _, row := range []decimalRow{
		{`today()`, `{"today":"2026-11-29"}`, `"2026-11-29"`},
		{`today() > d`, `{"today":"2026-11-29","d":"2026-11-28"}`, "true"},
		{`today() - duration("P18Y") >= d`, `{"today":"2026-02-28","d":"2008-02-29"}`, "false"},
		{`years and months duration(d, today()).years`, `{"today":"2026-11-29","d":"1999-11-30"}`, "26"},
		{`(today() - d).days + today().day`, `{"today":"2026-11-29","d":"2026-11-28"}`, "30"},
		{`today(1)`, `{}`, "refused: today has no arguments"},
		{`today() + 1`, `{}`, "refused: the sum of values of the types date and number"},
	} {
		result, came := dateAnswer(t, d, dateFile(row.text), row.inputs, profile.Options{Clock: "Europe/Berlin"})
		if why := strings.TrimPrefix(row.due, "refused: "); why != row.due && strings.Contains(came, why) {
			continue
		}
		if came != row.due {
			t.Errorf("%s of %s: %s is due, and %s came", row.text, row.inputs, row.due, came)
		}
		if result != nil && (string(result.Types["today"]) != `{"clock":"Europe/Berlin","format":"date","type":["string","null"]}` ||
			result.Names["today"] != "today()" || strings.Contains(string(result.Types["q"]), "clock")) {
			t.Errorf("%s: the types are %s", row.text, result.Types)
		}
	}
	if _, came := dateAnswer(t, d, dateFile("today() > d"), `{}`, profile.Options{}); !strings.Contains(came, "--clock Europe/Berlin") {
		t.Errorf("without a clock: %s", came)
	}
}

// TestClockOfServices asks for the day in the services that need it, one of them next to an input of the same name.
func TestClockOfServices(t *testing.T) {
	file := definitions(input("today", "number"), input("d", "date"), knowledge("late", []string{"d:date"}, literal("today() > d")),
		knowledge("unused", nil, literal("today()")), decision("x", "", literal("late(d)"), "d", "k:late"), decision("y", "", literal("today"), "today"),
		decision("z", "", literal("x"), "d:x"), service("s", "z", "i:d"))
	report := run(t, profile.Options{Clock: "UTC"}, file)
	if report.Result == nil {
		t.Fatal(said(report.Refusals))
	}
	made := report.Result
	if len(made.Model.Services) != 1 || strings.Join(made.Model.Services[0].InputData, " ") != "d today_2" || made.Names["today_2"] != "today()" {
		t.Errorf("the services are %v, the names %v", made.Model.Services, made.Names)
	}
	if len(made.Notes) != 1 || !strings.Contains(made.Notes[0].Why, "from the clock in UTC") {
		t.Errorf("the notes are %v", made.Notes)
	}
	report = run(t, profile.Options{Clock: "UTC", Service: "y"}, file)
	if report.Result == nil || strings.Join(report.Result.Model.Services[0].InputData, " ") != "today" {
		t.Errorf("the service that needs no day: %v", report)
	}
	report = run(t, profile.Options{Service: "y"}, file)
	if report.Result == nil {
		t.Errorf("without a clock, the service that needs no day: %s", said(report.Refusals))
	}
	report = run(t, profile.Options{Partial: true}, file)
	if report.Result != nil {
		t.Errorf("without a clock, the service is made")
	}
}
