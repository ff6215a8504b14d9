package profile_test

import (
	"strings"
	"testing"

	"gateway/profile"
)

// timeParts returns the parts of a file except its decisions: x and y are times, a and b dates and times, d a date, t
// and k durations.
func timeParts() []string {
	return []string{`<itemDefinition name="tOrder"><itemComponent name="placed"><typeRef>date and time</typeRef></itemComponent></itemDefinition>`,
		input("x", "time"), input("y", "time"), input("a", "date and time"), input("b", "dateTime"), input("d", "date"), input("n", "number"),
		input("t", "days and time duration"), input("k", "years and months duration"), input("o", "tOrder"), input("s", "string"), input("f", "boolean")}
}

var timeNeeds = []string{"x", "y", "a", "b", "d", "n", "t", "k", "o", "s", "f"}

// timeRows were worked out by Python's datetime.
var timeRows = []decimalRow{
	// Literals and inputs without an offset.
	{`time("12:30:15")`, `{}`, `"12:30:15"`}, {`time(9, 5, 0)`, `{}`, `"09:05:00"`}, {`@"23:59:59"`, `{}`, `"23:59:59"`}, {`time("00:00:00")`, `{}`, `"00:00:00"`},
	{`time("24:00:00")`, `{}`, "refused: a day ends before 24:00:00"}, {`time("12:60:00")`, `{}`, "refused: from 0 to 59"}, {`time("12:30")`, `{}`, "refused: written as 12:30:00"},
	{`time("12:30:00@Europe/Berlin")`, `{}`, "refused: written as"}, {`time("12:30:00.5")`, `{}`, `"12:30:00.5"`}, {`time("12:30:00.1234567")`, `{}`, "refused: more decimals of a second"}, {`time(s)`, `{}`, "refused: read of literals"},
	{`time(n, 0, 0)`, `{}`, "refused: whole constants"}, {`date and time("2026-01-31T12:30:15")`, `{}`, `"2026-01-31T12:30:15"`}, {`@"2026-01-31T00:00:00"`, `{}`, `"2026-01-31T00:00:00"`},
	{`date and time("2026-02-30T12:30:15")`, `{}`, "refused: February 2026 has 28 days"}, {`date and time("2026-01-31")`, `{}`, "refused: written as 2026-01-31T12:30:00"},
	{`date and time(s)`, `{}`, "refused: read of literals"}, {`x`, `{"x":"08:00:00"}`, `"08:00:00"`}, {`x`, `{"x":"08:00:00.000"}`, `"08:00:00"`}, {`x`, `{"x":"24:00:00"}`, "refused: a day ends before"},
	{`x`, `{"x":"08:00:00Z"}`, "refused: it has an offset, and none is due"}, {`a`, `{"a":"2026-01-31T08:00:00+02:00"}`, "refused: it has an offset, and none is due"}, {`a`, `{"a":"2026-01-31"}`, "refused: written as"},
	{`a`, `{"a":"0001-01-01T00:00:00"}`, `"0001-01-01T00:00:00"`}, {`a`, `{"a":"9999-12-31T23:59:59"}`, `"9999-12-31T23:59:59"`}, {`a`, `{}`, "null"}, {`o.placed`, `{"o":{"placed":"2026-01-31T08:00:00"}}`, `"2026-01-31T08:00:00"`},
	{`a`, `{"a":"2026-01-31T08:00:00.5"}`, "refused: more decimals of a second"}, {`date and time(d, x)`, `{"d":"2024-02-29","x":"23:30:00"}`, `"2024-02-29T23:30:00"`}, {`date and time(d, time("00:00:00"))`, `{"d":"2024-02-29"}`, `"2024-02-29T00:00:00"`},
	{`date and time(a, x)`, `{"a":"2024-02-29T10:00:00","x":"23:30:00"}`, `"2024-02-29T23:30:00"`}, {`date and time(date("2024-02-29"), time("12:00:00"))`, `{}`, `"2024-02-29T12:00:00"`}, {`date and time(d, x)`, `{"d":"2024-02-29"}`, "null"},
	{`date and time(d, d)`, `{}`, "refused: the time is of the type date"}, {`date and time(x, x)`, `{}`, "refused: the date is of the type time"}, {`date(a)`, `{"a":"2024-02-29T23:59:59"}`, `"2024-02-29"`}, {`time(a)`, `{"a":"1969-12-31T23:59:59"}`, `"23:59:59"`},
	{`date(date and time("2024-02-29T12:30:15"))`, `{}`, `"2024-02-29"`}, {`time(date and time("2024-02-29T12:30:15"))`, `{}`, `"12:30:15"`}, {`date(a)`, `{}`, "null"}, {`time(x)`, `{"x":"08:00:00"}`, `"08:00:00"`},
	// Comparisons.
	{`x < y`, `{"x":"08:00:00","y":"08:00:01"}`, "true"}, {`x in [time("08:00:00")..time("18:00:00"))`, `{"x":"18:00:00"}`, "false"}, {`x between y and time("12:00:00")`, `{"x":"08:00:00","y":"08:00:00"}`, "true"}, {`x = null`, `{}`, "true"},
	{`a > b`, `{"a":"1970-01-01T00:00:00","b":"1969-12-31T23:59:59"}`, "true"}, {`a = date and time("2026-01-31T08:00:00")`, `{"a":"2026-01-31T08:00:00"}`, "true"}, {`max(a, b)`, `{"a":"2026-01-31T08:00:00","b":"2026-01-31T08:00:01"}`, `"2026-01-31T08:00:01"`},
	{`date(a) = d`, `{"a":"2026-01-31T08:00:00","d":"2026-01-31"}`, "true"}, {`a > d`, `{}`, "refused: date(x) of the date and time"}, {`x < a`, `{}`, "refused: a value of the type time meets"}, {`x = "08:00:00"`, `{}`, `refused: time("12:30:00") for a time`},
	{`x < 8`, `{}`, "refused: hour, minute or second"}, {`[x, d]`, `{}`, "refused: meets one of the type"}, {`if f then a else n`, `{}`, "refused: meets one of the type number"}, {`x instance of time`, `{"x":"08:00:00"}`, "true"},
	{`a instance of date and time`, `{"a":"2026-01-31T08:00:00"}`, "true"}, {`a instance of date`, `{"a":"2026-01-31T08:00:00"}`, "false"},
	// Parts.
	{`x.hour`, `{"x":"23:59:58"}`, "23"}, {`x.minute`, `{"x":"23:59:58"}`, "59"}, {`x.second`, `{"x":"23:59:58"}`, "58"}, {`a.hour`, `{"a":"2026-01-31T08:07:06"}`, "8"}, {`a.minute`, `{"a":"2026-01-31T08:07:06"}`, "7"}, {`a.second`, `{"a":"2026-01-31T08:07:06"}`, "6"},
	{`a.year`, `{"a":"2024-02-29T08:07:06"}`, "2024"}, {`a.month`, `{"a":"2024-02-29T08:07:06"}`, "2"}, {`a.day`, `{"a":"2024-02-29T23:59:59"}`, "29"}, {`a.weekday`, `{"a":"2026-11-29T23:59:59"}`, "7"}, {`x.year`, `{}`, "refused: no part year"}, {`x.hour`, `{}`, "null"},
	{`time("12:30:15").minute`, `{}`, "30"}, {`date and time("2024-02-29T12:30:15").day`, `{}`, "29"}, {`d.hour`, `{}`, "refused: no part hour"},
	// Sums and differences.
	{`a + duration("PT1H")`, `{"a":"2026-12-31T23:30:00"}`, `"2027-01-01T00:30:00"`}, {`a - duration("PT1S")`, `{"a":"2024-03-01T00:00:00"}`, `"2024-02-29T23:59:59"`}, {`a + t`, `{"a":"2026-12-31T23:30:00","t":"P1DT1H"}`, `"2027-01-02T00:30:00"`}, {`t + a`, `{"a":"2026-12-31T23:30:00"}`, "null"},
	{`a + t`, `{"a":"9999-12-31T23:59:59","t":"PT1S"}`, "limit"}, {`a - t`, `{"a":"0001-01-01T00:00:00","t":"PT1S"}`, "limit"}, {`a + duration("P1M")`, `{"a":"2024-01-31T10:20:30"}`, `"2024-02-29T10:20:30"`}, {`a - k`, `{"a":"2024-02-29T10:20:30","k":"P1Y"}`, `"2023-02-28T10:20:30"`},
	{`a - b`, `{"a":"2026-03-01T00:00:00","b":"2026-02-28T12:00:00"}`, `"PT12H"`}, {`(a - b).hours`, `{"a":"2026-03-01T00:00:00","b":"2026-02-27T12:00:00"}`, "12"}, {`(a - b).days`, `{"a":"2026-03-01T00:00:00","b":"2026-02-27T12:00:00"}`, "1"}, {`x - y`, `{"x":"08:00:00","y":"17:30:00"}`, `"-PT9H30M"`},
	{`x + duration("PT1H")`, `{"x":"23:30:00"}`, `"00:30:00"`}, {`x - t`, `{"x":"00:30:00","t":"PT25H"}`, `"23:30:00"`}, {`time("23:30:00") + duration("PT1H")`, `{}`, `"00:30:00"`}, {`time("00:30:00") - duration("PT25H")`, `{}`, `"23:30:00"`}, {`x + k`, `{}`, "refused: instead: a days and time duration"},
	{`a + b`, `{}`, "refused: the sum"}, {`a - d`, `{}`, "refused: date(x) of the date and time"}, {`x + 1`, `{}`, `refused: x + 1 * duration("PT1H")`}, {`a + n`, `{}`, `refused: a + n * duration("P1D")`}, {`x * 2`, `{}`, "refused: the product"}, {`years and months duration(a, b)`, `{}`, "refused: of the type date and time"},
	{`years and months duration(date(a), date(b))`, `{"a":"2008-02-29T10:00:00","b":"2026-02-28T10:00:00"}`, `"P17Y11M"`}, {`date and time("9999-12-31T23:59:59") + duration("PT1S")`, `{}`, "refused: past the years"}, {`date and time("2026-12-31T23:30:00") + duration("PT1H")`, `{}`, `"2027-01-01T00:30:00"`},
	// With an offset: what meets says so.
	{`a > date and time("2026-01-31T12:00:00Z")`, `{"a":"2026-01-31T13:30:00+02:00"}`, "false"}, {`a > date and time("2026-01-31T12:00:00+02:00")`, `{"a":"2026-01-31T10:00:01Z"}`, "true"}, {`a = date and time("2026-01-01T00:30:00+01:00")`, `{"a":"2025-12-31T18:30:00-05:00"}`, "true"},
	{`a = @"2026-01-01T00:00:00Z"`, `{"a":"2026-01-01T00:00:00-00:00"}`, "true"}, {`a > date and time("2026-01-31T12:00:00Z")`, `{"a":"2026-01-31T13:30:00"}`, "refused: it has no offset, and one is due"}, {`a > date and time("2026-01-31T12:00:00Z")`, `{"a":"2026-01-31T13:30:00+15:00"}`, "refused: at most 14:00"},
	{`a < b and a > date and time("2026-01-31T12:00:00Z")`, `{"a":"2026-02-01T00:00:00Z","b":"2026-02-01T00:00:00-01:00"}`, "true"}, {`(a - date and time("2026-01-31T12:00:00Z")).hours`, `{"a":"2026-01-31T12:00:00-02:00"}`, "2"}, {`a - @"2026-01-31T12:00:00Z"`, `{"a":"2026-01-31T12:00:00+02:00"}`, `"-PT2H"`},
	{`a + duration("PT1H") > @"2026-01-31T12:00:00Z"`, `{"a":"2026-01-31T11:00:01Z"}`, "true"}, {`o.placed < @"2026-01-31T12:00:00Z"`, `{"o":{"placed":"2026-01-31T13:59:59+02:00"}}`, "true"}, {`x < time("12:00:00Z")`, `{"x":"13:30:00+02:00"}`, "true"}, {`x < time("12:00:00Z")`, `{"x":"13:30:00"}`, "refused: it has no offset"},
	{`a.hour > 5 and a > @"2026-01-31T12:00:00Z"`, `{}`, "refused: has no part hour"}, {`a + duration("P1M") > @"2026-01-31T12:00:00Z"`, `{}`, "refused: the sum"}, {`if f then a else @"2026-01-31T12:00:00Z"`, `{}`, "refused: its value has a time with an offset"}, {`[@"12:00:00Z"]`, `{}`, "refused: its value has a time with an offset"},
	{`date(a) = d and a > @"2026-01-31T12:00:00Z"`, `{}`, "refused: without an offset"}, {`@"2026-01-31T12:00:00Z" = @"2026-01-31T12:00:00"`, `{}`, "refused: both with an offset"}, {`date and time(d, time("10:00:00Z")) < a`, `{"d":"2026-01-31","a":"2026-01-31T11:30:00+01:00"}`, "true"},
	{`date and time("2026-01-31T12:00:00@Europe/Berlin") < a`, `{}`, "refused: written as"}, {`a in [@"2026-01-31T12:00:00Z"..@"2026-02-01T12:00:00Z")`, `{"a":"2026-02-01T14:00:00+02:00"}`, "false"},
}

// TestTimeRows checks the rows against the engine.
func TestTimeRows(t *testing.T) {
	d := startDesk(t)
	for _, row := range timeRows {
		result, came := dateAnswer(t, d, timeFile(row.text), row.inputs, profile.Options{})
		if why := strings.TrimPrefix(row.due, "refused: "); why != row.due {
			if !strings.HasPrefix(came, "refused: ") || !strings.Contains(came, why) {
				t.Errorf("%s of %s: %s is due, and it is %s", row.text, row.inputs, row.due, came)
			}
		} else if came != row.due {
			t.Errorf("%s of %s: %s is due, and %s came", row.text, row.inputs, row.due, came)
			if result != nil {
				t.Log(logicOf(t, result, "q"))
			}
		}
	}
}

func timeFile(text string) string {
	return definitions(append(timeParts(), decision("q", "", literal(text), timeNeeds...))...)
}

// TestFractionsOfSeconds tests decimals of seconds, from literals and --decimals.
func TestFractionsOfSeconds(t *testing.T) {
	d := startDesk(t)
	all := &profile.Decimals{All: 3}
	for _, row := range []struct {
		text, inputs, due string
		decimals          *profile.Decimals
	}{
		{`a`, `{"a":"2026-01-31T08:00:00.125"}`, `"2026-01-31T08:00:00.125"`, all},
		{`a`, `{"a":"2026-01-31T08:00:00.1"}`, `"2026-01-31T08:00:00.1"`, &profile.Decimals{All: -1, Named: map[string]int{"a": 1}}},
		{`a - b`, `{"a":"2026-03-01T00:00:00.5","b":"2026-02-28T23:59:59.75"}`, `"PT0.75S"`, all},
		{`a + t`, `{"a":"2026-12-31T23:59:59.999","t":"PT0.001S"}`, `"2027-01-01T00:00:00"`, all},
		{`a + duration("PT0.25S")`, `{"a":"2026-12-31T23:59:59.75"}`, `"2027-01-01T00:00:00"`, nil},
		{`a + duration("PT0.25S")`, `{"a":"2026-12-31T23:59:59.755"}`, "refused: more decimals of a second", nil},
		{`a.second`, `{"a":"2026-12-31T23:59:59.75"}`, "59.75", all},
		{`a.minute * 60 + a.second`, `{"a":"2026-12-31T23:59:59.75"}`, "3599.75", all},
		{`a.hour`, `{"a":"2026-12-31T23:59:59.75"}`, "23", all},
		{`a.day`, `{"a":"2026-12-31T23:59:59.999"}`, "31", all},
		{`date(a) + duration("P1D")`, `{"a":"2026-12-31T23:59:59.999"}`, `"2027-01-01"`, all},
		{`time(a)`, `{"a":"2026-12-31T23:59:59.999"}`, `"23:59:59.999"`, all},
		{`t.seconds`, `{"t":"-PT61.5S"}`, "-1.5", all},
		{`t.days`, `{"t":"P106751991167DT7H"}`, "106751991167", all},
		{`t.days`, `{"t":"P106751991168D"}`, "refused: too long", all},
		{`d + t`, `{"d":"2026-12-31","t":"PT86399.999S"}`, `"2026-12-31"`, all},
		{`d - t`, `{"d":"2026-12-31","t":"PT0.001S"}`, `"2026-12-30"`, all},
		{`t * 4`, `{"t":"PT0.25S"}`, `"PT1S"`, all},
		{`a > @"2026-01-31T12:00:00.5Z"`, `{"a":"2026-01-31T13:00:00.6+01:00"}`, "true", nil},
		{`time("12:30:15.5").second`, `{}`, "15.5", nil},
		{`duration("PT1.25S").seconds + 0.5`, `{}`, "1.75", nil},
		{`o.placed`, `{"o":{"placed":"2026-01-31T08:00:00.12"}}`, `"2026-01-31T08:00:00.12"`, &profile.Decimals{All: -1, Named: map[string]int{"o": 2}}},
		{`a`, `{}`, "refused: decimals are said of it", &profile.Decimals{All: -1, Named: map[string]int{"d": 1}}},
	} {
		_, came := dateAnswer(t, d, timeFile(row.text), row.inputs, profile.Options{Decimals: row.decimals})
		if why := strings.TrimPrefix(row.due, "refused: "); why != row.due && strings.HasPrefix(came, "refused: ") && strings.Contains(came, why) {
			continue
		}
		if came != row.due {
			t.Errorf("%s of %s: %s is due, and %s came", row.text, row.inputs, row.due, came)
		}
	}
}

// TestOffsets tests inputs with an offset.
func TestOffsets(t *testing.T) {
	d := startDesk(t)
	for _, row := range []struct {
		text, inputs, due string
		offsets           []string
	}{
		{`a < b`, `{"a":"2026-01-31T12:00:00+02:00","b":"2026-01-31T11:00:00Z"}`, "true", []string{"a", "b"}},
		{`a < b`, `{"a":"2026-01-31T12:00:00+02:00","b":"2026-01-31T11:00:00Z"}`, "true", []string{"a"}},
		{`a < b`, `{"a":"2026-01-31T12:00:00","b":"2026-01-31T11:00:00"}`, "false", nil},
		{`a < b`, `{"a":"2026-01-31T12:00:00"}`, "refused: no offset, and one is due", []string{"a"}},
		{`a - o.placed`, `{"a":"2026-01-31T12:00:00+02:00","o":{"placed":"2026-01-31T12:00:00Z"}}`, `"-PT2H"`, []string{"o.placed"}},
		{`a - o.placed`, `{"a":"2026-01-31T12:00:00+02:00","o":{"placed":"2026-01-31T12:00:00Z"}}`, `"-PT2H"`, []string{"o"}},
		{`a < date and time("2026-01-31T12:00:00")`, `{}`, "refused: both with an offset", []string{"a"}},
		{`a < b`, `{}`, "refused: an offset is said of it", []string{"c"}},
		{`a < b`, `{}`, "refused: an offset is said of it", []string{"d"}},
		{`a`, `{}`, "refused: its value has a time with an offset", []string{"a"}},
		{`now() - a > duration("PT24H")`, `{"now":"2026-01-31T12:00:00Z","a":"2026-01-30T13:59:59+02:00"}`, "true", nil},
		{`now()`, `{}`, "refused: its value has a time with an offset", nil},
	} {
		_, came := dateAnswer(t, d, timeFile(row.text), row.inputs, profile.Options{Offsets: row.offsets, Clock: "UTC"})
		if why := strings.TrimPrefix(row.due, "refused: "); why != row.due && strings.HasPrefix(came, "refused: ") && strings.Contains(came, why) {
			continue
		}
		if came != row.due {
			t.Errorf("%s of %s with %v: %s is due, and %s came", row.text, row.inputs, row.offsets, row.due, came)
		}
	}
}
