package profile_test

import (
	"fmt"
	"math/rand"
	"os"
	"strconv"
	"strings"
	"testing"
	"time"

	"gateway/dmn"
	"gateway/feel"
	"gateway/profile"
)

// generatedDateParts are the inputs of generated files with dates: born and day are dates, seen and sent dates with
// times, opens a time, long and age durations, days a list.
var generatedDateParts = []string{`<itemDefinition name="tDays" isCollection="true"><typeRef>date</typeRef></itemDefinition>`, input("born", "date"),
	input("day", "date"), input("long", "days and time duration"), input("age", "years and months duration"), input("days", "tDays"),
	input("seen", "date and time"), input("sent", "date and time"), input("opens", "time")}

var generatedDateNeeds = []string{"born", "day", "long", "age", "days", "seen", "sent", "opens"}

// borderDates are near the days that calendars get wrong.
var borderDates = []string{"2024-02-29", "2023-02-28", "2024-03-01", "2000-02-29", "1900-02-28", "1900-03-01", "2100-02-28", "1970-01-01", "1969-12-31",
	"2026-01-31", "2026-12-31", "2025-08-31", "2026-04-30", "1999-12-31", "2000-01-01", "2000-03-01", "2400-02-29", "1600-02-29"}

// someDate writes a date; few are near the ends of the years.
func (w *writer) someDate() string {
	from, days := time.Date(1940, 1, 1, 0, 0, 0, 0, time.UTC), 40_000
	switch w.Intn(8) {
	case 0, 1, 2:
		return w.one(borderDates...)
	case 3:
		from, days = time.Date(600, 1, 1, 0, 0, 0, 0, time.UTC), 3_300_000
	case 4:
		from, days = time.Date(1970, 1, 1, 0, 0, 0, 0, time.UTC).AddDate(w.Intn(130), w.Intn(12), 0), 2
	}
	return from.AddDate(0, 0, w.Intn(days)).Format("2006-01-02")
}

// other writes a value of any kind.
func (w *writer) other() string {
	switch w.Intn(9) {
	case 7:
		return w.stamp()
	case 8:
		return w.hour()
	case 0:
		return w.date()
	case 1:
		return w.span()
	case 2:
		return w.term()
	case 3:
		return w.number()
	case 4:
		return w.one("u", "l", "days", "[born]", "c", "{day: born}", "{day: 5}", "[5]", "[long]", "null")
	}
	return w.one("5", `"2026-01-31"`, "a", "born", "day", "long", "age", "s", "u", "f", "null", "seen", "opens")
}

// date writes a date.
func (w *writer) date() string {
	w.depth++
	defer func() { w.depth-- }()
	if w.mixes && w.Intn(12) == 0 {
		return w.other()
	}
	if w.depth > 3 || w.Intn(3) == 0 {
		return w.one("born", "day", "born", "day", fmt.Sprintf("date(%q)", w.someDate()))
	}
	switch w.Intn(12) {
	case 0, 1:
		return fmt.Sprintf("(%s %s %s)", w.date(), w.one("+", "-"), w.span())
	case 2, 3, 4:
		return fmt.Sprintf("(%s %s %s)", w.date(), w.one("+", "-"), w.term())
	case 5:
		return fmt.Sprintf("(%s + %s)", w.one("long", "age"), w.date())
	case 6:
		return fmt.Sprintf("(if %s then %s else %s)", w.condition(), w.date(), w.date())
	case 7:
		return fmt.Sprintf("%s(%s, %s)", w.one("min", "max"), w.date(), w.date())
	case 8:
		return fmt.Sprintf("{p: %s, q: p %s}.%s", w.date(), w.one(`+ duration("P1M")`, `- duration("P1D")`), w.one("p", "q"))
	case 9:
		return fmt.Sprintf("[%s, %s][item > %s][1]", w.one("born", "day"), w.date(), w.one("born", "day"))
	case 10:
		return w.one(`date(2024, 2, 29)`, `@"2023-12-31"`, "date(day)", "max(days)", "min(days)", fmt.Sprintf("date(%s)", w.stamp()))
	}
	return fmt.Sprintf("date(%q)", w.someDate())
}

// someTime writes a time.
func (w *writer) someTime() string {
	return w.one("00:00:00", "23:59:59", "12:00:00", fmt.Sprintf("%02d:%02d:%02d", w.Intn(24), w.Intn(60), w.Intn(60)))
}

// stamp writes a date and time.
func (w *writer) stamp() string {
	w.depth++
	defer func() { w.depth-- }()
	if w.mixes && w.Intn(12) == 0 {
		return w.other()
	}
	if w.depth > 3 || w.Intn(3) == 0 {
		return w.one("seen", "sent", "seen", "sent", fmt.Sprintf("date and time(%q)", w.someDate()+"T"+w.someTime()))
	}
	switch w.Intn(6) {
	case 0, 1:
		return fmt.Sprintf("(%s %s %s)", w.stamp(), w.one("+", "-"), w.span())
	case 2:
		return fmt.Sprintf("(%s %s %s)", w.stamp(), w.one("+", "-"), w.term())
	case 3:
		return fmt.Sprintf("date and time(%s, %s)", w.date(), w.hour())
	case 4:
		return fmt.Sprintf("(if %s then %s else %s)", w.condition(), w.stamp(), w.stamp())
	}
	return fmt.Sprintf("%s(%s, %s)", w.one("min", "max"), w.stamp(), w.stamp())
}

// hour writes a time.
func (w *writer) hour() string {
	w.depth++
	defer func() { w.depth-- }()
	if w.mixes && w.Intn(12) == 0 {
		return w.other()
	}
	if w.depth > 3 || w.Intn(3) == 0 {
		return w.one("opens", "opens", fmt.Sprintf("time(%q)", w.someTime()), fmt.Sprintf("@%q", w.someTime()))
	}
	switch w.Intn(3) {
	case 0:
		return fmt.Sprintf("(%s %s %s)", w.hour(), w.one("+", "-"), w.span())
	case 1:
		return fmt.Sprintf("time(%s)", w.stamp())
	}
	return fmt.Sprintf("(if %s then %s else %s)", w.condition(), w.hour(), w.hour())
}

// span writes a days and time duration.
func (w *writer) span() string {
	w.depth++
	defer func() { w.depth-- }()
	if w.mixes && w.Intn(12) == 0 {
		return w.other()
	}
	if w.depth > 3 || w.Intn(3) == 0 {
		return w.one("long", `duration("P30D")`, `duration("P1D")`, `duration("PT36H")`, `duration("-PT90M")`, `@"P400D"`)
	}
	switch w.Intn(6) {
	case 0, 1:
		return fmt.Sprintf("(%s - %s)", w.one("born", "day"), w.one("day", fmt.Sprintf("date(%q)", w.someDate())))
	case 2:
		return fmt.Sprintf("(%s %s %s)", w.span(), w.one("+", "-"), w.span())
	case 3:
		return fmt.Sprintf("(%s * %s)", w.span(), w.one("2", "0", "7", "day.day", "born.weekday"))
	case 4:
		return w.one(fmt.Sprintf("(%s - %s)", w.stamp(), w.stamp()), fmt.Sprintf("(%s - %s)", w.hour(), w.hour()))
	}
	return fmt.Sprintf("(%s * duration(%q))", w.one("3", "born.month"), w.one("P1D", "PT8H", "-P1D"))
}

// term writes a years and months duration.
func (w *writer) term() string {
	w.depth++
	defer func() { w.depth-- }()
	if w.mixes && w.Intn(12) == 0 {
		return w.other()
	}
	if w.depth > 3 || w.Intn(3) == 0 {
		return w.one("age", `duration("P1M")`, `duration("P18Y")`, `duration("-P13M")`, `duration("P1Y")`, `@"P11M"`)
	}
	switch w.Intn(4) {
	case 0, 1:
		return fmt.Sprintf("years and months duration(%s, %s)", w.date(), w.date())
	case 2:
		return fmt.Sprintf("(%s %s %s)", w.term(), w.one("+", "-"), w.term())
	}
	return fmt.Sprintf("(%s * %s)", w.one("2", "-1", "day.month"), w.term())
}

func (w *writer) numberOfDates() string {
	switch w.Intn(8) {
	case 6:
		return fmt.Sprintf("%s.%s", w.stamp(), w.one("year", "month", "day", "weekday", "hour", "minute", "second"))
	case 7:
		return fmt.Sprintf("%s.%s", w.hour(), w.one("hour", "minute", "second"))
	case 0, 1, 2:
		return fmt.Sprintf("%s.%s", w.date(), w.one("year", "month", "day", "weekday"))
	case 3:
		return fmt.Sprintf("%s.%s", w.span(), w.one("days", "days", "hours", "minutes", "seconds"))
	case 4:
		return fmt.Sprintf("%s.%s", w.term(), w.one("years", "months"))
	}
	return w.one("(day - born).days", "years and months duration(born, day).years", "count(days)")
}

func (w *writer) conditionOfDates() string {
	switch w.Intn(13) {
	case 10, 11:
		return fmt.Sprintf("%s %s %s", w.stamp(), w.comparison(), w.stamp())
	case 12:
		return w.one(fmt.Sprintf("%s %s %s", w.hour(), w.comparison(), w.hour()), fmt.Sprintf("%s in [%s..%s)", w.hour(), w.hour(), w.hour()))
	case 0, 1, 2:
		return fmt.Sprintf("%s %s %s", w.date(), w.comparison(), w.date())
	case 3:
		return fmt.Sprintf("%s %s %s", w.span(), w.comparison(), w.span())
	case 4:
		return fmt.Sprintf("%s %s %s", w.term(), w.comparison(), w.term())
	case 5:
		return fmt.Sprintf("%s in %s%s..%s%s", w.date(), w.one("[", "("), w.date(), w.date(), w.one("]", ")"))
	case 6:
		return fmt.Sprintf("%s between %s and %s", w.date(), w.date(), w.date())
	case 7:
		return w.one("list contains(days, day)", "born in days", fmt.Sprintf("some s in days satisfies s = %s", w.one("day", "born")), "born = null", "day != null")
	case 8:
		return fmt.Sprintf("%s in (%s, > %s)", w.date(), w.date(), w.date())
	}
	return fmt.Sprintf("%s in [%s, %s]", w.date(), w.date(), w.date())
}

func (w *writer) resultOfDates() string {
	switch w.Intn(8) {
	case 6:
		return w.stamp()
	case 7:
		return w.hour()
	case 0:
		return w.span()
	case 1:
		return w.term()
	case 2:
		return fmt.Sprintf("[%s, %s, null]", w.date(), w.date())
	case 3:
		return fmt.Sprintf("{p: %s, q: %s, t: %s}", w.date(), w.number(), w.span())
	}
	return w.date()
}

// dateEntry writes an input entry for a date.
func (w *writer) dateEntry() string {
	literal := func() string { return w.one(fmt.Sprintf("date(%q)", w.someDate()), "day", "born", w.date()) }
	return w.one("-", w.one("< ", "<= ", "> ", ">= ")+literal(), w.one("[", "(")+literal()+".."+literal()+w.one("]", ")"), literal()+", "+literal(),
		"not("+literal()+")", "null", "?.month > 6", "?.weekday < 6", w.one("> ", "<= ")+w.date())
}

// overDates returns the table a column of dates, and sometimes outputs that are dates. It returns the type of the
// output.
func (it *generated) overDates(w *writer) string {
	it.columns[0] = w.one("born", "day", w.date())
	of := "number"
	if w.Intn(2) == 0 && it.hit != "COLLECT SUM" {
		of = "date"
	}
	for _, row := range it.rows {
		row[0] = w.dateEntry()
		if of == "date" {
			row[2] = w.date()
		}
	}
	return of
}

// requestOfDates writes the dates and durations of a request.
func (w *writer) requestOfDates() []string {
	var inputs []string
	for _, name := range []string{"born", "day"} {
		if w.Intn(12) > 0 {
			inputs = append(inputs, fmt.Sprintf("%q:%q", name, w.someDate()))
		}
	}
	for _, name := range []string{"seen", "sent"} {
		if w.Intn(12) > 0 {
			inputs = append(inputs, fmt.Sprintf("%q:%q", name, w.someDate()+"T"+w.someTime()))
		}
	}
	inputs = append(inputs, fmt.Sprintf(`"opens":%q`, w.someTime()))
	sign := func() string { return w.one("", "", "-") }
	inputs = append(inputs, fmt.Sprintf(`"long":"%s%s"`, sign(), w.one(fmt.Sprintf("P%dD", w.Intn(400)), fmt.Sprintf("PT%dS", w.Intn(40_000_000)),
		fmt.Sprintf("PT%dH", w.Intn(50)))), fmt.Sprintf(`"age":"%sP%dM"`, sign(), w.Intn(300)))
	days := []string{jsonOf(w.someDate()), jsonOf(w.someDate())}
	if w.Intn(6) == 0 {
		days = append(days, "null")
	}
	return append(inputs, `"days":[`+strings.Join(days, ",")+`]`)
}

// mixture writes an expression that mixes any kinds.
func (w *writer) mixture() string {
	switch w.Intn(10) {
	case 0:
		return fmt.Sprintf("%s %s %s", w.other(), w.comparison(), w.other())
	case 1:
		return fmt.Sprintf("%s %s %s", w.other(), w.one("+", "-", "*"), w.other())
	case 2:
		return fmt.Sprintf("if %s then %s else %s", w.conditionOfDates(), w.other(), w.other())
	case 3:
		return fmt.Sprintf("[%s, %s] = [%s, %s]", w.other(), w.other(), w.other(), w.other())
	case 4:
		return fmt.Sprintf("{a: %s, b: %s} = {a: %s, b: %s}", w.other(), w.other(), w.other(), w.other())
	case 5:
		return fmt.Sprintf("%s in (%s, %s)", w.other(), w.other(), w.other())
	case 6:
		return fmt.Sprintf("%s(%s, %s)", w.one("min", "max", "sum"), w.other(), w.other())
	case 7:
		return fmt.Sprintf("%s between %s and %s", w.other(), w.other(), w.other())
	case 8:
		return fmt.Sprintf("{a: if f then %s else %s, b: a %s %s}.b", w.other(), w.other(), w.one("+", "-", "*", "=", "<"), w.other())
	}
	return w.one(w.conditionOfDates(), w.resultOfDates(), w.number())
}

// TestMixedKinds tests expressions that mix any kinds: each is refused, or means what the standard says, in which a
// date isn't a number. MIXED_FILES sets how many files.
func TestMixedKinds(t *testing.T) {
	files := 1500
	if text := os.Getenv("MIXED_FILES"); text != "" {
		files, _ = strconv.Atoi(text)
	}
	d := startDesk(t)
	scope := decimalScope()
	for _, name := range generatedDateNeeds {
		scope.Add(name)
	}
	taken, wrong := 0, 0
	for i := 0; i < files && wrong < 5; i++ {
		w := &writer{Rand: rand.New(rand.NewSource(int64(i))), dated: true, mixes: true, names: []string{"a", "b", "x", "y", "c.x", "r"}}
		text := w.mixture()
		needs := append(append([]string(nil), generatedDateNeeds...), decimalNeeds...)
		parts := append(append(decimalParts(), generatedDateParts...), decision("d", "", literal(text), needs...))
		read, err := dmn.Read("test.dmn", strings.NewReader(definitions(parts...)))
		if err != nil {
			t.Fatal(err)
		}
		result, _ := profile.Import([]*dmn.File{read}, profile.Options{})
		if result == nil {
			continue
		}
		taken++
		node, fault := feel.Expression(text, scope, nil)
		if fault != nil {
			t.Fatal(fault)
		}
		d.model(result)
		for j := 0; j < 3; j++ {
			inputs := w.request(result)
			values := decimalValues(t, inputs)
			values.readDates(t)
			came := countedAsk(d, result, "d", inputs)
			if came == "limit" {
				continue
			}
			if due := decimalText(values.value(node)); came != due {
				wrong++
				t.Errorf("%d: %s of %s: %s is due, and %s came", i, text, inputs, due, came)
				break
			}
		}
	}
	t.Logf("%d of %d are taken", taken, files)
}
