package profile_test

import (
	"fmt"
	"math/big"
	"testing"
	"time"

	"gateway/feel"
)

// The evaluator's dates are those of Go's calendar, at midnight in UTC. A stamp is a date and time, an hour a time in
// seconds, a span a days and time duration in seconds, a term a years and months duration in months.
type (
	stamp struct{ time.Time }
	hour  int64
	span  int64
	term  int64
)

const daySpan = 24 * 3600

func whole(n int64) *big.Rat { return new(big.Rat).SetInt64(n) }

// calculatedDates returns a sum, a difference or a product of dates and durations; false if there are none.
func calculatedDates(operator string, a, b any) (made any, is bool) {
	if !isDated(a) && !isDated(b) {
		return nil, false
	}
	if operator == "+" && !isPoint(a) && isPoint(b) || operator == "*" && !isDated(a) {
		a, b = b, a
	}
	sign := int64(1)
	if operator == "-" {
		sign = -1
	}
	switch x := a.(type) {
	case time.Time:
		return dayAnd(x, sign, operator, b), true
	case stamp:
		return stampAnd(x, sign, operator, b), true
	case hour:
		if y, is := b.(hour); is && operator == "-" {
			return span(x - y), true
		}
		if y, is := b.(span); is && operator != "*" {
			return hour(((int64(x)+sign*int64(y))%daySpan + daySpan) % daySpan), true
		}
	case span:
		if y, is := b.(span); is && operator != "*" {
			return x + span(sign)*y, true
		}
		if y, is := b.(*big.Rat); is && operator == "*" {
			return x * span(y.Num().Int64()), true
		}
	case term:
		if y, is := b.(term); is && operator != "*" {
			return x + term(sign)*y, true
		}
		if y, is := b.(*big.Rat); is && operator == "*" {
			return x * term(y.Num().Int64()), true
		}
	}
	return nil, true
}

func isPoint(a any) bool {
	switch a.(type) {
	case time.Time, stamp, hour:
		return true
	}
	return false
}

func isDated(a any) bool {
	switch a.(type) {
	case span, term:
		return true
	}
	return isPoint(a)
}

func stampAnd(x stamp, sign int64, operator string, b any) any {
	switch y := b.(type) {
	case stamp:
		if operator == "-" {
			return span(x.Unix() - y.Unix())
		}
	case span:
		return stamp{time.Unix(x.Unix()+sign*int64(y), 0).UTC()}
	case term:
		return joinedStamp(dayAnd(midnight(x.Time), sign, operator, y).(time.Time), x.Time)
	}
	return nil
}

func midnight(at time.Time) time.Time {
	return time.Date(at.Year(), at.Month(), at.Day(), 0, 0, 0, 0, time.UTC)
}

// joinedStamp returns a day with the time of another one.
func joinedStamp(day, at time.Time) stamp {
	return stamp{time.Date(day.Year(), day.Month(), day.Day(), at.Hour(), at.Minute(), at.Second(), 0, time.UTC)}
}

func dayAnd(x time.Time, sign int64, operator string, b any) any {
	switch y := b.(type) {
	case time.Time:
		if operator == "-" {
			return span(x.Unix() - y.Unix())
		}
	case span:
		return midnight(time.Unix(x.Unix()+sign*int64(y), 0).UTC())
	case term:
		first := time.Date(x.Year(), x.Month()+time.Month(sign*int64(y)), 1, 0, 0, 0, 0, time.UTC)
		last := first.AddDate(0, 1, -1)
		at := first.AddDate(0, 0, x.Day()-1)
		if at.After(last) {
			return last
		}
		return at
	}
	return nil
}

func partOfDate(of any, name string) any {
	switch x := of.(type) {
	case time.Time:
		parts := map[string]int{"year": x.Year(), "month": int(x.Month()), "day": x.Day(), "weekday": (int(x.Weekday())+6)%7 + 1}
		return whole(int64(parts[name]))
	case stamp:
		if parts := map[string]int{"hour": x.Hour(), "minute": x.Minute(), "second": x.Second()}; name == "hour" || name == "minute" || name == "second" {
			return whole(int64(parts[name]))
		}
		return partOfDate(x.Time, name)
	case hour:
		return whole(int64(map[string]hour{"hour": x / 3600, "minute": x % 3600 / 60, "second": x % 60}[name]))
	case span:
		parts := map[string]span{"days": x / daySpan, "hours": x % daySpan / 3600, "minutes": x % 3600 / 60, "seconds": x % 60}
		return whole(int64(parts[name]))
	case term:
		return whole(int64(map[string]term{"years": x / 12, "months": x % 12}[name]))
	}
	return nil
}

// calledDates returns the functions over dates.
func calledDates(name string, arguments []any) any {
	switch name {
	case "date":
		if len(arguments) == 1 {
			if text, is := arguments[0].(string); is {
				return readDate(text)
			}
			if at, is := arguments[0].(stamp); is {
				return midnight(at.Time)
			}
			return arguments[0]
		}
		part := func(i int) int { return int(arguments[i].(*big.Rat).Num().Int64()) }
		return time.Date(part(0), time.Month(part(1)), part(2), 0, 0, 0, 0, time.UTC)
	case "time":
		if text, is := arguments[0].(string); is {
			return readHour(text)
		}
		if at, is := arguments[0].(stamp); is {
			return hour(at.Hour()*3600 + at.Minute()*60 + at.Second())
		}
		return arguments[0]
	case "date and time":
		if text, is := arguments[0].(string); is {
			return readStamp(text)
		}
		day, is := arguments[0].(time.Time)
		if other, isStamp := arguments[0].(stamp); isStamp {
			day, is = midnight(other.Time), true
		}
		at, also := arguments[1].(hour)
		if !is || !also {
			return nil
		}
		return stamp{day.Add(time.Duration(at) * time.Second)}
	case "duration":
		return readDuration(arguments[0].(string))
	case "list contains":
		return contained(arguments[0].([]any), arguments[1])
	}
	from, is := arguments[0].(time.Time)
	to, also := arguments[1].(time.Time)
	if !is || !also {
		return nil
	}
	return monthsOf(from, to)
}

// monthsOf counts months one by one, up to the other day.
func monthsOf(from, to time.Time) term {
	passed := func(months int) int {
		at := (from.Year()*12+int(from.Month())+months)*100 + from.Day()
		return at - ((to.Year()*12+int(to.Month()))*100 + to.Day())
	}
	step := 1
	if passed(0) > 0 {
		step = -1
	}
	months := step * 12 * abs(to.Year()-from.Year()) / 2
	for passed(months)*step > 0 {
		months -= step
	}
	for passed(months+step)*step <= 0 {
		months += step
	}
	return term(months)
}

func contained(list []any, x any) any {
	for _, item := range list {
		if same(x, item) == true {
			return true
		}
	}
	return false
}

func readStamp(text string) stamp {
	at, err := time.Parse("2006-01-02T15:04:05", text)
	if err != nil {
		panic(err)
	}
	return stamp{at}
}

func readHour(text string) hour {
	at := readStamp("2000-01-01T" + text)
	return hour(at.Hour()*3600 + at.Minute()*60 + at.Second())
}

func readDate(text string) time.Time {
	at, err := time.Parse("2006-01-02", text)
	if err != nil {
		panic(err)
	}
	return at
}

// readDuration reads PnD, PTnH, PTnM, PTnS and PnY, PnM, with a sign.
func readDuration(text string) any {
	sign, letters := int64(1), text
	if text[0] == '-' {
		sign, letters = -1, text[1:]
	}
	var number int64
	var letter string
	units := map[string]any{"PD": span(daySpan), "PTH": span(3600), "PTM": span(60), "PTS": span(1), "PY": term(12), "PM": term(1)}
	form := "P%d%s"
	if letters[1] == 'T' {
		form = "PT%d%s"
	}
	if _, err := fmt.Sscanf(letters, form, &number, &letter); err != nil {
		panic(fmt.Sprint(text, err))
	}
	switch unit := units[form[:len(form)-4]+letter].(type) {
	case span:
		return unit * span(sign*number)
	case term:
		return unit * term(sign*number)
	}
	panic(text)
}

// extremeDate returns the least or the greatest of dates or durations; false if the first isn't one.
func extremeDate(name string, list []any) (any, bool) {
	for _, item := range list {
		if item == nil || !isDated(item) {
			return nil, isDated(list[0])
		}
	}
	soFar := list[0]
	for _, item := range list[1:] {
		if less := before(item, soFar); less == true && name == "min" || name == "max" && before(soFar, item) == true {
			soFar = item
		}
	}
	return soFar, true
}

// dateText writes a date or a duration as results have it.
func dateText(value any) string {
	switch x := value.(type) {
	case time.Time:
		return x.Format("2006-01-02")
	case stamp:
		return x.Format("2006-01-02T15:04:05")
	case hour:
		return fmt.Sprintf("%02d:%02d:%02d", x/3600, x%3600/60, x%60)
	case span:
		return durationText(int64(x), "PT0S", []part{{daySpan, "D"}, {0, "T"}, {3600, "H"}, {60, "M"}, {1, "S"}})
	case term:
		return durationText(int64(x), "P0M", []part{{12, "Y"}, {1, "M"}})
	}
	return ""
}

type part struct {
	size   int64
	letter string
}

func durationText(n int64, none string, parts []part) string {
	text := "P"
	if n < 0 {
		n, text = -n, "-P"
	}
	if n == 0 {
		return none
	}
	for _, p := range parts {
		switch {
		case p.size == 0 && n > 0:
			text += p.letter
		case p.size > 0 && n >= p.size:
			text += fmt.Sprint(n/p.size, p.letter)
			n %= p.size
		}
	}
	return text
}

// readDates reads the dates among the values of a request.
func (e decimals) readDates(t *testing.T) {
	t.Helper()
	for _, name := range []string{"born", "day"} {
		if text, is := e[name].(string); is {
			e[name] = readDate(text)
		}
	}
	for _, name := range []string{"seen", "sent"} {
		if text, is := e[name].(string); is {
			e[name] = readStamp(text)
		}
	}
	if text, is := e["opens"].(string); is {
		e["opens"] = readHour(text)
	}
	for _, name := range []string{"long", "age"} {
		if text, is := e[name].(string); is {
			e[name] = readDuration(text)
		}
	}
	if list, is := e["days"].([]any); is {
		for i, item := range list {
			if text, is := item.(string); is {
				list[i] = readDate(text)
			}
		}
	}
}

// filtered returns the member at an index from 1, or the list that a condition leaves.
func (e decimals) filtered(n *feel.Filter) any {
	list := e.value(n.Operand).([]any)
	if _, is := n.Condition.(*feel.Number); is {
		if at := e.value(n.Condition).(*big.Rat).Num().Int64(); at >= 1 && at <= int64(len(list)) {
			return list[at-1]
		}
		return nil
	}
	left := []any{}
	for _, item := range list {
		if e.with("item", item).value(n.Condition) == true {
			left = append(left, item)
		}
	}
	return left
}
