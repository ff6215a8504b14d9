package profile

import (
	"fmt"
	"math/big"
	"strings"

	"gateway/calendar"
	"gateway/feel"
)

// momentOf returns a constant date or duration.
func momentOf(value int64, of *valueType) phrase {
	made := wholeConstant(big.NewInt(value))
	made.of, made.rare = of, &rare{moment: &value}
	return made
}

// momentText returns a literal date or duration as requests write it; false for other forms.
func momentText(n feel.Node) (string, bool) {
	text, function := "", ""
	switch n := n.(type) {
	case *feel.AtLiteral:
		text, function = n.Text, functionOf(n.Text)
	case *feel.Call:
		name, is := n.Function.(*feel.Name)
		literal, also := literalArgument(n, "from")
		if !is || !also {
			return "", false
		}
		text, function = literal, name.Name
	}
	tick := calendar.Tick{Decimals: calendar.MostDecimals}
	read, write := tick.Duration, tick.DurationText
	switch function {
	case "date":
		read, write = calendar.Day, calendar.DayText
	case "time":
		read, write = calendar.Sorted(tick.Time, false), tick.TimeText
	case "date and time":
		read, write = calendar.Sorted(tick.DateTime, false), tick.DateTimeText
	case "duration":
		if calendar.IsMonths(text) {
			read, write = calendar.Months, calendar.MonthsText
		}
	default:
		return "", false
	}
	value, err := read(text)
	return write(value), err == nil
}

// functionOf returns the name of the function that reads the text of @"..".
func functionOf(text string) string {
	switch {
	case text == "" || text[0] < '0' || text[0] > '9':
		return "duration"
	case len(text) > 2 && text[2] == ':':
		return "time"
	case strings.Contains(text, "T"):
		return "date and time"
	}
	return "date"
}

// atLiteral translates @"..".
func (t *translator) atLiteral(n *feel.AtLiteral) phrase {
	switch functionOf(n.Text) {
	case "date":
		return t.dateText(n, n.Text)
	case "time":
		return t.timeText(n, n.Text, timeKind)
	case "date and time":
		return t.timeText(n, n.Text, dateTimeKind)
	}
	return t.durationText(n, n.Text)
}

// dateText returns the date of a literal's text.
func (t *translator) dateText(n feel.Node, text string) phrase {
	day, err := calendar.Day(text)
	if err != nil {
		return t.refuse(n, fmt.Sprintf("%q is no date: %v", shortened(text), err), literalOf[dateKind])
	}
	return t.moment(day, dateType)
}

// moment returns a constant that needs counting.
func (t *translator) moment(value int64, of *valueType) phrase {
	t.fractions = true
	return momentOf(value, of)
}

// durationText returns the duration of a literal's text.
func (t *translator) durationText(n feel.Node, text string) phrase {
	t.offsets.want(calendar.DecimalsIn(text))
	read, of := t.offsets.tick.Duration, dayDurationType
	if calendar.IsMonths(text) {
		read, of = calendar.Months, monthDurationType
	}
	value, err := read(text)
	if err != nil {
		return t.refuse(n, fmt.Sprintf("%q is no duration: %v", shortened(text), err), `duration("P30D") or duration("P1Y6M")`)
	}
	return t.moment(value, of)
}

// temporalCall translates a function that makes a date or a duration; false for other functions.
func (t *translator) temporalCall(n *feel.Call, name string, s *scope) (made phrase, is bool) {
	switch name {
	case "date":
		return t.dateCall(n, s), true
	case "duration":
		if text, is := literalArgument(n, "from"); is {
			return t.durationText(n, text), true
		}
		return t.refuse(n, "durations are read of literals alone", `duration("P30D"), or an input of the type of the duration`), true
	case "time":
		return t.timeCall(n, s), true
	case "date and time":
		return t.dateTimeCall(n, s), true
	case "today", "now":
		return t.clockCall(n, name), true
	case "years and months duration":
		return t.monthsBetween(n, s), true
	}
	return phrase{}, false
}

// literalArgument returns the only argument of a call if it is a text literal.
func literalArgument(n *feel.Call, parameter string) (text string, is bool) {
	if len(n.Arguments) != 1 || n.Arguments[0].Name != "" && n.Arguments[0].Name != parameter {
		return "", false
	}
	literal, is := n.Arguments[0].Value.(*feel.String)
	if !is {
		return "", false
	}
	return literal.Value, true
}

// dateCall translates date("2026-01-31"), date(2026, 1, 31), and the date of a date.
func (t *translator) dateCall(n *feel.Call, s *scope) phrase {
	if text, is := literalArgument(n, "from"); is {
		return t.dateText(n, text)
	}
	parameters := []string{"from"}
	if len(n.Arguments) != 1 {
		parameters = []string{"year", "month", "day"}
	}
	arguments, why := t.arranged(n, builtin{parameters: parameters}, s)
	if why != "" {
		return t.refuse(n, why, `date("2026-01-31")`)
	}
	if len(arguments) == 3 {
		return t.dateOfParts(n, arguments)
	}
	switch from := arguments[0]; {
	case from.of.kind == dateKind || from.of.isNothing():
		return from
	case from.of.kind == dateTimeKind:
		return t.dayOf(from)
	}
	return t.refuse(n, "dates are read of literals alone, and taken of a date and time without an offset", `date("2026-01-31"), or an input of the type date`)
}

// dateOfParts returns the date of constant parts.
func (t *translator) dateOfParts(n *feel.Call, parts []phrase) phrase {
	var numbers [3]int
	for i, part := range parts {
		switch {
		case part.of.kind == refusedKind:
			return refused
		case part.number == nil || !part.number.IsInt():
			return t.refuse(n, "a date is made of constants alone", `date(2026, 1, 31), or an input of the type date`)
		case part.number.Num().BitLen() > 31:
			return t.refuse(n, fmt.Sprintf("it is no date: years from %d to %d are taken", calendar.FirstYear, calendar.LastYear), `date(2026, 1, 31)`)
		}
		numbers[i] = int(part.number.Num().Int64())
	}
	day, err := calendar.DayOf(numbers[0], numbers[1], numbers[2])
	if err != nil {
		return t.refuse(n, fmt.Sprintf("it is no date: %v", err), `date(2026, 1, 31)`)
	}
	return t.moment(day, dateType)
}
