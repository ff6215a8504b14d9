package profile

import (
	"fmt"
	"math/big"

	"gateway/calendar"
	"gateway/feel"
)

// timeText returns the time, or the date and time, of a literal's text.
func (t *translator) timeText(n feel.Node, text string, kind kindOfType) phrase {
	t.offsets.want(calendar.DecimalsIn(text))
	read := t.offsets.tick.Time
	if kind == dateTimeKind {
		read = t.offsets.tick.DateTime
	}
	seconds, hasOffset, err := read(text)
	if err != nil {
		return t.refuse(n, fmt.Sprintf("%q is no %s: %v", shortened(text), temporalNames[kind], err), literalOf[kind])
	}
	if hasOffset {
		kind = withOffset[kind]
	}
	return t.moment(seconds, &valueType{kind: kind})
}

// timeCall translates time("12:30:00"), time(12, 30, 0) and the time of a date and time.
func (t *translator) timeCall(n *feel.Call, s *scope) phrase {
	if text, is := literalArgument(n, "from"); is {
		return t.timeText(n, text, timeKind)
	}
	parameters := []string{"from"}
	if len(n.Arguments) != 1 {
		parameters = []string{"hour", "minute", "second"}
	}
	arguments, why := t.arranged(n, builtin{parameters: parameters}, s)
	if why != "" {
		return t.refuse(n, why, `time("12:30:00")`)
	}
	if len(arguments) == 3 {
		return t.timeOfParts(n, arguments)
	}
	switch from := arguments[0]; {
	case from.of.kind == timeKind || from.of.isNothing():
		return from
	case from.of.kind == dateTimeKind:
		return t.timeOf(from)
	}
	return t.refuse(n, "times are read of literals, and taken of a date and time without an offset", `time("12:30:00"), or an input of the type time`)
}

// timeOfParts returns the time of constant parts.
func (t *translator) timeOfParts(n *feel.Call, parts []phrase) phrase {
	var numbers [3]int64
	for i, part := range parts {
		switch {
		case part.of.kind == refusedKind:
			return refused
		case part.number == nil || !part.number.IsInt() || !part.number.Num().IsInt64():
			return t.refuse(n, "a time is made of whole constants alone", `time(12, 30, 0), or an input of the type time`)
		}
		numbers[i] = part.number.Num().Int64()
	}
	return t.timeText(n, fmt.Sprintf("%02d:%02d:%02d", numbers[0], numbers[1], numbers[2]), timeKind)
}

// dateTimeCall translates date and time("2026-01-31T12:30:00"), and the one of a date and a time.
func (t *translator) dateTimeCall(n *feel.Call, s *scope) phrase {
	if text, is := literalArgument(n, "from"); is {
		return t.timeText(n, text, dateTimeKind)
	}
	parameters := []string{"date", "time"}
	if len(n.Arguments) == 1 {
		parameters = []string{"from"}
	}
	arguments, why := t.arranged(n, builtin{parameters: parameters}, s)
	if why != "" {
		return t.refuse(n, why, literalOf[dateTimeKind])
	}
	from := arguments[0]
	switch {
	case from.of.kind == nullKind:
		return from
	case from.of.isNothing():
		return refused
	case len(arguments) == 1 && (from.of.kind == dateTimeKind || from.of.kind == offsetDateTimeKind):
		return from
	case len(arguments) == 2:
		return t.joinedTime(n, from, arguments[1])
	}
	return t.refuse(n, "dates and times are read of literals alone", literalOf[dateTimeKind]+", or an input of the type date and time")
}

// joinedTime returns the date and time of a date, or of a date and time, and a time.
func (t *translator) joinedTime(n feel.Node, date, time phrase) phrase {
	if date.of.kind == dateTimeKind {
		date = t.dayOf(date)
	}
	of := &valueType{kind: dateTimeKind}
	switch {
	case time.of.kind == nullKind:
		return time
	case time.of.isNothing():
		return refused
	case time.of.kind == offsetTimeKind:
		of.kind = offsetDateTimeKind
	case time.of.kind != timeKind:
		return t.refuse(n, "the time is of the type "+time.of.String(), "a time")
	}
	if date.of.kind != dateKind {
		return t.refuse(n, "the date is of the type "+date.of.String(), "a date")
	}
	t.fractions = true
	if date.moment() != nil && time.moment() != nil {
		return momentOf(*date.moment()*t.perDay()+*time.moment(), of)
	}
	seconds := infix(date, "*", constant(fmt.Sprint(t.perDay()), numberType), rankProduct, numberType)
	return infix(seconds, "+", time, rankSum, of)
}

// dayOf returns the date of a date and time without an offset.
func (t *translator) dayOf(p phrase) phrase {
	t.fractions = true
	if p.moment() != nil {
		return momentOf(*p.moment()/t.perDay(), dateType)
	}
	p = t.short(p)
	return t.step("day", wholeQuotient(fmt.Sprintf("%[1]s - modulo(%[1]s, %[2]d)", p.text, t.perDay()), t.perDay()), dateType)
}

// timeOf returns the time of a date and time without an offset.
func (t *translator) timeOf(p phrase) phrase {
	t.fractions = true
	if p.moment() != nil {
		return momentOf(*p.moment()%t.perDay(), timeType)
	}
	return call("modulo", timeType, p, constant(fmt.Sprint(t.perDay()), numberType))
}

// secondsLater returns a time, or a date and time, plus or minus a days and time duration. A time wraps around at
// midnight. A date and time with an offset is never written, so it may be outside the years.
func (t *translator) secondsLater(n feel.Node, a phrase, operator string, length phrase) phrase {
	of := &valueType{kind: a.of.kind, sort: a.of.sort}
	sum := infix(a, operator, length, rankSum, of)
	if a.moment() != nil && length.moment() != nil {
		value, fine := addedNumbers(*a.moment(), operator, *length.moment())
		if of.kind == timeKind {
			value, fine = ((*a.moment()+signed(operator, *length.moment())%t.perDay())%t.perDay()+t.perDay())%t.perDay(), true
		}
		if !fine || of.kind == dateTimeKind && t.offsets.tick.DateTimeText(value) == "" {
			return t.refuse(n, pastYears, "a date within these")
		}
		return momentOf(value, of)
	}
	switch of.kind {
	case timeKind:
		return call("modulo", of, sum, constant(fmt.Sprint(t.perDay()), numberType))
	case offsetDateTimeKind:
		return sum
	}
	return t.checkedTime(t.step("time", sum.text, numberType), of)
}

// signed returns a number with the sign of an operator.
func signed(operator string, value int64) int64 {
	if operator == "-" {
		return -value
	}
	return value
}

// checkedTime returns a date and time, or exceeds a limit if it is outside the years.
func (t *translator) checkedTime(at phrase, of *valueType) phrase {
	return t.step("time", fmt.Sprintf("if %[1]s < %[2]d or %[1]s > %[3]d then %[4]s else %[1]s", at.text, calendar.FirstDay*t.perDay(),
		(calendar.LastDay+1)*t.perDay()-1, pastRange), of)
}

// timeMonthsLater returns a date and time without an offset plus or minus a years and months duration.
func (t *translator) timeMonthsLater(n feel.Node, a phrase, operator string, length phrase) phrase {
	a = t.short(a)
	made := t.joinedTime(n, t.shallow(t.monthsLater(n, t.dayOf(a), operator, length)), t.timeOf(a))
	if made.of.kind == dateTimeKind {
		made.of.sort = a.of.sort
	}
	return made
}

// timePart returns a part of a time, or of a date and time, without an offset.
func (t *translator) timePart(p phrase, name string) phrase {
	second := t.offsets.tick.PerSecond()
	parts := map[string][2]int64{"hour": {t.perDay(), 3600 * second}, "minute": {3600 * second, 60 * second}, "second": {60 * second, 1}}
	bounds, known := parts[name]
	switch {
	case known && p.moment() != nil && bounds[1] == 1:
		return t.secondsOf(*p.moment() % bounds[0])
	case known && p.moment() != nil:
		return partNumber(fmt.Sprint(*p.moment() % bounds[0] / bounds[1]))
	case known:
		p = t.short(p)
		within := fmt.Sprintf("modulo(%s, %d)", p.text, bounds[0])
		if bounds[1] == 1 {
			return constant(within, t.secondType())
		}
		return t.step("part", floor(within, bounds[1]), numberType)
	case p.of.kind == dateTimeKind:
		return t.dayPart(t.dayOf(p), name)
	}
	return phrase{}
}

// perDay returns how many ticks a day has.
func (t *translator) perDay() int64 { return t.offsets.tick.PerDay() }

// secondType returns the type of seconds as numbers, with decimals if they are counted.
func (t *translator) secondType() *valueType { return numberOf(units{scale: t.offsets.tick.Decimals}) }

// secondsOf returns a number of seconds given in ticks.
func (t *translator) secondsOf(ticks int64) phrase {
	return constantNumber(scaledBy(new(big.Rat).SetInt64(ticks), -t.offsets.tick.Decimals))
}
