package profile

import (
	"fmt"
	"math/big"

	"gateway/calendar"
	"gateway/feel"
)

// A civil computes the year, month and day of a date from its day number. Each part is an entry before the expression.
// Years begin in March, so that 29 February is the last day of one. All numbers are small, so one prime is enough for a
// division.
type civil struct {
	date phrase
	// century is the year within the era, quarter four times its days, march the month counted from March as 3. They
	// are empty until needed.
	centuries, ofCentury, quarters, march string
	yearWord, monthWord, dayWord          string
}

// A civilKey finds the parts of a date: entries of a frame. They can't exceed a limit, so they carry no condition.
type civilKey struct {
	frame *frame
	text  string
}

// always makes a text an entry before the expression, evaluated even if its branch isn't taken: it can't exceed a
// limit.
func (t *translator) always(base, text string, of *valueType) phrase {
	return t.hoisted(base, t.boxed(phrase{text: text, rank: rankIf, depth: depthOfStep, of: of}), of)
}

// civil returns the parts of a date. A frame has one for each text.
func (t *translator) civil(d phrase) *civil {
	d = t.short(d)
	key := civilKey{t.frame, d.text}
	if t.civils == nil {
		t.civils = map[civilKey]*civil{}
	}
	if t.civils[key] == nil {
		t.civils[key] = &civil{date: d}
	}
	return t.civils[key]
}

// once returns the word of a part, and makes the part the first time.
func once(word *string, make func() string) string {
	if *word == "" {
		*word = make()
	}
	return *word
}

// floor returns v / p rounded down, for v from 0 to 2147483646.
func floor(v string, p int64) string {
	return wholeQuotient(fmt.Sprintf("%[1]s - modulo(%[1]s, %[2]d)", v, p), p)
}

// quarter returns four times the days since 0000-03-01, and 3.
func (c *civil) quarter() string { return fmt.Sprintf("4 * %s + %d", c.date.text, 4*(marchDays-1)+3) }

// rest returns the remainder of v by p, rounded down to a multiple of 4.
func rest(v string, p int64) string {
	return fmt.Sprintf("modulo(%[1]s, %[2]d) - modulo(modulo(%[1]s, %[2]d), 4)", v, p)
}

// inCentury returns four times the days of the century, and 3.
func (c *civil) inCentury(t *translator) string {
	return once(&c.ofCentury, func() string { return t.always("part", rest(c.quarter(), 146_097)+" + 3", numberType).text })
}

// inYear returns 20 times the days since 1 March, and 1844.
func (c *civil) inYear(t *translator) string {
	return once(&c.quarters, func() string {
		return t.always("part", fmt.Sprintf("5 * (%s) + 1844", rest(c.inCentury(t), 1461)), numberType).text
	})
}

// fromMarch returns the month, from 3 for March to 14 for February.
func (c *civil) fromMarch(t *translator) string {
	return once(&c.march, func() string { return t.always("part", floor(c.inYear(t), 612), numberType).text })
}

func (c *civil) year(t *translator) string {
	if c.date.moment() != nil {
		year, _, _ := calendar.Date(*c.date.moment())
		return fmt.Sprint(year)
	}
	return once(&c.yearWord, func() string {
		century := once(&c.centuries, func() string { return t.always("part", floor(c.quarter(), 146_097), numberType).text })
		ofCentury := t.always("part", floor(c.inCentury(t), 1461), numberType).text
		return t.always("year", fmt.Sprintf("if %s > 12 then 100 * %[2]s + %[3]s + 1 else 100 * %[2]s + %[3]s", c.fromMarch(t), century,
			ofCentury), numberType).text
	})
}

func (c *civil) month(t *translator) string {
	if c.date.moment() != nil {
		_, month, _ := calendar.Date(*c.date.moment())
		return fmt.Sprint(month)
	}
	return once(&c.monthWord, func() string {
		return t.always("month", fmt.Sprintf("if %[1]s > 12 then %[1]s - 12 else %[1]s", c.fromMarch(t)), numberType).text
	})
}

func (c *civil) day(t *translator) string {
	if c.date.moment() != nil {
		_, _, day := calendar.Date(*c.date.moment())
		return fmt.Sprint(day)
	}
	return once(&c.dayWord, func() string {
		return t.always("day", floor(fmt.Sprintf("modulo(%s, 612)", c.inYear(t)), 20)+" + 1", numberType).text
	})
}

// temporalPart returns a part of a date or a duration, as in d.year.
func (t *translator) temporalPart(n *feel.Path, of phrase) phrase {
	t.fractions = true
	if t.full {
		return refused
	}
	var made phrase
	switch of.of.kind {
	case dateKind:
		made = t.dayPart(of, n.Name)
	case dayDurationKind:
		made = t.secondsPart(of, n.Name)
	case monthDurationKind:
		made = t.monthsPart(of, n.Name)
	case timeKind, dateTimeKind:
		made = t.timePart(of, n.Name)
	}
	if made.of == nil {
		return t.refuse(n, "a value of the type "+of.of.String()+" has no part "+n.Name, insteadOfPart(of.of.kind, n.Name))
	}
	return made
}

// partsOf names the parts of each kind of value.
var partsOf = map[kindOfType]string{dateKind: "year, month, day or weekday", dayDurationKind: "days, hours, minutes or seconds",
	monthDurationKind: "years or months", timeKind: "hour, minute or second", dateTimeKind: "year, month, day, weekday, hour, minute or second",
	offsetTimeKind: "a time without an offset", offsetDateTimeKind: "a date and time without an offset"}

// insteadOfPart says what to write in place of a part that a kind of value doesn't have.
func insteadOfPart(kind kindOfType, name string) string {
	if kind == dayDurationKind && (name == "years" || name == "months") {
		return "years and months duration(a, b)." + name + " of two dates"
	}
	return partsOf[kind]
}

// partNumber returns a number that is known as a text.
func partNumber(text string) phrase {
	made := constant(text, numberType)
	if value, is := new(big.Rat).SetString(text); is {
		made.number = value
	}
	return made
}

func (t *translator) dayPart(d phrase, name string) phrase {
	switch name {
	case "year":
		return partNumber(t.civil(d).year(t))
	case "month":
		return partNumber(t.civil(d).month(t))
	case "day":
		return partNumber(t.civil(d).day(t))
	case "weekday":
		if d.moment() != nil {
			return partNumber(fmt.Sprint((*d.moment()-1)%7 + 1))
		}
		// The first day is a Monday, 1.
		less := infix(d, "-", constant("1", numberType), rankSum, numberType)
		return infix(call("modulo", numberType, less, constant("7", numberType)), "+", constant("1", numberType), rankSum, numberType)
	}
	return phrase{}
}

// secondsPart returns a part of a days and time duration; negative if the duration is.
func (t *translator) secondsPart(p phrase, name string) phrase {
	second := t.offsets.tick.PerSecond()
	parts := map[string][2]int64{"days": {0, t.perDay()}, "hours": {t.perDay(), 3600 * second}, "minutes": {3600 * second, 60 * second},
		"seconds": {60 * second, 1}}
	bounds, known := parts[name]
	days, isWhole := t.wholeDays(p)
	switch {
	case !known:
		return phrase{}
	case isWhole && name == "days":
		return days
	case name == "seconds" && p.moment() != nil:
		return t.secondsOf(*p.moment() % bounds[0])
	}
	made := t.durationPart(p, bounds[0], bounds[1])
	if name == "seconds" {
		made.of = t.secondType()
	}
	return made
}

func (t *translator) monthsPart(p phrase, name string) phrase {
	switch name {
	case "years":
		return t.durationPart(p, 0, 12)
	case "months":
		return t.durationPart(p, 12, 1)
	}
	return phrase{}
}

// durationPart returns the size of a duration, modulo within unless that is 0, in units; negative if the duration is.
func (t *translator) durationPart(p phrase, within, unit int64) phrase {
	if p.moment() != nil {
		value := *p.moment()
		if within > 0 {
			value %= within
		}
		return partNumber(fmt.Sprint(value / unit))
	}
	p = t.short(p)
	size := fmt.Sprintf("abs(%s)", p.text)
	if within > 0 {
		size = fmt.Sprintf("modulo(abs(%s), %d)", p.text, within)
	}
	at := t.step("part", size, numberType)
	switch {
	case unit > 1 && within > 0:
		at = t.step("part", floor(at.text, unit), numberType)
	case unit > 1:
		at = t.exactQuotient(fmt.Sprintf("%[1]s - modulo(%[1]s, %[2]d)", at.text, unit), unit)
	}
	return t.step("part", fmt.Sprintf("if %s < 0 then -%[2]s else %[2]s", p.text, at.text), numberType)
}

// monthsBetween translates years and months duration(from, to): the whole months between two dates.
func (t *translator) monthsBetween(n *feel.Call, s *scope) phrase {
	t.fractions = true
	arguments, why := t.arranged(n, builtin{parameters: []string{"from", "to"}}, s)
	if why != "" {
		return t.refuse(n, why, "")
	}
	from, to := arguments[0], arguments[1]
	for _, a := range arguments {
		switch {
		case a.of.kind == dateKind || a.of.kind == nullKind:
		case a.of.isNothing():
			return refused
		default:
			return t.refuse(n, "it is of a value of the type "+a.of.String(), "two dates")
		}
	}
	if from.of.kind == nullKind || to.of.kind == nullKind {
		return constant("null", nullType)
	}
	if t.full {
		return refused
	}
	if from.moment() != nil && to.moment() != nil {
		return momentOf(calendar.MonthsBetween(*from.moment(), *to.moment()), monthDurationType)
	}
	a, b := t.civil(from), t.civil(to)
	months := t.step("months", fmt.Sprintf("12 * (%s - %s) + %s - %s", b.year(t), a.year(t), b.month(t), a.month(t)), numberType)
	return t.step("months", fmt.Sprintf("if %[1]s > 0 and %[2]s < %[3]s then %[1]s - 1 else if %[1]s < 0 and %[2]s > %[3]s then %[1]s + 1 else %[1]s",
		months.text, b.day(t), a.day(t)), monthDurationType)
}
