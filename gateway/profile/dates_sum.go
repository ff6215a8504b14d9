package profile

import (
	"fmt"
	"math"
	"math/big"

	"gateway/calendar"
	"gateway/feel"
)

// pastRange is a text that exceeds a limit.
const pastRange = largestNumber + " + 1"

// hasTemporals reports whether an operand is a date or a duration.
func hasTemporals(operands []phrase) bool {
	for _, o := range operands {
		if o.of.isTemporal() {
			return true
		}
	}
	return false
}

// temporalSum translates + and - of dates and durations, from the left.
func (t *translator) temporalSum(n *feel.Chain, operands []phrase) phrase {
	soFar := operands[0]
	for i, operator := range n.Operators {
		soFar = t.shallow(t.added(n, soFar, operator, operands[i+1]))
	}
	return soFar
}

// added returns the sum or the difference of two values, one of which may be a date or a duration.
func (t *translator) added(n feel.Node, a phrase, operator string, b phrase) phrase {
	t.fractions = true
	switch {
	case a.of.kind == nullKind || b.of.kind == nullKind:
		return constant("null", nullType)
	case a.of.isNothing() || b.of.isNothing() || t.full:
		return refused
	case operator == "+" && isPoint[b.of.kind]:
		a, b = b, a
	}
	switch {
	case isPoint[a.of.kind] && isPoint[b.of.kind] && operator == "-" && a.of.kind != dateKind:
		return t.secondsBetween(n, a, b)
	case isPoint[a.of.kind] && a.of.kind != dateKind && a.of.kind != offsetTimeKind && b.of.kind == dayDurationKind:
		return t.secondsLater(n, a, operator, b)
	case a.of.kind == dateTimeKind && b.of.kind == monthDurationKind:
		return t.timeMonthsLater(n, a, operator, b)
	case a.of.kind == dateKind && b.of.kind == dateKind && operator == "-":
		return t.daysBetween(a, b)
	case a.of.kind == dateKind && b.of.kind == dayDurationKind:
		return t.daysLater(n, a, operator, b)
	case a.of.kind == dateKind && b.of.kind == monthDurationKind:
		return t.monthsLater(n, a, operator, b)
	case a.of.kind == b.of.kind && a.of.isTemporal() && !isPoint[a.of.kind]:
		return t.durationSum(a, operator, b)
	}
	return t.refuse(n, fmt.Sprintf("%s of values of the types %s and %s", sumNames[operator], a.of, b.of), t.insteadOfSum(n, a, operator, b))
}

// isPoint has the kinds that are points in time, not durations.
var isPoint = map[kindOfType]bool{dateKind: true, timeKind: true, dateTimeKind: true, offsetTimeKind: true, offsetDateTimeKind: true}

// secondsBetween returns the duration between two times, or dates and times.
func (t *translator) secondsBetween(n feel.Node, a, b phrase) phrase {
	if refuseMixed(a.of, b.of, t.refusal(n)) {
		return refused
	}
	if a.moment() != nil && b.moment() != nil {
		return momentOf(*a.moment()-*b.moment(), dayDurationType)
	}
	return infix(a, "-", b, rankSum, dayDurationType)
}

var sumNames = map[string]string{"+": "the sum", "-": "the difference"}

// insteadOfSum says what to write for a sum of a date or a duration and another value.
func (t *translator) insteadOfSum(n feel.Node, a phrase, operator string, b phrase) string {
	left, right := "d", "n"
	if chain, is := n.(*feel.Chain); is && len(chain.Operands) == 2 {
		left, right = t.operandText(chain.Operands[0]), t.operandText(chain.Operands[1])
	}
	if !a.of.isTemporal() {
		a, b, left, right = b, a, right, left
	}
	unit := map[kindOfType]string{monthDurationKind: "P1M", timeKind: "PT1H", offsetTimeKind: "PT1H"}[a.of.kind]
	if unit == "" {
		unit = "P1D"
	}
	switch {
	case isPoint[a.of.kind] && isPoint[b.of.kind]:
		return `a duration for one of them, as d + duration("P30D")`
	case b.of.kind == numberKind && b.number != nil && b.number.IsInt() && b.number.Sign() > 0 && unit == "P1D":
		return fmt.Sprintf(`%s %s duration("P%sD"), for days`, left, operator, b.number.Num())
	case b.of.kind == numberKind:
		return fmt.Sprintf(`%s %s %s * duration("%s"), of whole numbers`, left, operator, right, unit)
	}
	return t.insteadOfOther(a.of.kind, b.of.kind)
}

// insteadOfOther is insteadOfSum for another value that isn't a number, date or time.
func (t *translator) insteadOfOther(one, other kindOfType) string {
	switch {
	case other == anyKind:
		return "a declared type for what has none"
	case other == textKind:
		return "a context of the parts, which the caller joins"
	case one == offsetDateTimeKind:
		return "a days and time duration, or a date and time without an offset"
	case isPoint[one]:
		return "a days and time duration"
	}
	return "durations of one type"
}

// durationSum returns the sum or the difference of two durations of one type.
func (t *translator) durationSum(a phrase, operator string, b phrase) phrase {
	made := infix(a, operator, b, rankSum, &valueType{kind: a.of.kind})
	if a.moment() != nil && b.moment() != nil {
		if value, fine := addedNumbers(*a.moment(), operator, *b.moment()); fine {
			return momentOf(value, made.of)
		}
	}
	if days, is := t.wholeDays(a); is {
		if more, also := t.wholeDays(b); also {
			both := t.shallow(infix(days, operator, more, rankSum, numberType))
			made.rare = &rare{inDays: &both}
		}
	}
	return made
}

// addedNumbers returns a sum or a difference; false if it is past the range.
func addedNumbers(a int64, operator string, b int64) (int64, bool) {
	sum := new(big.Int).Add(big.NewInt(a), big.NewInt(b))
	if operator == "-" {
		sum.Sub(big.NewInt(a), big.NewInt(b))
	}
	return sum.Int64(), isNumber(sum)
}

// wholeDays returns the number of days in a days and time duration known to be whole days.
func (t *translator) wholeDays(p phrase) (phrase, bool) {
	switch {
	case p.of.kind != dayDurationKind:
		return phrase{}, false
	case p.inDays() != nil:
		return *p.inDays(), true
	case p.moment() != nil && *p.moment()%t.perDay() == 0:
		days := wholeConstant(big.NewInt(*p.moment() / t.perDay()))
		days.number = new(big.Rat).SetInt64(*p.moment() / t.perDay())
		return days, true
	}
	return phrase{}, false
}

// daysBetween returns the duration between two dates.
func (t *translator) daysBetween(a, b phrase) phrase {
	if a.moment() != nil && b.moment() != nil {
		return momentOf((*a.moment()-*b.moment())*t.perDay(), dayDurationType)
	}
	days := t.short(infix(a, "-", b, rankSum, numberType))
	made := infix(days, "*", wholeConstant(big.NewInt(t.perDay())), rankProduct, dayDurationType)
	made.rare = &rare{inDays: &days}
	return made
}

// daysLater returns a date plus or minus a days and time duration: the date that long after its midnight.
func (t *translator) daysLater(n feel.Node, d phrase, operator string, length phrase) phrase {
	if d.moment() != nil && length.moment() != nil {
		return t.constantDaysLater(n, *d.moment(), operator, *length.moment())
	}
	days, whole := t.wholeDays(length)
	if whole {
		at := t.step("day", infix(d, operator, days, rankSum, numberType).text, dateType)
		return t.checkedDay(at)
	}
	seconds := infix(infix(d, "*", wholeConstant(big.NewInt(t.perDay())), rankProduct, numberType), operator, length, rankSum, numberType)
	at := t.step("time", seconds.text, numberType)
	text := fmt.Sprintf("if %[1]s < %[2]d or %[1]s > %[3]d then %[4]s else %[5]s", at.text, calendar.FirstDay*t.perDay(),
		(calendar.LastDay+1)*t.perDay()-1, pastRange, wholeQuotient(fmt.Sprintf("%[1]s - modulo(%[1]s, %[2]d)", at.text, t.perDay()), t.perDay()))
	return t.step("day", text, dateType)
}

// wholeQuotient returns v / p for a multiple v of p, with a quotient from 0 to 2147483646.
func wholeQuotient(v string, p int64) string {
	prime := divisionPrimes[0]
	return fmt.Sprintf("modulo(modulo(%s, %d) * %d, %d)", v, prime, inverse(p, prime), prime)
}

// checkedDay returns a day, or exceeds a limit if it is outside the years.
func (t *translator) checkedDay(at phrase) phrase {
	return t.step("day", fmt.Sprintf("if %[1]s < %[2]d or %[1]s > %[3]d then %[4]s else %[1]s", at.text, calendar.FirstDay,
		calendar.LastDay, pastRange), dateType)
}

const pastYears = "the date is past the years from 1 to 9999"

func (t *translator) constantDaysLater(n feel.Node, day int64, operator string, seconds int64) phrase {
	at, fine := addedNumbers(day*t.perDay(), operator, seconds)
	if !fine || at < calendar.FirstDay*t.perDay() || at >= (calendar.LastDay+1)*t.perDay() {
		return t.refuse(n, pastYears, "a date within these")
	}
	return momentOf(at/t.perDay(), dateType)
}

// temporalProduct translates products of a duration and whole numbers, from the left.
func (t *translator) temporalProduct(n *feel.Chain, operands []phrase) phrase {
	soFar := operands[0]
	for i, operator := range n.Operators {
		next := operands[i+1]
		switch {
		case soFar.of.kind == nullKind || next.of.kind == nullKind:
			soFar = constant("null", nullType)
		case soFar.of.isNothing() || next.of.isNothing():
			return refused
		case soFar.of.isTemporal() || next.of.isTemporal():
			soFar = t.times(n, soFar, operator, next)
		case operator == "/":
			soFar = t.divided(n, soFar, next)
		default:
			soFar = t.multiplied(n, soFar, next)
		}
		soFar = t.shallow(soFar)
	}
	return soFar
}

// times returns a duration times a whole number.
func (t *translator) times(n feel.Node, a phrase, operator string, b phrase) phrase {
	t.fractions = true
	if b.of.isTemporal() {
		a, b = b, a
	}
	switch {
	case operator == "/":
		return t.refuse(n, "durations are not divided", "its parts, as (a - b).days / 7")
	case isPoint[a.of.kind] || b.of.isTemporal():
		return t.refuse(n, fmt.Sprintf("the product of values of the types %s and %s", a.of, b.of), "a duration times a whole number")
	case b.of.kind != numberKind || !b.of.isPlain() || b.isQuotient():
		return t.refuse(n, "a duration is multiplied by what may be no whole number",
			"a whole number: floor(n), or an input of the type number, by --decimals NAME=0")
	}
	of := &valueType{kind: a.of.kind}
	if a.moment() != nil && b.number != nil {
		product := new(big.Int).Mul(big.NewInt(*a.moment()), b.number.Num())
		if isNumber(product) {
			return momentOf(product.Int64(), of)
		}
	}
	made := infix(a, "*", b, rankProduct, of)
	if days, is := t.wholeDays(a); is {
		many := t.shallow(infix(days, "*", b, rankProduct, numberType))
		made.rare = &rare{inDays: &many}
	}
	return made
}

// mostMonths is past each sum of months that is a date.
const mostMonths = 12 * (calendar.LastYear + 1)

// monthsLater returns a date plus or minus a years and months duration: the same day of the month, or its last day.
func (t *translator) monthsLater(n feel.Node, d phrase, operator string, length phrase) phrase {
	if d.moment() != nil && length.moment() != nil && *length.moment() != math.MinInt64 {
		months := *length.moment()
		if operator == "-" {
			months = -months
		}
		at, fine := calendar.AddMonths(*d.moment(), months)
		if !fine {
			return t.refuse(n, pastYears, "a date within these")
		}
		return momentOf(at, dateType)
	}
	c := t.civil(d)
	sum := infix(constant(fmt.Sprintf("12 * %s + %s", c.year(t), c.month(t)), numberType), operator, length, rankSum, numberType)
	at := t.step("months", sum.text+" - 1", numberType)
	month := t.step("months", fmt.Sprintf("if %[1]s < %[2]d or %[1]s >= %[3]d then %[4]s else %[1]s", at.text, 12*calendar.FirstYear,
		mostMonths, pastRange), numberType)
	return t.dayOfMonth(month, c.day(t))
}

// dayOfMonth returns a day of a month counted from year 0, or the month's last day.
func (t *translator) dayOfMonth(month phrase, day string) phrase {
	year := t.always("year", wholeQuotient(fmt.Sprintf("%[1]s - modulo(%[1]s, 12)", month.text), 12), numberType)
	of := t.always("month", fmt.Sprintf("modulo(%s, 12) + 1", month.text), numberType)
	isLeap := fmt.Sprintf("modulo(%[1]s, 4) = 0 and (modulo(%[1]s, 100) != 0 or modulo(%[1]s, 400) = 0)", year.text)
	last := t.always("last", fmt.Sprintf("if %[1]s = 2 then if %[2]s then 29 else 28 else if %[1]s = 4 or %[1]s = 6 or %[1]s = 9 or %[1]s = 11 "+
		"then 30 else 31", of.text, isLeap), numberType)
	// Years begin in March, so that 29 February is the last day of one.
	from := t.always("year", fmt.Sprintf("if %[1]s < 3 then %[2]s - 1 else %[2]s", of.text, year.text), numberType)
	since := t.always("days", fmt.Sprintf("if %[1]s < 3 then 153 * %[1]s + 1379 else 153 * %[1]s - 457", of.text), numberType)
	leaps := t.always("days", wholeQuotient(fmt.Sprintf("100 * (%[1]s - modulo(%[1]s, 4)) - 4 * (%[1]s - modulo(%[1]s, 100)) + %[1]s - modulo(%[1]s, 400)",
		from.text), 400), numberType)
	before := t.always("days", wholeQuotient(fmt.Sprintf("%[1]s - modulo(%[1]s, 5)", since.text), 5), numberType)
	return t.always("day", fmt.Sprintf("365 * %s + %s + %s + (if %[4]s > %[5]s then %[5]s else %[4]s) - %[6]d", from.text, leaps.text, before.text,
		day, last.text, marchDays), dateType)
}

// marchDays are from 0000-03-01 to 0001-01-01.
const marchDays = 306
