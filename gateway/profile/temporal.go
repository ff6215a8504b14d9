package profile

import (
	"fmt"
	"strings"

	"gateway/calendar"
	"gateway/feel"
)

// Dates and durations are whole numbers in the model, as package calendar counts them: nothing there distinguishes a
// date from a number. So a value of such a kind only meets its own kind, and is never of the type Any.

var (
	dateType          = &valueType{kind: dateKind, isShared: true}
	dayDurationType   = &valueType{kind: dayDurationKind, isShared: true}
	monthDurationType = &valueType{kind: monthDurationKind, isShared: true}

	timeType     = &valueType{kind: timeKind, isShared: true}
	dateTimeType = &valueType{kind: dateTimeKind, isShared: true}
	instantType  = &valueType{kind: offsetDateTimeKind, isShared: true}
)

// temporalNames are the kinds as DMN names them.
var temporalNames = map[kindOfType]string{dateKind: "date", dayDurationKind: "days and time duration",
	monthDurationKind: "years and months duration", timeKind: "time", dateTimeKind: "date and time", offsetTimeKind: "time with an offset",
	offsetDateTimeKind: "date and time with an offset"}

// withOffset maps the kinds without an offset to those with one.
var withOffset = map[kindOfType]kindOfType{timeKind: offsetTimeKind, dateTimeKind: offsetDateTimeKind}

// isTemporal reports whether values are dates or durations.
func (t *valueType) isTemporal() bool { return t.kind >= dateKind && t.kind <= offsetDateTimeKind }

// isNothing reports whether a type has no values that could be distinguished from another's.
func (t *valueType) isNothing() bool {
	return t.kind == nullKind || t.kind == refusedKind || t.kind == anyKind && t.unasked
}

// mixed returns the first parts of two types whose values must not meet, as one is a date or a duration and the other
// of another kind; nil if there are none.
func mixed(a, b *valueType) (one, other *valueType) {
	switch {
	case a == b || a.isNothing() || b.isNothing() || a.reported || b.reported:
		return nil, nil
	case a.kind == listKind && b.kind == listKind:
		return mixed(a.element, b.element)
	case a.kind == contextKind && b.kind == contextKind:
		return mixedContexts(a, b)
	case withOffset[a.kind] == b.kind && b.isTemporal():
		a.sort.want()
		return a, b
	case withOffset[b.kind] == a.kind && a.isTemporal():
		b.sort.want()
		return b, a
	case a.kind != b.kind && (a.hasTemporal() || b.hasTemporal()):
		return a, b
	}
	return nil, nil
}

// mixedContexts is mixed for two contexts. The entries of a value that may be either of two contexts with other
// names are unknown.
func mixedContexts(a, b *valueType) (one, other *valueType) {
	isOther := len(a.order) != len(b.order) || len(a.order) > mostJoined || len(a.more)+len(b.more) > 0
	for _, name := range a.order {
		part := b.fields[name]
		if part == nil {
			isOther = true
			continue
		}
		if one, other = mixed(a.fields[name], part); one != nil {
			return one, other
		}
	}
	if isOther && (a.hasTemporal() || b.hasTemporal()) {
		return a, b
	}
	return nil, nil
}

// whyMixed says why values of two types must not meet, and what to write; empty if they may.
func whyMixed(a, b *valueType) (why, instead string) {
	one, other := mixed(a, b)
	if one == nil {
		return "", ""
	}
	if !one.isTemporal() {
		one, other = other, one
	}
	return fmt.Sprintf("a value of the type %s meets one of the type %s", one, other), insteadOfMixed(one, other)
}

// insteadOfMixed says what to write if a date or a duration meets another kind.
func insteadOfMixed(one, other *valueType) string {
	switch {
	case withOffset[one.kind] == other.kind && other.isTemporal():
		return "both with an offset, an input by --offset NAME, or both without one"
	case other.kind == anyKind:
		return fmt.Sprintf("the type %s for the other one, declared", one)
	case !one.isTemporal():
		return "contexts with the same entries"
	case other.kind == textKind:
		return literalOf[one.kind]
	case one.kind == dateKind && other.kind == numberKind:
		return literalOf[one.kind] + "; of a date its parts: d.year, d.month, d.day"
	case other.kind == numberKind:
		return literalOf[one.kind] + "; of it its parts: " + partsOf[one.kind]
	case one.kind == dateKind && other.kind == dateTimeKind || one.kind == dateTimeKind && other.kind == dateKind:
		return "date(x) of the date and time, date and time(d, time(\"00:00:00\")) of the date, or one type for both"
	}
	return fmt.Sprintf("a value of the type %s", one)
}

// literalOf has a literal of each kind.
var literalOf = map[kindOfType]string{dateKind: `date("2026-01-31") for a date`, dayDurationKind: `duration("P30D") for a duration`,
	monthDurationKind: `duration("P1Y6M") for a duration`, timeKind: `time("12:30:00") for a time`,
	dateTimeKind: `date and time("2026-01-31T12:30:00")`, offsetTimeKind: `time("12:30:00+02:00")`,
	offsetDateTimeKind: `date and time("2026-01-31T12:30:00+02:00")`}

// refuseMixed refuses two values that must not meet, and reports whether it did.
func refuseMixed(a, b *valueType, refuse func(why, instead string)) bool {
	why, instead := whyMixed(a, b)
	if why == "" {
		return false
	}
	refuse(why, instead)
	return true
}

// withoutTemporals says why a function can't have its arguments, since one is a date or a duration; empty if it may.
func withoutTemporals(name string, arguments []phrase) (why, instead string) {
	switch name {
	case "min", "max", "count":
		return "", ""
	}
	for _, a := range arguments {
		if a.of.hasTemporal() {
			return fmt.Sprintf("%s of a value of the type %s", name, a.of), "a number: of a date its parts, as d.year; of a duration its parts, as d.days"
		}
	}
	return "", ""
}

// describeTemporal adds to a schema how a date or a duration is written, and its unit.
func (t *valueType) describeTemporal(made map[string]interface{}, tick calendar.Tick) {
	if t.isTimed() && tick.Decimals > 0 {
		made["decimals"] = tick.Decimals
	}
	switch t.kind {
	case dateKind:
		made["format"] = "date"
		if t.clock != "" {
			made["clock"] = t.clock
		}
	case dayDurationKind:
		made["format"], made["unit"] = "duration", "second"
	case timeKind, offsetTimeKind:
		made["format"], made["offset"] = "time", t.kind == offsetTimeKind
	case dateTimeKind, offsetDateTimeKind:
		made["format"], made["offset"] = "date-time", t.kind == offsetDateTimeKind
		if t.clock != "" {
			made["clock"] = t.clock
		}
	case monthDurationKind:
		made["format"], made["unit"] = "duration", "month"
	}
}

// instanceOfTemporal translates "x instance of date" and the like, if the type of x says whether it is a date or a
// duration.
func (t *translator) instanceOfTemporal(n *feel.InstanceOf, s *scope) (phrase, bool) {
	due := builtinTypes[strings.ToLower(feel.Canonical(n.Type))]
	if due == nil || !due.isTemporal() || t.types.items[feel.Canonical(n.Type)] != nil {
		return phrase{}, false
	}
	x := t.operand(n.Operand, s)
	switch {
	case x.of.kind == refusedKind:
		return refused, true
	case !x.of.isTemporal():
		return phrase{}, false
	case x.of.kind != due.kind:
		return constant("false", booleanType), true
	}
	return infix(x, "!=", constant("null", nullType), rankComparison, booleanType), true
}
