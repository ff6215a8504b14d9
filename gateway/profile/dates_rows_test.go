package profile_test

import (
	"fmt"
	"strings"
	"testing"

	"gateway/dmn"
	"gateway/profile"
)

// dateParts returns the parts of a file except its decisions: d, e and f are dates, t and k durations, n a number, u
// has no type.
func dateParts() []string {
	return []string{`<itemDefinition name="tDates" isCollection="true"><typeRef>date</typeRef></itemDefinition>` +
		`<itemDefinition name="tNumbers" isCollection="true"><typeRef>number</typeRef></itemDefinition>` +
		`<itemDefinition name="tCase"><itemComponent name="day"><typeRef>date</typeRef></itemComponent>` +
		`<itemComponent name="x"><typeRef>number</typeRef></itemComponent></itemDefinition>` +
		`<itemDefinition name="tLoose"><itemComponent name="day"><typeRef>Any</typeRef></itemComponent></itemDefinition>`,
		input("d", "date"), input("e", "date"), input("f", "date"), input("t", "days and time duration"), input("v", "dayTimeDuration"),
		input("k", "years and months duration"), input("n", "number"), input("s", "string"), input("u", ""), input("b", "boolean"),
		input("l", "tDates"), input("p", "tNumbers"), input("c", "tCase"),
		knowledge("g", []string{"from:date", "x"}, literal(`years and months duration(from, x).years`))}
}

var dateNeeds = []string{"d", "e", "f", "t", "v", "k", "n", "s", "u", "b", "l", "p", "c", "k:g"}

// dateRows were worked out from the calendar and by Python's datetime.
var dateRows = []decimalRow{
	// Literals and inputs.
	{`date("2026-01-31")`, `{}`, `"2026-01-31"`}, {`date(2026, 1, 31)`, `{}`, `"2026-01-31"`}, {`@"2026-01-31"`, `{}`, `"2026-01-31"`},
	{`date(year: 2024, month: 2, day: 29)`, `{}`, `"2024-02-29"`}, {`date("0001-01-01")`, `{}`, `"0001-01-01"`}, {`date("9999-12-31")`, `{}`, `"9999-12-31"`},
	{`date("1969-12-31")`, `{}`, `"1969-12-31"`}, {`date(from: "1900-02-28")`, `{}`, `"1900-02-28"`}, {`date("2000-02-29")`, `{}`, `"2000-02-29"`},
	{`date("2026-02-30")`, `{}`, "refused: February 2026 has 28 days"}, {`date(2026, 2, 29)`, `{}`, "refused: February 2026 has 28 days"},
	{`date("1900-02-29")`, `{}`, "refused: February 1900 has 28 days"}, {`date("2026-1-31")`, `{}`, "refused: written as 2026-01-31"},
	{`date("10000-01-01")`, `{}`, "refused: written as"}, {`date(10000, 1, 1)`, `{}`, "refused: years from 1 to 9999"}, {`date(0, 1, 1)`, `{}`, "refused: years from 1 to 9999"},
	{`date(2026, n, 1)`, `{}`, "refused: constants alone"}, {`date(s)`, `{}`, "refused: literals alone"}, {`date(2026, 1)`, `{}`, "refused: 2 arguments, where 3"},
	{`@"2026-04-31"`, `{}`, "refused: April 2026 has 30 days"}, {`@"soon"`, `{}`, "refused: is no duration"}, {`date(d)`, `{"d":"2026-05-05"}`, `"2026-05-05"`},
	{`date(99999999999999999999, 1, 1)`, `{}`, "refused: past 9223372036854775807"}, {`date(2026.5, 1, 1)`, `{}`, "refused: constants alone"},
	{`d`, `{"d":"2024-02-29"}`, `"2024-02-29"`}, {`d`, `{"d":"0001-01-01"}`, `"0001-01-01"`}, {`d`, `{"d":"9999-12-31"}`, `"9999-12-31"`}, {`d`, `{"d":null}`, "null"},
	{`d`, `{}`, "null"}, {`d`, `{"d":"2026-02-30"}`, "refused: February 2026 has 28 days"}, {`d`, `{"d":"2026-2-3"}`, "refused: written as 2026-01-31"},
	{`d`, `{"d":20260203}`, "refused: not of the type"}, {`d`, `{"d":""}`, "refused: written as"}, {`d`, `{"d":"2026-01-31T00:00:00"}`, "refused: written as"},
	{`d`, `{"d":"0000-12-31"}`, "refused: years from 1 to 9999"}, {`l`, `{"l":["2026-01-31",null]}`, `["2026-01-31",null]`},
	{`l`, `{"l":["2026-01-31","x"]}`, "refused: is no date"}, {`c`, `{"c":{"day":"1999-12-31","x":1}}`, `{"day":"1999-12-31","x":1}`},
	// Comparisons.
	{`d < e`, `{"d":"1969-12-31","e":"1970-01-01"}`, "true"}, {`d <= e`, `{"d":"1970-01-01","e":"1970-01-01"}`, "true"}, {`d > e`, `{"d":"9999-12-31","e":"0001-01-01"}`, "true"},
	{`d >= e`, `{"d":"2024-02-29","e":"2024-03-01"}`, "false"}, {`d = e`, `{"d":"2024-02-29","e":"2024-02-29"}`, "true"}, {`d != e`, `{"d":"2024-02-29","e":"2024-02-28"}`, "true"},
	{`d = null`, `{}`, "true"}, {`d = null`, `{"d":"2024-02-29"}`, "false"}, {`d != null`, `{"d":"2024-02-29"}`, "true"}, {`d = e`, `{}`, "true"}, {`d < e`, `{"d":"2024-02-29"}`, "null"},
	{`d between e and f`, `{"d":"2024-02-29","e":"2024-02-29","f":"2024-03-01"}`, "true"}, {`d between date("2024-03-01") and f`, `{"d":"2024-02-29","f":"2024-03-01"}`, "false"},
	{`d in [e..f]`, `{"d":"2024-03-01","e":"2024-02-29","f":"2024-03-01"}`, "true"}, {`d in [e..f)`, `{"d":"2024-03-01","e":"2024-02-29","f":"2024-03-01"}`, "false"},
	{`d in (date("2026-01-01")..date("2026-12-31"))`, `{"d":"2026-01-01"}`, "false"}, {`d in (< e, > f)`, `{"d":"2030-01-01","e":"2026-01-01","f":"2029-12-31"}`, "true"},
	{`d in [date("2026-01-06"), date("2026-12-24")]`, `{"d":"2026-12-24"}`, "true"}, {`d in (@"2026-01-06", @"2026-12-24")`, `{"d":"2026-12-25"}`, "false"},
	{`d in l`, `{"d":"2026-01-06","l":["2026-01-05","2026-01-06"]}`, "true"}, {`list contains(l, d)`, `{"d":"2026-01-07","l":["2026-01-05","2026-01-06"]}`, "false"},
	{`list contains(l, null)`, `{"l":["2026-01-05",null]}`, "true"}, {`d in l`, `{"d":"2026-01-06"}`, "null"}, {`some x in l satisfies x = d`, `{"d":"2026-01-06","l":["2026-01-06"]}`, "true"},
	{`[d, e] = l`, `{"d":"2026-01-06","e":"2026-01-07","l":["2026-01-06","2026-01-07"]}`, "true"}, {`{day: d, x: 1} = c`, `{"d":"2026-01-06","c":{"day":"2026-01-06","x":1}}`, "true"},
	{`min(d, e)`, `{"d":"2026-01-06","e":"2025-12-31"}`, `"2025-12-31"`}, {`max(l)`, `{"l":["2026-01-06","2026-12-31","2026-03-03"]}`, `"2026-12-31"`}, {`count(l)`, `{"l":["2026-01-06"]}`, "1"},
	{`if b then d else e`, `{"d":"2026-01-06","b":true}`, `"2026-01-06"`}, {`if b then d else null`, `{"d":"2026-01-06"}`, "null"}, {`if d = null then e else d`, `{"e":"2026-01-06"}`, `"2026-01-06"`},
	{`c.day < d`, `{"d":"2026-01-06","c":{"day":"2026-01-05"}}`, "true"}, {`{from: d, to: e}.to`, `{"e":"2026-01-06"}`, `"2026-01-06"`}, {`[d, e][2]`, `{"e":"2026-01-06"}`, `"2026-01-06"`},
	{`d instance of date`, `{"d":"2026-01-06"}`, "true"}, {`d instance of date`, `{}`, "false"}, {`d instance of number`, `{"d":"2026-01-06"}`, "false"}, {`t instance of date`, `{"t":"P1D"}`, "false"},
	{`every x in [d, e] satisfies x > f`, `{"d":"2026-01-06","e":"2026-01-07","f":"2026-01-05"}`, "true"}, {`[d, e][item > f][1]`, `{"d":"2026-01-06","e":"2026-01-07","f":"2026-01-06"}`, `"2026-01-07"`},
	// Dates never meet numbers, texts, or values without a type.
	{`d + 30`, `{}`, `refused: d + duration("P30D")`}, {`d - n`, `{}`, `refused: d - n * duration("P1D")`}, {`d + u`, `{}`, "refused: types date and Any"}, {`d + e`, `{}`, "refused: the sum of values of the types date and date"},
	{`d < 20260101`, `{}`, "refused: a value of the type date meets one of the type number"}, {`n = d`, `{}`, "refused: meets one of the type number"}, {`d != s`, `{}`, `refused: date("2026-01-31") for a date`},
	{`d > "2026-01-01"`, `{}`, `refused: date("2026-01-31") for a date`}, {`u < d`, `{}`, "refused: the type date for the other one"}, {`[d, 5]`, `{}`, "refused: meets one of the type number"},
	{`if b then d else n`, `{}`, "refused: meets one of the type number"}, {`if b then d else u`, `{}`, "refused: meets one of the type Any"}, {`d in [1..5]`, `{}`, "refused: meets one of the type number"}, {`d in (e, 5)`, `{}`, "refused: meets one of the type number"},
	{`d between 1 and e`, `{}`, "refused: meets one of the type number"}, {`l = p`, `{}`, "refused: meets one of the type number"}, {`list contains(p, d)`, `{}`, "refused: no function list contains"}, {`n in l`, `{}`, "refused: not written out"},
	{`{day: d} = {day: n}`, `{}`, "refused: meets one of the type number"}, {`{day: d, x: 1} = {day: e}`, `{}`, "refused: meets"}, {`[[d], [n]]`, `{}`, "refused: meets one of the type number"}, {`max(d, n)`, `{}`, "refused: meets one of the type number"},
	{`abs(t)`, `{}`, "refused: abs of a value"}, {`abs([t])`, `{}`, "refused: abs of a value"}, {`modulo([t], 7)`, `{}`, "refused: modulo of a value"}, {`decimal([t], 0)`, `{}`, "refused: rounding of what is no number"}, {`sum(l)`, `{}`, "refused: sum of a value"}, {`modulo(d, 7)`, `{}`, "refused: modulo of a value"}, {`floor(d)`, `{}`, "refused: rounding of what is no number"}, {`-d`, `{}`, "refused: is negated"},
	{`d * 2`, `{}`, "refused: the product"}, {`d ** 2`, `{}`, "refused: a power of"}, {`t / 2`, `{}`, "refused: not divided"}, {`d = t`, `{}`, "refused: date meets one of the type days and time duration"}, {`t < k`, `{}`, "refused: meets one of the type years"},
	{`t + k`, `{}`, "refused: the sum"}, {`t - d`, `{}`, "refused: the difference"}, {`t * 1.5`, `{}`, "refused: no whole number"}, {`t * u`, `{}`, "refused: no whole number"}, {`k * k`, `{}`, "refused: the product"}, {`t + 5`, `{}`, `refused: t + duration("P5D")`},
	{`sum([d, e][item > f])`, `{}`, "refused: a sum of dates"}, {`not(d)`, `{}`, "refused: not of a value"}, {`d.hours`, `{}`, "refused: no part hours"}, {`t.years`, `{}`, "refused: no part years"}, {`(d - e).years`, `{}`, "refused: no part years"},
	{`s + d`, `{}`, "refused: which the caller joins"}, {`duration("P1D") + s`, `{}`, "refused: which the caller joins"}, {`duration(s)`, `{}`, "refused: literals alone"}, {`duration("P1Y2D")`, `{}`, "refused: is no duration"}, {`duration("PT0.5S")`, `{}`, `"PT0.5S"`}, {`duration("PT0.1234567S")`, `{}`, "refused: more decimals of a second"}, {`years and months duration(d, n)`, `{}`, "refused: of the type number"},
	// Dates and durations.
	{`d + duration("P30D")`, `{"d":"2026-01-31"}`, `"2026-03-02"`}, {`d + duration("P30D")`, `{"d":"2028-01-31"}`, `"2028-03-01"`}, {`d - duration("P1D")`, `{"d":"2024-03-01"}`, `"2024-02-29"`}, {`duration("P1D") + d`, `{"d":"1999-12-31"}`, `"2000-01-01"`},
	{`d + t`, `{"d":"2026-02-28","t":"P1D"}`, `"2026-03-01"`}, {`d - t`, `{"d":"1970-01-01","t":"P1D"}`, `"1969-12-31"`}, {`d + t`, `{"d":"2026-02-28","t":"-P59D"}`, `"2025-12-31"`}, {`d + t`, `{"d":"2026-02-28","t":"PT24H"}`, `"2026-03-01"`},
	{`d + t`, `{"d":"2026-02-28","t":"PT23H59M59S"}`, `"2026-02-28"`}, {`d - t`, `{"d":"2026-02-28","t":"PT1S"}`, `"2026-02-27"`}, {`d + duration("PT36H")`, `{"d":"2026-02-28"}`, `"2026-03-01"`}, {`d - duration("PT36H")`, `{"d":"2026-03-02"}`, `"2026-02-28"`},
	{`d + t`, `{"d":"9999-12-31","t":"PT23H"}`, `"9999-12-31"`}, {`d + t`, `{"d":"9999-12-31","t":"P1D"}`, "limit"}, {`d - t`, `{"d":"0001-01-01","t":"PT1S"}`, "limit"}, {`d + duration("P1D")`, `{"d":"9999-12-31"}`, "limit"}, {`d - duration("P1D")`, `{"d":"0001-01-01"}`, "limit"},
	{`d + t`, `{"d":"2026-01-01","t":"P99999999999999D"}`, "limit"}, {`d + t`, `{"d":"2026-01-01"}`, "null"}, {`d + t`, `{"t":"P1D"}`, "null"}, {`d + null`, `{"d":"2026-01-01"}`, "null"}, {`date("9999-12-31") + duration("P1D")`, `{}`, "refused: past the years"},
	{`date("2026-02-28") + duration("P1D")`, `{}`, `"2026-03-01"`}, {`date("2026-03-01") - duration("PT1H")`, `{}`, `"2026-02-28"`}, {`date("2008-02-29") + duration("P18Y")`, `{}`, `"2026-02-28"`}, {`d + n * duration("P1D")`, `{"d":"2026-02-28","n":2}`, `"2026-03-02"`},
	{`d + duration("P18Y")`, `{"d":"2008-02-29"}`, `"2026-02-28"`}, {`d + duration("P6M")`, `{"d":"2025-08-31"}`, `"2026-02-28"`}, {`d + duration("P1M")`, `{"d":"2024-01-31"}`, `"2024-02-29"`}, {`d - duration("P1M")`, `{"d":"2024-03-31"}`, `"2024-02-29"`},
	{`d - duration("P1Y")`, `{"d":"2024-02-29"}`, `"2023-02-28"`}, {`d + duration("P4Y")`, `{"d":"2024-02-29"}`, `"2028-02-29"`}, {`d + duration("P100Y")`, `{"d":"2000-02-29"}`, `"2100-02-28"`}, {`d + duration("P70Y")`, `{"d":"1954-02-28"}`, `"2024-02-28"`},
	{`d + k`, `{"d":"2026-01-15","k":"-P1Y1M"}`, `"2024-12-15"`}, {`d - k`, `{"d":"2026-01-15","k":"P13M"}`, `"2024-12-15"`}, {`d + k`, `{"d":"0001-01-31","k":"P119987M"}`, `"9999-12-31"`}, {`d + k`, `{"d":"9999-12-01","k":"P1M"}`, "limit"},
	{`d - k`, `{"d":"0001-01-31","k":"P1M"}`, "limit"}, {`d + k`, `{"d":"2026-01-15"}`, "null"}, {`k + d`, `{"k":"P1M"}`, "null"}, {`d + k`, `{"d":"2026-01-15","k":"P768614336404564650Y"}`, "limit"}, {`d + duration("P1M") + duration("P1M")`, `{"d":"2026-01-31"}`, `"2026-03-28"`},
	{`d + duration("P1M") - duration("P1D")`, `{"d":"2026-01-31"}`, `"2026-02-27"`}, {`date("2026-01-31") + k`, `{"k":"P13M"}`, `"2027-02-28"`}, {`d + 2 * duration("P6M")`, `{"d":"2024-02-29"}`, `"2025-02-28"`}, {`d + duration("P11M")`, `{"d":"2023-03-31"}`, `"2024-02-29"`},
	// Three ways to ask, on the 28th, for the age of someone born on 29 February.
	{`d + duration("P18Y") <= e`, `{"d":"2008-02-29","e":"2026-02-28"}`, "true"}, {`e - duration("P18Y") >= d`, `{"d":"2008-02-29","e":"2026-02-28"}`, "false"}, {`years and months duration(d, e).years >= 18`, `{"d":"2008-02-29","e":"2026-02-28"}`, "false"},
	{`d + duration("P18Y") <= e`, `{"d":"2008-02-29","e":"2026-02-27"}`, "false"}, {`e - duration("P18Y") >= d`, `{"d":"2008-02-29","e":"2026-03-01"}`, "true"}, {`years and months duration(d, e).years >= 18`, `{"d":"2008-02-29","e":"2026-03-01"}`, "true"},
	{`years and months duration(d, e)`, `{"d":"2000-01-31","e":"2026-02-28"}`, `"P26Y"`}, {`years and months duration(d, e)`, `{"d":"2000-01-28","e":"2026-02-28"}`, `"P26Y1M"`}, {`years and months duration(d, e).years`, `{"d":"2027-01-15","e":"2026-01-14"}`, "-1"},
	{`years and months duration(d, e).years`, `{"d":"2027-01-15","e":"2026-01-15"}`, "-1"}, {`years and months duration(d, e).years`, `{"d":"2027-01-15","e":"2026-01-16"}`, "0"}, {`years and months duration(d, e).months`, `{"d":"2027-01-15","e":"2026-01-16"}`, "-11"},
	{`years and months duration(from: d, to: e)`, `{"d":"0001-01-01","e":"9999-12-31"}`, `"P9998Y11M"`}, {`years and months duration(d, e)`, `{"d":"2026-03-03"}`, "null"}, {`years and months duration(d, d)`, `{"d":"2026-03-03"}`, `"P0M"`},
	{`g(d, e)`, `{"d":"1971-06-15","e":"2026-06-14"}`, "54"}, {`g(d, e)`, `{"d":"1971-06-15","e":"2026-06-15"}`, "55"}, {`years and months duration(date("2004-02-29"), date("2024-02-29"))`, `{}`, `"P20Y"`},
	// Between two dates.
	{`d - e`, `{"d":"2026-03-01","e":"2026-02-28"}`, `"P1D"`}, {`(d - e).days`, `{"d":"2026-02-01","e":"2026-01-14"}`, "18"}, {`(d - e).days`, `{"d":"0001-01-01","e":"9999-12-31"}`, "-3652058"}, {`(d - e).hours`, `{"d":"2026-02-01","e":"2026-01-14"}`, "0"},
	{`(d - e).days`, `{"d":"2026-02-01"}`, "null"}, {`d - e > duration("P30D")`, `{"d":"2024-03-31","e":"2024-02-29"}`, "true"}, {`d - e`, `{"d":"2026-02-01","e":"2026-02-01"}`, `"PT0S"`}, {`e + (d - e) = d`, `{"d":"2026-02-01","e":"1999-02-11"}`, "true"},
	{`date("2024-03-01") - date("2024-02-28")`, `{}`, `"P2D"`}, {`(d - e) * 2`, `{"d":"2026-02-03","e":"2026-02-01"}`, `"P4D"`}, {`(d - e + duration("P1D")).days`, `{"d":"2026-02-03","e":"2026-02-01"}`, "3"},
	// Parts.
	{`d.year`, `{"d":"2024-02-29"}`, "2024"}, {`d.month`, `{"d":"2024-02-29"}`, "2"}, {`d.day`, `{"d":"2024-02-29"}`, "29"}, {`d.weekday`, `{"d":"2024-02-29"}`, "4"}, {`d.year`, `{"d":"0001-01-01"}`, "1"}, {`d.weekday`, `{"d":"0001-01-01"}`, "1"},
	{`d.year * 10000 + d.month * 100 + d.day`, `{"d":"9999-12-31"}`, "99991231"}, {`d.year * 10000 + d.month * 100 + d.day`, `{"d":"1900-02-28"}`, "19000228"}, {`d.year * 10000 + d.month * 100 + d.day`, `{"d":"1900-03-01"}`, "19000301"},
	{`d.year * 10000 + d.month * 100 + d.day`, `{"d":"2000-12-31"}`, "20001231"}, {`d.weekday`, `{"d":"1970-01-01"}`, "4"}, {`d.weekday`, `{"d":"1899-12-31"}`, "7"}, {`d.weekday`, `{"d":"2100-03-01"}`, "1"}, {`d.weekday in [6, 7]`, `{"d":"2026-11-29"}`, "true"},
	{`d.year`, `{}`, "null"}, {`d.weekday`, `{}`, "null"}, {`date("2024-02-29").day`, `{}`, "29"}, {`date("2026-11-29").weekday`, `{}`, "7"}, {`(d + duration("P1M")).month`, `{"d":"2026-12-15"}`, "1"}, {`c.day.year`, `{"c":{"day":"2024-02-29"}}`, "2024"},
	{`t.days`, `{"t":"P1DT12H30M15S"}`, "1"}, {`t.hours`, `{"t":"P1DT12H30M15S"}`, "12"}, {`t.minutes`, `{"t":"P1DT12H30M15S"}`, "30"}, {`t.seconds`, `{"t":"P1DT12H30M15S"}`, "15"}, {`t.days`, `{"t":"-P1DT12H"}`, "-1"}, {`t.hours`, `{"t":"-P1DT12H"}`, "-12"},
	{`t.days`, `{"t":"P106751991167300DT15H30M7S"}`, "106751991167300"}, {`t.days`, `{"t":"P106751991167300DT15H30M8S"}`, "refused: too long"}, {`k.years`, `{"k":"P26Y1M"}`, "26"}, {`k.months`, `{"k":"P26Y1M"}`, "1"}, {`k.years`, `{"k":"-P1Y1M"}`, "-1"},
	{`k.months`, `{"k":"-P13M"}`, "-1"}, {`k.years`, `{}`, "null"}, {`duration("P14M").years`, `{}`, "1"}, {`duration("-PT90M").minutes`, `{}`, "-30"}, {`t.days`, `{}`, "null"}, {`t.days`, `{"t":"PT23H"}`, "0"},
	// Durations.
	{`t`, `{"t":"PT36H"}`, `"P1DT12H"`}, {`k`, `{"k":"P14M"}`, `"P1Y2M"`}, {`t`, `{"t":"P1M"}`, "refused: is no days and time duration"}, {`k`, `{"k":"P1D"}`, "refused: is no years and months duration"}, {`t`, `{"t":5}`, "refused: not of the type"},
	{`t + v`, `{"t":"PT36H","v":"-PT12H"}`, `"P1D"`}, {`t - v`, `{"t":"PT1H","v":"PT90M"}`, `"-PT30M"`}, {`t * n`, `{"t":"PT8H","n":3}`, `"P1D"`}, {`n * k`, `{"k":"P5M","n":-3}`, `"-P1Y3M"`}, {`t * 0`, `{"t":"PT8H"}`, `"PT0S"`}, {`t * n`, `{"t":"PT8H"}`, "null"},
	{`t > v`, `{"t":"PT24H","v":"P1D"}`, "false"}, {`t = v`, `{"t":"PT24H","v":"P1D"}`, "true"}, {`k = duration("P1Y")`, `{"k":"P12M"}`, "true"}, {`t in [duration("PT0S")..duration("P1D")]`, `{"t":"PT25H"}`, "false"}, {`max(t, v)`, `{"t":"PT25H","v":"P1D"}`, `"P1DT1H"`},
	{`duration("P1D") + duration("PT12H")`, `{}`, `"P1DT12H"`}, {`2 * duration("P8M")`, `{}`, `"P1Y4M"`}, {`t + v`, `{"t":"P106751991167300D","v":"P106751991167300D"}`, "limit"}, {`@"P1Y" = k`, `{"k":"P1Y"}`, "true"}, {`@"-PT5M"`, `{}`, `"-PT5M"`},
	// Entries before the expression carry its condition.
	{`if d < date("9999-01-01") then d + duration("P1Y") else d`, `{"d":"9999-12-31"}`, `"9999-12-31"`}, {`if b then (d + t).year else 0`, `{"d":"9999-12-31","t":"P1D"}`, "0"}, {`if b then 0 else (d + k).year`, `{"d":"9999-12-31","k":"P1M","b":true}`, "0"},
	{`if d.year < 2000 then d + duration("P1M") else d`, `{"d":"1999-12-31"}`, `"2000-01-31"`}, {`d.year / 4`, `{"d":"2026-01-01"}`, "506.5"}, {`decimal((d - e).days / 7, 1)`, `{"d":"2026-01-12","e":"2026-01-01"}`, "1.6"},
}

// TestDateRows checks the rows against the engine.
func TestDateRows(t *testing.T) {
	if len(dateRows) < 100 {
		t.Errorf("there are %d rows", len(dateRows))
	}
	d := startDesk(t)
	for _, row := range dateRows {
		result, came := dateAnswer(t, d, dateFile(row.text), row.inputs, profile.Options{})
		if why := strings.TrimPrefix(row.due, "refused: "); why != row.due {
			if !strings.HasPrefix(came, "refused: ") || !strings.Contains(came, why) {
				t.Errorf("%s of %s: %s is due, and it is %s", row.text, row.inputs, row.due, came)
			}
			continue
		}
		if came != row.due {
			t.Errorf("%s of %s: %s is due, and %s came", row.text, row.inputs, row.due, came)
			if result != nil {
				t.Logf("%s", logicOf(t, result, "q"))
			}
		}
	}
}

func dateFile(text string) string {
	return definitions(append(dateParts(), decision("q", "", literal(text), dateNeeds...))...)
}

// dateAnswer returns the answer of a file, or "refused: " and the refusals.
func dateAnswer(t *testing.T, d *desk, file, inputs string, options profile.Options) (*profile.Result, string) {
	t.Helper()
	read, err := dmn.Read("test.dmn", strings.NewReader(file))
	if err != nil {
		t.Fatal(err)
	}
	result, refusals := profile.Import([]*dmn.File{read}, options)
	if result == nil {
		if len(refusals) != 1 {
			t.Errorf("%d refusals: %s", len(refusals), refusals)
		}
		return nil, "refused: " + fmt.Sprint(refusals)
	}
	d.model(result)
	return result, countedAsk(d, result, "q", inputs)
}
