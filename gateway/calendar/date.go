package calendar

import (
	"errors"
	"fmt"
	"strconv"
)

// FirstDay and LastDay are 0001-01-01 and 9999-12-31.
const (
	FirstDay int64 = 1
	LastDay  int64 = 3_652_059
)

// FirstYear and LastYear are those of FirstDay and LastDay.
const (
	FirstYear = 1
	LastYear  = 9999
)

const (
	daysOf400Years = 146_097
	// daysBefore counts the days from 0000-03-01 to 0000-12-31, as years are counted from March.
	daysBefore = 306
)

var monthNames = [...]string{"January", "February", "March", "April", "May", "June", "July", "August", "September", "October",
	"November", "December"}

// errForm says how to write a date.
var errForm = errors.New("a date is written as 2026-01-31")

// Day returns the day number of a date such as 2026-01-31.
func Day(text string) (int64, error) {
	if len(text) != len("2026-01-31") || text[4] != '-' || text[7] != '-' {
		return 0, errForm
	}
	year, fineYear := digits(text[:4])
	month, fineMonth := digits(text[5:7])
	day, fineDay := digits(text[8:])
	if !fineYear || !fineMonth || !fineDay {
		return 0, errForm
	}
	return DayOf(year, month, day)
}

// digits returns a number of only decimal digits.
func digits(text string) (int, bool) {
	for _, c := range []byte(text) {
		if c < '0' || c > '9' {
			return 0, false
		}
	}
	number, err := strconv.Atoi(text)
	return number, err == nil
}

// DayOf returns the day number of a year, a month from 1 and a day from 1; an error says what the calendar doesn't have.
func DayOf(year, month, day int) (int64, error) {
	switch {
	case year < FirstYear || year > LastYear:
		return 0, fmt.Errorf("years from %d to %d are taken", FirstYear, LastYear)
	case month < 1 || month > 12:
		return 0, errors.New("a year has 12 months")
	case day < 1 || day > DaysIn(year, month):
		return 0, fmt.Errorf("%s %d has %d days", monthNames[month-1], year, DaysIn(year, month))
	}
	return dayOf(year, month, day), nil
}

// dayOf counts years from March, so that 29 February is a year's last day.
func dayOf(year, month, day int) int64 {
	if month <= 2 {
		year, month = year-1, month+12
	}
	ofYear := (153*(month-3)+2)/5 + day - 1
	return int64(365*year+year/4-year/100+year/400+ofYear) - daysBefore + 1
}

// DaysIn returns the number of days in a month.
func DaysIn(year, month int) int {
	switch month {
	case 2:
		if year%4 == 0 && (year%100 != 0 || year%400 == 0) {
			return 29
		}
		return 28
	case 4, 6, 9, 11:
		return 30
	}
	return 31
}

// Date returns the year, month and day of a day number from FirstDay to LastDay.
func Date(day int64) (year, month, ofMonth int) {
	n := int(day) + daysBefore - 1
	era, n := n/daysOf400Years, n%daysOf400Years
	ofEra := (n - n/1460 + n/36524 - n/146096) / 365
	n -= 365*ofEra + ofEra/4 - ofEra/100
	month = (5*n + 2) / 153
	ofMonth = n - (153*month+2)/5 + 1
	year, month = ofEra+400*era, month+3
	if month > 12 {
		year, month = year+1, month-12
	}
	return year, month, ofMonth
}

// DayText returns a day number as 2026-01-31, or "" if it is out of range.
func DayText(day int64) string {
	if day < FirstDay || day > LastDay {
		return ""
	}
	year, month, ofMonth := Date(day)
	return fmt.Sprintf("%04d-%02d-%02d", year, month, ofMonth)
}

// AddMonths returns the day some months later, at most the last of its month; false if it is out of range.
func AddMonths(day, months int64) (int64, bool) {
	const most = 12 * (LastYear + 1)
	year, month, ofMonth := Date(day)
	if months > most || months < -most {
		return 0, false
	}
	at := 12*year + month - 1 + int(months)
	if at < 12*FirstYear || at >= most {
		return 0, false
	}
	year, month = at/12, at%12+1
	if last := DaysIn(year, month); ofMonth > last {
		ofMonth = last
	}
	return dayOf(year, month, ofMonth), true
}

// MonthsBetween returns the whole months between two days; negative if the second is earlier.
func MonthsBetween(from, to int64) int64 {
	fromYear, fromMonth, fromDay := Date(from)
	toYear, toMonth, toDay := Date(to)
	months := int64(12*(toYear-fromYear) + toMonth - fromMonth)
	switch {
	case months > 0 && toDay < fromDay:
		months--
	case months < 0 && toDay > fromDay:
		months++
	}
	return months
}
