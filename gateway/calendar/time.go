package calendar

import (
	"errors"
	"fmt"
	"regexp"
	"strconv"
	"strings"
)

var timeForm = regexp.MustCompile(`^([0-9]{2}):([0-9]{2}):([0-9]{2})(?:\.([0-9]+))?(Z|[+-][0-9]{2}:[0-9]{2})?$`)

// Time returns a time such as 12:30:00 in ticks from midnight. With an offset, such as 12:30:00+02:00, it counts from midnight
// in UTC, and may be negative or over a day.
func (k Tick) Time(text string) (ticks int64, hasOffset bool, err error) {
	parts := timeForm.FindStringSubmatch(text)
	if parts == nil {
		return 0, false, errors.New("a time is written as 12:30:00 or 12:30:00+02:00")
	}
	var numbers [3]int64
	for i := range numbers {
		numbers[i], _ = strconv.ParseInt(parts[i+1], 10, 64)
	}
	switch {
	case numbers[0] > 23:
		return 0, false, errors.New("a day ends before 24:00:00, which is 00:00:00 of the next one")
	case numbers[1] > 59 || numbers[2] > 59:
		return 0, false, errors.New("minutes and seconds are from 0 to 59")
	}
	fraction, err := k.fraction(parts[4])
	if err != nil {
		return 0, false, err
	}
	ticks = (3600*numbers[0]+60*numbers[1]+numbers[2])*k.PerSecond() + fraction
	if parts[5] == "" {
		return ticks, false, nil
	}
	offset, err := Offset(parts[5])
	return ticks - int64(offset)*k.PerSecond(), true, err
}

// DateTime returns a date and time such as 2026-01-31T12:30:00 in ticks from the start of 0000-12-31; with an offset, in UTC.
func (k Tick) DateTime(text string) (ticks int64, hasOffset bool, err error) {
	date, time, both := strings.Cut(text, "T")
	if !both {
		return 0, false, errors.New("a date and time is written as 2026-01-31T12:30:00 or 2026-01-31T12:30:00+02:00")
	}
	day, err := Day(date)
	if err != nil {
		return 0, false, err
	}
	ticks, hasOffset, err = k.Time(time)
	return day*k.PerDay() + ticks, hasOffset, err
}

// TimeText returns the time of ticks from midnight, or "" if they are not within a day.
func (k Tick) TimeText(ticks int64) string {
	if ticks < 0 || ticks >= k.PerDay() {
		return ""
	}
	seconds := ticks / k.PerSecond()
	return fmt.Sprintf("%02d:%02d:%02d", seconds/3600, seconds%3600/60, seconds%60) + k.fractionText(uint64(ticks))
}

// DateTimeText returns the date and time of ticks, or "" if they are out of range.
func (k Tick) DateTimeText(ticks int64) string {
	if ticks < 0 {
		return ""
	}
	day := DayText(ticks / k.PerDay())
	if day == "" {
		return ""
	}
	return day + "T" + k.TimeText(ticks%k.PerDay())
}

var (
	errOffset   = errors.New("it has an offset, and none is due")
	errNoOffset = errors.New("it has no offset, and one is due, as +02:00 or Z")
)

// Sorted returns a reader for texts that all have an offset, or all have none.
func Sorted(read func(string) (int64, bool, error), hasOffset bool) func(string) (int64, error) {
	return func(text string) (int64, error) {
		ticks, has, err := read(text)
		switch {
		case err != nil:
			return 0, err
		case has && !hasOffset:
			return 0, errOffset
		case !has && hasOffset:
			return 0, errNoOffset
		}
		return ticks, nil
	}
}
