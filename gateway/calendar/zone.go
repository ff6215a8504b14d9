package calendar

import (
	"errors"
	"regexp"
	"strconv"
	"time"

	// Own zone data, as the machine may have none.
	_ "time/tzdata"
)

var offsetForm = regexp.MustCompile(`^([+-])([0-9]{2}):([0-9]{2})$`)

// MostOffset limits an offset from UTC, in seconds: 14 hours.
const MostOffset = 14 * 3600

// Offset returns an offset such as +02:00, or Z, in seconds.
func Offset(text string) (int, error) {
	if text == "Z" {
		return 0, nil
	}
	parts := offsetForm.FindStringSubmatch(text)
	if parts == nil {
		return 0, errors.New("an offset is written as +02:00")
	}
	hours, _ := strconv.Atoi(parts[2])
	minutes, _ := strconv.Atoi(parts[3])
	seconds := 3600*hours + 60*minutes
	if minutes > 59 || seconds > MostOffset {
		return 0, errors.New("an offset is at most 14:00")
	}
	if parts[1] == "-" {
		seconds = -seconds
	}
	return seconds, nil
}

// Zone returns a zone by name, such as Europe/Berlin, or by offset.
func Zone(text string) (*time.Location, error) {
	if seconds, err := Offset(text); err == nil {
		return time.FixedZone(text, seconds), nil
	}
	if text == "" || text == "Local" {
		return nil, errors.New("a zone is a name as Europe/Berlin, or an offset as +02:00")
	}
	zone, err := time.LoadLocation(text)
	if err != nil {
		return nil, errors.New("there is no such zone: a name as Europe/Berlin is due, or an offset as +02:00")
	}
	return zone, nil
}

// DayAt returns the day in a zone.
func DayAt(at time.Time, zone *time.Location) int64 {
	year, month, day := at.In(zone).Date()
	return dayOf(year, int(month), day)
}

// At returns a time in ticks in UTC, as DateTime does.
func (k Tick) At(at time.Time) int64 {
	at = at.UTC()
	seconds := DayAt(at, time.UTC)*secondsOfDay + int64(at.Hour()*3600+at.Minute()*60+at.Second())
	return seconds*k.PerSecond() + int64(at.Nanosecond())/(1_000_000_000/k.PerSecond())
}
