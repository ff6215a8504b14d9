package command

import (
	"errors"
	"fmt"
	"strconv"
	"strings"
	"time"
)

// A size is a number of bytes on the command line, such as 512MiB.
type size int64

// sizeUnits are the units of sizes, largest first.
var sizeUnits = []struct {
	name  string
	bytes int64
}{{"GiB", 1 << 30}, {"MiB", 1 << 20}, {"KiB", 1 << 10}, {"", 1}}

// mostUnits limits the number of units, so that no size overflows.
const mostUnits = 1 << 31

func (s *size) Set(text string) error {
	for _, unit := range sizeUnits {
		if !strings.HasSuffix(text, unit.name) {
			continue
		}
		n, err := strconv.ParseInt(strings.TrimSuffix(text, unit.name), 10, 64)
		if err != nil || n < 0 || unit.bytes > 1 && n > mostUnits {
			break
		}
		*s = size(n * unit.bytes)
		return nil
	}
	return errors.New("a size is a number of bytes, KiB, MiB or GiB, as 512MiB")
}

func (s *size) String() string {
	for _, unit := range sizeUnits {
		if *s != 0 && int64(*s)%unit.bytes == 0 {
			return fmt.Sprintf("%d%s", int64(*s)/unit.bytes, unit.name)
		}
	}
	return "0"
}

func (*size) Type() string { return "SIZE" }

// A duration is a time on the command line, such as 5s.
type duration time.Duration

func (d *duration) Set(text string) error {
	read, err := time.ParseDuration(text)
	if err != nil {
		return errors.New("a time has a unit, as 5s, 500ms or 1m")
	}
	*d = duration(read)
	return nil
}

func (d *duration) String() string {
	// Whole minutes are written without seconds.
	text := time.Duration(*d).String()
	if strings.HasSuffix(text, "m0s") {
		return strings.TrimSuffix(text, "0s")
	}
	return text
}

func (*duration) Type() string { return "TIME" }

// A days is a time on the command line that may be long, such as 400d.
type days time.Duration

const day = 24 * time.Hour

// mostDays limits the days of a time, so that none overflows.
const mostDays = 36_500

func (d *days) Set(text string) error {
	if text == "0" {
		*d = 0
		return nil
	}
	if strings.HasSuffix(text, "d") {
		n, err := strconv.ParseUint(strings.TrimSuffix(text, "d"), 10, 64)
		if err != nil || n > mostDays {
			return errors.New("a number of days is due, as 400d")
		}
		*d = days(time.Duration(n) * day)
		return nil
	}
	read, err := time.ParseDuration(text)
	if err != nil {
		return errors.New("a time has a unit, as 400d or 36h")
	}
	*d = days(read)
	return nil
}

func (d *days) String() string {
	switch of := time.Duration(*d); {
	case of == 0:
		return "0"
	case of%day == 0:
		return fmt.Sprintf("%dd", of/day)
	default:
		return of.String()
	}
}

func (*days) Type() string { return "TIME" }
