package calendar

import (
	"errors"
	"fmt"
	"math/big"
	"regexp"
	"strings"
)

var (
	dayForm   = regexp.MustCompile(`^(-?)P(?:([0-9]+)D)?(?:T(?:([0-9]+)H)?(?:([0-9]+)M)?(?:([0-9]+)(?:\.([0-9]+))?S)?)?$`)
	monthForm = regexp.MustCompile(`^(-?)P(?:([0-9]+)Y)?(?:([0-9]+)M)?$`)
)

// IsMonths reports whether a text is a years and months duration; false for days and time, and for no duration.
func IsMonths(text string) bool { return hasParts(text) && monthForm.MatchString(text) }

// hasParts reports whether a duration has a part, and one after its T.
func hasParts(text string) bool {
	return !strings.HasSuffix(text, "P") && !strings.HasSuffix(text, "T")
}

// Duration returns a days and time duration, such as P1DT12H, in ticks.
func (k Tick) Duration(text string) (int64, error) {
	parts := dayForm.FindStringSubmatch(text)
	if parts == nil || !hasParts(text) {
		return 0, errors.New("a days and time duration is written as P1DT12H30M15S")
	}
	fraction, err := k.fraction(parts[6])
	if err != nil {
		return 0, err
	}
	second := k.PerSecond()
	return counted(parts[1], append(parts[2:6], fmt.Sprint(fraction)), []int64{secondsOfDay * second, 3600 * second, 60 * second, second, 1})
}

// Months returns a years and months duration, such as P1Y6M, in months.
func Months(text string) (int64, error) {
	parts := monthForm.FindStringSubmatch(text)
	if parts == nil || !hasParts(text) {
		return 0, errors.New("a years and months duration is written as P1Y6M")
	}
	return counted(parts[1], parts[2:4], []int64{12, 1})
}

// mostDigits limits the digits of a number in range.
const mostDigits = 19

// counted returns the sum of parts, each with its number of units.
func counted(sign string, parts []string, units []int64) (int64, error) {
	sum := new(big.Int)
	for i, part := range parts {
		part = strings.TrimLeft(part, "0")
		switch {
		case part == "":
			continue
		case len(part) > mostDigits:
			return 0, ErrLong
		}
		number, _ := new(big.Int).SetString(part, 10)
		sum.Add(sum, number.Mul(number, big.NewInt(units[i])))
	}
	if !sum.IsInt64() {
		return 0, ErrLong
	}
	if sign == "-" {
		sum.Neg(sum)
	}
	return sum.Int64(), nil
}

// DurationText returns a days and time duration of this many ticks.
func (k Tick) DurationText(ticks int64) string {
	sign, all := signed(ticks)
	size, fraction := all/uint64(k.PerSecond()), k.fractionText(all)
	date := part(size/secondsOfDay, "D")
	time := part(size%secondsOfDay/3600, "H") + part(size%3600/60, "M")
	if fraction != "" {
		time += fmt.Sprint(size%60, fraction, "S")
	} else {
		time += part(size%60, "S")
	}
	switch {
	case all == 0:
		return "PT0S"
	case time != "":
		time = "T" + time
	}
	return sign + "P" + date + time
}

// MonthsText returns a years and months duration of this many months.
func MonthsText(months int64) string {
	sign, size := signed(months)
	if size == 0 {
		return "P0M"
	}
	return sign + "P" + part(size/12, "Y") + part(size%12, "M")
}

func part(number uint64, letter string) string {
	if number == 0 {
		return ""
	}
	return fmt.Sprint(number, letter)
}

// signed returns a number's sign and absolute value.
func signed(number int64) (sign string, size uint64) {
	if number < 0 {
		return "-", -uint64(number)
	}
	return "", uint64(number)
}
