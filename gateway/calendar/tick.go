package calendar

import (
	"errors"
	"fmt"
	"strings"
)

const secondsOfDay = 86_400

// MostDecimals limits the decimals of a second: with more, the years would be out of range.
const MostDecimals = 6

// A Tick is the unit of times and of days and time durations: 10 to the power of -Decimals of a second.
type Tick struct{ Decimals int }

// ErrFraction means that a text has too many decimals of a second.
var ErrFraction = errors.New("it has more decimals of a second than are taken")

// ErrLong means that a duration is out of range.
var ErrLong = errors.New("it is too long")

// PerSecond returns the ticks in a second.
func (k Tick) PerSecond() int64 {
	ticks := int64(1)
	for i := 0; i < k.Decimals; i++ {
		ticks *= 10
	}
	return ticks
}

// PerDay returns the ticks in a day.
func (k Tick) PerDay() int64 { return secondsOfDay * k.PerSecond() }

// fraction returns a fraction of a second, given its digits, in ticks.
func (k Tick) fraction(digits string) (int64, error) {
	digits = strings.TrimRight(digits, "0")
	if len(digits) > k.Decimals {
		return 0, ErrFraction
	}
	ticks := int64(0)
	for i := 0; i < k.Decimals; i++ {
		ticks *= 10
		if i < len(digits) {
			ticks += int64(digits[i] - '0')
		}
	}
	return ticks, nil
}

// fractionText returns a fraction of a second with its point, or "" if it is 0.
func (k Tick) fractionText(ticks uint64) string {
	ticks %= uint64(k.PerSecond())
	if ticks == 0 {
		return ""
	}
	return "." + strings.TrimRight(fmt.Sprintf("%0*d", k.Decimals, ticks), "0")
}

// DecimalsIn returns the decimals of a second in a time or duration.
func DecimalsIn(text string) int {
	_, after, is := strings.Cut(text, ".")
	if !is {
		return 0
	}
	end := strings.IndexFunc(after, func(r rune) bool { return r < '0' || r > '9' })
	if end >= 0 {
		after = after[:end]
	}
	return len(strings.TrimRight(after, "0"))
}
