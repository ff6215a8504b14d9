package profile

import (
	"math"
	"math/big"
	"math/bits"
	"strconv"
	"strings"

	"gateway/decimal"
)

// fewDigits is a terminating number, as a whole number of 10^-scale. Most constants are of this kind, and need no big
// numbers.
type fewDigits struct {
	digits int64
	scale  int
}

// mostFewDigits is the most decimals of a number with few digits: 10^18 fits 64 bits.
const mostFewDigits = 18

// powersOfTen are 10^0 to 10^18.
var powersOfTen = func() (all [mostFewDigits + 1]int64) {
	for i := range all {
		all[i] = decimal.Power(i).Int64()
	}
	return all
}()

// fewDigitsOf returns a number with few digits in its coarsest unit; false if it has too many.
func fewDigitsOf(value *big.Rat) (fewDigits, bool) {
	if !value.Num().IsInt64() || !value.Denom().IsInt64() || value.Num().Int64() == math.MinInt64 {
		return fewDigits{}, false
	}
	parts := value.Denom().Int64()
	if parts == 1 {
		return fewDigits{digits: value.Num().Int64()}, true
	}
	twos, fives, rest := twosAndFives(parts)
	scale := maximum(twos, fives)
	if rest != 1 || scale > mostFewDigits {
		return fewDigits{}, false
	}
	digits, fits := product64(value.Num().Int64(), powersOfTen[scale]/parts)
	return fewDigits{digits, scale}, fits
}

// numberOfText returns the number of a literal; false if it isn't one.
func numberOfText(text string) (*big.Rat, bool) {
	whole, decimals, _ := strings.Cut(text, ".")
	if len(whole)+len(decimals) <= mostFewDigits {
		if digits, err := strconv.ParseUint(whole+decimals, 10, 63); err == nil {
			return fewDigits{int64(digits), len(decimals)}.value(), true
		}
	}
	return new(big.Rat).SetString(text)
}

// twosAndFives returns how often a positive number has these factors, and the rest.
func twosAndFives(n int64) (twos, fives int, rest int64) {
	twos = bits.TrailingZeros64(uint64(n))
	for rest = n >> twos; rest%5 == 0; rest /= 5 {
		fives++
	}
	return twos, fives, rest
}

// product64 returns a product; false if it needs more than 63 bits.
func product64(a, b int64) (int64, bool) {
	high, low := bits.Mul64(size64(a), size64(b))
	if high != 0 || low > math.MaxInt64 {
		return 0, false
	}
	return a * b, true
}

func size64(n int64) uint64 {
	if n < 0 {
		return -uint64(n)
	}
	return uint64(n)
}

// in returns the number with scale decimals, at least as many as now; false if it then has too many digits.
func (f fewDigits) in(scale int) (fewDigits, bool) {
	digits, fits := product64(f.digits, powersOfTen[scale-f.scale])
	return fewDigits{digits, scale}, fits
}

// plus returns a sum; false if it has too many digits.
func (f fewDigits) plus(other fewDigits) (fewDigits, bool) {
	scale := maximum(f.scale, other.scale)
	a, isFew := f.in(scale)
	b, isOtherFew := other.in(scale)
	sum := a.digits + b.digits
	isPast := (a.digits < 0) == (b.digits < 0) && (sum < 0) != (a.digits < 0)
	return fewDigits{sum, scale}, isFew && isOtherFew && !isPast
}

// by returns a product; false if it has too many digits.
func (f fewDigits) by(other fewDigits) (fewDigits, bool) {
	digits, fits := product64(f.digits, other.digits)
	scale := f.scale + other.scale
	return fewDigits{digits, scale}, fits && scale <= mostFewDigits
}

func (f fewDigits) negated() fewDigits { return fewDigits{-f.digits, f.scale} }

// value returns the number.
func (f fewDigits) value() *big.Rat {
	for f.scale > 0 && f.digits%10 == 0 {
		f.digits, f.scale = f.digits/10, f.scale-1
	}
	if f.scale == 0 {
		return new(big.Rat).SetInt64(f.digits)
	}
	return new(big.Rat).SetFrac64(f.digits, powersOfTen[f.scale])
}

// constant returns the number as a constant, in its unit.
func (f fewDigits) constant(value *big.Rat) phrase {
	made := wholeConstant64(f.digits)
	made.number, made.of = value, numberOf(units{scale: f.scale})
	return made
}

// wholeConstant64 returns a whole number as a constant.
func wholeConstant64(digits int64) phrase {
	text := strconv.FormatInt(digits, 10)
	if digits < 0 {
		return phrase{text: text, rank: rankNegation, depth: 2, of: numberType}
	}
	return constant(text, numberType)
}

// foldedFew is folded for numbers with few digits; nil if one, or an intermediate result, has more.
func foldedFew(operator string, operands []phrase, operators []string) *big.Rat {
	value, isFew := fewDigitsOf(operands[0].number)
	for i := 1; i < len(operands) && isFew; i++ {
		var next fewDigits
		if next, isFew = fewDigitsOf(operands[i].number); !isFew {
			break
		}
		switch {
		case operator == "*":
			value, isFew = value.by(next)
		case operators[i-1] == "-":
			value, isFew = value.plus(next.negated())
		default:
			value, isFew = value.plus(next)
		}
	}
	if !isFew {
		return nil
	}
	return value.value()
}

// partsByFew is partsBy for a positive divisor of few digits; false for others.
func partsByFew(divisor *big.Rat, scale int) (u units, factor int64, isFew bool) {
	if divisor.Sign() <= 0 || !divisor.Num().IsInt64() || !divisor.Denom().IsInt64() || scale < 0 || scale > mostFewDigits {
		return u, 0, false
	}
	parts, fits := product64(divisor.Num().Int64(), powersOfTen[scale])
	if !fits {
		return u, 0, false
	}
	factor = divisor.Denom().Int64()
	common := commonDivisor(factor, parts)
	factor, parts = factor/common, parts/common
	twos, fives, rest := twosAndFives(parts)
	if rest == 1 && areDecimals(twos, fives) {
		if u.scale = maximum(twos, fives); u.scale > mostFewDigits {
			return u, 0, false
		}
		factor, fits = product64(factor, powersOfTen[u.scale]/parts)
		return u, factor, fits
	}
	u.scale = minimum(twos, fives)
	u.per = parts / powersOfTen[u.scale]
	return u, factor, true
}
