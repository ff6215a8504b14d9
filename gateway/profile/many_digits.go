package profile

import (
	"math/big"

	"gateway/decimal"
)

// manyDigits is a terminating number, as a whole number of 10^-scale. Its twos and fives are found without a division
// for each.
type manyDigits struct {
	digits *big.Int
	scale  int
}

// fives are 5^0 to the last one of mostBitsOfParts bits. fivesOfBits is the index of the one with a number of bits; -1
// if there is none.
var fives, fivesOfBits = func() (all []*big.Int, ofBits [mostBitsOfParts + 1]int) {
	for bits := range ofBits {
		ofBits[bits] = -1
	}
	for next := big.NewInt(1); next.BitLen() <= mostBitsOfParts; next = new(big.Int).Mul(next, big.NewInt(5)) {
		ofBits[next.BitLen()] = len(all)
		all = append(all, next)
	}
	return all, ofBits
}()

// pastDigits is the least whole number with more than 34 digits.
var pastDigits = decimal.Power(decimal.Digits)

// endingParts returns how often a positive number has the factors two and five; false if it has others, or more than
// mostBitsOfParts bits.
func endingParts(parts *big.Int) (twosOf, fivesOf int, is bool) {
	if parts.IsInt64() {
		twosOf, fivesOf, rest := twosAndFives(parts.Int64())
		return twosOf, fivesOf, rest == 1
	}
	if parts.BitLen() > mostBitsOfParts {
		return 0, 0, false
	}
	twosOf = int(parts.TrailingZeroBits())
	if fivesOf = fivesOfBits[parts.BitLen()-twosOf]; fivesOf < 0 {
		return 0, 0, false
	}
	return twosOf, fivesOf, new(big.Int).Rsh(parts, uint(twosOf)).Cmp(fives[fivesOf]) == 0
}

// manyDigitsOf returns the digits of a number; false if it doesn't terminate, or has far too many decimals.
func manyDigitsOf(value *big.Rat) (made manyDigits, is bool) {
	twosOf, fivesOf, is := endingParts(value.Denom())
	if made.scale = maximum(twosOf, fivesOf); !is || made.scale-fivesOf >= len(fives) {
		return made, false
	}
	made.digits = new(big.Int).Set(value.Num())
	if made.scale > fivesOf {
		made.digits.Mul(made.digits, fives[made.scale-fivesOf])
	}
	made.digits.Lsh(made.digits, uint(made.scale-twosOf))
	return made, true
}

// fits reports whether the number has at most 34 digits, and not far too many decimals.
func (m *manyDigits) fits() bool {
	if m.digits.BitLen() <= mostBitsOfDigits && m.scale <= mostDecimalsOnTheWay {
		return true
	}
	if m.digits.Sign() == 0 {
		m.scale = 0
	}
	m.scale -= removed(m.digits, 10)
	isShort := m.digits.CmpAbs(pastDigits) < 0 && m.scale <= mostDecimalsOnTheWay
	if m.scale < 0 {
		m.digits.Mul(m.digits, decimal.Power(-m.scale))
		m.scale = 0
	}
	return isShort
}

// by multiplies the number.
func (m *manyDigits) by(other manyDigits) {
	m.digits.Mul(m.digits, other.digits)
	m.scale += other.scale
}

// plus adds to the number, or subtracts from it.
func (m *manyDigits) plus(other manyDigits, isMinus bool) {
	next := other.digits
	switch {
	case m.scale < other.scale:
		m.digits.Mul(m.digits, decimal.Power(other.scale-m.scale))
		m.scale = other.scale
	case m.scale > other.scale:
		next = new(big.Int).Mul(next, decimal.Power(m.scale-other.scale))
	}
	if isMinus {
		m.digits.Sub(m.digits, next)
	} else {
		m.digits.Add(m.digits, next)
	}
}

// value returns the number in its lowest terms.
func (m *manyDigits) value() *big.Rat {
	if m.digits.Sign() == 0 {
		return new(big.Rat)
	}
	made := new(big.Rat).SetInt(m.digits)
	twosOf := minimum(m.scale, int(m.digits.TrailingZeroBits()))
	made.Num().Rsh(made.Num(), uint(twosOf))
	fivesOf := removedFives(made.Num(), m.scale)
	// The two have no common divisor, so don't let SetFrac look for one.
	made.Denom().Lsh(powerOfFive(m.scale-fivesOf), uint(m.scale-twosOf))
	return made
}

func powerOfFive(exponent int) *big.Int {
	if exponent < len(fives) {
		return fives[exponent]
	}
	return power(5, exponent)
}

// foldedMany is folded for terminating numbers; false if the result isn't known.
func foldedMany(operator string, operands []phrase, operators []string) (value *big.Rat, is bool) {
	next, is := manyDigitsOf(operands[0].number)
	if !is {
		return nil, false
	}
	soFar := manyDigits{new(big.Int).Set(next.digits), next.scale}
	for i := 1; soFar.fits(); i++ {
		if i == len(operands) {
			return soFar.value(), true
		}
		if operands[i].number != operands[i-1].number {
			if next, is = manyDigitsOf(operands[i].number); !is {
				return nil, false
			}
		}
		if operator == "*" {
			soFar.by(next)
		} else {
			soFar.plus(next, operators[i-1] == "-")
		}
	}
	return nil, true
}

// removed divides a number by 2, 5 or 10 as often as possible, and returns how often.
func removed(n *big.Int, factor int64) (count int) {
	if n.Sign() == 0 {
		return 0
	}
	twosOf := int(n.TrailingZeroBits())
	switch factor {
	case 2:
		n.Rsh(n, uint(twosOf))
		return twosOf
	case 5:
		return removedFives(n, n.BitLen())
	}
	if twosOf > 0 {
		count = removedFives(n, twosOf)
		n.Rsh(n, uint(count))
	}
	return count
}

// removedFives divides a number other than 0 by five as often as possible, at most most times, and returns how often.
func removedFives(n *big.Int, most int) (count int) {
	if !isByFive(n) {
		return 0
	}
	step := 1
	for step*2 < len(fives) && fives[step*2].BitLen() <= n.BitLen() {
		step *= 2
	}
	quotient, rest := new(big.Int), new(big.Int)
	for step > 0 {
		if step <= most-count {
			if quotient.QuoRem(n, fives[step], rest); rest.Sign() == 0 {
				n.Set(quotient)
				count += step
				continue
			}
		}
		step /= 2
	}
	return count
}

// isByFive reports whether five divides a number: the base of each word is 1 modulo five.
func isByFive(n *big.Int) bool {
	sum := uint64(0)
	for _, word := range n.Bits() {
		sum += uint64(word) % 5
	}
	return sum%5 == 0
}
