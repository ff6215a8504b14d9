package profile

import (
	"math/big"
	"math/rand"
	"strings"
	"testing"

	"gateway/decimal"
)

// endsByDivision is ends by repeated division by two and five.
func endsByDivision(value *big.Rat) bool {
	scale := maximum(removedByDivision(value.Denom(), 2), removedByDivision(value.Denom(), 5))
	whole := new(big.Rat).Mul(value, new(big.Rat).SetInt(power(10, scale)))
	return whole.IsInt() && scale <= mostDecimalsOnTheWay && len(strings.Trim(whole.Num().String(), "-0")) <= decimal.Digits
}

func removedByDivision(n *big.Int, factor int64) (count int) {
	rest, left := new(big.Int).Set(n), new(big.Int)
	for rest.Sign() != 0 {
		if rest.QuoRem(rest, big.NewInt(factor), left); left.Sign() != 0 {
			return count
		}
		count++
	}
	return count
}

// longNumber returns a number of up to some forty digits, terminating or not.
func longNumber(r *rand.Rand) *big.Rat {
	digits := new(big.Int).Rand(r, power(10, 1+r.Intn(40)))
	digits.Mul(digits, power([]int64{2, 5, 10}[r.Intn(3)], r.Intn(40)))
	if r.Intn(2) == 0 {
		digits.Neg(digits)
	}
	parts := power(10, r.Intn(40))
	switch r.Intn(8) {
	case 0:
		parts.Mul(power(2, r.Intn(250)), power(5, r.Intn(110)))
	case 1:
		parts.Mul(parts, big.NewInt(7))
	}
	return new(big.Rat).SetFrac(digits, parts)
}

// TestManyDigits checks calculations on constants against fractions.
func TestManyDigits(t *testing.T) {
	r, known := rand.New(rand.NewSource(1)), 0
	for i := 0; i < 20_000; i++ {
		operands, operators := make([]phrase, 2+r.Intn(4)), []string(nil)
		for at := range operands {
			operands[at].number = longNumber(r)
			if r.Intn(3) == 0 {
				operands[at].number = oddNumber(r)
			}
			if at > 0 && r.Intn(4) == 0 {
				operands[at].number = operands[at-1].number
			}
			operators = append(operators, []string{"+", "-"}[r.Intn(2)])
		}
		operator, due := []string{"+", "*"}[r.Intn(2)], new(big.Rat).Set(operands[0].number)
		for at := 1; at < len(operands) && endsByDivision(due); at++ {
			switch next := operands[at].number; {
			case operator == "*":
				due.Mul(due, next)
			case operators[at-1] == "-":
				due.Sub(due, next)
			default:
				due.Add(due, next)
			}
		}
		value, isEnding := folded(operator, operands, operators), endsByDivision(due)
		if (value != nil) != isEnding || value != nil && (value.Cmp(due) != 0 || value.Denom().Cmp(due.Denom()) != 0) {
			t.Fatalf("%s of %v by %v is %v, and %v is due, which ends: %v", operator, operands, operators, value, due, isEnding)
		}
		if ends(due) != isEnding {
			t.Fatalf("%s ends: %v is due", due, isEnding)
		}
		if value != nil {
			known++
		}
	}
	if known < 2_000 {
		t.Errorf("%d are known", known)
	}
}

// TestRemoved checks the removal of factors against divisions one by one.
func TestRemoved(t *testing.T) {
	r := rand.New(rand.NewSource(1))
	for i := 0; i < 20_000; i++ {
		n := new(big.Int).Rand(r, power(10, 1+r.Intn(60)))
		n.Mul(n, power(2, r.Intn(3)*r.Intn(60))).Mul(n, power(5, r.Intn(3)*r.Intn(150)))
		if r.Intn(2) == 0 {
			n.Neg(n)
		}
		for _, factor := range []int64{2, 5, 10} {
			due, rest := removedByDivision(n, factor), new(big.Int).Set(n)
			if count := removed(rest, factor); count != due || rest.Mul(rest, power(factor, count)).Cmp(n) != 0 {
				t.Fatalf("%d is %d times in %s, and %d times is due", factor, count, n, due)
			}
		}
	}
}

// TestManyDigitsOfText checks constants, and powers of ten, against their texts.
func TestManyDigitsOfText(t *testing.T) {
	for i := 0; i <= decimal.Digits+2; i++ {
		for _, text := range []string{"1" + strings.Repeat("0", i), "0." + strings.Repeat("0", i) + "1"} {
			value, _ := new(big.Rat).SetString(text)
			due := len(text) - 1
			if text[0] == '0' {
				due = 2 - len(text)
			}
			if at, is := powerOfTen(value); is != (due >= -decimal.Digits && due <= decimal.Digits) || is && at != due {
				t.Errorf("%s is 10 to the power of %d: %v", text, at, is)
			}
			made := constantNumber(value)
			if whole := inUnits(value, made.of.units); !whole.IsInt() || whole.Num().String() != made.text || made.of.units.scale != maximum(-due, 0) {
				t.Errorf("%s is %s of %v", text, made.text, made.of.units)
			}
		}
	}
}

// TestCommonParts checks the lookup of common divisors against a search.
func TestCommonParts(t *testing.T) {
	r := rand.New(rand.NewSource(1))
	for i := 0; i < 20_000; i++ {
		divisor, scale := longNumber(r), r.Intn(20)
		if divisor.Sign() == 0 {
			continue
		}
		parts := new(big.Int).Mul(power(10, scale), new(big.Int).Abs(divisor.Num()))
		denominator := new(big.Int).Set(divisor.Denom())
		due := new(big.Int).GCD(nil, nil, denominator, parts)
		if divisor.Sign() < 0 {
			denominator.Neg(denominator)
		}
		if came := commonParts(denominator, parts, scale); came.Cmp(due) != 0 {
			t.Fatalf("%s and %s have %s in common, and %s is due", denominator, parts, came, due)
		}
	}
}
