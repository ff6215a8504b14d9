package profile

import (
	"math"
	"math/big"
	"math/rand"
	"testing"
)

// oddNumber returns a number with few digits or many, terminating or not.
func oddNumber(r *rand.Rand) *big.Rat {
	ends := []int64{0, 1, -1, 9, 10, 19, 119, 1 << 31, 1_000_000_007, 1 << 62, math.MaxInt64, math.MinInt64, math.MinInt64 + 1}
	digits := big.NewInt(r.Int63()>>r.Intn(63) - r.Int63()>>r.Intn(63))
	if r.Intn(3) == 0 {
		digits.SetInt64(ends[r.Intn(len(ends))])
	}
	if r.Intn(8) == 0 {
		digits.Mul(digits, big.NewInt(r.Int63()))
	}
	parts := new(big.Int).Mul(power(2, r.Intn(30)), power(5, r.Intn(30)))
	if r.Intn(3) != 0 {
		parts = power(10, r.Intn(22))
	}
	if r.Intn(8) == 0 {
		parts.Mul(parts, big.NewInt(3))
	}
	return new(big.Rat).SetFrac(digits, parts)
}

// TestFewDigits checks calculations on few digits against those on big numbers.
func TestFewDigits(t *testing.T) {
	r, few := rand.New(rand.NewSource(1)), 0
	for i := 0; i < 100_000; i++ {
		a, b := oddNumber(r), oddNumber(r)
		x, isFew := fewDigitsOf(a)
		if isFew && (x.value().Cmp(a) != 0 || x.scale > 0 && x.digits%10 == 0) {
			t.Fatalf("%s has the digits %v", a, x)
		}
		y, isOtherFew := fewDigitsOf(b)
		if !isFew || !isOtherFew {
			continue
		}
		few++
		if sum, is := x.plus(y); is && sum.value().Cmp(new(big.Rat).Add(a, b)) != 0 {
			t.Fatalf("%s + %s is %v", a, b, sum)
		}
		if difference, is := x.plus(y.negated()); is && difference.value().Cmp(new(big.Rat).Sub(a, b)) != 0 {
			t.Fatalf("%s - %s is %v", a, b, difference)
		}
		if product, is := x.by(y); is && product.value().Cmp(new(big.Rat).Mul(a, b)) != 0 {
			t.Fatalf("%s * %s is %v", a, b, product)
		}
	}
	if few < 10_000 {
		t.Errorf("%d pairs have few digits", few)
	}
}

// TestPartsByFew checks the parts of divisors with few digits against those of big numbers.
func TestPartsByFew(t *testing.T) {
	r, few := rand.New(rand.NewSource(1)), 0
	for i := 0; i < 100_000; i++ {
		divisor, scale := oddNumber(r), r.Intn(20)
		u, factor, is := partsByFew(divisor, scale)
		if !is {
			continue
		}
		few++
		if due, by := partsByMany(divisor, scale); due != u || !by.IsInt64() || by.Int64() != factor {
			t.Fatalf("by %s of %d decimals: %v times %d, and %v times %s are due", divisor, scale, u, factor, due, by)
		}
	}
	if few < 10_000 {
		t.Errorf("%d divisors have few digits", few)
	}
}

// TestNumberOfText checks the numbers of short literals against big numbers.
func TestNumberOfText(t *testing.T) {
	for _, text := range []string{"0", "0.0", "1", "1.0", ".5", "0.19", "00.190", "000123.4500", "999999999999999999", "0.000000000000000001",
		"9999999999999999999", "9223372036854775807.25", "12345678901234567890.5"} {
		due, _ := new(big.Rat).SetString(text)
		if number, is := numberOfText(text); !is || number.Cmp(due) != 0 {
			t.Errorf("%s is %v", text, number)
		}
	}
	for _, text := range []string{"", ".", "a", "1.2.3", "+", "- 1"} {
		if _, due := new(big.Rat).SetString(text); !due {
			if number, is := numberOfText(text); is {
				t.Errorf("%q is %v", text, number)
			}
		}
	}
}
