package profile

import (
	"math/big"
	"testing"
)

// TestFewParts compares units of few parts with those calculated without a limit.
func TestFewParts(t *testing.T) {
	var all []units
	for scale := 0; scale <= 9; scale++ {
		for _, per := range []int64{0, 3, 6, 7, 12, 15, 60, 119, 360, 625, 1 << 20, 999_999_937} {
			all = append(all, units{scale: scale, per: per})
		}
	}
	for _, a := range all {
		for _, b := range all {
			scale, per := joinedParts(a, b)
			first, second := a.partsOfOne(), b.partsOfOne()
			common := new(big.Int).GCD(nil, nil, first, second)
			due, _ := unitsOfParts(first.Mul(first, second.Quo(second, common)))
			if a != b && (scale != due.scale || per != due.per) {
				t.Errorf("%v and %v are counted as %d, %d and not as %v", a, b, scale, per, due)
			}
			if b.scale < a.scale {
				continue
			}
			finer := units{scale: b.scale - a.scale, per: b.per}
			factor, rest := new(big.Int).QuoRem(finer.partsOfOne(), big.NewInt(a.parts()), new(big.Int))
			if got := factorBetween(a, b); (got == nil) != (rest.Sign() != 0) || got != nil && got.Cmp(factor) != 0 {
				t.Errorf("from %v to %v the factor is %v and not %v", a, b, got, factor)
			}
		}
	}
}
