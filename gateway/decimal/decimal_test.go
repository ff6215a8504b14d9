package decimal_test

import (
	"errors"
	"math/big"
	"testing"

	"gateway/decimal"
)

func TestUnits(t *testing.T) {
	for _, row := range []struct {
		text     string
		decimals int
		due      string
		err      error
	}{
		{"12.5", 2, "1250", nil}, {"1e2", 0, "100", nil}, {"1E+2", 2, "10000", nil}, {"1.0", 0, "1", nil}, {"1.50", 1, "15", nil},
		{"-0", 2, "0", nil}, {"-0.0", 0, "0", nil}, {"0e999999999999999999999", 2, "0", nil}, {"12.345", 2, "", decimal.ErrDigits},
		{"-0.05", 2, "-5", nil}, {"1e-2", 2, "1", nil}, {"1e-3", 2, "", decimal.ErrDigits}, {"1000e-3", 0, "1", nil},
		{"92233720368547758.07", 2, "9223372036854775807", nil}, {"92233720368547758.08", 2, "", decimal.ErrRange},
		{"-92233720368547758.07", 2, "-9223372036854775807", nil}, {"-92233720368547758.08", 2, "", decimal.ErrRange},
		{"1e999999999", 2, "", decimal.ErrRange}, {"1e-999999999", 2, "", decimal.ErrDigits},
		{"1e-99999999999999999999", 2, "", decimal.ErrDigits}, {"12.340000000000000000000000000000000000000", 2, "1234", nil},
	} {
		got, err := decimal.Unit{Decimals: row.decimals}.Units(row.text)
		if got != row.due || !errors.Is(err, row.err) {
			t.Errorf("%s in units of %d decimals: %q and %v are due, and it is %q, %v", row.text, row.decimals, row.due, row.err, got, err)
		}
	}
}

func TestText(t *testing.T) {
	for _, row := range []struct {
		units    string
		decimals int
		per      int64
		due      string
	}{
		{"1234", 2, 0, "12.34"}, {"1200", 2, 0, "12"}, {"0", 2, 0, "0"}, {"-5", 2, 0, "-0.05"}, {"7", 0, 0, "7"}, {"-1250", 2, 1, "-12.5"},
		{"1", 0, 3, "0.3333333333333333333333333333333333"}, {"2", 0, 3, "0.6666666666666666666666666666666667"},
		{"-100", 2, 3, "-0.3333333333333333333333333333333333"}, {"3", 0, 3, "1"}, {"1000", 1, 12, "8.333333333333333333333333333333333"},
		{"9223372036854775807", 0, 7, "1317624576693539401"}, {"1", 3, 1200, "0.0000008333333333333333333333333333333333"},
	} {
		unit := decimal.Unit{Decimals: row.decimals, Per: row.per}
		if got := unit.Text(row.units); got != row.due {
			t.Errorf("%s in %v: %s is due, and it is %s", row.units, unit, row.due, got)
		}
	}
}

// TestQuotientHalfEven has a tie at the 34th digit: of two neighbours the even one.
func TestQuotientHalfEven(t *testing.T) {
	tie, _ := new(big.Int).SetString("20000000000000000000000000000000005", 10)
	if got := decimal.Quotient(tie, big.NewInt(10)); got != "2000000000000000000000000000000000" {
		t.Errorf("a tie is rounded to %s", got)
	}
	odd, _ := new(big.Int).SetString("20000000000000000000000000000000015", 10)
	if got := decimal.Quotient(odd, big.NewInt(10)); got != "2000000000000000000000000000000002" {
		t.Errorf("a tie is rounded to %s", got)
	}
}
