// Package decimal turns decimals into whole numbers of a unit, and back. The unit is 10 to the power of -decimals; of a quotient
// it is one part of per of that.
package decimal

import (
	"errors"
	"math/big"
	"strconv"
	"strings"

	"gateway/lines"
)

// Digits is how many significant digits a number of FEEL has (DMN 1.3, 10.3.2.3.1), rounded half even.
const Digits = 34

var (
	// ErrDigits says that a number has more decimals than its unit.
	ErrDigits = errors.New("it has more decimals than are taken")
	// ErrRange says that a number is past the range of its unit.
	ErrRange = errors.New("it is past the range")
)

// A Unit is what whole numbers count: per parts of 10^-Decimals. Per is 0 or 1 of what is no quotient.
type Unit struct {
	Decimals int
	Per      int64
}

// IsWhole tells whether numbers stand for themselves.
func (u Unit) IsWhole() bool { return u.Decimals == 0 && u.Per <= 1 }

// mostExponent is how far an exponent of a number is followed; a number beyond is 0 or past each range.
const mostExponent = 1_000_000

// Parse reads a number as JSON writes it: digits times 10^exponent.
func Parse(text string) (digits *big.Int, exponent int, fine bool) {
	mantissa, power := text, 0
	if at := strings.IndexAny(text, "eE"); at >= 0 {
		mantissa = text[:at]
		given, err := strconv.Atoi(text[at+1:])
		if errors.Is(err, strconv.ErrRange) {
			given, err = mostExponent, nil
			if text[at+1] == '-' {
				given = -mostExponent
			}
		}
		if err != nil {
			return nil, 0, false
		}
		power = given
	}
	if point := strings.IndexByte(mantissa, '.'); point >= 0 {
		fraction := strings.TrimRight(mantissa[point+1:], "0")
		power -= len(fraction)
		mantissa = mantissa[:point] + fraction
	}
	digits, fine = new(big.Int).SetString(mantissa, 10)
	return digits, power, fine
}

// Units is a number as a whole number of a unit: 12.5 is 1250 where Decimals is 2. 1e2 and 1.0 are taken.
func (u Unit) Units(text string) (string, error) {
	digits, exponent, fine := Parse(text)
	if !fine {
		return "", errors.New("it is no number")
	}
	if digits.Sign() == 0 {
		return "0", nil
	}
	if u.Per > 1 {
		digits.Mul(digits, big.NewInt(u.Per))
	}
	exponent += u.Decimals
	if exponent > len(strconv.FormatInt(lines.MaxNumber, 10)) {
		return "", ErrRange
	}
	if exponent >= 0 {
		digits.Mul(digits, Power(exponent))
	} else if err := shorten(digits, -exponent); err != nil {
		return "", err
	}
	if !digits.IsInt64() || digits.Int64() < -lines.MaxNumber {
		return "", ErrRange
	}
	return digits.String(), nil
}

// shorten divides digits by a power of ten, which has to divide them.
func shorten(digits *big.Int, power int) error {
	if power > len(digits.Text(10)) {
		return ErrDigits
	}
	rest := new(big.Int)
	digits.QuoRem(digits, Power(power), rest)
	if rest.Sign() != 0 {
		return ErrDigits
	}
	return nil
}

// mostPower is the greatest n of which 10^n is kept.
const mostPower = 80

// powers are 10^0 to 10^mostPower.
var powers = func() (all [mostPower + 1]*big.Int) {
	all[0] = big.NewInt(1)
	for n := 1; n <= mostPower; n++ {
		all[n] = new(big.Int).Mul(all[n-1], big.NewInt(10))
	}
	return all
}()

// Power is 10^n, which is the caller's own.
func Power(n int) *big.Int {
	if n < 0 || n > mostPower {
		return new(big.Int).Exp(big.NewInt(10), big.NewInt(int64(n)), nil)
	}
	return new(big.Int).Set(powers[n])
}

// Text is a whole number of a unit as a decimal in its shortest form. A quotient that doesn't end has 34 significant digits,
// rounded half even.
func (u Unit) Text(units string) string {
	if u.IsWhole() {
		return units
	}
	if u.Per > 1 {
		n, fine := new(big.Int).SetString(units, 10)
		if !fine {
			return units
		}
		return Quotient(n, new(big.Int).Mul(big.NewInt(u.Per), Power(u.Decimals)))
	}
	return pointed(units, u.Decimals)
}

// pointed puts a point before the last digits of a whole number.
func pointed(units string, decimals int) string {
	sign, digits := "", units
	if strings.HasPrefix(units, "-") {
		sign, digits = "-", units[1:]
	}
	if decimals <= 0 {
		if digits != "0" {
			digits += strings.Repeat("0", -decimals)
		}
		return sign + digits
	}
	if missing := decimals + 1 - len(digits); missing > 0 {
		digits = strings.Repeat("0", missing) + digits
	}
	whole, fraction := digits[:len(digits)-decimals], strings.TrimRight(digits[len(digits)-decimals:], "0")
	if fraction == "" {
		if whole == "0" {
			return whole
		}
		return sign + whole
	}
	return sign + whole + "." + fraction
}

// Quotient is n / d to 34 significant digits, half even, as a decimal in its shortest form.
func Quotient(n, d *big.Int) string {
	if n.Sign() == 0 {
		return "0"
	}
	if d.Sign() < 0 {
		n, d = new(big.Int).Neg(n), new(big.Int).Neg(d)
	}
	abs := new(big.Int).Abs(n)
	shift := Digits - (len(abs.Text(10)) - len(d.Text(10)))
	rounded := scaled(abs, d, shift)
	if len(rounded.Text(10)) > Digits {
		shift--
		rounded = scaled(abs, d, shift)
	}
	if n.Sign() < 0 {
		rounded.Neg(rounded)
	}
	return pointed(rounded.String(), shift)
}

// scaled is n * 10^shift / d to a whole number, half even.
func scaled(n, d *big.Int, shift int) *big.Int {
	if shift >= 0 {
		n = new(big.Int).Mul(n, Power(shift))
	} else {
		d = new(big.Int).Mul(d, Power(-shift))
	}
	quotient, rest := new(big.Int).QuoRem(n, d, new(big.Int))
	twice := rest.Lsh(rest, 1).Cmp(d)
	if twice > 0 || twice == 0 && quotient.Bit(0) == 1 {
		quotient.Add(quotient, big.NewInt(1))
	}
	return quotient
}
