package profile

import (
	"fmt"
	"math/big"
	"strconv"
	"strings"

	"gateway/lines"
)

// The profile has no division. The quotient of a non-negative multiple of the divisor is found from its remainders by
// two primes, each the remainder of the number times the inverse of the divisor, and combined by the Chinese remainder
// theorem. For a constant divisor that takes three entries before the expression, for 2 one more.

// divisionPrimes are primes just below 2^31. The product of two is just below 2^62, and the product of two remainders
// is in the range.
var divisionPrimes = []int64{2147483647, 2147483629, 2147483587, 2147483579, 2147483563, 2147483549}

// leastDivisor is the least divisor whose quotients in the range are all below the product of two primes.
const leastDivisor = 3

// parted divides size * by, which is 0 or more, by p, and returns the quotient and the rest. If size is null both are.
//
// If by isn't 1, size is first written as q * p + r. Then p is in it q * by times, and as often as in r * by. The
// latter is less than by times, and so found from its remainder by one prime. So no number on the way is greater than
// the quotient, size, or p * by.
func (t *translator) parted(size phrase, by int64, p phrase) (q, rest phrase) {
	rest = t.step("rest", fmt.Sprintf("modulo(%s, %s)", size.text, p.text), numberType)
	multiple := size.text + " - " + rest.text
	divisor, err := strconv.ParseInt(p.text, 10, 64)
	switch {
	case err != nil:
		return t.variableQuotient(multiple, p), rest
	case divisor == 1:
		return size, rest
	}
	q = t.exactQuotient(multiple, divisor)
	if by == 1 {
		return q, rest
	}
	prime, _ := primesFor(divisor)
	last := t.step("rest", fmt.Sprintf("modulo(%s * %d, %d)", rest.text, by, divisor), numberType)
	few := fmt.Sprintf("modulo(modulo(%s * %d - %s, %d) * %d, %d)", rest.text, by, last.text, prime, inverse(divisor, prime), prime)
	return t.step("quotient", fmt.Sprintf("%s * %d + %s", q.text, by, few), numberType), last
}

// hasShortRest reports whether a factor above 1 may be left to the rest of a division by p.
func hasShortRest(by *big.Int, p int64) bool {
	if by.Sign() <= 0 || p == 1 || by.Cmp(big.NewInt(divisionPrimes[len(divisionPrimes)-1])) > 0 {
		return by.IsInt64() && by.Int64() == 1
	}
	return isNumber(new(big.Int).Mul(by, big.NewInt(p)))
}

// exactQuotient returns v / p for a multiple v of p, with v at least 0 and p at least 2. If v is null the quotient is.
// V is a text that may be an argument. A number that is twice a quotient of leastDivisor or more contains p that often,
// and once more if 2 is left.
func (t *translator) exactQuotient(v string, p int64) phrase {
	if p < leastDivisor {
		left := t.step("rest", fmt.Sprintf("modulo(%s, 4)", v), numberType)
		q := t.exactQuotient(v+" - "+left.text, 4)
		return t.step("quotient", fmt.Sprintf("2 * %s + (if %s = 0 then 0 else 1)", q.text, left.text), numberType)
	}
	first, second := primesFor(p)
	a := t.step("rest", fmt.Sprintf("modulo(modulo(%s, %d) * %d, %d)", v, first, inverse(p, first), first), numberType)
	b := t.step("rest", fmt.Sprintf("modulo(modulo(%s, %d) * %d, %d)", v, second, inverse(p, second), second), numberType)
	return t.joinedRests(a, b, first, second)
}

// joinedRests returns the non-negative number with the given remainders by two primes.
func (t *translator) joinedRests(a, b phrase, first, second int64) phrase {
	return t.step("quotient", fmt.Sprintf("%[1]s + %[3]d * modulo((%[2]s - %[1]s) * %[5]d, %[4]d)", a.text, b.text, first, second,
		inverse(first, second)), numberType)
}

// primesFor returns two primes that don't divide p.
func primesFor(p int64) (first, second int64) {
	for _, prime := range divisionPrimes {
		switch {
		case p%prime == 0:
		case first == 0:
			first = prime
		case second == 0:
			second = prime
		}
	}
	return first, second
}

// inverse returns the inverse of a modulo a prime.
func inverse(a, prime int64) int64 {
	return new(big.Int).ModInverse(big.NewInt(a), big.NewInt(prime)).Int64()
}

// A quotient by a variable has three digits: lowBase values of the lowest, middleBase of the middle one, and some two
// million of the highest. Divisors from twoDigits on need two of them, from oneDigit on one. Divisors below lowBase + 1
// are multiplied by it.
const (
	lowBase    = 2_000_000
	middleBase = lowBase - 1
	twoDigits  = lines.MaxNumber/(lowBase*middleBase) + 1
	oneDigit   = lines.MaxNumber/lowBase + 1
)

// variableQuotient returns v / c for a multiple v of c, with v at least 0 and c above 0. If v is null the quotient is.
//
// Modulo c - 1 the number c is 1, so q * c is q if q is below c - 1. The digits of q are small enough: v has them times
// c, times 1, lowBase and lowBase * middleBase, and remainders by these separate them. The product of the lowest one
// with a small c is first multiplied by lowBase + 1.
func (t *translator) variableQuotient(v string, c phrase) phrase {
	low := t.step("low", fmt.Sprintf("if %[2]s < %[3]d then modulo(%[1]s, %[2]s * %[4]d) else %[1]s", v, c.text, oneDigit, lowBase), numberType)
	rest := v + " - " + low.text
	middle := t.step("middle", fmt.Sprintf("if %[2]s < %[3]d then modulo(%[1]s, %[2]s * %[4]d) else %[1]s", rest, c.text, twoDigits,
		lowBase*middleBase), numberType)
	rest += " - " + middle.text
	digits := []string{
		fmt.Sprintf("(if %[2]s < %[3]d then modulo(%[1]s * %[3]d, %[2]s * %[3]d - 1) else modulo(%[1]s, %[2]s - 1))", low.text, c.text, lowBase+1),
		fmt.Sprintf("(if %[2]s < %[3]d then modulo(%[1]s, %[2]s * %[4]d - 1) * %[4]d else 0)", middle.text, c.text, oneDigit, lowBase),
		fmt.Sprintf("(if %[2]s < %[3]d then modulo(%[1]s, %[2]s * %[4]d - 1) * %[4]d else 0)", rest, c.text, twoDigits, lowBase*middleBase),
	}
	q := t.step("quotient", strings.Join(digits, " + "), numberType)
	// Multiplied back it is v. Any other number would be a fault, and exceeds a limit.
	return t.step("quotient", fmt.Sprintf("if %[1]s * %[2]s = (%[3]s) then %[1]s else %[4]s + 1", q.text, c.text, v, largestNumber), numberType)
}
