package profile

import (
	"fmt"
	"math/big"

	"gateway/decimal"
	"gateway/feel"
	"gateway/lines"
)

// turnedComparisons are the operators for swapped sides.
var turnedComparisons = map[string]string{"<": ">", ">": "<", "<=": ">=", ">=": "<=", "=": "=", "!=": "!="}

// compare translates a comparison. Numbers in different units are brought to one; a constant takes the unit of the
// value.
func (t *translator) compare(n feel.Node, l phrase, operator string, r phrase) phrase {
	if refuseMixed(l.of, r.of, t.refusal(n)) {
		return refused
	}
	if !t.counts && l.over() == nil && r.over() == nil || l.of.kind == refusedKind || r.of.kind == refusedKind {
		return infix(l, operator, r, rankComparison, booleanType)
	}
	l, r = t.meeting(l, r), t.meeting(r, l)
	switch {
	case l.isQuotient() || r.isQuotient():
		return t.compareQuotients(n, l, operator, r)
	case l.of.hasQuotient() || r.of.hasQuotient():
		return t.refuse(n, "lists or contexts with quotients are not compared", "a rounding of what is in them")
	case !t.isCounted(l.of) && !t.isCounted(r.of):
		return infix(l, operator, r, rankComparison, booleanType)
	case r.number != nil && l.number == nil:
		return t.againstNumber(l, operator, r.number)
	case l.number != nil && r.number == nil:
		return t.againstNumber(r, turnedComparisons[operator], l.number)
	}
	return t.compareCounted(n, l, operator, r)
}

// meeting notes that a number meets another one.
func (t *translator) meeting(p, other phrase) phrase {
	a, b := t.within(p.of), t.within(other.of)
	met(a, b)
	return p
}

// compareCounted compares values that aren't constants.
func (t *translator) compareCounted(n feel.Node, l phrase, operator string, r phrase) phrase {
	if left, right, is := t.withoutProducts(l, r); is {
		return infix(left, operator, right, rankComparison, booleanType)
	}
	of := joinedUnits(t.within(l.of), t.within(r.of))
	for _, side := range []*phrase{&l, &r} {
		other := l
		if side == &l {
			other = r
		}
		isOrder := operator != "=" && operator != "!="
		if side.of.kind == numberKind || side.of.kind == anyKind && isOrder && !other.of.mayBe(textKind) {
			*side = t.recountedOr(n, *side, of)
			continue
		}
		*side = t.aligned(*side, joined(l.of, r.of), t.refusal(n))
	}
	return infix(l, operator, r, rankComparison, booleanType)
}

// withoutProducts moves a constant factor to the other side: x / 8 < y becomes x < y * 8. Of two products it moves the
// one that leaves fewer decimals. False if neither side is a product, or if a factor is past the range.
func (t *translator) withoutProducts(l, r phrase) (left, right phrase, is bool) {
	if l.of.kind != numberKind || r.of.kind != numberKind || !l.isPositiveProduct() && !r.isPositiveProduct() {
		return l, r, false
	}
	scale := maximum(l.of.units.scale, r.of.units.scale)
	left, byLeft := withoutProduct(l, decimal.Power(scale-l.of.units.scale))
	right, byRight := withoutProduct(r, decimal.Power(scale-r.of.units.scale))
	common := new(big.Int).GCD(nil, nil, byLeft, byRight)
	byLeft, byRight = new(big.Int).Quo(byLeft, common), new(big.Int).Quo(byRight, common)
	if !isNumber(byLeft) || !isNumber(byRight) {
		return l, r, false
	}
	return t.shallow(times(left, byLeft, numberType)), t.shallow(times(right, byRight, numberType)), true
}

// isPositiveProduct reports whether a phrase is a number times a positive constant.
func (p phrase) isPositiveProduct() bool {
	product := p.product()
	return product != nil && product.of.of.kind == numberKind && product.by.Sign() > 0
}

// withoutProduct returns the number in a product with a positive constant, and by times the constant; other numbers
// with by.
func withoutProduct(p phrase, by *big.Int) (phrase, *big.Int) {
	if !p.isPositiveProduct() {
		return p, by
	}
	return p.product().of, by.Mul(by, p.product().by)
}

// againstNumber compares a value with a constant, in the value's unit: in hundredths x < 0.125 is x <= 12. If the
// constant isn't a multiple of the unit, no value equals it.
func (t *translator) againstNumber(x phrase, operator string, value *big.Rat) phrase {
	u := t.within(x.of)
	if product := x.product(); x.isPositiveProduct() && constantNumber(value).of.units.scale <= product.of.of.units.scale+mostFiner {
		value = new(big.Rat).Quo(inUnits(value, u), new(big.Rat).SetInt(product.by))
		x, u = product.of, units{}
	}
	if operator == "=" || operator == "!=" {
		return t.equalIn(x, operator, value, u)
	}
	operator, limit := boundIn(operator, value, u)
	return infix(x, operator, wholeConstant(limit), rankComparison, booleanType)
}

// equalIn compares a counted value for equality.
func (t *translator) equalIn(x phrase, operator string, value *big.Rat, u units) phrase {
	if at := inUnits(value, u); at.IsInt() && isNumber(at.Num()) {
		return infix(x, operator, wholeConstant(at.Num()), rankComparison, booleanType)
	}
	// A number is not two numbers, null is not one, and other kinds are unknown.
	x = t.short(x)
	joint := allOf
	if operator == "!=" {
		joint = anyOf
	}
	return joint([]phrase{infix(x, operator, constant("0", numberType), rankComparison, booleanType),
		infix(x, operator, constant("1", numberType), rankComparison, booleanType)})
}

// inUnits returns a number of units, which may not be whole.
func inUnits(value *big.Rat, u units) *big.Rat {
	scaled := scaledBy(value, u.scale)
	if u.parts() == 1 {
		return scaled
	}
	return scaled.Mul(scaled, new(big.Rat).SetInt64(u.parts()))
}

var mostNumber, leastNumber = big.NewInt(lines.MaxNumber), big.NewInt(-lines.MaxNumber)

// boundIn brings a limit to units: it replaces it by the whole number with the same meaning for whole numbers.
func boundIn(operator string, value *big.Rat, u units) (string, *big.Int) {
	at := inUnits(value, u)
	floor := new(big.Int).Div(at.Num(), at.Denom())
	isBelow := operator == "<" || operator == "<="
	switch {
	case floor.Cmp(leastNumber) < 0 && isBelow:
		return "<", leastNumber
	case floor.Cmp(leastNumber) < 0:
		return ">=", leastNumber
	case floor.Cmp(mostNumber) > 0 && isBelow:
		return "<=", mostNumber
	case floor.Cmp(mostNumber) > 0:
		return ">", mostNumber
	case at.IsInt():
		return operator, floor
	case isBelow:
		return "<=", floor
	}
	return ">", floor
}

// mostFiner is how many decimals more than the numerator a constant compared with a quotient may have. With a numerator
// of 19 digits that leaves one of 34 digits free.
const mostFiner = 14

// compareQuotients compares quotients by multiplying both sides with the divisors. Different quotients of numbers in
// the range differ by much more than rounding to 34 digits loses, and equal ones round alike.
func (t *translator) compareQuotients(n feel.Node, l phrase, operator string, r phrase) phrase {
	if l.number != nil {
		l, r, operator = r, l, turnedComparisons[operator]
	}
	for _, side := range []phrase{l, r} {
		switch side.of.kind {
		case numberKind, nullKind:
		case anyKind:
			if operator != "=" && operator != "!=" {
				continue
			}
			fallthrough
		default:
			return t.refuse(n, "a quotient is compared with what may be no number", "the type number for it")
		}
	}
	if r.number != nil && l.over() == nil {
		scale := constantNumber(r.number).of.units.scale
		if scale > l.of.units.scale+mostFiner {
			l = t.decimalParts(n, l)
		}
		if scale > l.of.units.scale+mostFiner {
			return t.refuse(n, fmt.Sprintf("a quotient is compared with a number of over %d decimals more than its own: the standard "+
				"compares what 34 digits leave of it", mostFiner), "a number with fewer decimals")
		}
		return t.againstNumber(l, operator, r.number)
	}
	if r.number != nil {
		return t.quotientAgainst(n, l, operator, r.number)
	}
	left, right := big.NewInt(r.of.units.parts()), big.NewInt(l.of.units.parts())
	if shift := r.of.units.scale - l.of.units.scale; shift > 0 {
		left.Mul(left, decimal.Power(shift))
	} else {
		right.Mul(right, decimal.Power(-shift))
	}
	return t.crossed(n, l, left, operator, r, right)
}

// decimalParts turns the twos and fives in a constant divisor into decimals, which leaves a smaller limit for the
// numerator.
func (t *translator) decimalParts(n feel.Node, p phrase) phrase {
	rest := big.NewInt(p.of.units.parts())
	more := maximum(removed(rest, 2), removed(rest, 5))
	u := p.of.units
	u.scale, u.per = u.scale+more, rest.Int64()
	return t.recountedOr(n, p, u)
}

// quotientAgainst compares a quotient by a variable with a constant.
func (t *translator) quotientAgainst(n feel.Node, l phrase, operator string, value *big.Rat) phrase {
	at := scaledBy(value, l.of.units.scale)
	if !isNumber(at.Num()) || !isNumber(at.Denom()) {
		return t.refuse(n, "a quotient is compared with a number of too many digits", "a number with fewer digits")
	}
	left := times(l, at.Denom(), numberType)
	right := infix(*l.over(), "*", wholeConstant(at.Num()), rankProduct, numberType)
	return infix(left, operator, right, rankComparison, booleanType)
}

// crossed compares l * left * the divisor of r with r * right * the divisor of l.
func (t *translator) crossed(n feel.Node, l phrase, left *big.Int, operator string, r phrase, right *big.Int) phrase {
	over, under := l.over(), r.over()
	l, left = withoutProduct(l, left)
	r, right = withoutProduct(r, right)
	common := new(big.Int).GCD(nil, nil, left, right)
	left, right = new(big.Int).Quo(left, common), new(big.Int).Quo(right, common)
	if !isNumber(left) || !isNumber(right) {
		return t.refuse(n, "the quotients have too many decimals to be compared", "a rounding of what is calculated before")
	}
	lText, rText := times(l, left, numberType), times(r, right, numberType)
	if under != nil {
		lText = infix(lText, "*", *under, rankProduct, numberType)
	}
	if over != nil {
		rText = infix(rText, "*", *over, rankProduct, numberType)
	}
	return infix(lText, operator, rText, rankComparison, booleanType)
}

// between returns x >= low and x <= high.
func (t *translator) between(n feel.Node, x, low, high phrase) phrase {
	if refuseMixed(x.of, low.of, t.refusal(n)) || refuseMixed(x.of, high.of, t.refusal(n)) {
		return refused
	}
	if !t.counts && x.over() == nil && low.over() == nil && high.over() == nil ||
		!t.isCounted(x.of) && !t.isCounted(low.of) && !t.isCounted(high.of) && x.over() == nil && low.over() == nil && high.over() == nil {
		t.meeting(x, low)
		t.meeting(x, high)
		return between(x, low, high)
	}
	x = t.short(x)
	return allOf([]phrase{t.compare(n, x, ">=", low), t.compare(n, x, "<=", high)})
}
