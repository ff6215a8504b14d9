package profile

import (
	"fmt"
	"math/big"
	"strings"

	"gateway/decimal"
	"gateway/feel"
	"gateway/lines"
)

// mostScale is how many decimals an intermediate value may have: with more it would nearly always be past the range.
const mostScale = 36

// mostDecimals is the most decimals of a number in the standard, as in IEEE 754's decimal128.
const mostDecimals = 6176

// quotientInstead is what to write in place of a calculation with a quotient.
const quotientInstead = "the products first and the division last, as x * 0.05 / 12, or a rounding round the quotient: decimal(x / 3, 2)"

// fraction translates a numeric literal with decimals, to its digits in their unit.
func (t *translator) fraction(n *feel.Number) phrase {
	t.fractions = true
	scale := decimalsOf(n.Text)
	if scale > mostDecimals {
		return t.refuse(n, fmt.Sprintf("the number has over %d decimals, which no number of the standard has", mostDecimals), "fewer decimals")
	}
	value, fine := numberOfText(n.Text)
	if !fine || len(strings.Trim(strings.ReplaceAll(n.Text, ".", ""), "0")) > decimal.Digits {
		return t.refuse(n, fmt.Sprintf("the number has over %d digits, to which the standard rounds", decimal.Digits), "fewer digits")
	}
	made := constantAt(value, units{scale: scale})
	t.constants[n.Text] = made
	return made
}

// decimalsOf returns how many decimals a literal has, without trailing zeros.
func decimalsOf(text string) int {
	point := strings.IndexByte(text, '.')
	if point < 0 {
		return 0
	}
	return len(strings.TrimRight(text[point+1:], "0"))
}

// constantNumber returns a terminating number in its coarsest unit.
func constantNumber(value *big.Rat) phrase {
	if few, is := fewDigitsOf(value); is {
		return few.constant(value)
	}
	if many, is := manyDigitsOf(value); is {
		made := wholeConstant(many.digits)
		made.number, made.of = value, numberOf(units{scale: many.scale})
		return made
	}
	rest := new(big.Int).Set(value.Denom())
	return constantAt(value, units{scale: maximum(removed(rest, 2), removed(rest, 5))})
}

// scaledBy returns a number times 10^scale.
func scaledBy(value *big.Rat, scale int) *big.Rat {
	switch {
	case scale == 0 || value.Sign() == 0:
		return new(big.Rat).Set(value)
	case scale < 0:
		return new(big.Rat).Quo(value, new(big.Rat).SetInt(decimal.Power(-scale)))
	}
	whole, rest := decimal.Power(scale), new(big.Int)
	whole.Mul(whole, value.Num()).QuoRem(whole, value.Denom(), rest)
	if rest.Sign() == 0 {
		return new(big.Rat).SetInt(whole)
	}
	return new(big.Rat).Mul(value, new(big.Rat).SetInt(decimal.Power(scale)))
}

// constantAt returns a number in units of which it is a whole number.
func constantAt(value *big.Rat, u units) phrase {
	made := wholeConstant(inUnits(value, u).Num())
	made.number, made.of = value, numberOf(u)
	return made
}

func wholeConstant(digits *big.Int) phrase {
	if digits.IsInt64() {
		return wholeConstant64(digits.Int64())
	}
	if digits.Sign() < 0 {
		return phrase{text: digits.String(), rank: rankNegation, depth: 2, of: numberType}
	}
	return constant(digits.String(), numberType)
}

// isNumber reports whether a whole number is in the engine's range.
func isNumber(n *big.Int) bool { return n.IsInt64() && n.Int64() >= -lines.MaxNumber }

// exact refuses all but plain numbers: quotients, and constants past the range.
func (t *translator) exact(n feel.Node, p phrase) phrase {
	if p.isQuotient() {
		return t.refuse(n, "a quotient may only be compared, rounded, negated, chosen, or be a result: it is rounded to "+
			"34 digits in the standard, and what is calculated with it isn't exact", quotientInstead)
	}
	return t.bounded(n, p)
}

// bounded refuses a constant past the range.
func (t *translator) bounded(n feel.Node, p phrase) phrase {
	if p.number == nil || p.of.isPlain() || len(p.text) < len(largestNumber) {
		return p
	}
	if !isNumber(scaledBy(p.number, p.of.units.scale).Num()) {
		return t.refuse(n, "the number is past "+largestNumber+" in its smallest unit", "a number with fewer digits")
	}
	return p
}

func (t *valueType) isPlain() bool { return t.units.isPlain() }

func (t *valueType) isFractional() bool { return t.units.isFractional() }

// recounted returns a number in finer units. Why says why that is impossible, or is empty.
func (t *translator) recounted(p phrase, to units) (made phrase, why string) {
	if to.per == tooManyParts {
		return p, "the quotients have no common divisor in the range"
	}
	if p.of.units.isAs(to) || p.of.kind == nullKind || p.of.kind == refusedKind {
		return p, ""
	}
	finer := to.scale - p.of.units.scale
	if p.number != nil {
		// In its own unit it is a whole number.
		made, is := phrase{}, p.number.Sign() == 0 || finer < len(largestNumber)
		if is {
			made, is = t.kept.constantAt(p.number, to)
		}
		if !is {
			return p, fmt.Sprintf("the number is past %s where it is counted with %d decimals", largestNumber, to.scale)
		}
		return made, ""
	}
	if to.scale < p.of.units.scale {
		return p, "its unit can't be made coarser"
	}
	if finer >= len(largestNumber) {
		return p, fmt.Sprintf("it would be counted with %d decimals", to.scale)
	}
	factor := factorBetween(p.of.units, to)
	if factor == nil {
		return p, "its unit can't be made coarser"
	}
	if !isNumber(factor) {
		return p, fmt.Sprintf("it would be counted with %d decimals", to.scale)
	}
	return times(p, factor, t.kept.recounted(p.of, units{scale: to.scale, per: to.per, meets: to.meets})), ""
}

// times returns a phrase times a whole number.
func times(p phrase, factor *big.Int, of *valueType) phrase {
	if factor.IsInt64() && factor.Int64() == 1 {
		p.of = of
		return p
	}
	made := infix(p, "*", wholeConstant(factor), rankProduct, of)
	made.rare = &rare{product: &product{p, factor}}
	return made
}

// recountedOr returns a number in finer units, and refuses it if that is impossible.
func (t *translator) recountedOr(n feel.Node, p phrase, to units) phrase {
	t.countedFinely(to)
	made, why := t.recounted(p, to)
	if why != "" {
		return t.refuse(n, why, "a rounding of what is calculated before")
	}
	return t.shallow(made)
}

// countedFinely notes the units of an intermediate number.
func (t *translator) countedFinely(u units) { t.finest = maximum(t.finest, u.scale) }

// noteRange notes from which size on the answer of a decision is a limit error.
func (t *translator) noteRange(n *node) {
	if finest := maximum(t.finest, t.within(n.of).scale); t.counts && finest > 0 {
		t.refusals.note(n.element(), fmt.Sprintf("numbers on the way have up to %d decimals: one past %s is limit", finest,
			decimal.Unit{Decimals: finest}.Text(largestNumber)), "")
	}
}

// aligned returns a value counted as values of another type, which may multiply numbers. It refuses what it can't
// align.
func (t *translator) aligned(p phrase, to *valueType, refuse func(why, instead string)) phrase {
	if !t.counts || !t.isCounted(to) && !t.isCounted(p.of) {
		return p
	}
	if p.of.kind == numberKind {
		made, why := t.recounted(p, to.within())
		if why != "" {
			refuse(why, "a rounding of what is calculated before")
			return refused
		}
		return t.shallow(made)
	}
	if p.members() != nil && to.kind == listKind {
		if isCountedAs(p.of, to) {
			return p
		}
		members := make([]phrase, len(p.members()))
		for i, member := range p.members() {
			members[i] = t.aligned(member, to.element, refuse)
		}
		return listing(members, t.kept.listOf(to.element))
	}
	if why := t.kept.countedAlike(p.of, to); why != "" {
		refuse(why, "as many decimals for all of them, as by --decimals; or the type number")
		return refused
	}
	return p
}

// isAsItIs reports whether a value that meets no other one stays as it is.
func (p phrase) isAsItIs() bool { return p.of.kind != numberKind || p.of.units.per != tooManyParts }

// isCountedAs reports whether values of a type, a scalar or a list of scalars, are surely counted as those of another
// one.
func isCountedAs(of, to *valueType) bool {
	for of != to && of.kind == listKind && to.kind == listKind {
		of, to = of.element, to.element
	}
	return of == to || of.kind == numberKind && to.kind == numberKind && of.units.isAs(to.units)
}

// together aligns values that meet in a list, a branch or a column, and returns their common type.
func (t *translator) together(values []phrase, refuse func(why, instead string)) *valueType {
	of, seen := nullType, map[*valueType]bool(nil)
	for i, value := range values {
		if seen[value.of] || i > 0 && value.of == values[i-1].of {
			continue
		}
		if len(values) > 1 {
			if seen == nil {
				seen = map[*valueType]bool{}
			}
			seen[value.of] = true
		}
		if known := t.kept.wasJoined(of, value.of); known != nil {
			of = known
			continue
		}
		if refuseMixed(of, value.of, refuse) {
			return refusedType
		}
		of = t.kept.joined(of, value.of)
	}
	for i := range values {
		values[i] = t.aligned(values[i], of, refuse)
	}
	return of
}

// refusal returns a function that refuses a form. The same refusal for each member of a list is made once.
func (t *translator) refusal(n feel.Node) func(why, instead string) {
	last := ""
	return func(why, instead string) {
		if why != last {
			t.refuse(n, why, instead)
		}
		last = why
	}
}

// unitsOf returns the units of the sum of operands.
func unitsOf(operands []phrase) units {
	all := operands[0].of.units
	for _, o := range operands[1:] {
		all = joinedUnits(all, o.of.units)
	}
	all.cell = nil
	return all
}

// folded returns the value of a calculation with constants; nil if some operand isn't constant, or the standard rounds
// on the way.
func folded(operator string, operands []phrase, operators []string) *big.Rat {
	for i := range operands {
		if operands[i].number == nil {
			return nil
		}
	}
	if few := foldedFew(operator, operands, operators); few != nil {
		return few
	}
	if value, is := foldedMany(operator, operands, operators); is {
		return value
	}
	value := new(big.Rat)
	for i, o := range operands {
		switch {
		case i == 0:
			value.Set(o.number)
		case operator == "*":
			value.Mul(value, o.number)
		case operators[i-1] == "-":
			value.Sub(value, o.number)
		default:
			value.Add(value, o.number)
		}
		if !ends(value) {
			return nil
		}
	}
	return value
}

// shortPower is a power of ten that can multiply a number of 19 digits without exceeding 34.
const shortPower = 1_000_000_000_000_000

// mostBitsOfDigits is how many bits a number with surely at most 34 digits may have, mostBitsOfParts how many 10^72
// has.
const mostBitsOfDigits, mostBitsOfParts = 112, 240

// mostDecimalsOnTheWay is how many decimals an intermediate constant may have.
const mostDecimalsOnTheWay = 2 * mostScale

// ends reports whether a number has at most 34 digits.
func ends(value *big.Rat) bool {
	if value.Num().IsInt64() && value.Denom().IsInt64() && shortPower%value.Denom().Int64() == 0 {
		return true
	}
	made, is := manyDigitsOf(value)
	return is && made.fits()
}

// countedSum returns the sum of operands counted in units.
func (t *translator) countedSum(n *feel.Chain, operands []phrase) phrase {
	u, value := unitsOf(operands), folded("+", operands, n.Operators)
	if value != nil && !u.isPlain() {
		return constantNumber(value)
	}
	for i, o := range operands {
		operands[i] = t.recountedOr(n, o, u)
	}
	made := chained(operands, n.Operators, rankSum, t.kept.numberOf(u))
	made.number = value
	return made
}

// countedProduct returns the product of operands. Their decimals add up.
func (t *translator) countedProduct(n feel.Node, operands []phrase) phrase {
	u := t.unitsOfProduct(operands)
	t.countedFinely(u)
	if u.scale > mostScale {
		return t.refuse(n, fmt.Sprintf("it would be counted with %d decimals", u.scale), "a rounding of what is calculated before")
	}
	value := folded("*", operands, nil)
	if value != nil && !u.isPlain() {
		return constantNumber(value)
	}
	all, of := factors(operands), t.kept.numberOf(u)
	made := chained(all, repeated("*", len(all)-1), rankProduct, of)
	made.of, made.number = of, value
	return made
}

// unitsOfProduct returns the units of the product of operands.
func (t *translator) unitsOfProduct(operands []phrase) (u units) {
	for i := range operands {
		switch of := operands[i].of.units; {
		case t.counts:
			u.meets = met(u, of)
		case of.isFractional():
			u.meets = t.kept.uncounted
		}
		u.scale += operands[i].of.units.scale
	}
	return u
}

// factors returns the operands to write in a product. A constant such as 0.1, which is 1 in its unit, is left out and
// changes the units of the others.
func factors(operands []phrase) []phrase {
	var all []phrase
	for i, o := range operands {
		isLeftOut := o.text == "1" && o.of.isFractional() && hasNumber(operands)
		switch {
		case isLeftOut && all == nil:
			all = append(make([]phrase, 0, len(operands)), operands[:i]...)
		case !isLeftOut && all != nil:
			all = append(all, o)
		}
	}
	if all == nil {
		return operands
	}
	return all
}

// timesSigns are the operators of short products.
var timesSigns = strings.Split(strings.Repeat("*", mostChain), "")

// repeated returns count times an operator.
func repeated(operator string, count int) []string {
	if operator == "*" && count <= len(timesSigns) {
		return timesSigns[:count]
	}
	operators := make([]string, count)
	for i := range operators {
		operators[i] = operator
	}
	return operators
}

// hasNumber reports whether an operand is a number and not a constant: then the product is null if that operand is.
func hasNumber(operands []phrase) bool {
	for _, o := range operands {
		if o.number == nil && o.of.kind == numberKind {
			return true
		}
	}
	return false
}

// productWithQuotients translates a product with divisions or quotients, from the left.
func (t *translator) productWithQuotients(n *feel.Chain, operands []phrase) phrase {
	soFar := operands[0]
	for i, operator := range n.Operators {
		next := operands[i+1]
		if operator == "/" {
			soFar = t.divided(n, soFar, next)
		} else {
			soFar = t.multiplied(n, soFar, next)
		}
		soFar = t.shallow(soFar)
	}
	return soFar
}

// isQuotient reports whether a phrase is a quotient by a constant or a variable.
func (p phrase) isQuotient() bool {
	return p.over() != nil || p.of.kind == numberKind && p.of.units.per != 0
}

// multiplied returns a product. A quotient may only be multiplied by powers of ten.
func (t *translator) multiplied(n feel.Node, a, b phrase) phrase {
	if b.isQuotient() {
		a, b = b, a
	}
	if !a.isQuotient() {
		return t.countedProduct(n, []phrase{t.bounded(n, a), t.bounded(n, b)})
	}
	power, is := powerOfTen(b.number)
	if !is || b.isQuotient() {
		return t.exact(n, a)
	}
	return t.shifted(n, a, power)
}

// powerOfTen returns the exponent of a constant power of ten.
func powerOfTen(value *big.Rat) (int, bool) {
	if value == nil || value.Sign() <= 0 {
		return 0, false
	}
	digits, sign := value.Num(), 1
	if !value.IsInt() {
		digits, sign = value.Denom(), -1
	}
	if digits.BitLen() > mostBits || !value.IsInt() && !value.Num().IsInt64() {
		return 0, false
	}
	power, fivesOf, is := endingParts(digits)
	is = is && power == fivesOf && (value.IsInt() || value.Num().Int64() == 1)
	return sign * power, is && power <= decimal.Digits
}

// mostBits is how many bits a whole number of 35 digits has.
const mostBits = 117

// shifted returns a quotient times 10^power.
func (t *translator) shifted(n feel.Node, p phrase, power int) phrase {
	own := *p.of
	own.units.scale -= power
	own.units.meets = met(p.of.units, units{scale: 1})
	if p.over() == nil && own.units.scale < 0 {
		factor := decimal.Power(-own.units.scale)
		own.units.scale = 0
		common := new(big.Int).GCD(nil, nil, factor, big.NewInt(own.units.per))
		factor.Quo(factor, common)
		own.units.per /= common.Int64()
		if !isNumber(factor) {
			return t.refuse(n, "the power of ten is past the range", "")
		}
		return times(p, factor, &own)
	}
	p.of = &own
	return p
}

// divided returns a quotient. It is exact if the divisor has only twos and fives; by 0 it is null.
func (t *translator) divided(n feel.Node, a, b phrase) phrase {
	switch {
	case a.of.kind == refusedKind || b.of.kind == refusedKind:
		return refused
	case b.number != nil && b.number.Sign() == 0:
		return constant("null", nullType)
	case b.number != nil && a.isQuotient():
		if power, is := powerOfTen(b.number); is {
			return t.shifted(n, a, -power)
		}
		return t.exact(n, a)
	case b.number != nil:
		return t.dividedBy(n, t.bounded(n, a), b.number)
	case a.isQuotient():
		return t.exact(n, a)
	case b.isQuotient():
		return t.exact(n, b)
	}
	return t.ratio(n, a, b)
}

// dividedBy returns a number divided by a constant: a number with more decimals if the divisor has only twos and fives,
// else a quotient of parts.
func (t *translator) dividedBy(n feel.Node, a phrase, divisor *big.Rat) phrase {
	others := withoutTens(divisor.Num())
	if a.number != nil && (a.number.Sign() == 0 || others.CmpAbs(a.number.Num()) <= 0) {
		if value := new(big.Rat).Quo(a.number, divisor); ends(value) {
			return constantNumber(value)
		}
	}
	u, factor := units{per: tooManyParts}, (*big.Int)(nil)
	if isNumber(others) {
		u, factor = t.kept.parted(divisor, a.of.units.scale)
	}
	u.meets = t.fractional(a.of.units).meets
	if factor == nil || !isNumber(factor) || u.per == tooManyParts || u.scale > mostScale {
		return t.refuse(n, "the divisor has too many digits", "a divisor with fewer digits")
	}
	a.number = nil
	if a.of.kind != numberKind && factor.IsInt64() && factor.Int64() == 1 {
		// The quotient of anything but a number is null.
		return infix(a, "*", constant("1", numberType), rankProduct, numberOf(u))
	}
	if a.depth >= mostOperandDepth {
		a = t.part(a)
	}
	return times(a, factor, t.kept.numberOf(u))
}

// withoutTens returns the size of a number without its twos and fives. A quotient terminates if the dividend has the
// factor that is left.
func withoutTens(n *big.Int) *big.Int {
	rest := new(big.Int).Abs(n)
	removed(rest, 2)
	removed(rest, 5)
	return rest
}

// fractional notes that fractions meet a number. If none are counted nobody asks which do.
func (t *translator) fractional(u units) units {
	if !t.counts && u.meets == nil {
		u.meets = t.kept.uncounted
		return u
	}
	return u.fractional()
}

// partsBy returns the units of the quotient of a number with scale decimals by a constant, and the factor of the number
// in these units.
func partsBy(divisor *big.Rat, scale int) (u units, factor *big.Int) {
	if u, few, is := partsByFew(divisor, scale); is {
		return u, big.NewInt(few)
	}
	return partsByMany(divisor, scale)
}

// partsByMany is partsBy for any divisor.
func partsByMany(divisor *big.Rat, scale int) (u units, factor *big.Int) {
	factor, parts := new(big.Int).Set(divisor.Denom()), decimal.Power(scale)
	parts.Mul(parts, divisor.Num())
	if parts.Sign() < 0 {
		factor.Neg(factor)
		parts.Neg(parts)
	}
	common := commonParts(factor, parts, scale)
	factor.Quo(factor, common)
	parts.Quo(parts, common)
	u, finer := unitsOfParts(parts)
	return u, factor.Mul(factor, finer)
}

// commonParts returns the common divisor of a number's denominator, which may be negative, and of its numerator times
// 10^scale.
func commonParts(denominator, parts *big.Int, scale int) *big.Int {
	size := new(big.Int).Abs(denominator)
	if twosOf, fivesOf, is := endingParts(size); is && scale >= 0 {
		return size.Lsh(powerOfFive(minimum(fivesOf, scale)), uint(minimum(twosOf, scale)))
	}
	return size.GCD(nil, nil, size, parts)
}

func power(base int64, exponent int) *big.Int {
	return new(big.Int).Exp(big.NewInt(base), big.NewInt(int64(exponent)), nil)
}

// ratio returns a quotient by a variable: its numerator, null if there is no quotient, over a positive divisor.
func (t *translator) ratio(n feel.Node, a, b phrase) phrase {
	t.fractions = true
	u := units{scale: a.of.units.scale - b.of.units.scale, meets: met(a.of.units.fractional(), b.of.units.fractional())}
	numerator, divisor := t.short(t.bounded(n, a)), t.short(t.bounded(n, b))
	d, x := divisor.text, numerator.text
	if numerator.of.kind != numberKind {
		x += " * 1"
	}
	if numerator.rank < rankPath {
		x = "(" + x + ")"
	}
	made := t.step("numerator", fmt.Sprintf("if %[2]s < 0 then -%[1]s else if %[2]s > 0 then %[1]s else null", parenthesized(x), d), numberOf(u))
	over := t.step("divisor", fmt.Sprintf("if %[1]s < 0 then -%[1]s else if %[1]s > 0 then %[1]s else 1", d), numberType)
	made.rare = &rare{over: &over}
	return made
}

// parenthesized returns a text that may follow a minus.
func parenthesized(text string) string {
	if strings.ContainsAny(text, " -") && !strings.HasPrefix(text, "(") {
		return "(" + text + ")"
	}
	return text
}

// powered translates a ** b, with a literal b from 1 to 8, to a product.
func (t *translator) powered(n *feel.Binary, s *scope) phrase {
	t.fractions = true
	base, exponent := t.operand(n.Left, s), t.operand(n.Right, s)
	return t.power(n, base, exponent)
}

// power returns a power of a base. For a name or a constant it is calculated once.
func (t *translator) power(n *feel.Binary, base, exponent phrase) phrase {
	if known, is := t.kept.powers[powerOf{base.text, base.of, base.number, exponent.number}]; is && base.rare == nil {
		t.finest = maximum(t.finest, known.finest)
		return known.made
	}
	if base.of.kind == refusedKind || exponent.of.kind == refusedKind {
		return refused
	}
	if base.of.isTemporal() || exponent.of.isTemporal() {
		return t.refuse(n, "a power of a date or a duration", "a number")
	}
	if exponent.number == nil || !exponent.number.IsInt() || exponent.number.Cmp(big.NewRat(1, 1)) < 0 ||
		exponent.number.Cmp(big.NewRat(8, 1)) > 0 {
		return t.refuse(n, "a power with another exponent than a whole number from 1 to 8", "a * a for a ** 2; a / b for a power below 0")
	}
	if base.number == nil {
		base = t.short(base)
	}
	operands := make([]phrase, exponent.number.Num().Int64())
	for i := range operands {
		operands[i] = base
	}
	if len(operands) == 1 && base.of.kind != numberKind {
		return infix(base, "*", constant("1", numberType), rankProduct, numberOf(base.of.units))
	}
	made := t.countedProduct(n, operands)
	if base.of.kind == numberKind && base.rare == nil && made.of.kind == numberKind && len(t.kept.powers) < mostKept {
		t.kept.powers[powerOf{base.text, base.of, base.number, exponent.number}] = keptPower{made, base.of.units.scale * len(operands)}
	}
	return made
}
