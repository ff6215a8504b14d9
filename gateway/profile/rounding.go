package profile

import (
	"fmt"
	"math/big"
	"strconv"
	"strings"

	"gateway/decimal"
	"gateway/feel"
)

// A rounding is a function that rounds to a number of decimals.
type rounding struct {
	// optional is true if the scale may be omitted, and is then 0.
	optional bool
	// away is the condition under which the size of a number goes up to the next multiple of p, given the quotient q
	// below it, the rest, and p. It is empty for never.
	away func(q, rest, p string) string
	// below and above restrict that to negative numbers, or to positive ones.
	below, above bool
}

// roundings are the functions that round. Those of two or three words are of DMN 1.4.
var roundings = map[string]rounding{
	"decimal": {away: func(q, rest, p string) string {
		return fmt.Sprintf("%[2]s > %[3]s - %[2]s or (%[2]s = %[3]s - %[2]s and modulo(%[1]s, 2) = 1)", q, rest, p)
	}},
	"floor":         {optional: true, away: hasRest, below: true},
	"ceiling":       {optional: true, away: hasRest, above: true},
	"round up":      {away: hasRest},
	"round down":    {},
	"round half up": {away: func(_, rest, p string) string { return fmt.Sprintf("%[1]s >= %[2]s - %[1]s", rest, p) }},
	"round half down": {away: func(_, rest, p string) string {
		return fmt.Sprintf("%[1]s > %[2]s - %[1]s", rest, p)
	}},
}

func hasRest(_, rest, _ string) string { return rest + " > 0" }

// result returns the rounded number, given x, the quotient q of its size, the rest, and p.
func (r rounding) result(x, q, rest, p string) string {
	size, plain := q, q
	if r.away != nil {
		size = fmt.Sprintf("(if %s then %[2]s + 1 else %[2]s)", r.away(q, rest, p), q)
	}
	switch {
	case r.below:
		return fmt.Sprintf("if %s < 0 then -%s else %s", x, size, plain)
	case r.above:
		return fmt.Sprintf("if %s < 0 then -%s else %s", x, plain, size)
	}
	return fmt.Sprintf("if %s < 0 then -%[2]s else %[2]s", x, size)
}

// folded rounds a constant to its unit.
func (r rounding) folded(name string, at *big.Rat) *big.Int {
	size := new(big.Rat).Abs(at)
	whole, rest := new(big.Int).QuoRem(size.Num(), size.Denom(), new(big.Int))
	half := new(big.Int).Lsh(rest, 1).Cmp(size.Denom())
	away := map[string]bool{"decimal": half > 0 || half == 0 && whole.Bit(0) == 1, "floor": rest.Sign() > 0 && at.Sign() < 0,
		"ceiling": rest.Sign() > 0 && at.Sign() > 0, "round up": rest.Sign() > 0, "round half up": half >= 0, "round half down": half > 0}
	if away[name] {
		whole.Add(whole, big.NewInt(1))
	}
	if at.Sign() < 0 {
		whole.Neg(whole)
	}
	return whole
}

// mostDigits is how far from the point a rounding may be, on either side.
const mostDigits = 18

// roundedCall translates a rounding function.
func (t *translator) roundedCall(n *feel.Call, name string, s *scope) phrase {
	t.fractions = true
	how := roundings[name]
	parameters := []string{"n", "scale"}
	if how.optional && len(n.Arguments) == 1 {
		parameters = parameters[:1]
	}
	arguments, why := t.arranged(n, builtin{parameters: parameters, quotients: true}, s)
	if why != "" {
		return t.refuse(n, why, "")
	}
	for _, a := range arguments {
		if a.of.kind == refusedKind {
			return refused
		}
	}
	if _, isFine := t.asScalars(n, name, arguments[:1]); !isFine {
		return refused
	}
	t.noteVersion(name)
	digits := 0
	if len(arguments) == 2 {
		scale := arguments[1].number
		if scale == nil || !scale.IsInt() || scale.Num().BitLen() > 16 || scale.Num().Int64() > mostDigits || scale.Num().Int64() < -mostDigits {
			return t.refuse(n, fmt.Sprintf("a rounding to another number of decimals than a whole literal from -%d to %d", mostDigits, mostDigits),
				"a literal: decimal(x, 2)")
		}
		digits = int(scale.Num().Int64())
	}
	return t.rounded(n, name, arguments[0], digits)
}

// noteVersion notes a rounding that the version of the file's namespace may lack: once for each decision and each body.
func (t *translator) noteVersion(name string) {
	if strings.Contains(name, " ") {
		t.refusals.note(t.near, name+" is of DMN 1.4 and rounds as there", "")
	}
}

// rounded returns a number rounded to digits decimals, which may be negative. Its unit is that of the result.
func (t *translator) rounded(n feel.Node, name string, x phrase, digits int) phrase {
	x.of = withUnits(x.of, x.of.units.fractional())
	u := units{scale: maximum(digits, 0), meets: &meeting{fractional: digits > 0}}
	switch {
	case x.of.kind == nullKind:
		return x
	case x.number != nil:
		whole := roundings[name].folded(name, scaledBy(x.number, digits))
		return constantNumber(scaledBy(new(big.Rat).SetInt(whole), -digits))
	case x.of.kind != numberKind && x.of.kind != anyKind:
		return t.refuse(n, "a rounding of what is no number", "a number")
	case !x.isQuotient() && x.of.units.scale <= digits:
		return unrounded(x, u)
	}
	f, why := atDigits(x, digits)
	if why != "" {
		return t.refuse(n, why, "a rounding of what is calculated before")
	}
	return t.roundedAt(roundings[name], f, digits, u)
}

// unrounded returns a number that has no more decimals than it is rounded to.
func unrounded(x phrase, u units) phrase {
	u.scale = x.of.units.scale
	u.meets = met(u, x.of.units)
	if x.of.kind != numberKind {
		return infix(x, "*", constant("1", numberType), rankProduct, numberOf(u))
	}
	x.of = numberOf(u)
	return x
}

// A fraction is x * by / over.
type fraction struct {
	x    phrase
	by   *big.Int
	over phrase
}

// atDigits returns a number in the unit that it is rounded to, in lowest terms. Why says that it is past the range.
func atDigits(x phrase, digits int) (f fraction, why string) {
	by, over := big.NewInt(1), big.NewInt(x.of.units.parts())
	shift := x.of.units.scale - digits
	if shift < 0 {
		by = decimal.Power(-shift)
	} else {
		over.Mul(over, decimal.Power(shift))
	}
	if x.over() != nil {
		divisor := *x.over()
		x.rare = nil
		if !isNumber(by) || !isNumber(over) {
			return f, pastTheRange(x, digits)
		}
		return fraction{times(x, by, numberType), big.NewInt(1), times(divisor, over, numberType)}, ""
	}
	whole := lowest(x, by, over)
	if product := x.product(); product != nil {
		if f := lowest(product.of, new(big.Int).Mul(by, product.by), over); isNumber(f.by) {
			whole = f
		}
	}
	if !isNumber(whole.by) || whole.over.text == "" {
		return f, pastTheRange(x, digits)
	}
	return whole, ""
}

func pastTheRange(x phrase, digits int) string {
	if x.of.units.scale < digits {
		return fmt.Sprintf("a number is rounded to %d decimals", digits)
	}
	return fmt.Sprintf("a number that is counted with %d decimals is rounded to %d", x.of.units.scale, digits)
}

// lowest returns x * by / over in lowest terms; without a text if the divisor is past the range.
func lowest(x phrase, by, over *big.Int) fraction {
	common := new(big.Int).GCD(nil, nil, new(big.Int).Abs(by), over)
	f := fraction{x: x, by: new(big.Int).Quo(by, common)}
	if by.Sign() < 0 {
		f.x = times(x, big.NewInt(-1), numberType)
		f.by.Neg(f.by)
	}
	if divisor := common.Quo(over, common); isNumber(divisor) {
		f.over = wholeConstant(divisor)
	}
	return f
}

// roundedAt returns a fraction rounded to a whole number, times 10^-digits if digits is negative.
func (t *translator) roundedAt(how rounding, f fraction, digits int, u units) phrase {
	if t.full {
		return constant("null", numberOf(u))
	}
	if by, err := strconv.ParseInt(f.over.text, 10, 64); err != nil || !hasShortRest(f.by, by) {
		f.x, f.by = times(f.x, f.by, numberType), big.NewInt(1)
	}
	x, p := t.short(f.x), t.short(f.over)
	size := t.step("part", fmt.Sprintf("abs(%s)", x.text), numberType)
	q, rest := t.parted(size, f.by.Int64(), p)
	text := how.result(x.text, q.text, rest.text, p.text)
	if digits < 0 {
		text = fmt.Sprintf("(%s) * %s", text, decimal.Power(-digits))
	}
	return t.step("rounded", text, numberOf(u))
}

// withUnits returns a type with other units.
func withUnits(of *valueType, u units) *valueType {
	if of.kind != numberKind && of.kind != anyKind {
		return of
	}
	own := *of
	own.units = u
	return &own
}
