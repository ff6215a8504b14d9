package profile

import (
	"fmt"
	"math/big"

	"gateway/decimal"
)

// units say how a number is counted: as a whole number of 10^-scale, or of one part of per of that. A value without
// units is counted in ones.
type units struct {
	// scale is 0 or more; for a quotient by a variable it may be negative.
	scale int
	// per is over 1 for a quotient by a constant, else 0.
	per int64
	// cell is for a number of an input: its scale may be made finer.
	cell *cell
	// meets is the class of all numbers that it meets; nil if it met none.
	meets *meeting
}

// A cell is where an input has numbers: itself, a component, the members of a list.
type cell struct {
	// name is as --decimals spells it.
	name string
	// fixed is true if the file or the caller gives the scale.
	fixed bool
	scale int
	// wanted is a finer scale needed by values that it meets, and that can't be counted otherwise.
	wanted int
	// types are those of the input with the scale.
	types []*valueType
	meets *meeting
}

// A meeting is a class of numbers that meet each other: by an operator, in a branch, a list or a column.
type meeting struct {
	parent     *meeting
	fractional bool
}

func (m *meeting) root() *meeting {
	if m == nil {
		return nil
	}
	for m.parent != nil {
		if m.parent.parent != nil {
			m.parent = m.parent.parent
		}
		m = m.parent
	}
	return m
}

// met returns the class of two numbers that meet.
func met(a, b units) *meeting {
	first, second := a.meets.root(), b.meets.root()
	if first == nil {
		first, second = second, nil
	}
	if second != nil && second != first {
		second.parent = first
		first.fractional = first.fractional || second.fractional
	}
	if a.isFractional() || b.isFractional() {
		if first == nil {
			first = &meeting{}
		}
		first.fractional = true
	}
	return first
}

// fractional notes that fractions meet a number.
func (u units) fractional() units {
	if u.meets == nil {
		u.meets = &meeting{}
	}
	u.meets.root().fractional = true
	return u
}

// uncelled returns the units of a calculated value, which belongs to no input.
func uncelled(u units) units {
	u.cell = nil
	return u
}

func (u units) isFractional() bool { return u.scale > 0 || u.per > 1 }

// isPlain reports whether numbers are counted in ones.
func (u units) isPlain() bool { return u.scale == 0 && u.per <= 1 }

// isAs reports whether numbers are counted alike.
func (u units) isAs(other units) bool { return u.scale == other.scale && u.parts() == other.parts() }

func (u units) parts() int64 {
	if u.per > 1 {
		return u.per
	}
	return 1
}

// joinedUnits returns units in which both numbers can be counted.
func joinedUnits(a, b units) units {
	both := units{scale: maximum(a.scale, b.scale), meets: met(a, b)}
	if a.per > 1 || b.per > 1 {
		both.scale, both.per = joinedParts(a, b)
	}
	if a.cell == b.cell {
		both.cell = a.cell
	}
	return both
}

// tooManyParts marks a divisor past the range.
const tooManyParts = -1

// joinedParts returns the units with the fewest parts of 1 of which both numbers are multiples.
func joinedParts(a, b units) (scale int, per int64) {
	if a.per == tooManyParts || b.per == tooManyParts {
		return maximum(a.scale, b.scale), tooManyParts
	}
	if a.scale == b.scale && a.per == b.per {
		return a.scale, a.per
	}
	if first, second := a.fewParts(), b.fewParts(); first > 0 && second > 0 {
		return unitsOfFewParts(first / commonDivisor(first, second) * second)
	}
	first, second := a.partsOfOne(), b.partsOfOne()
	common := new(big.Int).GCD(nil, nil, first, second)
	both, _ := unitsOfParts(first.Mul(first, second.Quo(second, common)))
	return both.scale, both.per
}

// mostFewParts is the number of parts up to which two of them may be multiplied.
const mostFewParts = 1 << 31

// fewParts returns how many parts of 1 the numbers count; 0 if too many.
func (u units) fewParts() int64 {
	parts := u.parts()
	if u.scale < 0 || parts >= mostFewParts {
		return 0
	}
	for i := 0; i < u.scale; i++ {
		if parts *= 10; parts >= mostFewParts {
			return 0
		}
	}
	return parts
}

func commonDivisor(a, b int64) int64 {
	for b != 0 {
		a, b = b, a%b
	}
	return a
}

// unitsOfFewParts is unitsOfParts for a number of parts in the engine's range.
func unitsOfFewParts(parts int64) (scale int, per int64) {
	rest, twos, fives := parts, 0, 0
	for ; rest%2 == 0; rest /= 2 {
		twos++
	}
	for ; rest%5 == 0; rest /= 5 {
		fives++
	}
	if rest == 1 && areDecimals(twos, fives) {
		return maximum(twos, fives), 0
	}
	for scale = 0; scale < twos && scale < fives; scale++ {
		parts /= 10
	}
	return scale, parts
}

// mostTwos and mostFives limit how many more twos than fives, or fives than twos, a number of parts may have to be
// counted as decimals: the number is then multiplied by as many fives, or twos.
const mostTwos, mostFives = 27, 62

// areDecimals reports whether parts with these factors are counted as decimals.
func areDecimals(twos, fives int) bool { return twos-fives <= mostTwos && fives-twos <= mostFives }

// factorBetween returns the factor from units to others that aren't coarser; nil if it isn't a whole number.
func factorBetween(from, to units) *big.Int {
	finer := units{scale: to.scale - from.scale, per: to.per}
	if few := finer.fewParts(); few > 0 {
		if few%from.parts() != 0 {
			return nil
		}
		return big.NewInt(few / from.parts())
	}
	factor, rest := finer.partsOfOne(), new(big.Int)
	if factor.QuoRem(factor, big.NewInt(from.parts()), rest); rest.Sign() != 0 {
		return nil
	}
	return factor
}

// partsOfOne returns how many parts of 1 the numbers count.
func (u units) partsOfOne() *big.Int {
	parts := decimal.Power(u.scale)
	return parts.Mul(parts, big.NewInt(u.parts()))
}

// unitsOfParts returns the units of numbers that count parts of 1, and a factor by which the parts have to be made
// finer. They become decimals if the number of parts has only twos and fives, and not too many of one, and if it is
// past the range.
func unitsOfParts(parts *big.Int) (u units, finer *big.Int) {
	rest := new(big.Int).Set(parts)
	twos, fives := removed(rest, 2), removed(rest, 5)
	per := new(big.Int).Set(rest)
	if u.scale = twos; fives < twos {
		u.scale = fives
	}
	isEnding := rest.IsInt64() && rest.Int64() == 1 && areDecimals(twos, fives)
	if per.Quo(parts, decimal.Power(u.scale)); isEnding || !isNumber(per) {
		u.scale = maximum(twos, fives)
		per.Set(rest)
	}
	finer = decimal.Power(u.scale)
	finer.Mul(finer, per).Quo(finer, parts)
	switch {
	case !isNumber(per):
		u.per = tooManyParts
	case per.Int64() > 1:
		u.per = per.Int64()
	}
	return u, finer
}

// numberOf returns the type of numbers in units.
func numberOf(u units) *valueType {
	if u == (units{}) {
		return numberType
	}
	return &valueType{kind: numberKind, units: u}
}

// anyOfUnits returns the type Any for values of both types.
func anyOfUnits(a, b *valueType) *valueType {
	both := joinedUnits(a.within(), b.within())
	if both == (units{}) {
		return anyType
	}
	return &valueType{kind: anyKind, units: both}
}

// within returns the units of all numbers in values of a type, if these are the same; else the finest.
func (t *valueType) within() units {
	if t = t.innermost(); t.kind == contextKind {
		var all units
		first := true
		t.eachEntry(func(part *valueType) bool {
			if first {
				all = part.within()
			} else {
				all = joinedUnits(all, part.within())
			}
			first = false
			return true
		})
		return all
	}
	return t.units
}

// isCounted reports whether some numbers in values of a type are counted in units.
func (t *valueType) isCounted() bool {
	return t.some(func(part *valueType) bool { return !part.units.isPlain() })
}

// hasQuotient reports whether some numbers in values of a type are quotients.
func (t *valueType) hasQuotient() bool { return t.facts().quotients }

// countedAs returns a declared type the units of its values.
func (t *translator) countedAs(due, of *valueType) *valueType {
	if !of.hasUnits() && !of.hasTemporal() {
		return due
	}
	switch {
	case due.kind == anyKind && of.hasTemporal():
		return of
	case of.isTemporal() && (withOffset[due.kind] == of.kind || due.kind == of.kind && of.sort != nil):
		own := *due
		own.kind, own.sort = of.kind, of.sort
		return &own
	case due.kind == numberKind || due.kind == anyKind:
		inside := t.within(of)
		if inside == (units{}) {
			return due
		}
		own := *due
		own.units = inside
		return &own
	case due.kind == listKind && of.kind == listKind:
		own := *due
		own.element, own.deepest = t.countedAs(due.element, of.element), nil
		return &own
	case due.kind == contextKind && of.kind == contextKind:
		return t.kept.contextAs(due, of, t.countedContext)
	}
	return due
}

func (t *translator) countedContext(due, of *valueType) *valueType {
	own := *due
	own.fields, own.order, own.fitting, own.more = map[string]*valueType{}, nil, nil, map[string]*valueType{}
	for _, name := range due.order {
		field := due.fields[name]
		if given := of.fields[name]; given != nil {
			field = t.countedAs(field, given)
		}
		own.setField(name, field)
	}
	for name, part := range of.more {
		own.more[name] = part
	}
	for _, name := range of.order {
		if due.fields[name] == nil {
			own.more[name] = of.fields[name]
		}
	}
	return &own
}

// countedAlike says why values of a type aren't counted as those of another one. It is empty if they are, or if the
// inputs that they come from can be counted so, which it notes.
func countedAlike(of, to *valueType) string {
	switch {
	case of == to || !of.hasNumbers() || to.kind == nullKind || to.kind == refusedKind:
		return ""
	case of.kind == listKind && to.kind == listKind:
		return countedAlike(of.element, to.element)
	case of.kind == contextKind && to.kind == contextKind:
		for _, name := range of.order {
			if field := to.fields[name]; field != nil {
				if why := countedAlike(of.fields[name], field); why != "" {
					return why
				}
			}
		}
		return ""
	case of.kind == listKind:
		return countedAlike(of.element, to)
	case of.kind == contextKind:
		why := ""
		of.eachEntry(func(part *valueType) bool {
			why = countedAlike(part, to)
			return why == ""
		})
		return why
	}
	due := to.within()
	if of.units.isAs(due) {
		return ""
	}
	if c := of.units.cell; c != nil && !c.fixed && due.parts() == 1 {
		c.wanted = maximum(c.wanted, due.scale)
	}
	return fmt.Sprintf("numbers with %d decimals meet others with %d in lists, contexts or values of no known type, which are "+
		"not recounted", of.units.scale, due.scale)
}
