package profile

import (
	"math/big"

	"gateway/feel"
)

// kept has what one pass found about contexts, which may have thousands of entries and be looked at for each call.
// Another pass may count their numbers in other units.
type kept struct {
	units   map[*valueType]keptUnits
	counted map[[2]*valueType]keptContext
	// alike says why values of one type aren't counted as those of another one.
	alike map[[2]*valueType]keptReason
	// joint are the types that two contexts have in common.
	joint map[[2]*valueType]keptContext
	// lists are the list types of types that all runs share.
	lists map[*valueType]*valueType
	// texts are the types of literal texts.
	texts map[string]*valueType
	// contexts are the types of calculated contexts with one entry.
	contexts map[keptEntry]*valueType
	// numbers are the types of the numbers that were calculated last; turn is replaced next, others are those before.
	numbers [4]*valueType
	turn    int
	others  map[units]*valueType
	// powers are those of names and of constants.
	powers map[powerOf]keptPower
	// recount is the type that was last counted in other units, uncounted the class of all numbers if none are counted.
	recount   keptRecount
	uncounted *meeting
	// constants are numbers as counted in some units, quotients the results for divisors.
	constants map[keptNumber]keptConstant
	quotients map[keptNumber]keptQuotient
	// literal are the members of lists of literals, or of contexts of literals; nil for other lists.
	literal map[*box][]*box
}

// A keptEntry is an entry of a context.
type keptEntry struct {
	name string
	of   *valueType
}

// A keptNumber is a constant and the units of it, or of what it divides.
type keptNumber struct {
	value *big.Rat
	scale int
	per   int64
}

// A keptConstant is a number in units; false if it can't be.
type keptConstant struct {
	made     phrase
	isNumber bool
}

// A keptQuotient is the factor that turns a number into its quotient, and the quotient's units.
type keptQuotient struct {
	units  units
	factor *big.Int
}

// A keptRecount is a type counted in other units.
type keptRecount struct {
	of   *valueType
	to   units
	made *valueType
}

// A powerOf is a base, a constant if it has a number, and an exponent.
type powerOf struct {
	text             string
	of               *valueType
	number, exponent *big.Rat
}

// A keptPower is a power, and the most decimals on the way to it.
type keptPower struct {
	made   phrase
	finest int
}

// A state of a type is how many entries it has and how many changes may have concerned it. What was found about the
// type holds while its state is the same.
type state struct{ size, changes int }

func (t *valueType) state() state { return state{t.size(), t.changed()} }

// keptUnits say how numbers in a context are counted, in a state of it.
type keptUnits struct {
	state     state
	isCounted bool
	within    units
}

// A keptContext is what was made from two contexts, in a state of both.
type keptContext struct {
	states [2]state
	of     *valueType
}

// A keptReason says why values of one type aren't counted as those of another one, in a state of both; empty if they
// are.
type keptReason struct {
	states [2]state
	why    string
}

func newKept() *kept {
	return &kept{units: map[*valueType]keptUnits{}, counted: map[[2]*valueType]keptContext{}, alike: map[[2]*valueType]keptReason{},
		joint: map[[2]*valueType]keptContext{}, lists: map[*valueType]*valueType{}, numbers: [4]*valueType{numberType, numberType, numberType, numberType},
		texts: map[string]*valueType{}, contexts: map[keptEntry]*valueType{}, uncounted: &meeting{fractional: true},
		constants: map[keptNumber]keptConstant{}, quotients: map[keptNumber]keptQuotient{}, others: map[units]*valueType{}, powers: map[powerOf]keptPower{},
		literal: map[*box][]*box{}}
}

// contextOf returns the type of calculated contexts with one entry. Contexts with the same entry share it.
func (k *kept) contextOf(name string, of *valueType) *valueType {
	entry := keptEntry{name, of}
	known := k.contexts[entry]
	if known == nil {
		known = &valueType{kind: contextKind, fields: map[string]*valueType{}}
		known.setField(name, of)
		k.contexts[entry] = known
	}
	return known
}

// textOf returns the type of a literal text.
func (k *kept) textOf(n *feel.String) *valueType {
	known := k.texts[n.Value]
	if known == nil {
		known = &valueType{kind: textKind, common: valueList{&listedValues{all: []feel.Node{n}}}}
		if len(k.texts) < mostKept {
			k.texts[n.Value] = known
		}
	}
	return known
}

// recounted returns a number type in other units.
func (k *kept) recounted(of *valueType, to units) *valueType {
	if k.recount.of == of && k.recount.to == to {
		return k.recount.made
	}
	own := *of
	own.units = to
	if of.kind == numberKind {
		k.recount = keptRecount{of, to, &own}
	}
	return &own
}

// mostKept is how many texts, constants and divisors are kept: few come often in a file.
const mostKept = 1000

// constantAt returns a number in units; false if it is past the range.
func (k *kept) constantAt(value *big.Rat, u units) (phrase, bool) {
	key := keptNumber{value, u.scale, u.per}
	found, is := k.constants[key]
	if !is {
		at := inUnits(value, u).Num()
		if found.isNumber = isNumber(at); found.isNumber {
			found.made = wholeConstant(at)
			found.made.number = value
		}
		if len(k.constants) < mostKept {
			k.constants[key] = found
		}
	}
	found.made.of = k.numberOf(u)
	return found.made, found.isNumber
}

// parted returns partsBy, calculated once for each divisor.
func (k *kept) parted(divisor *big.Rat, scale int) (units, *big.Int) {
	key := keptNumber{value: divisor, scale: scale}
	found, is := k.quotients[key]
	if !is {
		found.units, found.factor = partsBy(divisor, scale)
		if len(k.quotients) < mostKept {
			k.quotients[key] = found
		}
	}
	return found.units, found.factor
}

// listOf returns the type of calculated lists of a type. Each type has one, as a text may have a list for each member.
func (k *kept) listOf(element *valueType) *valueType {
	known := element.listed
	if element.isShared {
		known = k.lists[element]
	}
	if known != nil && known.element == element {
		return known
	}
	made := listOf(element)
	if element.isShared {
		k.lists[element] = made
	} else {
		element.listed = made
	}
	return made
}

// numberOf returns the type of calculated numbers in units. Consecutive numbers share it.
func (k *kept) numberOf(u units) *valueType {
	for _, known := range k.numbers {
		if known.units == u {
			return known
		}
	}
	made := k.others[u]
	if made == nil {
		made = numberOf(u)
		if len(k.others) < mostKept {
			k.others[u] = made
		}
	}
	k.numbers[k.turn] = made
	k.turn = (k.turn + 1) % len(k.numbers)
	return made
}

// unitsOf returns the units of a type.
func (k *kept) unitsOf(of *valueType) keptUnits {
	of = of.innermost()
	now := of.state()
	if found, is := k.units[of]; is && found.state == now {
		return found
	}
	made := keptUnits{state: now, isCounted: !of.units.isPlain(), within: of.units}
	if of.kind == contextKind {
		made = k.unitsOfContext(of)
		made.state = now
		k.units[of] = made
	}
	return made
}

// unitsOfContext returns the units of all entries of a context. An entry may be in many contexts.
func (k *kept) unitsOfContext(of *valueType) (all keptUnits) {
	isFirst := true
	of.eachEntry(func(part *valueType) bool {
		found := k.unitsOf(part)
		all.isCounted = all.isCounted || found.isCounted
		if isFirst {
			all.within = found.within
		} else {
			all.within = joinedUnits(all.within, found.within)
		}
		isFirst = false
		return true
	})
	return all
}

// contextAs returns what make makes from a declared context and that of a value.
func (k *kept) contextAs(due, of *valueType, make func(due, of *valueType) *valueType) *valueType {
	now := [2]state{due.state(), of.state()}
	if found, is := k.counted[[2]*valueType{due, of}]; is && found.states == now {
		return found.of
	}
	made := make(due, of)
	k.counted[[2]*valueType{due, of}] = keptContext{now, made}
	return made
}

// joined returns a type that the values of both types have.
func (k *kept) joined(a, b *valueType) *valueType {
	if a == b || a.kind != contextKind || b.kind != contextKind {
		return joined(a, b)
	}
	pair, now := [2]*valueType{a, b}, [2]state{a.state(), b.state()}
	if known := k.wasJoined(a, b); known != nil {
		return known
	}
	made := joined(a, b)
	k.joint[pair] = keptContext{now, made}
	return made
}

// wasJoined returns what joined gave for two contexts in their present state; nil if it wasn't asked.
func (k *kept) wasJoined(a, b *valueType) *valueType {
	if found, is := k.joint[[2]*valueType{a, b}]; is && found.states == [2]state{a.state(), b.state()} {
		return found.of
	}
	return nil
}

// countedAlike says why values of a type aren't counted as those of another one; empty if they are.
func (k *kept) countedAlike(of, to *valueType) string {
	pair, now := [2]*valueType{of, to}, [2]state{of.state(), to.state()}
	if found, is := k.alike[pair]; is && found.states == now {
		return found.why
	}
	why := countedAlike(of, to)
	if of.kind == contextKind {
		k.alike[pair] = keptReason{now, why}
	}
	return why
}

// within returns the units of all numbers in values of a type.
func (t *translator) within(of *valueType) units {
	if of = of.innermost(); of.kind != contextKind {
		return of.units
	}
	return t.kept.unitsOf(of).within
}

// isCounted reports whether some numbers in values of a type are counted in units.
func (t *translator) isCounted(of *valueType) bool {
	return t.kept.isCounted(of)
}

func (k *kept) isCounted(of *valueType) bool {
	if of = of.innermost(); of.kind != contextKind {
		return !of.units.isPlain()
	}
	return k.unitsOf(of).isCounted
}
