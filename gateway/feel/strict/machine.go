package strict

// An around is what a form is read within.
type around uint8

const (
	aroundWhole around = iota
	// aroundBound is the sum after a comparison sign, aroundLow and aroundHigh are the ends of an interval.
	aroundBound
	aroundLow
	aroundHigh
	aroundGroup
	// aroundFirst is the first of two arguments.
	aroundFirst
	aroundList
	aroundCondition
	aroundThen
	aroundElse
)

func (a around) isSum() bool { return a == aroundBound || a == aroundLow || a == aroundHigh }

// An awaited is what a machine expects next.
type awaited uint8

const (
	awaitsWhole awaited = iota
	awaitsValue
	awaitsFirstMember
	awaitsName
	awaitsOpen
	awaitsOperator
	// awaitsCall is after the name of a function of one argument, awaitsModulo after modulo: both may be plain names.
	awaitsCall
	awaitsModulo
	awaitsNothing
)

// A frame is an open form.
type frame struct {
	around     around
	isCompared bool
	// isBetween means that the "and" of a between is still to come.
	isBetween bool
}

// A machine reads the tokens of an expression, and knows at each what may follow. It ignores depth.
type machine struct {
	top   frame
	below []frame
	next  awaited
}

func newMachine(of around) *machine {
	m := &machine{top: frame{around: of}}
	if of.isSum() {
		m.next = awaitsValue
	}
	return m
}

func (m *machine) enter(of around, next awaited) bool {
	m.below = append(m.below, m.top)
	return m.turn(of, next)
}

func (m *machine) leave() bool {
	if last := len(m.below) - 1; last >= 0 {
		m.top, m.below = m.below[last], m.below[:last]
	}
	return m.then(awaitsOperator)
}

func (m *machine) turn(of around, next awaited) bool {
	m.top = frame{around: of}
	return m.then(next)
}

func (m *machine) then(next awaited) bool {
	m.next = next
	return true
}

// takes reads a token, or returns false if it can't be here.
func (m *machine) takes(sort Sort) bool {
	switch m.next {
	case awaitsWhole:
		return m.value(sort, true)
	case awaitsValue:
		return m.value(sort, false)
	case awaitsFirstMember:
		if sort == CloseBracket {
			return m.leave()
		}
		return m.value(sort, true)
	case awaitsName:
		return (sort == Name || sort == Function || sort == Modulo) && m.then(awaitsOperator)
	case awaitsOpen:
		return sort == OpenParen && m.enter(aroundGroup, awaitsWhole)
	case awaitsCall:
		if sort == OpenParen {
			return m.enter(aroundGroup, awaitsWhole)
		}
		return m.operator(sort)
	case awaitsModulo:
		if sort == OpenParen {
			return m.enter(aroundFirst, awaitsWhole)
		}
		return m.operator(sort)
	case awaitsOperator:
		return m.operator(sort)
	}
	return false
}

func (m *machine) value(sort Sort, mayBeConditional bool) bool {
	switch sort {
	case Number, Text, Constant, Name:
		return m.then(awaitsOperator)
	case Function:
		return m.then(awaitsCall)
	case Modulo:
		return m.then(awaitsModulo)
	case Not:
		return m.then(awaitsOpen)
	case Minus:
		return m.then(awaitsValue)
	case OpenParen:
		return m.enter(aroundGroup, awaitsWhole)
	case OpenBracket:
		return m.enter(aroundList, awaitsFirstMember)
	case If:
		return mayBeConditional && m.enter(aroundCondition, awaitsWhole)
	}
	return false
}

func (m *machine) operator(sort Sort) bool {
	switch sort {
	case Dot:
		return m.then(awaitsName)
	case Plus, Minus, Star:
		return m.then(awaitsValue)
	case Equal, Order:
		return m.compare(false)
	case Between:
		return m.compare(true)
	case And:
		if m.top.isBetween {
			m.top.isBetween = false
			return m.then(awaitsValue)
		}
		return m.joins()
	case Or:
		return m.joins()
	}
	return m.closes(sort)
}

func (m *machine) compare(isBetween bool) bool {
	if m.top.isCompared || m.top.around.isSum() {
		return false
	}
	m.top.isCompared, m.top.isBetween = true, isBetween
	return m.then(awaitsValue)
}

// joins reads an "and" or "or" between conditions.
func (m *machine) joins() bool {
	if m.top.isBetween || m.top.around.isSum() {
		return false
	}
	m.top.isCompared = false
	return m.then(awaitsValue)
}

// closes reads a token that ends a part of an open form.
func (m *machine) closes(sort Sort) bool {
	if m.top.isBetween {
		return false
	}
	for m.top.around == aroundElse && len(m.below) > 0 {
		m.leave()
	}
	switch of := m.top.around; {
	case of == aroundGroup && sort == CloseParen, of == aroundList && sort == CloseBracket:
		return m.leave()
	case of == aroundFirst && sort == Comma:
		return m.turn(aroundGroup, awaitsWhole)
	case of == aroundList && sort == Comma:
		return m.turn(aroundList, awaitsWhole)
	case of == aroundCondition && sort == Then:
		return m.turn(aroundThen, awaitsWhole)
	case of == aroundThen && sort == Else:
		return m.turn(aroundElse, awaitsWhole)
	case of == aroundLow && sort == DotDot:
		return m.turn(aroundHigh, awaitsValue)
	case of == aroundHigh && (sort == CloseParen || sort == CloseBracket || sort == OpenBracket):
		return m.then(awaitsNothing)
	}
	return false
}

// around returns the innermost open form, except else branches, which have no end of their own.
func (m *machine) around() around {
	if m.top.around != aroundElse {
		return m.top.around
	}
	for at := len(m.below) - 1; at >= 0; at-- {
		if m.below[at].around != aroundElse {
			return m.below[at].around
		}
	}
	return aroundWhole
}

// isWhole reports whether the expression may end here.
func (m *machine) isWhole() bool {
	switch m.next {
	case awaitsNothing:
		return true
	case awaitsOperator, awaitsCall, awaitsModulo:
		of := m.around()
		return !m.top.isBetween && (of == aroundWhole || of == aroundBound)
	}
	return false
}

func (m *machine) wantsValue() bool { return m.next <= awaitsFirstMember }

// due returns what may follow, without operators.
func (m *machine) due() []Due {
	switch m.next {
	case awaitsWhole, awaitsValue:
		return []Due{DueValue}
	case awaitsFirstMember:
		return []Due{DueValue, DueCloseBracket}
	case awaitsName:
		return []Due{DueName}
	case awaitsOpen:
		return []Due{DueOpenParen}
	case awaitsNothing:
		return nil
	}
	if m.top.isBetween {
		return []Due{DueAnd}
	}
	return dueAfterValue[m.around()]
}

var dueAfterValue = map[around][]Due{
	aroundGroup: {DueCloseParen}, aroundFirst: {DueComma}, aroundList: {DueComma, DueCloseBracket},
	aroundCondition: {DueThen}, aroundThen: {DueElse}, aroundLow: {DueDotDot}, aroundHigh: {DueIntervalEnd},
}
