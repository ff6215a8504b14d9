package profile

type kindOfType uint8

const (
	anyKind kindOfType = iota
	nullKind
	numberKind
	textKind
	booleanKind
	listKind
	contextKind
	dateKind
	// dayDurationKind is for days and time durations, monthDurationKind for years and months durations.
	dayDurationKind
	monthDurationKind
	// timeKind and dateTimeKind have no offset, the others do.
	timeKind
	dateTimeKind
	offsetTimeKind
	offsetDateTimeKind
	// refusedKind is for what was refused: it fits everywhere, so that nothing is reported twice.
	refusedKind
)

// A valueType is what is known about the values of an expression. Null conforms to every type.
type valueType struct {
	kind kindOfType
	// narrow says whether the type or a part of it has allowed values.
	narrow narrowness
	// open is true for the type of an undeclared input, or an entry of one: its use may determine its type.
	open bool
	// unasked is true for the type of an undeclared parameter of business knowledge that nothing invokes.
	unasked bool
	// reported is true for what was refused: what it meets isn't reported again.
	reported bool
	// notedTwice is true if columns have different input values for it: the caller then gets none.
	notedTwice bool
	// element is the type of a list's members; never nil for a list.
	element *valueType
	// deepest is the innermost type of lists of lists, which may be asked for often; nil if not kept.
	deepest *valueType
	// listed is the type of calculated lists of it, or of the type that it is a copy of; nil if none was made.
	listed *valueType
	// isShared is true if all runs share the type, which they must not change.
	isShared bool
	// fields are the types of a context's entries by their canonical names, order their order.
	fields map[string]*valueType
	order  []string
	// parts counts the type itself and all parts of its parts.
	parts int
	// allowed are the values that the type is narrowed to, if any. Implying keeps the types all of whose values are
	// allowed.
	allowed  valueList
	implying map[*valueType]implied

	// common includes all values of a type joined from two.
	common valueList

	// noted are the input values of a column that is an input of the model, for the caller.
	noted valueList

	// units are those of numbers of the type; for Any, of all numbers within it. A list or a context has those of its
	// parts.
	units units
	// more are entries that values have besides those of a declared type: they can't be named, but they are counted
	// too.
	more map[string]*valueType

	// sort says of an input whether its times have an offset; nil for others.
	sort *timeSort
	// clock is the zone of the clock that fills an input; empty for others.
	clock string

	// parent and field give the entry of an undeclared input that it is the type of.
	parent  *valueType
	changes *changes
	// known are the facts of a context that were found.
	known *knownFacts
	// fitting keeps how other contexts fit this one, which may have many entries.
	fitting map[*valueType]fitted
	field   string
}

var (
	anyType     = &valueType{kind: anyKind, isShared: true}
	nullType    = &valueType{kind: nullKind, isShared: true}
	numberType  = &valueType{kind: numberKind, isShared: true}
	textType    = &valueType{kind: textKind, isShared: true}
	booleanType = &valueType{kind: booleanKind, isShared: true}
	refusedType = &valueType{kind: refusedKind, isShared: true}
)

func listOf(element *valueType) *valueType {
	made := &valueType{kind: listKind, element: element}
	if element.kind == listKind {
		made.deepest = element.innermost()
	}
	return made
}

// innermost returns the type of the members that aren't lists, in lists of lists too; for other types, the type itself.
func (t *valueType) innermost() *valueType {
	for t.kind == listKind {
		if t.deepest != nil {
			t = t.deepest
		} else {
			t = t.element
		}
	}
	return t
}

// String returns the type in the words of DMN.
func (t *valueType) String() string {
	switch t.kind {
	case nullKind:
		return "null"
	case numberKind:
		return "number"
	case textKind:
		return "string"
	case booleanKind:
		return "boolean"
	case listKind:
		return "list of " + t.element.String()
	case contextKind:
		return "context"
	}
	if t.isTemporal() {
		return temporalNames[t.kind]
	}
	return "Any"
}

func (t *valueType) isScalar() bool {
	return t.kind == numberKind || t.kind == textKind || t.kind == booleanKind || t.isTemporal()
}

// mayBe reports whether a value of the type may be of a kind. Null is disregarded.
func (t *valueType) mayBe(kind kindOfType) bool { return t.kind == anyKind || t.kind == kind }

// A fit is how a type fits a declared one.
type fit uint8

const (
	fits fit = iota
	// mayFit: some values conform and others don't.
	mayFit
	// never: no value but null conforms.
	never
	// single: a list, where a member is expected.
	single
)

// fitOf returns how values of a type fit a declared type. An open type becomes the declared one.
func (t *valueType) fitOf(due *valueType) fit {
	if t.open && t.kind == anyKind && due.kind != anyKind && due.kind != refusedKind {
		t.becomes(due)
	}
	switch {
	case t == due, due.kind == anyKind, t.kind == nullKind, t.isTemporal() && t.kind == withOffset[due.kind], due.kind == refusedKind, t.kind == refusedKind:
		return fits
	case t.kind == anyKind:
		return mayFit
	case t.kind == listKind && due.kind != listKind:
		return single
	case t.kind != due.kind:
		return never
	case t.kind == listKind:
		return t.element.fitOf(due.element)
	case t.kind == contextKind:
		return t.contextFit(due)
	}
	return fits
}

// A fitted is how a context fitted a declared one, and the number of changes then, as a change may concern an open one.
type fitted struct {
	fit     fit
	changes int
}

// contextFit returns how a context fits a declared one, and keeps the result while nothing changes.
func (t *valueType) contextFit(due *valueType) fit {
	if known, is := due.fitting[t]; is && (!t.open || known.changes == t.changes.now()) {
		return known.fit
	}
	before := t.changes.now()
	found := t.fieldsFit(due)
	if t.open && t.changes.now() != before {
		return found
	}
	if due.fitting == nil {
		due.fitting = map[*valueType]fitted{}
	}
	due.fitting[t] = fitted{found, before}
	return found
}

func (t *valueType) fieldsFit(due *valueType) fit {
	worst := fits
	for _, name := range due.order {
		field := due.fields[name]
		own, found := t.fields[name]
		if !found {
			if t.open {
				t.setField(name, field)
				t.changes.add()
				continue
			}
			return never
		}
		if f := own.fitOf(field); f > worst {
			worst = f
		}
	}
	return worst
}

// becomes makes an open type a declared one.
func (t *valueType) becomes(due *valueType) {
	t.changes.add()
	if t.parent != nil {
		if t.parent.kind == anyKind {
			t.parent.becomes(&valueType{kind: contextKind, fields: map[string]*valueType{}})
		}
		if t.parent.kind != contextKind {
			return
		}
		if t.parent.fields[t.field] == nil {
			t.parent.setField(t.field, t)
		}
	}
	t.kind, t.element, t.deepest, t.allowed, t.narrow, t.implying = due.kind, due.element, nil, due.allowed, unknown, nil
	if due.isTemporal() {
		t.units = units{}
	}
	if due.kind == contextKind {
		t.fields = make(map[string]*valueType, len(due.fields))
		t.order = nil
		for _, name := range due.order {
			t.setField(name, due.fields[name])
		}
	}
}

func (t *valueType) setField(name string, field *valueType) {
	if _, found := t.fields[name]; !found {
		t.order = append(t.order, name)
	}
	t.fields[name], t.narrow, t.implying, t.known = field, unknown, nil, nil
}

// joined returns a type that the values of both types have.
func joined(a, b *valueType) *valueType {
	switch {
	case a == b, b.kind == nullKind, a.kind == refusedKind:
		return a
	case a.kind == nullKind, b.kind == refusedKind:
		return b
	case a.kind != b.kind || a.kind == anyKind:
		return anyOfUnits(a, b)
	case a.kind == listKind:
		return joinedLists(a, b)
	case a.kind == contextKind:
		return joinedContexts(a, b)
	}
	made := valueType{kind: a.kind, units: joinedUnits(a.units, b.units), common: commonValues(a.values(), b.values()),
		sort: either(a.sort, b.sort)}
	if made.sort == nil && len(made.common.nodes()) == 0 && a.isCalculated(made.units) {
		return a
	}
	return &made
}

// joinedLists returns one of the types if both are of calculated lists with the same members.
func joinedLists(a, b *valueType) *valueType {
	element := joined(a.element, b.element)
	if element == a.element && a.isCalculatedList() {
		return a
	}
	return listOf(element)
}

// isCalculatedList reports whether a type is that of calculated lists, of which only the member type is known.
func (t *valueType) isCalculatedList() bool {
	isNarrow := len(t.allowed.nodes()) > 0 || t.noted.at() != nil || t.notedTwice
	return t.kind == listKind && t.parts == 0 && t.units == (units{}) && !isNarrow && !t.reported && !t.open && t.sort == nil
}

// isCalculated reports whether a type is that of calculated numbers, of which only the units are known.
func (t *valueType) isCalculated(u units) bool {
	isNarrow := len(t.values().nodes()) > 0 || t.noted.at() != nil || t.notedTwice
	return t.kind == numberKind && t.units == u && u.cell == nil && !isNarrow && !t.reported && !t.open
}

// mostJoined is how many entries two contexts may have to be joined entry by entry. Nothing is known about larger ones.
const mostJoined = 100

func joinedContexts(a, b *valueType) *valueType {
	if len(a.fields) != len(b.fields) || len(a.fields) > mostJoined {
		return anyOfUnits(a, b)
	}
	both := &valueType{kind: contextKind, fields: map[string]*valueType{}}
	for _, name := range a.order {
		other, found := b.fields[name]
		if !found {
			return anyOfUnits(a, b)
		}
		both.setField(name, joined(a.fields[name], other))
	}
	return both
}

// member returns the type of the entry of a name; for a list, the list of its members' entries. It is nil if there
// can't be such an entry.
func (t *valueType) member(name string) *valueType {
	switch t.kind {
	case anyKind:
		if t.open {
			return &valueType{kind: anyKind, open: true, parent: t, field: name, units: t.units, unasked: t.unasked, changes: t.changes}
		}
		if t.units != (units{}) {
			return &valueType{kind: anyKind, units: t.units}
		}
		return anyType
	case nullKind, refusedKind:
		return t
	case listKind:
		if inside := t.element.member(name); inside != nil {
			return listOf(inside)
		}
	case contextKind:
		if field, found := t.fields[name]; found {
			return field
		}
		if t.open {
			return &valueType{kind: anyKind, open: true, parent: t, field: name, changes: t.changes}
		}
	}
	return nil
}
