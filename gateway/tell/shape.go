package tell

import "gateway/lines"

// A form is the required form of a part of a model.
type form struct {
	due string
	// required and optional are the keys of an object.
	required, optional []string
}

// The forms of a model's parts.
var (
	formModel     = form{"an object with inputs, decisions and services", []string{"inputs", "decisions", "services"}, nil}
	formNames     = form{due: "a list of names"}
	formName      = form{due: "a name, which is a text"}
	formDecisions = form{due: "a list of decisions"}
	formDecision  = form{"an object with name, needs and expr", []string{"name", "needs", "expr"}, nil}
	formServices  = form{due: "a list of services"}
	formService   = form{"an object with name, outputs, encapsulated, inputDecisions and inputData",
		[]string{"name", "outputs", "encapsulated", "inputDecisions", "inputData"}, nil}
	formLogic   = form{due: "a text, or an object with list, with table, with context, or with context and result"}
	formList    = form{"an object with list", []string{"list"}, nil}
	formMembers = form{due: "a list of texts and objects, each with list, table or context"}
	formContext = form{"an object with context, or with context and result", []string{"context"}, []string{"result"}}
	formEntries = form{due: "a list of entries, each an object with name and expr"}
	formEntry   = form{"an object with name and expr", []string{"name", "expr"}, nil}
	formBox     = form{"an object with table", []string{"table"}, nil}
	formTable   = form{"an object with hit, inputs, outputs and rules", []string{"hit", "inputs", "outputs", "rules"}, nil}
	formColumns = form{due: "a list of output columns, each an object with name"}
	formColumn  = form{"an object with name, and where wanted values and default", []string{"name"}, []string{"values", "default"}}
	formRules   = form{due: "a list of rules, each an object with when and then"}
	formRule    = form{"an object with when and then", []string{"when", "then"}, nil}
	formTexts   = form{due: "a list of texts"}
	formText    = form{due: "a text"}
)

const (
	// mostPlaces limits the places reported for a fault.
	mostPlaces = 100
	// mostBoxes limits how deep boxes are nested.
	mostBoxes = 128
)

// A misshape is a place that doesn't have the form of a model.
type misshape struct {
	place Place
	said  string
	// missing is the missing key, meant the key that an unknown key may mean.
	missing, meant string
}

// A shaper looks for misshapes.
type shaper struct {
	doc   *lines.Document
	place Place
	found []misshape
	count int
}

// misshapes returns the first misshapes of a file, and how many there are.
func (f *file) misshapes() ([]misshape, int) {
	s := shaper{doc: f.doc}
	s.model(f.root)
	return s.found, s.count
}

func (s *shaper) note(it misshape) {
	s.count++
	if s.count <= mostPlaces {
		it.place = s.place.with()
		s.found = append(s.found, it)
	}
}

var kindWords = map[byte]string{'n': "null", 't': "a boolean", '0': "a number", '"': "a text", '[': "a list", '{': "an object"}

func (s *shaper) noteDue(of form, part lines.Node) {
	if s.count >= mostPlaces {
		s.count++
		return
	}
	s.note(misshape{said: kindWords[s.doc.Kind(part)] + ", where " + of.due + " is due"})
}

func (s *shaper) noteTooDeep() {
	s.note(misshape{said: "over 127 lists and objects stand in each other"})
}

func (s *shaper) isTooDeep() bool { return len(s.place) >= lines.MaxNesting }

// within looks at the part that a step leads to.
func (s *shaper) within(step Step, look func()) {
	s.place = append(s.place, step)
	look()
	s.place = s.place[:len(s.place)-1]
}

// members returns the members of an object of this form; false if it is none.
func (s *shaper) members(of form, part lines.Node) (map[string]lines.Node, bool) {
	if s.doc.Kind(part) != '{' {
		s.noteDue(of, part)
		return nil, false
	}
	if s.isTooDeep() {
		s.noteTooDeep()
		return nil, false
	}
	all := s.doc.Members(part)
	members := make(map[string]lines.Node, len(all))
	for _, member := range all {
		members[member.Key] = member.Value
	}
	for _, required := range of.required {
		if _, ok := members[required]; !ok {
			s.note(misshape{said: "the key " + required + " is missing", missing: required})
		}
	}
	for _, member := range all {
		if !contains(of.required, member.Key) && !contains(of.optional, member.Key) {
			s.noteSurplus(of, members, member.Key)
		}
	}
	return members, true
}

func (s *shaper) noteSurplus(of form, members map[string]lines.Node, surplus string) {
	meant := ""
	for _, known := range append(append([]string(nil), of.required...), of.optional...) {
		if _, ok := members[known]; !ok && meant == "" && isNear(known, surplus) {
			meant = known
		}
	}
	s.note(misshape{said: orNear(quoted(surplus)+" is no key of it", meant), meant: meant})
}

// each looks at each item of the list of this form under a key.
func (s *shaper) each(members map[string]lines.Node, under string, of form, look func(part lines.Node)) {
	part, ok := members[under]
	if !ok {
		return
	}
	s.within(key(under), func() {
		switch {
		case s.doc.Kind(part) != '[':
			s.noteDue(of, part)
		case s.isTooDeep():
			s.noteTooDeep()
		default:
			for at, item := range s.doc.Items(part) {
				s.within(index(at), func() { look(item) })
			}
		}
	})
}

func (s *shaper) textsUnder(members map[string]lines.Node, under string, of, item form) {
	s.each(members, under, of, func(part lines.Node) { s.isText(part, item) })
}

func (s *shaper) namesUnder(members map[string]lines.Node, keys ...string) {
	for _, under := range keys {
		s.textsUnder(members, under, formNames, formName)
	}
}

func (s *shaper) textUnder(members map[string]lines.Node, under string, of form) {
	if part, ok := members[under]; ok {
		s.within(key(under), func() { s.isText(part, of) })
	}
}

func (s *shaper) isText(part lines.Node, of form) {
	if s.doc.Kind(part) != '"' {
		s.noteDue(of, part)
	}
}

func (s *shaper) model(part lines.Node) {
	members, ok := s.members(formModel, part)
	if !ok {
		return
	}
	s.namesUnder(members, "inputs")
	s.each(members, "decisions", formDecisions, s.decision)
	s.each(members, "services", formServices, s.service)
}

func (s *shaper) decision(part lines.Node) {
	members, ok := s.members(formDecision, part)
	if !ok {
		return
	}
	s.textUnder(members, "name", formName)
	s.namesUnder(members, "needs")
	s.logicUnder(members, "expr", mostBoxes)
}

func (s *shaper) service(part lines.Node) {
	if members, ok := s.members(formService, part); ok {
		s.textUnder(members, "name", formName)
		s.namesUnder(members, "outputs", "encapsulated", "inputDecisions", "inputData")
	}
}

func (s *shaper) logicUnder(members map[string]lines.Node, under string, boxes int) {
	if part, ok := members[under]; ok {
		s.within(key(under), func() { s.logic(part, boxes) })
	}
}

// logic looks at a boxed expression that may nest this many more boxes.
func (s *shaper) logic(part lines.Node, boxes int) {
	if s.doc.Kind(part) == '"' {
		return
	}
	of := s.boxedForm(part)
	switch {
	case of.required == nil:
		s.noteDue(of, part)
		return
	case boxes == 0:
		s.noteTooDeep()
		return
	}
	members, ok := s.members(of, part)
	if !ok {
		return
	}
	switch of.required[0] {
	case "table":
		if table, ok := members["table"]; ok {
			s.within(key("table"), func() { s.table(table) })
		}
	case "list":
		s.each(members, "list", formMembers, func(item lines.Node) { s.logic(item, boxes-1) })
	default:
		s.each(members, "context", formEntries, func(item lines.Node) { s.entry(item, boxes-1) })
		s.logicUnder(members, "result", boxes-1)
	}
}

// boxedForm returns the form due to a boxed expression with these keys.
func (s *shaper) boxedForm(part lines.Node) form {
	for _, of := range []form{formBox, formList, formContext} {
		if _, ok := s.doc.Member(part, of.required[0]); ok {
			return of
		}
	}
	return formLogic
}

func (s *shaper) entry(part lines.Node, boxes int) {
	if members, ok := s.members(formEntry, part); ok {
		s.textUnder(members, "name", formName)
		s.logicUnder(members, "expr", boxes)
	}
}

func (s *shaper) table(part lines.Node) {
	members, ok := s.members(formTable, part)
	if !ok {
		return
	}
	s.textUnder(members, "hit", formText)
	s.textsUnder(members, "inputs", formTexts, formText)
	s.each(members, "outputs", formColumns, s.column)
	s.each(members, "rules", formRules, s.rule)
}

func (s *shaper) column(part lines.Node) {
	if members, ok := s.members(formColumn, part); ok {
		s.textUnder(members, "name", formName)
		s.textsUnder(members, "values", formTexts, formText)
		s.textUnder(members, "default", formText)
	}
}

func (s *shaper) rule(part lines.Node) {
	if members, ok := s.members(formRule, part); ok {
		s.textsUnder(members, "when", formTexts, formText)
		s.textsUnder(members, "then", formTexts, formText)
	}
}

// isReportedAsMeant reports whether a later misshape covers a missing key, because the key is there with other spelling.
func isReportedAsMeant(of misshape, later []misshape) bool {
	if of.missing == "" {
		return false
	}
	for _, other := range later {
		if other.place.Pointer() != of.place.Pointer() {
			return false
		}
		if other.meant == of.missing {
			return true
		}
	}
	return false
}

// shapeWords returns the words of a misshape: those of its place, and its last key.
func (f *file) shapeWords(place Place) string {
	words := f.words(place)
	if len(place) == 0 || place.endsWithIndex() {
		return words
	}
	switch last := place[len(place)-1].Key; {
	case last == "table" || last == "default" || last == "result" || last == "hit":
		return words
	case words == "":
		return last
	default:
		return words + ", " + last
	}
}
