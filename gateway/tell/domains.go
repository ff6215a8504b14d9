package tell

import (
	"strings"

	"gateway/feel"
	"gateway/feel/strict"
	"gateway/lines"
)

// domainFault is the fault of a bad declaration next to a model, and domainsKey its key.
const (
	domainFault = "domain"
	domainsKey  = "domains"
)

// Messages about a domain.
const (
	saidNoObject   = "no object: a domain is a text under the name of an input, or a path of one"
	saidNoInput    = "no input of the model"
	saidOfDecision = "a decision, and only inputs have domains"
	saidNoPath     = "no path of an input: names with dots between them"
	saidPath       = "a path, and this engine takes domains of whole inputs"
	saidNoText     = "no text with unary tests"
	saidConstants  = "constants alone are taken"
)

// A domain is a declaration next to the model that is refused: that of one name, or the whole object.
type domain struct {
	pointer, name string
	isWhole       bool
	part          lines.Node
}

// domains reports the domains that are refused.
func (r *report) domains() {
	var found []domain
	more := 0
	for _, it := range r.facts.places {
		if it.More > 0 {
			more = it.More
			continue
		}
		found = append(found, r.domainAt(it.Pointer))
	}
	r.head(domainFault, len(found)+more)
	for _, it := range found {
		r.domain(it)
	}
	r.more(domainFault, more)
}

// domainAt returns what is at a pointer next to the model.
func (r *report) domainAt(pointer string) domain {
	it := domain{pointer: pointer, isWhole: pointer == "/"+domainsKey}
	it.part, _ = r.file.doc.Member(r.file.doc.Whole, domainsKey)
	if !it.isWhole {
		it.name = lines.Untoken(strings.TrimPrefix(pointer, "/"+domainsKey+"/"))
		it.part, _ = r.file.doc.Member(it.part, it.name)
	}
	return it
}

// words returns the place of a domain for people.
func (d domain) words() string {
	if d.isWhole {
		return domainsKey
	}
	return domainsKey + ", " + quoted(d.name)
}

// domain reports a domain that is refused.
func (r *report) domain(it domain) {
	text, isText := r.file.doc.Text(it.part)
	said, hint := r.file.domainMistake(it)
	var stop *strict.Stop
	if said == saidOfText[strict.UnaryTests] {
		at := strict.StopOf(strict.UnaryTests, text)
		stop, hint = &at, hintOf(strict.UnaryTests, text, at)
	}
	words, spot := said, r.file.spot(it.part)
	if stop != nil || said == saidConstants {
		words += ": " + quoted(text)
	}
	whole := withHint(withHint(words, strings.TrimSpace(stopWords(text, stop))), hint)
	r.noticeAt(ofFault+domainFault, Error, spot, it.pointer, afterColon(it.words(), whole))
	r.put(func() string {
		return "  " + r.file.spotWords(spot) + afterColon(it.words(), words) + "\n" + stopWords(text, stop) + indented(hint)
	}, func() string {
		o := object(nil).text("fault", domainFault).text("pointer", it.pointer).text("place", it.words()).text("said", said)
		if isText {
			o = o.text("text", text)
		}
		if stop != nil {
			o = o.number("stop", stop.At).text("due", stop.DueText())
		}
		return o.some("hint", hint).position(spot).line()
	})
}

// domainMistake says what is wrong with a domain, and what helps.
func (f *file) domainMistake(it domain) (said, hint string) {
	text, isText := f.doc.Text(it.part)
	first, rest, isPath := strings.Cut(it.name, ".")
	switch {
	case it.isWhole:
		return saidNoObject, ""
	case !contains(f.model.Inputs, first) && f.isDecision(first):
		return saidOfDecision, ""
	case !contains(f.model.Inputs, first):
		return saidNoInput, orNear("", nearIn(f.model.Inputs, first))
	case isPath && !areNames(rest):
		return saidNoPath, ""
	case !isText:
		return saidNoText, ""
	}
	if name := nameInTests(text); name != "" {
		return saidConstants, quoted(name) + " is a name: a text stands in quotes"
	}
	if _, isRead := strict.ReadTests(text); isPath && isRead {
		return saidPath, "a domain of " + first + " is taken"
	}
	return saidOfText[strict.UnaryTests], ""
}

// areNames reports whether the parts of a path are names.
func areNames(path string) bool {
	for _, part := range strings.Split(path, ".") {
		if !strict.IsName(part) {
			return false
		}
	}
	return true
}

func (f *file) isDecision(name string) bool {
	for at := range f.model.Decisions {
		if f.model.Decisions[at].Name == name {
			return true
		}
	}
	return false
}

// nameInTests returns the first name in unary tests, or "" if there is none or the text has no reading.
func nameInTests(text string) (first string) {
	tests, ok := strict.ReadTests(text)
	if !ok {
		return ""
	}
	eachOf(tests.List, func(test feel.Node) {
		eachName(test, func(name valueName) {
			if first == "" {
				first = name.name
			}
		})
	})
	return first
}
