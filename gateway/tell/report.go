package tell

import (
	"bytes"
	"fmt"
	"strings"

	"gateway/feel/strict"
)

// A report is a report about a model as far as it is written: text for people, or lines of JSON.
type report struct {
	format Format
	// name is the file's path; empty for standard input.
	name string
	// isRefused means that --strict refuses the model if there are findings about its tables. isStrictNull means that
	// --strict-null refuses a service that can give null or break a limit.
	isRefused, isStrictNull bool
	file                    *file
	facts                   *facts
	text                    []byte
	lines                   *lineIndex
	// requests holds the lines after the model.
	requests []byte
	out      bytes.Buffer
	// notices holds the findings, if the format consists of them.
	notices []Notice
}

// put adds a line for people, or one of JSON.
func (r *report) put(people, json func() string) {
	switch {
	case r.format == JSON:
		r.out.WriteString(json())
	case !r.format.HasNotices():
		r.out.WriteString(people())
	}
}

// say adds a text for people.
func (r *report) say(format string, values ...any) {
	if r.format != JSON && !r.format.HasNotices() {
		fmt.Fprintf(&r.out, format, values...)
	}
}

// faultSentences are the sentences for the first fault.
var faultSentences = map[string]string{
	"syntax": "no JSON text", "shape": "not the form of a model", "name": "a name is not lawful", "twice": "a name stands twice",
	"expression": "a text has no reading", "table": "a decision table is refused", "unknown": "a needed name is unknown",
	"cycle": "a decision needs itself", "service": "a service doesn't fit the decisions", "large": "too many decisions",
	"domain": "a domain can't be taken",
}

// faulty reports a model with a fault.
func (r *report) faulty() {
	fault := r.facts.Fault
	if r.format == JSON {
		r.out.WriteString(object(nil).text("fault", fault).line())
	}
	if fault == "long" {
		r.long()
		return
	}
	r.say("%s: %s\n", fault, faultSentences[fault])
	switch {
	case fault == "syntax":
		r.syntax()
	case fault == "shape":
		r.shape()
	case fault == domainFault:
		r.domains()
	default:
		for _, group := range r.groups() {
			r.group(group)
		}
	}
}

// mostLine is the largest length of a line in bytes.
const mostLine = 1_048_576

func (r *report) long() {
	length := 0
	for _, place := range r.facts.places {
		length = place.Length
	}
	r.say("long: lawful, and too long for a line\n  its line {\"model\":..} has %d bytes, and a line may have %d\n", length, mostLine)
	said := fmt.Sprintf("the model's line has %d bytes, and a line may have %d", length, mostLine)
	r.noticeAt(ofFault+"long", Error, r.file.position(nil), "", said)
	if r.format == JSON {
		r.out.WriteString(object(nil).text("fault", "long").number("length", length).line())
	}
}

// syntax reports where a text stops being JSON.
func (r *report) syntax() {
	stop := stopOf(r.text)
	if stop == nil {
		return
	}
	hint, spot := stop.foreign.hint(), Spot{Line: stop.Line, Column: stop.Column}
	r.noticeAt(ofFault+"syntax", Error, spot, "", withHint(stop.Due.Sentence(), hint))
	r.put(func() string {
		text := fmt.Sprintf("  line %d, column %d: %s\n", stop.Line, stop.Column, stop.Due.Sentence())
		if hint != "" {
			text += "    " + hint + "\n"
		}
		return text
	}, func() string {
		return object(nil).text("fault", "syntax").position(spot).text("said", stop.Due.Sentence()).some("hint", hint).line()
	})
}

// shape reports where a value doesn't have the form of a model.
func (r *report) shape() {
	if r.file == nil {
		return
	}
	found, count := r.file.misshapes()
	var once []misshape
	for at, it := range found {
		if !isReportedAsMeant(it, found[at+1:]) {
			once = append(once, it)
		}
	}
	more := count - len(found)
	if count == 0 {
		return
	}
	r.head("shape", len(once)+more)
	for _, it := range once {
		words := r.file.shapeWords(it.place)
		r.noticeAt(ofFault+"shape", Error, r.file.position(it.place), it.place.Pointer(), afterColon(words, it.said))
		r.put(func() string {
			return "  " + r.file.at(it.place) + afterColon(words, it.said) + "\n"
		}, func() string {
			return object(nil).text("fault", "shape").text("pointer", it.place.Pointer()).text("place", words).text("said", it.said).
				position(r.file.position(it.place)).line()
		})
	}
	r.more("shape", more)
}

// afterColon returns a sentence after the words of its place, if there are any.
func afterColon(words, said string) string {
	if words == "" {
		return said
	}
	return words + ": " + said
}

// head reports how many places a fault has.
func (r *report) head(fault string, count int) {
	places := "places"
	if count == 1 {
		places = "place"
	}
	r.say("%s: %d %s\n", fault, count, places)
}

// more reports how many places of a fault are left out.
func (r *report) more(fault string, more int) {
	if more == 0 {
		return
	}
	r.put(func() string { return fmt.Sprintf("  and %d more\n", more) },
		func() string { return object(nil).text("fault", fault).number("more", more).line() })
	r.noticeAt(kindName(ofFault, fault), Error, r.file.whole(), "", fmt.Sprintf("and %d more places", more))
}

// A group is the places of one fault. For tables it has the refused ones, then their rules.
type group struct {
	fault   string
	isRules bool
	places  []Place
	more    int
}

// groups returns the places that the engine reported, one fault after another.
func (r *report) groups() []group {
	var groups []group
	for _, it := range r.facts.places {
		place := placeOf(it.Pointer)
		isRules := it.Fault == "table" && place.endsWithIndex()
		last := len(groups) - 1
		switch {
		case it.More > 0 && last >= 0:
			groups[last].more = it.More
			continue
		case last < 0 || groups[last].fault != it.Fault || groups[last].isRules != isRules:
			groups = append(groups, group{fault: it.Fault, isRules: isRules})
			last++
		}
		groups[last].places = append(groups[last].places, place)
	}
	return groups
}

func (r *report) group(of group) {
	reported := of.places
	if r.format != JSON {
		reported = nil
		for _, place := range of.places {
			if !r.file.isReportedByParts(r.file.mistake(of.fault, place), place) {
				reported = append(reported, place)
			}
		}
	}
	if len(reported)+of.more == 0 {
		return
	}
	r.head(of.fault, len(reported)+of.more)
	for before, place := range reported {
		r.place(of.fault, place, before)
	}
	r.more(of.fault, of.more)
}

// place reports a place of a fault. before is how many were reported before it.
func (r *report) place(fault string, place Place, before int) {
	said := r.file.mistake(fault, place)
	text, isText := r.file.text(place)
	hint := r.file.hint(fault, said, place, before)
	var stop *strict.Stop
	if fault == "expression" {
		at := strict.StopOf(kindOf(place), text)
		stop, hint = &at, hintOf(kindOf(place), text, at)
	}
	words := said
	if isText && !place.namesText() {
		words += ": " + quoted(text)
	}
	r.notice(kindName(ofFault, fault), Error, place, withHint(withHint(words, strings.TrimSpace(stopWords(text, stop))), hint))
	r.put(func() string {
		return "  " + r.file.at(place) + afterColon(r.file.words(place), words) + "\n" + stopWords(text, stop) + indented(hint)
	}, func() string {
		o := object(nil).text("fault", fault).text("pointer", place.Pointer()).text("place", r.file.words(place)).text("said", said)
		if isText {
			o = o.text("text", text)
		}
		if stop != nil {
			o = o.number("stop", stop.At).text("due", stop.DueText())
		}
		return o.some("hint", hint).position(r.file.position(place)).line()
	})
}

// withHint returns a sentence with its hint, if there is one.
func withHint(said, hint string) string {
	if hint == "" {
		return said
	}
	return said + "; " + hint
}

// indented returns a hint as a line.
func indented(hint string) string {
	if hint == "" {
		return ""
	}
	return "    " + hint + "\n"
}

// stopWords says where the reading of a text stops, and what could be there.
func stopWords(text string, stop *strict.Stop) string {
	switch {
	case stop == nil:
		return ""
	case stop.IsTooDeep():
		return "    it is over 64 levels deep\n"
	}
	var line strings.Builder
	if found := stop.Found(text); found == "" {
		line.WriteString("    stops at the end: ")
	} else {
		fmt.Fprintf(&line, "    stops at %s (character %d): ", quoted(found), stop.Character(text))
	}
	line.WriteString(stop.DueText() + " is due\n")
	return line.String()
}
