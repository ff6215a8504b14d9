package tell

import (
	"bytes"
	"encoding/json"
	"fmt"
	"sort"
	"strconv"
	"strings"

	"gateway/lines"
	"gateway/model"
)

// mostNotes limits the notes about request lines.
const mostNotes = 1_000

// A note is a note about a request line.
type note struct {
	// word is the word of the oddity or refusal.
	word string
	// name is what the note is about, near a name that may be meant. A refusal has none.
	name, near string
	said       string
}

// A reading is the state while request lines are read.
type reading struct {
	report *report
	// doc is the current line.
	doc lines.Document
	// refused has the refused lines by number: the first 1,000, up to last.
	refused map[int]factNote
	last    int
	// services maps services of the current model to their parameters. names are the services' names.
	services map[string]*parameterNames
	names    *nameIndex
	// used has the entries that the model's texts take from inputs.
	used map[string]*entryNames
	// numbers has the values that are only tested as numbers.
	numbers map[valueName]bool
	// closed has the closed clients.
	closed set
	// number is the current line's number. isCounted means that its first note of a refusal is in the engine's count.
	number    int
	isCounted bool
	// written is how many notes were written, more how many were not.
	written, more int
}

// A parameterNames holds the parameters of a service.
type parameterNames struct {
	index *nameIndex
	has   set
}

// notes reports the request lines that the engine refuses, and oddities of the others.
func (r *report) notes() {
	if len(r.requests) == 0 {
		return
	}
	reading := &reading{report: r, refused: map[int]factNote{}, closed: set{}, more: r.facts.moreNotes}
	for _, it := range r.facts.notes {
		reading.refused[it.Line], reading.last = it, it.Line
	}
	reading.take(r.file.model)
	rest := r.requests
	for number := 2; len(rest) > 0; number++ {
		var line []byte
		line, rest, _ = bytes.Cut(rest, []byte("\n"))
		reading.number, reading.isCounted = number, number > reading.last && r.facts.moreNotes > 0
		reading.of(line)
	}
	if more := reading.more; more > 0 {
		r.put(func() string { return fmt.Sprintf("and %d notes more\n", more) },
			func() string { return object(nil).number("more", more).line() })
		r.noticeAt(ofRequests+"more", Note, Spot{}, "", fmt.Sprintf("and %d notes more", more))
	}
}

// isFull reports whether notes are only counted.
func (r *reading) isFull() bool { return r.written >= mostNotes }

// note writes a note with this word, or counts it if there are enough.
func (r *reading) note(word string, say func() note) {
	switch {
	case r.isCounted && (word == "service" || word == "value"):
		r.isCounted = false
	case r.isFull():
		r.more++
	default:
		r.put(r.number, say())
	}
}

func (r *reading) put(number int, it note) {
	r.written++
	kind := kindName(ofRequests, it.word)
	r.report.noticeAt(kind, catalogue[kind].level, Spot{Line: number, Column: 1}, "", it.said)
	r.report.put(func() string { return fmt.Sprintf("line %d: %s\n", number, it.said) }, func() string {
		return object(nil).number("line", number).text("note", it.word).some("name", it.name).some("near", it.near).text("said", it.said).line()
	})
}

// take takes the model for the following lines.
func (r *reading) take(m *model.Model) {
	r.services, r.used, r.numbers = map[string]*parameterNames{}, entryNamesOf(usedEntries(m)), numbersAsked(m)
	var names []string
	for at := range m.Services {
		of := parameters(&m.Services[at])
		r.services[m.Services[at].Name] = &parameterNames{&nameIndex{names: of}, setOf(of)}
		names = append(names, m.Services[at].Name)
	}
	r.names = &nameIndex{names: names}
}

// of writes the notes about a line.
func (r *reading) of(line []byte) {
	if refused, is := r.refused[r.number]; is && refused.Note != "service" && refused.Note != "value" {
		r.note(refused.Note, func() note { return note{word: refused.Note, said: refusal(refused, line)} })
		return
	}
	doc := &r.doc
	if !doc.Read(line) || r.isRefused(doc) && r.number > r.last {
		return
	}
	if under, ok := doc.Member(doc.Whole, "model"); ok {
		if m := modelOf(doc, under); m != nil {
			r.take(m)
		}
		return
	}
	service, inputs, ok := asked(doc)
	if !ok {
		return
	}
	if names, known := r.services[service]; known {
		r.notesOf(doc, service, names, doc.Members(inputs))
		return
	}
	r.note("service", func() note {
		near := r.names.near(service, nil)
		return note{"service", service, near, orMeant(`"`+service+`" is no service`, near)}
	})
}

// isRefused reports whether the engine refuses a request for its form or its client. It counts such a line even if the engine
// no longer says which it is.
func (r *reading) isRefused(doc *lines.Document) bool {
	name, hasName := doc.Member(doc.Whole, "client")
	client, _ := doc.Text(name)
	if closing, ok := doc.Member(doc.Whole, "close"); ok && string(doc.Raw(closing)) == "true" {
		r.closed[client] = true
	}
	_, _, isAsked := asked(doc)
	isRequest := hasName && client != "" && len(client) <= mostName && len(doc.Members(doc.Whole)) == 3
	return isAsked && (!isRequest || r.closed[client])
}

// asked returns the service and the inputs of a request; false for other lines.
func asked(doc *lines.Document) (service string, inputs lines.Node, ok bool) {
	under, isAsked := doc.Member(doc.Whole, "service")
	inputs, hasInputs := doc.Member(doc.Whole, "inputs")
	if !isAsked || !hasInputs || doc.Kind(inputs) != '{' {
		return "", inputs, false
	}
	service, ok = doc.Text(under)
	return service, inputs, ok
}

// orMeant returns a sentence with a name that may be meant.
func orMeant(said, near string) string {
	if near == "" {
		return said
	}
	return said + ": " + near + "?"
}

// notesOf notes oddities in a request's inputs: first unknown names, sorted by bytes, then parameters that are missing or have
// no value, in order.
func (r *reading) notesOf(doc *lines.Document, service string, of *parameterNames, inputs []lines.Keyed) {
	brought := make(map[string]lines.Node, len(inputs))
	for _, input := range inputs {
		if of.has[input.Key] {
			brought[input.Key] = input.Value
			continue
		}
		name := input.Key
		r.note("no parameter", func() note {
			near := of.index.near(name, nil)
			return note{"no parameter", name, near, orMeant(fmt.Sprintf(`"%s" is no parameter of %s`, name, service), near)}
		})
	}
	if r.isFull() {
		// Missing inputs are only counted: a model may have far more parameters than the line has inputs.
		r.more += len(of.has) - len(brought)
		for name, value := range brought {
			r.notesOfValue(doc, name, value)
		}
		return
	}
	for _, parameter := range of.index.names {
		name := parameter
		if value, ok := brought[name]; ok {
			r.notesOfValue(doc, name, value)
			continue
		}
		r.note("missing", func() note {
			return note{"missing", name, "", fmt.Sprintf("the parameter %s of %s is missing, so it is null", name, service)}
		})
	}
}

// notesOfValue notes oddities in the value of a parameter.
func (r *reading) notesOfValue(doc *lines.Document, name string, value lines.Node) {
	if why := noValue(doc.Go(value)); why != "" {
		r.note("value", func() note {
			return note{"value", name, "", fmt.Sprintf("what stands under %s is no value: %s", name, why)}
		})
	}
	r.misspelt(doc, name, value)
	r.texts(doc, name, value)
}

// noValue says why a JSON value is not one of the engine's; "" if it is.
func noValue(value any) string {
	m := measure{}
	depth := m.of(value)
	switch {
	case m.hasFraction && m.isBad:
		return "a number in it has a point or an exponent, and numbers are whole"
	case m.isBad:
		return "a number in it is not from -9223372036854775807 to 9223372036854775807"
	case m.nodes > lines.MaxNodes, depth > lines.MaxDepth:
		return "it has over 10,000 parts, or is over 100 deep"
	}
	return ""
}

// A measure holds facts about the parts of a value.
type measure struct {
	nodes int
	// isBad means that the engine doesn't take a number, hasFraction that a number has a point or an exponent.
	isBad, hasFraction bool
}

// of measures a value, and returns its depth.
func (m *measure) of(value any) (depth int) {
	m.nodes++
	deepest := 0
	part := func(value any) {
		if depth := m.of(value); depth > deepest {
			deepest = depth
		}
	}
	switch value := value.(type) {
	case json.Number:
		if !lines.IsWhole(value.String()) {
			m.isBad = true
			number, err := strconv.ParseFloat(value.String(), 64)
			isWhole := !strings.ContainsAny(value.String(), ".eE") && value.String() != "-0"
			m.hasFraction = m.hasFraction || err == nil && !isWhole && -pastRange < number && number < pastRange
		}
	case []any:
		for _, item := range value {
			part(item)
		}
	case map[string]any:
		for _, item := range value {
			part(item)
		}
	}
	return deepest + 1
}

// pastRange is past all numbers of the engine. A whole number this large is reported as out of range.
const pastRange = 9.3e18

// refusal says why the engine refuses a line.
func refusal(refused factNote, line []byte) string {
	switch refused.Note {
	case "long":
		return "the line has over 1048576 bytes"
	case "syntax":
		if stop := stopOf(line); stop != nil {
			return fmt.Sprintf("no JSON text: column %d: %s", stop.Column, stop.Due.Sentence())
		}
		return "no JSON text"
	case "shape":
		return misshapen(line)
	case "model":
		return "a model with the fault " + refused.Fault + "; the one before stays in force"
	case "closed":
		return "the client is closed"
	case "capacity":
		return "a capacity is from 1 to 4096"
	}
	return refused.Note
}

// misshapen says why a JSON value is not a line of `serve`.
func misshapen(line []byte) string {
	doc := lines.NewDocument(line)
	if doc == nil || doc.Kind(doc.Whole) != '{' {
		return saidNoLine
	}
	all := doc.Members(doc.Whole)
	if len(all) > mostMembers {
		return saidNoLine
	}
	members := map[string]lines.Node{}
	for _, member := range all {
		members[member.Key] = member.Value
		if at := sort.SearchStrings(lineKeys, member.Key); at == len(lineKeys) || lineKeys[at] != member.Key {
			return "no line has the key " + quoted(member.Key)
		}
	}
	return dueOf(doc, members)
}

const (
	saidNoLine = "an object with client, service and inputs alone is due"
	// mostMembers limits the members of an object that are looked at.
	mostMembers = 4
	// mostName limits the bytes of a client's name.
	mostName = 64
)

// lineKeys are the keys of lines of `serve`, in order.
var lineKeys = []string{"capacity", "client", "close", "inputs", "model", "resize", "service"}

// dueOf says what an object lacks to be a line of `serve`.
func dueOf(doc *lines.Document, members map[string]lines.Node) string {
	has := func(key string) bool {
		_, ok := members[key]
		return ok
	}
	isName := func(key string) bool {
		name, ok := "", false
		if has(key) {
			name, ok = doc.Text(members[key])
		}
		return ok && name != "" && len(name) <= mostName
	}
	is := func(key string, kind byte) bool { return doc.Kind(members[key]) == kind }
	isTrue := func(key string) bool { return string(doc.Raw(members[key])) == "true" }
	switch {
	case has("model"):
		return "beside model stands no other key"
	case (has("resize") || !has("client") && has("capacity")) && isName("resize"):
		return "beside resize stands capacity alone, a number from 1 to 4096"
	case has("resize"), !has("client") && has("capacity"):
		return "under resize the name of a client is due, a text of 1 to 64 bytes"
	case !has("client"):
		return "the key client is missing"
	case !isName("client"):
		return "under client a text of 1 to 64 bytes is due"
	case has("close") && isTrue("close"):
		return "beside close stands client alone"
	case has("close"):
		return "under close true is due"
	case !has("service"):
		return "the key service is missing"
	case !has("inputs"):
		return "the key inputs is missing"
	case !is("service", '"'):
		return "under service a text is due"
	case !is("inputs", '{'):
		return "under inputs an object is due"
	}
	return "beside client, service and inputs stands no other key"
}
