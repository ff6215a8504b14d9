package tell

import (
	"bytes"
	"encoding/json"
	"errors"
	"fmt"
	"strconv"
	"strings"
)

// An outcomes holds what a service or decision can give: values of these kinds, numbers from the first to the second, and the
// limit.
type outcomes struct {
	Null     bool      `json:"null"`
	True     bool      `json:"true"`
	False    bool      `json:"false"`
	Numbers  *[2]int64 `json:"numbers"`
	Texts    texts     `json:"texts"`
	Lists    bool      `json:"lists"`
	Contexts bool      `json:"contexts"`
	Limit    bool      `json:"limit"`
}

// texts are any text, or a few.
type texts struct {
	any bool
	few []string
}

// UnmarshalJSON reads whether there is a text, or a list of those that there are.
func (t *texts) UnmarshalJSON(text []byte) error {
	*t = texts{}
	if bytes.HasPrefix(text, []byte("[")) {
		return json.Unmarshal(text, &t.few)
	}
	return json.Unmarshal(text, &t.any)
}

// words returns the texts as expressions have them.
func (t texts) words() (words []string) {
	if t.any {
		return []string{"text"}
	}
	for _, text := range t.few {
		words = append(words, quoted(text))
	}
	return words
}

// noEnd is where an interval's end is left out in words, as it is next to the end of the range.
const noEnd = 9_000_000_000_000_000_000

// numberWords words an interval of numbers.
func numberWords(low, high int64) string {
	switch hasLow, hasHigh := low > -noEnd, high < noEnd; {
	case low == high:
		return strconv.FormatInt(low, 10)
	case hasLow && hasHigh:
		return fmt.Sprintf("%d to %d", low, high)
	case hasLow:
		return fmt.Sprintf(">= %d", low)
	case hasHigh:
		return fmt.Sprintf("<= %d", high)
	}
	return "a number"
}

// kinds returns the values in words, without null.
func (o outcomes) kinds() (words []string) {
	if o.Numbers != nil {
		words = append(words, numberWords(o.Numbers[0], o.Numbers[1]))
	}
	words = append(words, o.Texts.words()...)
	for _, kind := range []struct {
		is   bool
		word string
	}{{o.True, "true"}, {o.False, "false"}, {o.Lists, "a list"}, {o.Contexts, "a context"}} {
		if kind.is {
			words = append(words, kind.word)
		}
	}
	return words
}

// words says what can be given, such as "500 to 249250" or "text or null".
func (o outcomes) words() string {
	words := o.kinds()
	isAny := o.Texts.any && o.True && o.False && o.Lists && o.Contexts && words[0] == "a number"
	switch {
	case isAny && o.Null:
		words = []string{"any value"}
	case isAny && o.Limit:
		return "any value but null, or limit"
	case isAny:
		return "any value but null"
	case o.Null:
		words = append(words, "null")
	}
	if o.Limit {
		words = append(words, "limit")
	}
	switch last := len(words) - 1; last {
	case -1:
		return "nothing"
	case 0:
		return words[0]
	default:
		return strings.Join(words[:last], ", ") + " or " + words[last]
	}
}

// A givenFact is what a decision can give, in words, and in which services.
type givenFact struct {
	words    string
	services []string
}

// A givesFacts holds what services and decisions can give, by name.
type givesFacts struct {
	// lines holds the engine's lines.
	lines     [][]byte
	services  map[string]*wordedOutcomes
	decisions map[string][]*givenFact
	// known caches what is under the key gives, since many lines have the same.
	known map[string]*wordedOutcomes
	// more is how many services the engine did not look at.
	more int
}

// A wordedOutcomes is an outcomes with its words.
type wordedOutcomes struct {
	outcomes
	said string
}

func newGivesFacts() *givesFacts {
	return &givesFacts{services: map[string]*wordedOutcomes{}, decisions: map[string][]*givenFact{}, known: map[string]*wordedOutcomes{}}
}

var (
	givesKey, serviceKey = []byte(`","gives":`), []byte(`"service":"`)
	decisionKey          = []byte(`{"decision":"`)
	noServiceKey         = []byte(`{"service":null`)
	errNoGives           = errors.New("a line doesn't say what can be given")
)

// take reads a line about a service or decision. Names are words, so nothing in them is escaped.
func (g *givesFacts) take(line []byte) error {
	if bytes.HasPrefix(line, noServiceKey) {
		var more factPlace
		err := json.Unmarshal(line, &more)
		g.more, g.lines = more.More, append(g.lines, line)
		return err
	}
	at := bytes.LastIndex(line, givesKey)
	if at < 0 {
		return errNoGives
	}
	before, service, ok := bytes.Cut(line[:at], serviceKey)
	if !ok {
		return errNoGives
	}
	it, err := g.outcomes(line[at+len(givesKey) : len(line)-1])
	if err != nil {
		return err
	}
	g.lines = append(g.lines, line)
	if !bytes.HasPrefix(before, decisionKey) {
		g.services[string(service)] = it
		return nil
	}
	g.add(string(bytes.TrimSuffix(before[len(decisionKey):], []byte(`",`))), string(service), it.said)
	return nil
}

// add notes what a decision can give in a service.
func (g *givesFacts) add(decision, service, said string) {
	for _, other := range g.decisions[decision] {
		if other.words == said {
			other.services = append(other.services, service)
			return
		}
	}
	g.decisions[decision] = append(g.decisions[decision], &givenFact{said, []string{service}})
}

func (g *givesFacts) outcomes(text []byte) (*wordedOutcomes, error) {
	if it := g.known[string(text)]; it != nil {
		return it, nil
	}
	it := &wordedOutcomes{}
	if err := json.Unmarshal(text, &it.outcomes); err != nil {
		return nil, err
	}
	it.said = it.words()
	g.known[string(text)] = it
	return it, nil
}

// decision returns a decision of this kind with what it can give.
func (g *givesFacts) decision(name, kind string) string {
	switch {
	case g == nil:
		return kind
	case len(g.decisions[name]) == 0 && g.more > 0:
		return "not looked at (" + kind + ")"
	case len(g.decisions[name]) == 0:
		return "not evaluated (" + kind + ")"
	}
	return g.words(name) + " (" + kind + ")"
}

// words says what a decision can give, and in which services if that differs.
func (g *givesFacts) words(name string) string {
	all := g.decisions[name]
	if len(all) == 1 {
		return all[0].words
	}
	var words []string
	for _, it := range all {
		words = append(words, it.words+" in "+joined(it.services))
	}
	return strings.Join(words, "; ")
}

// GivesWords words what decisions can give, by name, from the engine's lines about services and decisions.
func GivesWords(lines []json.RawMessage) (map[string]string, error) {
	facts, words := newGivesFacts(), map[string]string{}
	for _, line := range lines {
		if err := facts.take(line); err != nil {
			return nil, fmt.Errorf("reading what is given: %w", err)
		}
	}
	for name := range facts.decisions {
		words[name] = facts.words(name)
	}
	return words, nil
}

// service returns what a service can give, after its parameters.
func (g *givesFacts) service(name string) string {
	if g == nil {
		return ""
	}
	if it := g.services[name]; it != nil {
		return ": " + it.said
	}
	if g.more > 0 {
		return ": not looked at"
	}
	return ""
}

// givesNull is the kind of a service that can give null or break a limit, givesMore that of services not looked at.
const (
	givesNull = "gives-null"
	givesMore = "gives-more"
)

// gives reports what services and decisions can give; as notices, only the services that can give null or break a limit.
func (r *report) gives() {
	if r.facts.gives == nil {
		return
	}
	if r.format == JSON {
		for _, line := range r.facts.gives.lines {
			r.out.Write(line)
			r.out.WriteByte('\n')
		}
	}
	level := Note
	if r.isStrictNull {
		level = Error
	}
	for at := range r.file.model.Services {
		if it := r.facts.gives.services[r.file.model.Services[at].Name]; it != nil && (it.Null || it.Limit) {
			r.notice(givesNull, level, Place{key("services"), index(at)}, "can give "+it.said)
		}
	}
	if more := r.facts.gives.more; more > 0 {
		r.noticeAt(givesMore, level, r.file.whole(), "", fmt.Sprintf("%d further services were not looked at", more))
	}
}
