package service

import (
	"bytes"
	"encoding/json"
	"fmt"
	"io"
	"os"
	"strconv"
	"time"

	"gateway/engine"
	"gateway/journal"
	"gateway/lines"
)

// A recorder makes the entries of the journal.
type recorder struct {
	journal *journal.Journal
	// program and engine are what runs.
	program, engine Program
	redact          *redactor
}

// A Program is an executable file, by its version and its SHA-256.
type Program struct {
	Version string `json:"version"`
	Sum     string `json:"sha256"`
}

// programOf reads the sum of a program.
func programOf(path, version string) (Program, error) {
	file, err := os.Open(path)
	if err != nil {
		return Program{}, fmt.Errorf("reading the sum of a program: %w", err)
	}
	defer file.Close()
	sum, err := sumOfReader(file)
	if err != nil {
		return Program{}, fmt.Errorf("reading the sum of %s: %w", path, err)
	}
	return Program{Version: version, Sum: sum}, nil
}

// A ruleNote is what the file says about a rule.
type ruleNote struct {
	ID          string   `json:"id"`
	Annotations []string `json:"annotations"`
}

// noteRules reads what the file says about rules, and where the expressions of decisions are.
func (m *served) noteRules() error {
	if m.pointers == nil {
		if err := m.pointTo(); err != nil {
			return err
		}
	}
	m.rules = map[string]ruleNote{}
	if len(m.source.Places) == 0 {
		return nil
	}
	var places map[string]ruleNote
	if json.Unmarshal(m.source.Places, &places) != nil {
		return nil
	}
	for pointer, note := range places {
		if note.ID != "" || len(note.Annotations) > 0 {
			m.rules[pointer] = note
		}
	}
	return nil
}

// AppendLine appends the line of the model.
func (m *served) AppendLine(to []byte) []byte { return m.engine.AppendLine(to) }

// AppendAbout appends what a journal file says about the model at its beginning: what is needed to ask it again.
func (m *served) AppendAbout(to []byte) []byte {
	about := struct {
		Release  releasePage                `json:"release"`
		Origin   string                     `json:"origin"`
		Program  Program                    `json:"program"`
		Engine   Program                    `json:"engine"`
		Names    map[string]string          `json:"names,omitempty"`
		Locals   map[string]string          `json:"locals,omitempty"`
		Types    map[string]json.RawMessage `json:"types,omitempty"`
		Domains  map[string]string          `json:"domains,omitempty"`
		Required []string                   `json:"required,omitempty"`
		Places   json.RawMessage            `json:"places,omitempty"`
	}{m.release(), m.origin, m.by.program, m.by.engine, m.source.Names, m.source.Locals, m.source.Types, m.source.Domains, m.source.Required,
		m.source.Places}
	text, err := plainJSON(about)
	if err != nil {
		return append(to, `"release":null`...)
	}
	return append(to, text[1:len(text)-1]...)
}

// A releasePage is a release with its sum.
type releasePage struct {
	Sum string `json:"sha256"`
	Release
}

func (m *served) release() releasePage {
	page := releasePage{Sum: m.wholeSum}
	if m.source.Release != nil {
		page.Release = *m.source.Release
	}
	return page
}

// remember makes what each journal line says about the model and the programs.
func (m *served) remember(by *recorder) {
	m.by = by
	m.recorded = []byte(fmt.Sprintf(`"release":"%s","program":"%s","engine":"%s"`, m.wholeSum, by.program.Sum, by.engine.Sum))
}

// A naming identifies a call: by its own id, the caller's id or empty, and the caller.
type naming struct {
	own, given string
	who        caller
}

// entriesOf makes an entry for each answer of a call; p is the problem of all of them, or nil.
func (c *call) entriesOf(name naming, p *problem) []journal.Entry {
	now := time.Now().UTC().AppendFormat(nil, journal.TimeForm)
	entries := make([]journal.Entry, 0, len(c.outcomes))
	for at := range c.outcomes {
		if it, is := c.entryOf(at, name, now, p); is {
			entries = append(entries, it)
		}
	}
	return entries
}

// entryOf returns the entry of one answer; false if there is none.
func (c *call) entryOf(at int, name naming, now []byte, p *problem) (it journal.Entry, is bool) {
	if p == nil {
		p = c.problemAt(at)
	}
	inputs, job := c.sent[at], c.jobAt(at)
	if job != nil {
		inputs = job.Rest[len(inputsKey) : len(job.Rest)-len(c.decision.tail)]
	}
	if inputs == nil || p != nil && p.kind == problemFull {
		return it, false
	}
	inputs, redacted := c.service.recorder.redact.inputs(c.model, c.decision, inputs)
	canAsk := job != nil && isAccepted(c.outcomes[at].Kind) && redacted == nil
	if canAsk {
		it.Asked = c.appendAsked(make([]byte, 0, len(job.Rest)+maxID+24), at, name, job)
	}
	about := c.appendNames(make([]byte, 0, 512+len(c.outcomes[at].Value)+len(inputs)), at, name, now)
	if !canAsk {
		if job != nil {
			inputs = c.model.shownInputs(inputs)
		}
		about = append(append(about, `,"service":`...), quoted(c.decision.word)...)
		about = append(append(about, `,"inputs":`...), inputs...)
	}
	if redacted != nil {
		text, _ := json.Marshal(redacted)
		about = append(append(about, `,"redacted":`...), text...)
	}
	it.About = c.appendAnswer(about, at, p)
	return it, true
}

// jobAt returns the request that an engine was asked at a place of the call, or nil.
func (c *call) jobAt(at int) *engine.Job {
	if c.asked == nil {
		c.asked = make([]*engine.Job, len(c.outcomes))
		for _, job := range c.jobs {
			c.asked[job.Place] = job
		}
	}
	return c.asked[at]
}

func (c *call) appendAsked(to []byte, at int, name naming, job *engine.Job) []byte {
	to = append(to, `{"client":"`...)
	to = c.appendID(to, at, name.given)
	if name.given == "" {
		to = c.appendID(to, at, name.own)
	}
	to = append(to, `",`...)
	to = append(to, job.Rest...)
	return append(to, '\n')
}

// appendID appends an id, which needs no quoting, and the place in a list; nothing if there is no id.
func (c *call) appendID(to []byte, at int, id string) []byte {
	if id == "" {
		return to
	}
	to = append(to, id...)
	if c.isList {
		to = strconv.AppendInt(append(to, '#'), int64(at), 10)
	}
	return to
}

// appendNames appends what identifies an answer, and what gave it.
func (c *call) appendNames(to []byte, at int, name naming, now []byte) []byte {
	to = c.appendID(append(to, `"id":"`...), at, name.own)
	if name.given != "" {
		to = c.appendID(append(to, `","request":"`...), at, name.given)
	}
	to = append(append(append(to, `","time":"`...), now...), '"')
	if name.who.token != "" {
		to = lines.AppendQuoted(append(to, `,"token":`...), name.who.token)
	}
	if name.who.named != "" {
		to = lines.AppendQuoted(append(to, `,"client":`...), name.who.named)
	}
	return append(append(to, ','), c.model.recorded...)
}

// appendAnswer appends a result or a problem, and the deciding rules.
func (c *call) appendAnswer(to []byte, at int, p *problem) []byte {
	outcome := &c.outcomes[at]
	if p == nil {
		to = append(append(to, `,"result":`...), c.decision.shown(outcome.Value)...)
	} else {
		to = append(to, `,"problem":`...)
		to = append(to, p.recorded()...)
	}
	switch {
	case outcome.IsLong:
		to = append(to, `,"rules":"long"`...)
	case len(outcome.Decided) > 0:
		to = c.model.appendRules(append(to, `,"rules":`...), outcome.Decided)
	}
	return to
}

// recorded returns a problem without its text, which may have values of the inputs.
func (p *problem) recorded() []byte {
	to := lines.AppendQuoted([]byte(`{"type":`), p.kind.word)
	to = strconv.AppendInt(append(to, `,"status":`...), int64(p.Status), 10)
	if p.Pointer != nil {
		to = lines.AppendQuoted(append(to, `,"pointer":`...), *p.Pointer)
	}
	return append(to, '}')
}

// appendRules appends the deciding rules, with what the file says about them.
func (m *served) appendRules(to []byte, decided []engine.Decided) []byte {
	to = append(to, '[')
	for at, table := range decided {
		if at > 0 {
			to = append(to, ',')
		}
		if table.IsDefault && len(table.Rules) == 0 {
			to = append(m.appendTable(to, &table), `,"default":true}`...)
			continue
		}
		for n, rule := range table.Rules {
			if n > 0 {
				to = append(to, ',')
			}
			to = m.appendRule(m.appendTable(to, &table), &table, rule)
		}
	}
	return append(to, ']')
}

// appendTable appends the beginning of an object: the decision, and the place of the table in it.
func (m *served) appendTable(to []byte, table *engine.Decided) []byte {
	to = lines.AppendQuoted(append(to, `{"decision":`...), m.nameOf(table.Decision))
	if table.Path != "" {
		to = append(append(append(to, `,"at":"`...), table.Path...), '"')
	}
	return to
}

// appendRule ends the object with a rule.
func (m *served) appendRule(to []byte, table *engine.Decided, rule int) []byte {
	to = strconv.AppendInt(append(to, `,"rule":`...), int64(rule), 10)
	if len(m.rules) == 0 {
		return append(to, '}')
	}
	note := m.rules[m.pointers[table.Decision]+table.Path+"/table/rules/"+strconv.Itoa(rule-1)]
	if note.ID != "" {
		to = lines.AppendQuoted(append(to, `,"id":`...), note.ID)
	}
	if len(note.Annotations) > 0 {
		text, _ := plainJSON(note.Annotations)
		to = append(append(to, `,"annotations":`...), text...)
	}
	return append(to, '}')
}

func quoted(text string) []byte { return lines.AppendQuoted(nil, text) }

// keep records the answers of a call before they are given; p is the problem of all of them, or nil.
func (c *call) keep(name naming, p *problem) *problem {
	if c.service.recorder == nil {
		return p
	}
	entries := c.entriesOf(name, p)
	if len(entries) == 0 {
		return p
	}
	if err := c.service.recorder.journal.Record(c.model, entries); err != nil {
		c.service.logJournal(err)
		return problemJournal.with("")
	}
	return p
}

func isAccepted(kind engine.Kind) bool {
	return kind == engine.Result || kind == engine.Limit || kind == engine.Huge
}

// isRecorded reports whether a request that was refused before an engine was asked is recorded: it could be read.
func (p *problem) isRecorded() bool {
	switch p.kind {
	case problemValue, problemUnknown, problemTwice, problemShape:
		return true
	}
	return false
}

// oneLine returns a JSON text without blanks, as a copy.
func oneLine(text []byte) []byte {
	var compact bytes.Buffer
	if json.Compact(&compact, text) != nil {
		return nil
	}
	return compact.Bytes()
}

func sumOfReader(from io.Reader) (string, error) {
	hash := newHash()
	if _, err := io.Copy(hash, from); err != nil {
		return "", err
	}
	return fmt.Sprintf("%x", hash.Sum(nil)), nil
}
