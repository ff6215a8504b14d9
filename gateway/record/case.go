package record

import (
	"bytes"
	"encoding/json"
	"fmt"

	"gateway/journal"
	"gateway/service"
)

// A Head is what the beginning of a file says about its entries.
type Head struct {
	Release Release         `json:"release"`
	Origin  string          `json:"origin"`
	Program service.Program `json:"program"`
	Engine  service.Program `json:"engine"`
	// Source is the model with names and types; nil if it can't be read.
	Source *service.Source `json:"-"`
}

// A Release is a release with its sum.
type Release struct {
	Sum string `json:"sha256"`
	service.Release
}

// A Problem is why there was no result.
type Problem struct {
	Type    string `json:"type"`
	Status  int    `json:"status"`
	Pointer string `json:"pointer,omitempty"`
}

// A Case is one recorded answer.
type Case struct {
	Entry   uint64 `json:"entry,omitempty"`
	ID      string `json:"id"`
	Request string `json:"request,omitempty"`
	Time    string `json:"time,omitempty"`
	Token   string `json:"token,omitempty"`
	Client  string `json:"client,omitempty"`
	Service string `json:"service"`
	// Release, Program and Engine are sums; Name and Version are the release's.
	Release  string          `json:"release,omitempty"`
	Name     string          `json:"name,omitempty"`
	Version  string          `json:"version,omitempty"`
	Program  string          `json:"program,omitempty"`
	Engine   string          `json:"engine,omitempty"`
	Inputs   json.RawMessage `json:"inputs"`
	Redacted []string        `json:"redacted,omitempty"`
	Result   json.RawMessage `json:"result,omitempty"`
	Problem  *Problem        `json:"problem,omitempty"`
	// Rules is a list of Rule, or "long".
	Rules json.RawMessage `json:"rules,omitempty"`

	// Head is its file's, Path and Line its position.
	Head *Head  `json:"-"`
	Path string `json:"-"`
	Line int    `json:"-"`
	// asked has the inputs as an engine takes them; nil if the case can't be decided again.
	asked json.RawMessage
	word  string
	// isOld means that an earlier version wrote it, and input names and units are not known.
	isOld bool
}

// A Rule is a rule that decided.
type Rule struct {
	Decision    string   `json:"decision"`
	At          string   `json:"at,omitempty"`
	Rule        int      `json:"rule,omitempty"`
	Default     bool     `json:"default,omitempty"`
	ID          string   `json:"id,omitempty"`
	Annotations []string `json:"annotations,omitempty"`
}

// RuleList returns the deciding rules; none if they are missing, or too many.
func (c *Case) RuleList() (rules []Rule) {
	if len(c.Rules) > 0 && json.Unmarshal(c.Rules, &rules) != nil {
		return nil
	}
	return rules
}

// CanDecide reports whether the case can be decided again.
func (c *Case) CanDecide() bool { return c.asked != nil }

// readHead reads the beginning of a file.
func readHead(it *journal.Read) *Head {
	head := &Head{}
	if it.About != nil && json.Unmarshal(it.About, head) != nil {
		head = &Head{}
	}
	if it.About != nil {
		head.Source, _ = service.RecordedSource(it.Asked, it.About)
	} else {
		head.Source, _ = service.ReadSource(it.Asked)
	}
	if head.Source != nil && head.Release.Sum == "" {
		head.Release.Sum = head.Source.Sum()
	}
	return head
}

// An askedLine is the line of a request.
type askedLine struct {
	Client, Service string
	Inputs          json.RawMessage
}

// readCase reads an entry about an answer.
func readCase(it *journal.Read, head *Head) (*Case, error) {
	c := &Case{Entry: it.N, Head: head, Path: it.Path, Line: it.Line, isOld: it.About == nil}
	if it.About != nil {
		if err := json.Unmarshal(it.About, c); err != nil {
			return nil, fmt.Errorf("%s:%d: %w", it.Path, it.Line, err)
		}
	}
	if len(it.Asked) > 0 {
		var asked askedLine
		if err := json.Unmarshal(it.Asked, &asked); err != nil {
			return nil, fmt.Errorf("%s:%d: %w", it.Path, it.Line, err)
		}
		c.Service, c.Inputs, c.asked = asked.Service, asked.Inputs, asked.Inputs
		if it.About == nil {
			c.ID = asked.Client
		}
	}
	c.word = c.Service
	if head != nil {
		c.Name, c.Version = head.Release.Name, head.Release.Version
		if c.Release == "" {
			c.Release = head.Release.Sum
		}
	}
	return c, nil
}

var (
	beginsKey = []byte(`,"begins":true,`)
	modelKey  = []byte(`{"model":`)
	idKey     = []byte(`,"id":"`)
	closeTail = []byte(`,"close":true}`)
)

// isHead reports whether an entry begins a file.
func isHead(it *journal.Read) bool {
	if it.About == nil {
		return bytes.HasPrefix(it.Asked, modelKey)
	}
	return bytes.HasPrefix(it.About[bytes.IndexByte(it.About, ','):], beginsKey)
}

// isMark reports whether a line of an earlier version is a time mark, and returns the time.
func isMark(it *journal.Read) (string, bool) {
	if it.About != nil || !bytes.HasSuffix(it.Asked, closeTail) {
		return "", false
	}
	var mark struct{ Client string }
	if json.Unmarshal(it.Asked, &mark) != nil {
		return "", false
	}
	return mark.Client, true
}

// isAnswer reports whether an entry is about an answer.
func isAnswer(it *journal.Read) bool {
	if it.About == nil {
		return true
	}
	return bytes.HasPrefix(it.About[bytes.IndexByte(it.About, ','):], idKey)
}
