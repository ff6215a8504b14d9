package record

import (
	"bytes"
	"errors"
	"fmt"
	"io"
	"strconv"
	"strings"

	"gateway/journal"
)

// A Filter selects cases; empty fields select any.
type Filter struct {
	// ID is ours or the caller's, that of a list with # and a number, or # and the number of an entry.
	ID string
	// Client is the caller's X-Client, or the name of its token.
	Client  string
	Service string
	// From and To are times as in entries, or prefixes; To is excluded.
	From, To string
	// Rule is a decision, or a decision with a colon and a rule's number or id.
	Rule string
	// Release is the beginning of a release's sum, or its name and version with a blank between.
	Release string
}

// Each calls take with a journal's selected cases, in order.
func Each(folder string, filter Filter, take func(*Case) error) error {
	r, err := journal.NewReader(folder)
	if err != nil {
		return err
	}
	defer r.Close()
	w := &walker{filter: filter, heads: map[string]*Head{}, marks: map[string]string{}, id: []byte(strings.TrimPrefix(filter.ID, "#"))}
	for {
		it, err := r.Next()
		if errors.Is(err, io.EOF) {
			return nil
		}
		if err != nil {
			return err
		}
		c, err := w.read(it)
		if err == nil && c != nil && filter.wants(c) {
			err = take(c)
		}
		if err != nil {
			return err
		}
	}
}

// A walker walks a journal's entries.
type walker struct {
	filter Filter
	id     []byte
	// heads has the files' heads, marks the last time marks of files from earlier versions.
	heads map[string]*Head
	marks map[string]string
}

// read reads an entry's case; nil if it has none, or an unselected one.
func (w *walker) read(it *journal.Read) (*Case, error) {
	if isHead(it) {
		w.heads[it.Path] = readHead(it)
		return nil, nil
	}
	if mark, is := isMark(it); is {
		w.marks[it.Path] = mark
		return nil, nil
	}
	if !isAnswer(it) || !w.isLikely(it) {
		return nil, nil
	}
	c, err := readCase(it, w.heads[it.Path])
	if err != nil {
		return nil, err
	}
	if c.Time == "" {
		c.Time = w.marks[it.Path]
	}
	c.name()
	return c, nil
}

// isLikely reports whether an entry may be selected, without parsing it.
func (w *walker) isLikely(it *journal.Read) bool {
	return len(w.id) == 0 || bytes.Contains(it.About, w.id) || bytes.Contains(it.Asked, w.id)
}

// name gives the service its name in the file.
func (c *Case) name() {
	if c.Head == nil || c.Head.Source == nil {
		return
	}
	if name, is := c.Head.Source.Names[c.word]; is {
		c.Service = name
	}
}

func (f *Filter) wants(c *Case) bool {
	switch {
	case f.ID != "" && !c.isNamed(f.ID):
	case f.Client != "" && f.Client != c.Client && f.Client != c.Token:
	case f.Service != "" && f.Service != c.Service && f.Service != c.word:
	case f.From != "" && c.Time < f.From:
	case f.To != "" && c.Time >= f.To:
	case f.Rule != "" && !c.hasRule(f.Rule):
	case f.Release != "" && !strings.HasPrefix(c.Release, f.Release) && c.Name+" "+c.Version != f.Release:
	default:
		return true
	}
	return false
}

// isNamed reports whether an id is the case's, or that of the list that it was in.
func (c *Case) isNamed(id string) bool {
	if number := strings.TrimPrefix(id, "#"); number != id {
		return number == strconv.FormatUint(c.Entry, 10)
	}
	for _, own := range []string{c.ID, c.Request} {
		if own == id || strings.HasPrefix(own, id+"#") {
			return true
		}
	}
	return false
}

// hasRule reports whether a rule decided, or any rule of a decision.
func (c *Case) hasRule(wanted string) bool {
	for _, it := range c.RuleList() {
		if it.Decision == wanted || it.ID == wanted || fmt.Sprintf("%s:%d", it.Decision, it.Rule) == wanted ||
			it.ID != "" && it.Decision+":"+it.ID == wanted {
			return true
		}
	}
	return false
}
