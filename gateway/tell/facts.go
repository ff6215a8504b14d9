package tell

import (
	"bytes"
	"encoding/json"
	"errors"
	"fmt"
)

// A facts holds what the engine reports about a model. All words are this package's.
type facts struct {
	IsLawful bool   `json:"lawful"`
	Fault    string `json:"fault"`
	// places holds the places of faults in order, and how many more there are of each fault.
	places []factPlace
	// gives is what services and decisions can give; nil if the engine doesn't report it.
	gives *givesFacts
	// tables holds the findings about decision tables.
	tables []*factTable
	// unreported is how many tables are left out.
	unreported int
	// notes holds the refused request lines, and how many more there are.
	notes     []factNote
	moreNotes int
}

// A factPlace is the place of a fault, or how many more there are.
type factPlace struct {
	Fault   string `json:"fault"`
	Pointer string `json:"pointer"`
	More    int    `json:"more"`
	// Length is the length of a model line that is too long.
	Length int `json:"length"`
}

// A factNote is a refused request line, or how many more there are.
type factNote struct {
	Line int `json:"line"`
	// Note is the word of the refusal.
	Note string `json:"note"`
	More int    `json:"more"`
	// Fault is the fault of a refused model.
	Fault string `json:"fault"`
}

// A factTable holds the findings about a decision table. What is nil was not decided.
type factTable struct {
	Table string `json:"table"`
	// Comes means that the table was looked at for what can come to its columns. Complete, Asked and Words are then the same.
	Comes    bool  `json:"comes"`
	Complete *bool `json:"complete"`
	Asked    *bool `json:"asked"`
	Words    *bool `json:"words"`
	// Unique is empty if the hit policy allows overlaps, and null if it was not decided.
	Unique    json.RawMessage `json:"unique"`
	Steps     int             `json:"steps"`
	Undecided undecided       `json:"undecided"`
	findings  []*factFinding
	// more is how many more findings there are of each kind.
	more map[string]int
}

// isUnique says whether no two rules overlap; nil if that was not decided or not asked.
func (t *factTable) isUnique() *bool {
	switch string(t.Unique) {
	case "true":
		is := true
		return &is
	case "false":
		return new(bool)
	}
	return nil
}

// A ruleList holds rules, counted from 1.
type ruleList []int

// UnmarshalJSON reads rules as the engine writes them, counted from 0.
func (l *ruleList) UnmarshalJSON(text []byte) error {
	var rules []int
	if err := json.Unmarshal(text, &rules); err != nil {
		return fmt.Errorf("reading rules: %w", err)
	}
	*l = make(ruleList, len(rules))
	for at, rule := range rules {
		(*l)[at] = rule + 1
	}
	return nil
}

// An undecided says why something about a table is not known.
type undecided struct {
	// Rules have tests that names or lists decide, or that break a limit. Outputs are two rules that both apply and whose outputs names decide. Ranks
	// are rules whose order is not known. Idle are rules for which no deciding values were found.
	Rules   ruleList `json:"rules,omitempty"`
	Outputs ruleList `json:"outputs,omitempty"`
	Ranks   ruleList `json:"ranks,omitempty"`
	Idle    ruleList `json:"idle,omitempty"`
	// Steps means that a search ran out of steps.
	Steps bool `json:"steps,omitempty"`
}

// A factFinding is a finding about a table.
type factFinding struct {
	Finding string            `json:"finding"`
	Rules   ruleList          `json:"rules"`
	Witness []json.RawMessage `json:"witness"`
	Cells   []factCell        `json:"cells"`
	IsAsked *bool             `json:"asked"`
	// Before lists the rules that go before one that never decides.
	Before ruleList `json:"before"`
	More   int      `json:"more"`
}

var errNoFacts = errors.New("the engine said nothing")

// readFacts reads the lines of the engine's check.
func readFacts(output []byte) (*facts, error) {
	first, rest, _ := bytes.Cut(output, []byte("\n"))
	f := &facts{}
	if len(first) == 0 {
		return nil, errNoFacts
	}
	if err := json.Unmarshal(first, f); err != nil {
		return nil, fmt.Errorf("reading what the engine said: %w", err)
	}
	for len(rest) > 0 {
		var line []byte
		line, rest, _ = bytes.Cut(rest, []byte("\n"))
		if err := f.take(line); err != nil {
			return nil, fmt.Errorf("reading what the engine said: %w", err)
		}
	}
	return f, nil
}

// take reads a line after the first. Its first key says what it is.
func (f *facts) take(line []byte) error {
	switch {
	case bytes.HasPrefix(line, []byte(`{"fault":`)):
		var place factPlace
		if err := json.Unmarshal(line, &place); err != nil {
			return err
		}
		f.places = append(f.places, place)
	case bytes.HasPrefix(line, []byte(`{"service":`)), bytes.HasPrefix(line, []byte(`{"decision":`)):
		if f.gives == nil {
			f.gives = newGivesFacts()
		}
		return f.gives.take(line)
	case bytes.HasPrefix(line, []byte(`{"table":null`)):
		var unreported factPlace
		err := json.Unmarshal(line, &unreported)
		f.unreported = unreported.More
		return err
	case bytes.HasPrefix(line, []byte(`{"table":`)):
		table := &factTable{more: map[string]int{}}
		f.tables = append(f.tables, table)
		return json.Unmarshal(line, table)
	case bytes.HasPrefix(line, []byte(`{"finding":`)):
		return f.takeFinding(line)
	case bytes.HasPrefix(line, []byte(`{"line":`)), bytes.HasPrefix(line, []byte(`{"more":`)):
		var note factNote
		if err := json.Unmarshal(line, &note); err != nil {
			return err
		}
		if note.More > 0 {
			f.moreNotes = note.More
			return nil
		}
		f.notes = append(f.notes, note)
	}
	return nil
}

func (f *facts) takeFinding(line []byte) error {
	finding := &factFinding{}
	if err := json.Unmarshal(line, finding); err != nil {
		return err
	}
	if len(f.tables) == 0 {
		return errors.New("a finding comes before its table")
	}
	table := f.tables[len(f.tables)-1]
	if finding.More > 0 {
		table.more[finding.Finding] = finding.More
		return nil
	}
	table.findings = append(table.findings, finding)
	return nil
}
