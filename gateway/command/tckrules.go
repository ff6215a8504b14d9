package command

import (
	"context"
	"sort"
	"strings"

	"github.com/spf13/cobra"

	"gateway/cases"
	"gateway/engine"
	"gateway/service"
	"gateway/tck"
)

// A caseGroup holds XML test cases that ask for the same decisions and bring values of the same ones.
type caseGroup struct {
	outputs, given []string
	rows           [][]byte
	// of has the indexes of the cases in their file.
	of []int
}

// caseRules asks for the rules that decided XML test cases: all if reached rules are counted, else failed ones. It returns them
// by the index of the case; a case that the whole model doesn't take has none.
func caseRules(ctx context.Context, c *cobra.Command, path string, all *tck.Cases, verdicts []tck.Verdict, o casesOptions) (map[int]string, error) {
	wanted := wantedCases(all, verdicts, o.counts != nil)
	if len(wanted) == 0 {
		return nil, nil
	}
	reading := o.reading
	reading.Service, reading.Partial = "", true
	source, err := readModel(c, []string{path}, reading, func(string, ...any) {})
	if err != nil {
		return nil, nil // What can't be translated is reported with the verdicts.
	}
	subject, err := cases.NewSubject(source)
	if err != nil {
		return nil, err
	}
	rules := map[int]string{}
	for _, group := range groupsOf(subject, all, wanted) {
		if err := group.ask(ctx, c, subject, o, rules); err != nil {
			return nil, err
		}
	}
	return rules, nil
}

// wantedCases returns the indexes of the wanted cases.
func wantedCases(all *tck.Cases, verdicts []tck.Verdict, isCounted bool) (wanted []int) {
	next := 0
	for at := range all.Cases {
		is := isCounted
		for range all.Cases[at].Results {
			is = is || verdicts[next].Outcome == tck.Fail && len(wanted) < mostExplained
			next++
		}
		if is {
			wanted = append(wanted, at)
		}
	}
	return wanted
}

// groupsOf returns cases in groups, ordered by their first cases.
func groupsOf(s *cases.Subject, all *tck.Cases, wanted []int) (groups []*caseGroup) {
	byKey := map[string]*caseGroup{}
	for _, at := range wanted {
		it := &all.Cases[at]
		row, err := it.Row()
		outputs, given := asksFor(s, it)
		if err != nil || len(outputs) == 0 {
			continue
		}
		key := strings.Join(outputs, "\x00") + "\x01" + strings.Join(given, "\x00")
		group := byKey[key]
		if group == nil {
			group = &caseGroup{outputs: outputs, given: given}
			byKey[key], groups = group, append(groups, group)
		}
		group.rows, group.of = append(group.rows, row), append(group.of, at)
	}
	return groups
}

// asksFor returns the words of the decisions that a case asks for, and of those whose values it brings.
func asksFor(s *cases.Subject, c *tck.Case) (outputs, given []string) {
	seen := map[string]bool{}
	for _, result := range c.Results {
		words, _ := s.Outputs(result.Name)
		for _, word := range words {
			if !seen[word] {
				seen[word], outputs = true, append(outputs, word)
			}
		}
	}
	for _, input := range c.Inputs {
		if word, is := s.Decision(input.Name); is && !s.IsInput(input.Name) {
			given = append(given, word)
		}
	}
	sort.Strings(given)
	return outputs, given
}

// ask asks for the rules of a group's cases, and counts what they reach.
func (g *caseGroup) ask(ctx context.Context, c *cobra.Command, subject *cases.Subject, o casesOptions, rules map[int]string) error {
	program, err := engine.Path()
	if err != nil {
		return err
	}
	file, err := cases.Open("cases.jsonl", cases.RowsOf(g.rows), cases.Options{Unknown: true})
	if err != nil {
		return err
	}
	question, err := subject.QuestionOf(g.outputs, g.given)
	if err != nil {
		return err
	}
	asked, err := service.Ask(ctx, program, uint64(o.memory), question.Source)
	if err != nil {
		return err
	}
	plan, err := file.Plan(question, false)
	if err != nil {
		return err
	}
	asker := o.asker(c, program)
	asker.Explain, asker.Counts, asker.Misses = true, o.counts, o.cells != ""
	return asker.Each(ctx, plan, asked, func(row *cases.Row, answer *cases.Answer) error {
		if text := cases.ShownRules(answer.Rules); text != "" {
			rules[g.of[row.Line-1]] = text
		}
		return nil
	})
}
