package command

import (
	"fmt"
	"io"
	"strconv"
	"strings"

	"github.com/spf13/cobra"

	"gateway/cases"
)

// A share is how many parts of a model are reached.
type share struct {
	of           string
	reached, all int
	// least is the required percentage.
	least float64
}

func (s *share) percent() float64 {
	if s.all == 0 {
		return 100
	}
	return 100 * float64(s.reached) / float64(s.all)
}

// fault returns an error if too few are reached.
func (s *share) fault() error {
	if s.percent() < s.least {
		return fmt.Errorf("%.1f %% of the %s are reached, and %v %% are due", s.percent(), s.of, s.least)
	}
	return nil
}

// dueShares returns the required shares of rules and cells, or nil.
func (o *casesOptions) dueShares() ([]*share, error) {
	if o.coverage == "" && o.cells == "" {
		return nil, nil
	}
	rules, err := dueShare("coverage", "rules", o.coverage)
	if err != nil || o.cells == "" {
		return []*share{rules}, err
	}
	cells, err := dueShare("cells", "cells", o.cells)
	return []*share{rules, cells}, err
}

func dueShare(option, of, text string) (*share, error) {
	if text == "" {
		text = "0"
	}
	least, err := strconv.ParseFloat(strings.TrimSuffix(text, "%"), 64)
	if err != nil || !(least >= 0 && least <= 100) {
		return nil, wrong("--%s is a percentage from 0 to 100", option)
	}
	return &share{of: of, least: least}, nil
}

// writeCoverage lists the rules that no row reached, and such cells if requested. It returns an error if too few are reached.
func writeCoverage(c *cobra.Command, path string, o casesOptions, shares []*share) error {
	source, err := o.readModel(c, path)
	if err != nil {
		return err
	}
	subject, err := cases.NewSubject(source)
	if err != nil {
		return refused(err)
	}
	tables, err := subject.Covered(o.counts)
	if err != nil {
		return refused(err)
	}
	to := c.OutOrStdout()
	if o.tap {
		to = c.ErrOrStderr()
	}
	for at := range tables {
		writeCovered(to, &tables[at], shares)
	}
	for _, it := range shares {
		fmt.Fprintf(to, "%d of %d %s reached (%.1f %%)\n", it.reached, it.all, it.of, it.percent())
		err = firstOf(err, it.fault())
	}
	return err
}

// writeCovered lists what a table's rows didn't reach, and adds to the shares of rules and cells.
func writeCovered(to io.Writer, it *cases.Covered, shares []*share) {
	rules := shares[0]
	rules.all, rules.reached = rules.all+it.Rules, rules.reached+it.Rules-len(it.Unreached)
	for _, rule := range it.Unreached {
		fmt.Fprintf(to, "%s: no row reached rule %d\n", it.Name, rule)
	}
	for _, rule := range it.Undecided {
		fmt.Fprintf(to, "%s: rule %d was reached, and never decided\n", it.Name, rule)
	}
	if len(shares) == 1 {
		return
	}
	cells := shares[1]
	cells.all, cells.reached = cells.all+it.Tests, cells.reached+it.Reached()
	for _, cell := range it.Untried {
		fmt.Fprintf(to, "%s: rule %d, %s: no row missed at %s\n", it.Name, cell.Rule, cell.Column, cell.Test)
	}
}
