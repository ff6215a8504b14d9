package command

import (
	"bufio"
	"bytes"
	"context"
	"errors"
	"fmt"
	"io"
	"os"
	"path/filepath"
	"strings"

	"github.com/spf13/cobra"

	"gateway/cases"
	"gateway/coverage"
	"gateway/engine"
	"gateway/service"
	"gateway/tck"
)

// runTests runs files of test cases against a model, and reports on all of them together.
func runTests(ctx context.Context, c *cobra.Command, model string, files []string, o casesOptions) error {
	if err := oneStdin(append([]string{model}, files...)); err != nil {
		return err
	}
	due, err := o.dueShares()
	if err != nil {
		return err
	}
	if due != nil {
		o.counts = coverage.New()
	}
	counts := &countReport{}
	all, err := newReports(c, o)
	if err != nil {
		return err
	}
	if err := runFiles(ctx, c, model, files, o, append(all, counts)); err != nil {
		return err
	}
	if o.counts != nil {
		err = writeCoverage(c, model, o, due)
	}
	switch {
	case counts.faults > 0:
		return ended(statusRefused)
	case counts.failed > 0:
		return ended(statusFault)
	case counts.passed == 0:
		return errors.New("nothing was tested")
	}
	return err
}

// newReports returns the requested reports.
func newReports(c *cobra.Command, o casesOptions) (all reports, err error) {
	if o.tap {
		all = append(all, newTAP(c.OutOrStdout()))
	} else {
		all = append(all, newLineReport(c.OutOrStdout(), o.quiet))
	}
	if o.junit == "" {
		return all, nil
	}
	file, err := os.Create(o.junit)
	if err != nil {
		return nil, err
	}
	return append(all, &junitReport{to: file}), nil
}

// runFiles runs each file. An unreadable file is a fault in the reports too, and ends the run.
func runFiles(ctx context.Context, c *cobra.Command, model string, files []string, o casesOptions, to reports) error {
	for _, file := range files {
		run := runCaseRows
		if isXML(c, file) {
			run = runTCK
		}
		if err := run(ctx, c, model, file, o, to); err != nil {
			return firstOf(err, to.fault(shownAs(file), "", err.Error()), to.end())
		}
	}
	return to.end()
}

// writeBorders writes a cases file for each table: rows at its borders, with the model's answers.
func writeBorders(ctx context.Context, c *cobra.Command, path string, o casesOptions) error {
	source, err := o.readModel(c, path)
	if err != nil {
		return err
	}
	program, err := engine.Path()
	if err != nil {
		return err
	}
	if _, err := service.Ask(ctx, program, uint64(o.memory), source); err != nil {
		return fmt.Errorf("%s: %w", shownAs(path), err)
	}
	subject, err := cases.NewSubject(source)
	if err != nil {
		return refused(err)
	}
	if err := os.MkdirAll(o.borders, 0o777); err != nil {
		return err
	}
	for _, word := range subject.Decisions() {
		all, err := subject.Borders(word)
		if err != nil {
			return refused(err)
		}
		for _, borders := range all {
			if err := writeTableBorders(ctx, c, subject, borders, program, o); err != nil {
				return err
			}
		}
	}
	return nil
}

// reportBorders reports what the borders of a table leave out.
func reportBorders(c *cobra.Command, subject *cases.Subject, borders *cases.Borders) {
	name := subject.NameOf(borders)
	for _, text := range borders.Calculated {
		fmt.Fprintf(c.ErrOrStderr(), "%s: the column %q is calculated, and has no borders here\n", name, text)
	}
	if borders.IsCut {
		fmt.Fprintf(c.ErrOrStderr(), "%s: %d rows are written, and more are left out\n", name, len(borders.Rows))
	}
}

// writeTableBorders writes the file of one table.
func writeTableBorders(ctx context.Context, c *cobra.Command, subject *cases.Subject, borders *cases.Borders, program string,
	o casesOptions) error {
	reportBorders(c, subject, borders)
	if len(borders.Rows) == 0 {
		return nil
	}
	rows, err := cases.Open("borders.csv", bytes.NewReader(subject.CSV(borders, o.files.Comma)), o.files)
	if err != nil {
		return err
	}
	question, err := subject.QuestionOf([]string{borders.Decision}, borders.Given)
	if err != nil {
		return err
	}
	asked, err := service.Ask(ctx, program, uint64(o.memory), question.Source)
	if err != nil {
		return err
	}
	plan, err := rows.Plan(question, true)
	if err != nil {
		return err
	}
	writer := plan.Writer(false)
	text := writer.Begin(nil)
	err = o.asker(c, program).Each(ctx, plan, asked, func(row *cases.Row, answer *cases.Answer) error {
		// A value outside its input's type is no case.
		if !answer.IsRefused {
			text = writer.Row(text, row, answer)
		}
		return nil
	})
	if err != nil {
		return err
	}
	return os.WriteFile(filepath.Join(o.borders, borders.Name+".csv"), writer.End(text), 0o666)
}

// isXML reports whether a cases file is XML, by its name, or for standard input by its beginning.
func isXML(c *cobra.Command, file string) bool {
	if file != dash {
		extension := strings.ToLower(filepath.Ext(file))
		return extension == ".xml" || extension == ".dmn"
	}
	in := bufio.NewReader(c.InOrStdin())
	c.SetIn(in)
	begin, _ := in.Peek(len("\xef\xbb\xbf<"))
	return isDMN(dash, begin)
}

// countReport only counts.
type countReport struct{ verdictCounts }

func (r *countReport) add(_ string, v tck.Verdict) error {
	r.verdictCounts.add(v.Outcome)
	return nil
}

func (r *countReport) fault(string, string, string) error {
	r.faults++
	return nil
}

func (*countReport) end() error { return nil }

// mostExplained limits the failed rows whose rules are reported.
const mostExplained = 1000

// A caseRun is the test of one file of rows.
type caseRun struct {
	plan       *cases.Plan
	file       string
	to         caseReport
	unanswered *refusals
	single     cases.Single
	// explained is how many rows were explained.
	explained int
}

// runCaseRows tests the rows of a file.
func runCaseRows(ctx context.Context, c *cobra.Command, model, file string, o casesOptions, to caseReport) error {
	again, err := readTwice(c, file)
	if err != nil {
		return err
	}
	var subject *cases.Subject
	rows, err := openRows(ctx, c, []string{model, file}, &o.rowsOptions, func(s *cases.Subject) (*cases.Question, error) {
		subject = s
		return dues(s, again, file, &o)
	})
	if err != nil {
		return err
	}
	defer rows.Close()
	plan, err := rows.plan(false)
	if err != nil {
		return err
	}
	asker := o.asker(c, rows.engine)
	run := &caseRun{plan: plan, file: rows.source.name, to: to, single: cases.Single{Asker: asker, Subject: subject, Given: rows.Given(subject)},
		unanswered: &refusals{to: c.ErrOrStderr(), file: rows.source.name}}
	asker.Wants, asker.Counts, asker.Misses = run.wants, o.counts, o.cells != ""
	shown := rows.progress(c, "testing", false)
	defer shown.stop()
	err = asker.Each(ctx, plan, rows.asked, func(row *cases.Row, answer *cases.Answer) error { return run.take(ctx, row, answer) })
	shown.stop()
	run.unanswered.end()
	return err
}

// readTwice reads all of standard input, so that it can be read twice; for other files it returns how to open them.
func readTwice(c *cobra.Command, file string) (func() (io.ReadCloser, error), error) {
	if file != dash {
		return func() (io.ReadCloser, error) { return open(c, file) }, nil
	}
	text, err := io.ReadAll(c.InOrStdin())
	if err != nil {
		return nil, fmt.Errorf("reading %s: %w", stdinName, err)
	}
	c.SetIn(bytes.NewReader(text))
	return func() (io.ReadCloser, error) { return io.NopCloser(bytes.NewReader(text)), nil }, nil
}

// dues returns the question of a cases file: all decisions with an expected value.
func dues(s *cases.Subject, again func() (io.ReadCloser, error), file string, o *casesOptions) (*cases.Question, error) {
	from, err := again()
	if err != nil {
		return nil, err
	}
	defer from.Close()
	rows, err := cases.Open(shownAs(file), from, o.files)
	if err != nil {
		return nil, err
	}
	words, err := rows.Dues(s)
	if err != nil {
		return nil, err
	}
	if len(words) == 0 {
		return s.Question("")
	}
	return s.QuestionOf(words, rows.Given(s))
}

// isPassed reports whether everything expected of a row came.
func (r *caseRun) isPassed(row *cases.Row, answer *cases.Answer) bool {
	for at := range row.Dues {
		if !r.plan.IsDue(&row.Dues[at], r.plan.Came(&row.Dues[at], row, answer)) {
			return false
		}
	}
	return true
}

// wants asks for the rules of failed rows.
func (r *caseRun) wants(row *cases.Row, answer *cases.Answer) bool {
	if r.explained == mostExplained || r.isPassed(row, answer) {
		return false
	}
	r.explained++
	return true
}

// take reports on a row.
func (r *caseRun) take(ctx context.Context, row *cases.Row, answer *cases.Answer) error {
	if answer.IsRefused {
		r.unanswered.add(row, answer)
		place := fmt.Sprint(row.Line)
		if fault := row.Fault(); fault != nil && fault.Column > 0 {
			place = fmt.Sprintf("%d:%d", fault.Line, fault.Column)
		}
		return r.to.fault(r.file, place, answer.Fault)
	}
	for at := range row.Dues {
		due := &row.Dues[at]
		came, of := r.plan.Came(due, row, answer), *answer
		if came == nil && !answer.IsFailed && row.Service == "" && r.plan.IsOfSeveral() {
			var err error
			if came, of, err = r.single.Came(ctx, row, due); err != nil {
				return err
			}
		}
		v := tck.Verdict{Case: fmt.Sprintf("%s:%d", r.file, row.Line), Node: due.Name, Outcome: tck.Pass}
		if !r.plan.IsDue(due, came) {
			v.Outcome, v.Said = tck.Fail, saidOf(due, came, &of)
		}
		if err := r.to.add(r.file, v); err != nil {
			return fmt.Errorf("writing the verdicts: %w", err)
		}
	}
	return nil
}

// saidOf says what was expected, what came, and which rules decided.
func saidOf(due *cases.Due, came []byte, answer *cases.Answer) string {
	text := fmt.Sprintf("due %s, came %s", due.Value, came)
	if came == nil {
		text = fmt.Sprintf("due %s, and nothing came: %s", due.Value, answer.Fault)
	}
	if rules := cases.ShownRules(answer.Rules); rules != "" {
		text += "; rules: " + rules
	}
	return text
}
