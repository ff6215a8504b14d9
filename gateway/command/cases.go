package command

import (
	"context"
	"fmt"
	"io"
	"sync/atomic"

	"github.com/spf13/cobra"

	"gateway/coverage"
	"gateway/dmn"
	"gateway/profile"
	"gateway/tck"
)

// casesOptions are the options of test.
type casesOptions struct {
	rowsOptions
	junit      string
	tap, quiet bool
	// coverage is the required percentage of rules, as text, or "".
	coverage string
	// cells is the required percentage of cells, or "".
	cells, borders string
	record         bool
	counts         *coverage.Counts
}

func casesCommand() *cobra.Command {
	var options casesOptions
	c := &cobra.Command{
		Use:   "test [OPTIONS] MODEL.json|FILE.dmn CASES..",
		Short: "Runs test cases against a model: CSV, JSON lines, or XML of the DMN TCK",
		Long: `Writes a line for each value that is due, and then how many passed, failed and asked for what is not supported. In CSV
a column =price has what is due of the decision price, and =risk.level of a part of its result; in JSON they are members.
A cell that is empty asks for nothing.

The status is 1 if a test failed or there was none, 3 if the cases can't be read or name what the model doesn't have.
docs/CASES.md has the forms.`,
		Example: `  desk test examples/parcel.json examples/cases/parcel.cases.csv
  desk test --junit report.xml examples/dmn/dish.dmn examples/dmn/dish.cases.xml`,
		ValidArgsFunction: completeFiles("json", "dmn", "csv", "jsonl", "xml"),
	}
	flags := c.Flags()
	flags.StringVar(&options.junit, "junit", "", "Write a report in JUnit's XML to this `FILE` too")
	flags.BoolVar(&options.tap, "tap", false, "Write the Test Anything Protocol in place of lines")
	flags.BoolVarP(&options.quiet, "quiet", "q", false, "Write no lines of tests that passed")
	flags.StringVar(&options.coverage, "coverage", "", "List rules that no row reached; status 1 below this `PERCENT`")
	flags.Lookup("coverage").NoOptDefVal = "0"
	flags.StringVar(&options.cells, "cells", "", "List cells at which no row missed, too; status 1 below this `PERCENT` of cells")
	flags.Lookup("cells").NoOptDefVal = "0"
	flags.BoolVar(&options.record, "record", false, "Write the rows of a file of requests with their answers, as a first set of cases")
	flags.StringVar(&options.borders, "borders", "", "Write cases at the borders of each table to this `FOLDER`, with their answers")
	flags.StringVar(&options.service, "service", "", "Test this service or decision alone, by its `NAME`; with --record, ask it")
	options.add(flags)
	c.RunE = func(c *cobra.Command, words []string) error {
		if err := options.check(); err != nil {
			return err
		}
		ctx, stop := untilStopped(c)
		defer stop()
		return reported(c.ErrOrStderr(), options.run(ctx, c, words))
	}
	return c
}

// run does what the options ask for.
func (o casesOptions) run(ctx context.Context, c *cobra.Command, words []string) error {
	switch {
	case o.borders != "" && len(words) != 1:
		return wrong("--borders takes a model alone: %s", usageOf(c))
	case o.borders != "":
		return writeBorders(ctx, c, words[0], o)
	case len(words) < 2:
		return wrong("at least two files are due: %s", usageOf(c))
	case o.record && len(words) > 2:
		return wrong("--record takes one file: %q is one too many", words[2])
	case o.record:
		return runRows(ctx, c, words, runOptions{rowsOptions: o.rowsOptions})
	}
	return runTests(ctx, c, words[0], words[1:], o)
}

// runTCK runs TCK test cases, and reports each result node.
func runTCK(ctx context.Context, c *cobra.Command, path, casesPath string, options casesOptions, to caseReport) error {
	read, _, err := readFiles(c, []string{path})
	if err != nil {
		return err
	}
	from, err := open(c, casesPath)
	if err != nil {
		return err
	}
	defer from.Close()
	cases, err := tck.Read(from.name, from)
	if err != nil {
		return refused(err)
	}
	o := options.reading
	o.Service = options.service
	if !namesFit(read[0], cases, o, c.ErrOrStderr()) {
		return ended(statusRefused)
	}
	// Each decision is tested in its own model, whose inputs are counted as in that of the whole file.
	o = profile.Settled(read, o)
	verdicts, err := verdictsOf(ctx, c, read[0], cases, o)
	if err != nil {
		return err
	}
	rules, err := caseRules(ctx, c, path, cases, verdicts, options)
	if err != nil {
		return err
	}
	next := 0
	for at := range cases.Cases {
		count := len(cases.Cases[at].Results)
		if err := addVerdicts(to, casesPath, verdicts[next:next+count], rules[at]); err != nil {
			return err
		}
		next += count
	}
	return nil
}

// verdictsOf runs the cases, with progress on a terminal.
func verdictsOf(ctx context.Context, c *cobra.Command, file *dmn.File, cases *tck.Cases, o profile.Options) ([]tck.Verdict, error) {
	var done atomic.Int64
	results := 0
	for _, it := range cases.Cases {
		results += len(it.Results)
	}
	steps := unit{"results", tck.StepsOfAResult}
	shown := showProgress(c.ErrOrStderr(), "testing", steps, int64(results*tck.StepsOfAResult), done.Load)
	defer shown.stop()
	return tck.Run(ctx, file, cases, func(part *dmn.File) tck.Translation { return translated(part, o) }, &done)
}

// addVerdicts reports a case's verdicts, failed ones with the rules that decided.
func addVerdicts(to caseReport, path string, verdicts []tck.Verdict, rules string) error {
	for _, v := range verdicts {
		if v.Outcome == tck.Fail && rules != "" {
			v.Said += "; rules: " + rules
		}
		if err := to.add(path, v); err != nil {
			return fmt.Errorf("writing the verdicts: %w", err)
		}
	}
	return nil
}

// namesFit reports whether the file has every name in the cases, and reports missing ones. With a service it keeps only the
// result nodes that the service answers.
func namesFit(file *dmn.File, cases *tck.Cases, options profile.Options, faults io.Writer) bool {
	free, refusals := profile.Check([]*dmn.File{file}, options)
	for _, refusal := range refusals {
		fmt.Fprintln(faults, refusal)
	}
	unknown := tck.Faults(file, cases, free)
	for _, fault := range unknown {
		fmt.Fprintln(faults, fault)
	}
	if len(refusals)+len(unknown) > 0 || options.Service == "" {
		return len(refusals)+len(unknown) == 0
	}
	left, found := cases.Only(file, options.Service)
	if !found {
		fmt.Fprintf(faults, "desk test: %s has no service and no decision %q\n", file.Path, options.Service)
	} else if left > 0 {
		fmt.Fprintf(faults, "desk test: %d result nodes of others than %q are left out\n", left, options.Service)
	}
	return found
}

// shownVerdict returns a verdict's line, with a coloured outcome on a terminal.
func shownVerdict(out io.Writer, v tck.Verdict) string {
	colours := map[tck.Outcome]string{tck.Pass: green, tck.Fail: red, tck.Unsupported: yellow}
	line, before := v.String(), len(v.Case)+len("/")+len(v.Node)+len(" ")
	return line[:before] + painted(out, colours[v.Outcome], string(v.Outcome)) + line[before+len(v.Outcome):]
}

// translated imports a part of a file.
func translated(part *dmn.File, options profile.Options) tck.Translation {
	options.Service, options.Partial, options.Part = "", false, true
	result, refusals := profile.Import([]*dmn.File{part}, options)
	if len(refusals) > 0 {
		lines := make([]string, 0, len(refusals))
		for _, refusal := range refusals {
			lines = append(lines, refusal.String())
		}
		return tck.Translation{Refusals: lines}
	}
	return tck.Translation{Model: &result.Model, Names: result.Names, Types: result.Types}
}
