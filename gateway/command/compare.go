package command

import (
	"bufio"
	"bytes"
	"context"
	"encoding/json"
	"errors"
	"fmt"
	"io"
	"os"
	"strings"

	"github.com/spf13/cobra"

	"gateway/cases"
	"gateway/compare"
	"gateway/engine"
	"gateway/lines"
	"gateway/service"
)

// compareOptions are the options of compare.
type compareOptions struct {
	rowsOptions
	html   string
	isJSON bool
}

func compareCommand() *cobra.Command {
	var options compareOptions
	c := &cobra.Command{
		Use:   "compare [OPTIONS] OLD NEW [REQUESTS|-]",
		Short: "Says what differs between two models, and for which requests their answers differ",
		Long: `Lists the inputs, decisions, services, rules and cells that are new, gone or changed. Then it asks both models for the rows
of a file, in the forms of run, and lists the first 100 whose answers differ, with the rules that decided. Without a file
it asks for the borders of the tables that changed.

The status is 0 if nothing differs, and 1 otherwise. docs/CASES.md has more.`,
		Example: `  desk compare examples/parcel.json examples/cases/parcel.new.json
  desk compare --html report.html old.dmn new.dmn requests.csv`,
		ValidArgsFunction: completeFiles("json", "dmn", "csv", "jsonl"),
	}
	flags := c.Flags()
	flags.BoolVar(&options.isJSON, "json", false, "Write JSON in place of lines")
	flags.StringVar(&options.html, "html", "", "Write a page for a browser to this `FILE` too")
	flags.StringVar(&options.service, "service", "", "Ask the service or the decision of this `NAME`")
	options.add(flags)
	c.RunE = func(c *cobra.Command, paths []string) error {
		if len(paths) != 2 && len(paths) != 3 {
			return wrong("two models are due: %s", usageOf(c))
		}
		if err := options.check(); err != nil {
			return err
		}
		ctx, stop := untilStopped(c)
		defer stop()
		return reported(c.ErrOrStderr(), runCompare(ctx, c, paths, options))
	}
	return c
}

// mostDiffering limits the listed requests with different answers.
const mostDiffering = 100

// A comparing compares two models.
type comparing struct {
	command *cobra.Command
	options compareOptions
	engine  string
	names   [2]string
	sources [2]*service.Source
	subject [2]*cases.Subject
	// isAsked means that the engine answered for a model, and so found it valid.
	isAsked [2]bool
	report  compare.Report
	where   string
}

func runCompare(ctx context.Context, c *cobra.Command, paths []string, o compareOptions) error {
	if err := oneStdin(paths); err != nil {
		return err
	}
	it := &comparing{command: c, options: o}
	var err error
	if it.engine, err = engine.Path(); err != nil {
		return err
	}
	for at := range it.sources {
		if err := it.read(at, paths[at]); err != nil {
			return err
		}
	}
	it.report.Old, it.report.New = it.names[0], it.names[1]
	it.report.Differences = []compare.Difference{}
	err = it.compare(ctx, paths)
	if fault := it.check(ctx); fault != nil {
		return fault
	}
	if err != nil {
		return err
	}
	return it.write()
}

// compare reports the differences.
func (it *comparing) compare(ctx context.Context, paths []string) (err error) {
	if it.report.Changes, err = compare.Models(it.sources[0], it.sources[1]); err != nil {
		return refused(err)
	}
	if len(paths) == 3 {
		return it.requests(ctx, paths[2])
	}
	return it.borders(ctx)
}

// check asks the engine whether the models are valid that it hasn't read yet.
func (it *comparing) check(ctx context.Context) error {
	for at, source := range it.sources {
		if it.isAsked[at] {
			continue
		}
		if _, _, err := engine.Check(ctx, it.engine, uint64(it.options.memory), source.Text); err != nil {
			return fmt.Errorf("%s: %w", it.names[at], err)
		}
	}
	return nil
}

// read reads one of the models.
func (it *comparing) read(at int, path string) (err error) {
	it.names[at] = shownAs(path)
	if it.sources[at], err = it.options.readModel(it.command, path); err != nil {
		return err
	}
	it.subject[at], err = cases.NewSubject(it.sources[at])
	return err
}

// side opens a file of rows for one of the models.
func (it *comparing) side(ctx context.Context, at int, rows *cases.File, question *cases.Question) (*cases.Side, error) {
	plan, err := rows.Plan(question, true)
	if err != nil {
		return nil, err
	}
	asked, err := service.Ask(ctx, it.engine, uint64(it.options.memory), question.Source)
	if err != nil {
		return nil, fmt.Errorf("%s: %w", it.names[at], err)
	}
	it.isAsked[at] = true
	asker := it.options.asker(it.command, it.engine)
	asker.Processes = (asker.Processes + 1) / 2
	return &cases.Side{Plan: plan, Asked: asked, Asker: asker}, nil
}

// outputs returns the decisions that both models are asked for: those that the old one answers and the new one has.
func (it *comparing) outputs() (both [2][]string, err error) {
	words, err := it.subject[0].Outputs(it.options.service)
	if err != nil {
		return both, refusedForm(err)
	}
	for _, word := range words {
		if other, is := it.subject[1].Decision(it.subject[0].Name(word)); is {
			both[0], both[1] = append(both[0], word), append(both[1], other)
		}
	}
	return both, nil
}

// requests asks both models about a file's rows.
func (it *comparing) requests(ctx context.Context, path string) error {
	outputs, err := it.outputs()
	if err != nil || len(outputs[0]) == 0 {
		return err
	}
	again, err := readTwice(it.command, path)
	if err != nil {
		return err
	}
	var sides [2]*cases.Side
	options := it.options.files
	options.Unknown = true
	for at := range sides {
		from, err := again()
		if err != nil {
			return err
		}
		defer from.Close()
		rows, err := cases.Open(shownAs(path), from, options)
		if err != nil {
			return refusedForm(err)
		}
		question, err := it.subject[at].QuestionOf(outputs[at], rows.Given(it.subject[at]))
		if err != nil {
			return err
		}
		if sides[at], err = it.side(ctx, at, rows, question); err != nil {
			var faults cases.HeaderFaults
			if errors.As(err, &faults) {
				return refused(faults.In(shownAs(path)))
			}
			return err
		}
	}
	if name := sides[0].Plan.UnknownTo(sides[1].Plan); name != "" {
		return refused(fmt.Errorf("%s: neither model has an input %q", shownAs(path), name))
	}
	it.where = shownAs(path)
	return it.ask(ctx, sides)
}

// borders asks both models about the borders of the changed tables, one table at a time.
func (it *comparing) borders(ctx context.Context) error {
	isSeen := map[string]bool{}
	for _, change := range it.report.Changes {
		if change.Of == "" || isSeen[change.Of] {
			continue
		}
		isSeen[change.Of] = true
		if err := it.tableBorders(ctx, change.Of, changedRules(it.report.Changes, change.Of)); err != nil {
			return err
		}
	}
	return nil
}

// changedRules returns the numbers of a decision's changed rules, in the old and the new model; nil if anything else in its
// table changed.
func changedRules(changes []compare.Change, of string) (only [2]map[int]bool) {
	only = [2]map[int]bool{{}, {}}
	for _, change := range changes {
		switch {
		case change.Of != of:
		case change.Rules == [2]int{}:
			return [2]map[int]bool{}
		default:
			only[0][change.Rules[0]], only[1][change.Rules[1]] = true, true
		}
	}
	return only
}

// tableBorders asks both models about the borders of one decision's table.
func (it *comparing) tableBorders(ctx context.Context, name string, only [2]map[int]bool) error {
	var rows [][]byte
	isSeen := map[string]bool{}
	var sides [2]*cases.Side
	var words, given [2][]string
	for at := range it.subject {
		word, is := it.subject[at].Decision(name)
		if !is {
			return nil
		}
		words[at] = []string{word}
		borders, err := it.subject[at].RuleBorders(word, only[at])
		if err != nil {
			return refused(err)
		}
		if borders != nil {
			given[at], rows = borders.Given, addNew(rows, borders.Rows, isSeen)
		}
	}
	if len(rows) == 0 {
		return nil
	}
	for at := range sides {
		file, err := cases.Open("borders.jsonl", cases.RowsOf(rows), cases.Options{Unknown: true})
		if err != nil {
			return err
		}
		question, err := it.subject[at].QuestionOf(words[at], given[at])
		if err != nil {
			return err
		}
		if sides[at], err = it.side(ctx, at, file, question); err != nil {
			return err
		}
		// A few rows are asked with their rules at once, as each engine must read the model, which may be long.
		sides[at].Asker.Explain = len(rows) <= mostExplained
	}
	it.where = "borders of " + name
	return it.ask(ctx, sides)
}

// addNew adds the rows that are not there yet.
func addNew(rows, more [][]byte, isSeen map[string]bool) [][]byte {
	for _, row := range more {
		if !isSeen[string(row)] {
			rows, isSeen[string(row)] = append(rows, row), true
		}
	}
	return rows
}

// ask compares the answers of both sides.
func (it *comparing) ask(ctx context.Context, sides [2]*cases.Side) error {
	var old, new []*cases.Answered
	left := mostDiffering - len(it.report.Differences)
	err := cases.Pairs(ctx, sides[0], sides[1], func(one, other *cases.Answered) error {
		it.report.Requests++
		if one.IsRefused || other.IsRefused {
			it.report.Refused++
		}
		if cases.SameResult(&one.Answer, &other.Answer) {
			return nil
		}
		it.report.Differ++
		if len(old) < left {
			old, new = append(old, one), append(new, other)
		}
		return nil
	})
	if err != nil || len(old) == 0 {
		return err
	}
	before, err := rulesOf(ctx, sides[0], old)
	if err != nil {
		return err
	}
	after, err := rulesOf(ctx, sides[1], new)
	if err != nil {
		return err
	}
	for at := range old {
		it.report.Differences = append(it.report.Differences, compare.Difference{
			Row: fmt.Sprintf("%s:%d", it.where, old[at].Line), Inputs: inputsOf(sides, old[at], new[at]), Old: answerOf(old[at]), New: answerOf(new[at]),
			OldRules: before[at], NewRules: after[at]})
	}
	return nil
}

// inputsOf returns a row's inputs by name: those that either model takes.
func inputsOf(sides [2]*cases.Side, old, new *cases.Answered) string {
	one, other := sides[0].Plan.Named(old.Inputs), sides[1].Plan.Named(new.Inputs)
	if bytes.Equal(one, other) {
		return string(one)
	}
	tree, err := lines.Tree(one)
	more, fault := lines.Tree(other)
	all, isObject := tree.(map[string]any)
	others, isAlso := more.(map[string]any)
	if err != nil || fault != nil || !isObject || !isAlso {
		return string(one)
	}
	for name, value := range others {
		if _, is := all[name]; !is {
			all[name] = value
		}
	}
	return string(lines.Compact(nil, all))
}

// rulesOf returns the rules that decided some rows, as lines.
func rulesOf(ctx context.Context, side *cases.Side, rows []*cases.Answered) ([]string, error) {
	if !side.Asker.Explain {
		return side.Rules(ctx, rows)
	}
	rules := make([]string, len(rows))
	for at, row := range rows {
		rules[at] = cases.ShownRules(row.Rules)
	}
	return rules, nil
}

// answerOf returns an answer, or why there is none.
func answerOf(row *cases.Answered) string {
	if row.Result != nil {
		return string(row.Result)
	}
	return row.Fault
}

// write writes the report, and returns the status.
func (it *comparing) write() error {
	if it.report.Changes == nil {
		it.report.Changes = []compare.Change{}
	}
	if it.options.html != "" {
		file, err := os.Create(it.options.html)
		if err != nil {
			return err
		}
		if err := firstOf(it.report.WriteHTML(file), file.Close()); err != nil {
			return fmt.Errorf("writing the page: %w", err)
		}
	}
	out := bufio.NewWriter(it.command.OutOrStdout())
	if it.options.isJSON {
		encoder := json.NewEncoder(out)
		encoder.SetEscapeHTML(false)
		if err := encoder.Encode(it.report); err != nil {
			return fmt.Errorf("writing the report: %w", err)
		}
	} else {
		writeComparison(out, &it.report)
	}
	if err := out.Flush(); err != nil {
		return fmt.Errorf("writing the report: %w", err)
	}
	if !it.report.IsSame() {
		return ended(statusFault)
	}
	return nil
}

// writeComparison writes a report as lines.
func writeComparison(to io.Writer, r *compare.Report) {
	for _, change := range r.Changes {
		fmt.Fprintln(to, change)
	}
	for _, it := range r.Differences {
		fmt.Fprintf(to, "%s: %s: %s -> %s%s\n", it.Row, it.Inputs, it.Old, it.New, rulesLine(it))
	}
	changes := "changes"
	if len(r.Changes) == 1 {
		changes = "change"
	}
	fmt.Fprintf(to, "%d %s", len(r.Changes), changes)
	if r.Requests > 0 {
		fmt.Fprintf(to, "; %d of %d requests have other answers", r.Differ, r.Requests)
	}
	if r.Refused > 0 {
		fmt.Fprintf(to, ", %d can't be read", r.Refused)
	}
	fmt.Fprintln(to)
}

func rulesLine(it compare.Difference) string {
	if strings.TrimSpace(it.OldRules+it.NewRules) == "" {
		return ""
	}
	return fmt.Sprintf("; rules: %s -> %s", it.OldRules, it.NewRules)
}
