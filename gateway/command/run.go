package command

import (
	"bufio"
	"bytes"
	"context"
	"errors"
	"fmt"
	"io"
	"os"
	"strings"
	"time"

	"github.com/spf13/cobra"
	"github.com/spf13/pflag"

	"gateway/cases"
	"gateway/engine"
	"gateway/profile"
	"gateway/service"
	"gateway/tell"
)

// rowsOptions are the options of commands that read rows.
type rowsOptions struct {
	service   string
	separator string
	encoding  string
	files     cases.Options
	reading   profile.Options // for a DMN file
	processes int
	deadline  duration
	memory    size
}

// runOptions are the options of run.
type runOptions struct {
	rowsOptions
	output                string
	explain, strict, text bool
	misses                bool
}

// add adds the options to a command's.
func (o *rowsOptions) add(flags *pflag.FlagSet) {
	o.deadline, o.memory = duration(20*time.Second), 1<<30
	flags.BoolVar(&o.files.Comma, "comma", false, "Numbers of CSV have a decimal comma")
	flags.StringVar(&o.separator, "separator", "", "The cells of CSV are separated by this `CHARACTER` (default: found in the header)")
	flags.StringVar(&o.encoding, "encoding", "utf-8", "Read files without a byte order mark as utf-8 or windows-1252, by `NAME`")
	flags.BoolVar(&o.files.Unknown, "unknown", false, "Leave alone columns and members that the model doesn't know")
	processesFlag(flags, &o.processes)
	flags.Var(&o.deadline, "deadline", "Give one row this long, 10ms to 1h")
	flags.Var(&o.memory, "memory", "Limit the address space of each engine, from 32MiB on; 0 for no limit")
	translationFlags(flags, &o.reading)
}

// readModel reads a command's model. What is left out of a DMN file is reported on standard error.
func (o *rowsOptions) readModel(c *cobra.Command, path string) (*service.Source, error) {
	reading := o.reading
	reading.Service = o.service
	return readModel(c, []string{path}, reading, func(form string, words ...any) { c.PrintErrf(form+"\n", words...) })
}

// check refuses options out of range.
func (o *rowsOptions) check() error {
	options := service.Options{Processes: o.processes, Deadline: time.Duration(o.deadline), Memory: uint64(o.memory), ClientLimit: 1, Limit: 1,
		AddressLimit: 1, JournalSize: 256 << 20}
	if err := options.Check(); err != nil {
		return wrong("%w", err)
	}
	switch {
	case o.separator == `\t`:
		o.separator = "\t"
	case len(o.separator) > 1 || o.separator == `"`:
		return wrong("--separator is one character, as ; or \\t")
	}
	switch strings.ToLower(o.encoding) {
	case "utf-8", "utf8":
	case "windows-1252", "cp1252", "ansi":
		o.files.IsANSI = true
	default:
		return wrong("--encoding is utf-8 or windows-1252, not %s; UTF-16 is found by itself", o.encoding)
	}
	if o.separator != "" {
		o.files.Separator = o.separator[0]
	}
	return nil
}

func runCommand() *cobra.Command {
	var options runOptions
	c := &cobra.Command{
		Use:   "run [OPTIONS] MODEL.json|FILE.dmn REQUESTS|-",
		Short: "Answers a file of requests: CSV, JSON lines, a JSON array, or lines of serve",
		Long: `Writes each row with its answer, in the form of the file and in its order. In CSV the header names inputs, or parts of them
as applicant.age; results add a column for each decision, as =price, and #fault. In JSON they are members.

Without --service it asks the only service of the model; where there are several, the decisions that no other needs.

A row that can't be read is reported with its place, and the others go on; the status is 3 then. docs/CASES.md has the forms.`,
		Example: `  desk run examples/parcel.json examples/cases/parcel.csv
  desk run --comma examples/parcel.json examples/cases/parcel.excel.csv -o results.csv`,
		ValidArgsFunction: completeFiles("json", "dmn", "csv", "jsonl"),
	}
	flags := c.Flags()
	flags.StringVarP(&options.output, "output", "o", "", "Write the results to this `FILE`")
	flags.StringVar(&options.service, "service", "", "Ask the service or the decision of this `NAME`")
	flags.BoolVar(&options.explain, "explain", false, "Add the rules that decided")
	flags.BoolVar(&options.text, "text", false, "Write how each answer came about, as a text for people")
	flags.BoolVar(&options.misses, "misses", false, "With --text, name for each rule that missed the first column that did not match")
	flags.BoolVar(&options.strict, "strict", false, "Stop at the first row that can't be read")
	options.add(flags)
	c.RunE = func(c *cobra.Command, paths []string) error {
		if len(paths) != 2 {
			return wrong("a model and a file of requests are due: %s", usageOf(c))
		}
		if err := options.check(); err != nil {
			return err
		}
		ctx, stop := untilStopped(c)
		defer stop()
		return reported(c.ErrOrStderr(), runRows(ctx, c, paths, options))
	}
	return c
}

// runRows answers a file's rows.
func runRows(ctx context.Context, c *cobra.Command, paths []string, o runOptions) (err error) {
	rows, err := openRows(ctx, c, paths, &o.rowsOptions, func(s *cases.Subject) (*cases.Question, error) { return s.Question(o.service) })
	if err != nil {
		return err
	}
	defer rows.Close()
	plan, err := rows.plan(true)
	if err != nil {
		return err
	}
	out, err := createOutput(c, o.output, paths)
	if err != nil {
		return err
	}
	written := bufio.NewWriterSize(out, 1<<20)
	defer func() {
		err = firstOf(written.Flush(), closed(out), err)
	}()
	writer, err := o.writer(rows, plan)
	if err != nil {
		return err
	}
	return answerRows(ctx, c, rows, plan, writer, written, o)
}

// answerRows writes each row with its answer, and reports those without.
func answerRows(ctx context.Context, c *cobra.Command, rows *rowsFile, plan *cases.Plan, writer rowWriter, to io.Writer, o runOptions) error {
	asker := o.asker(c, rows.engine)
	asker.Explain, asker.Tells, asker.Misses = o.explain && !o.text, o.text, o.misses && o.text
	unanswered, room := &refusals{to: c.ErrOrStderr(), file: rows.source.name}, writer.Begin(nil)
	shown := rows.progress(c, "running", o.output != "" && o.output != dash)
	defer shown.stop()
	err := asker.Each(ctx, plan, rows.asked, func(row *cases.Row, answer *cases.Answer) error {
		unanswered.add(row, answer)
		if o.strict && answer.IsRefused {
			return errStopped
		}
		room = writer.Row(room, row, answer)
		_, err := to.Write(room)
		room = room[:0]
		return err
	})
	shown.stop()
	if err != nil && !errors.Is(err, errStopped) {
		return err
	}
	if _, err := to.Write(writer.End(room)); err != nil {
		return err
	}
	return unanswered.end()
}

// A rowWriter writes rows with their answers.
type rowWriter interface {
	Begin(to []byte) []byte
	Row(to []byte, row *cases.Row, answer *cases.Answer) []byte
	End(to []byte) []byte
}

// writer writes rows in the form of their file, or texts.
func (o *runOptions) writer(rows *rowsFile, plan *cases.Plan) (rowWriter, error) {
	if !o.text {
		return plan.Writer(o.explain), nil
	}
	written, err := rows.subject.Written()
	if err != nil {
		return nil, refused(err)
	}
	return &textWriter{rows: tell.RowsOf(written)}, nil
}

// A textWriter writes explanations of answers as text.
type textWriter struct{ rows *tell.Rows }

// Begin adds nothing.
func (*textWriter) Begin(to []byte) []byte { return to }

// End adds nothing.
func (*textWriter) End(to []byte) []byte { return to }

// Row adds the text of an answer, or why there is none. What can't be worded is added as it is.
func (w *textWriter) Row(to []byte, row *cases.Row, answer *cases.Answer) []byte {
	switch {
	case row.IsSkipped:
		return to
	case answer.Told == nil:
		return append(to, fmt.Sprintf("line %d: %s\n\n", row.Line, answer.Fault)...)
	}
	var text bytes.Buffer
	if err := w.rows.Write(answer.Told, &text); err != nil {
		return append(append(to, answer.Told...), '\n')
	}
	return append(to, text.Bytes()...)
}

// errStopped ends a run at a row.
var errStopped = errors.New("stopped at a row that can't be read")

// firstOf returns the first error.
func firstOf(errs ...error) error {
	for _, err := range errs {
		if err != nil {
			return err
		}
	}
	return nil
}

// A rowsFile is an open file of rows with its model.
type rowsFile struct {
	*cases.File
	source   *source
	subject  *cases.Subject
	question *cases.Question
	asked    *service.Asked
	engine   string
}

func (r *rowsFile) Close() error { return r.source.Close() }

// openRows reads a model, and opens a file of rows for it.
func openRows(ctx context.Context, c *cobra.Command, paths []string, o *rowsOptions,
	question func(*cases.Subject) (*cases.Question, error)) (*rowsFile, error) {
	if err := oneStdin(paths); err != nil {
		return nil, err
	}
	path, err := engine.Path()
	if err != nil {
		return nil, err
	}
	model, err := o.readModel(c, paths[0])
	if err != nil {
		return nil, err
	}
	rows := &rowsFile{engine: path}
	subject, err := cases.NewSubject(model)
	if rows.subject = subject; err == nil {
		rows.question, err = question(subject)
	}
	if errors.Is(err, service.ErrNoModel) {
		rows.question, err = &cases.Question{Source: model}, nil
	}
	if err != nil {
		return nil, refusedForm(err)
	}
	if rows.asked, err = service.Ask(ctx, path, uint64(o.memory), rows.question.Source); err != nil {
		return nil, fmt.Errorf("%s: %w", shownAs(paths[0]), err)
	}
	if rows.source, err = open(c, paths[1]); err != nil {
		return nil, err
	}
	if rows.File, err = cases.Open(rows.source.name, rows.source, o.files); err != nil {
		rows.source.Close()
		return nil, refusedForm(err)
	}
	return rows, nil
}

// refusedForm returns the failure of a file without rows.
func refusedForm(err error) error {
	if errors.Is(err, cases.ErrForm) {
		return refused(err)
	}
	return err
}

// plan reads the header.
func (r *rowsFile) plan(isRun bool) (*cases.Plan, error) {
	plan, err := r.Plan(r.question, isRun)
	var faults cases.HeaderFaults
	if errors.As(err, &faults) {
		return nil, refused(faults.In(r.source.name))
	}
	return plan, err
}

// progress shows how much of the file is read, unless results go to the terminal.
func (r *rowsFile) progress(c *cobra.Command, what string, isElsewhere bool) *progress {
	total := int64(0)
	if r.source.file != nil {
		if about, err := r.source.file.Stat(); err == nil && about.Mode().IsRegular() {
			total = about.Size()
		}
	}
	if isTerminal(c.OutOrStdout()) && !isElsewhere {
		return nil
	}
	return showProgress(c.ErrOrStderr(), what, megabytes, total, r.Done)
}

func (o *rowsOptions) asker(c *cobra.Command, path string) *cases.Asker {
	return &cases.Asker{Path: path, Memory: uint64(o.memory), Processes: o.processes, Deadline: time.Duration(o.deadline),
		Log: func(form string, words ...any) {
			fmt.Fprintf(c.ErrOrStderr(), c.CommandPath()+": "+form+"\n", words...)
		}}
}

// createOutput makes the file of the results, which must not be one of those read.
func createOutput(c *cobra.Command, path string, read []string) (io.Writer, error) {
	if path == "" || path == dash {
		return c.OutOrStdout(), nil
	}
	if about, err := os.Stat(path); err == nil {
		for _, other := range read {
			if its, err := os.Stat(other); err == nil && os.SameFile(about, its) {
				return nil, wrong("the results would be written over %s", other)
			}
		}
	}
	file, err := os.Create(path)
	if err != nil {
		return nil, err
	}
	return file, nil
}

// closed closes a file, unless it is standard output.
func closed(out io.Writer) error {
	if file, is := out.(*os.File); is && file != os.Stdout {
		return file.Close()
	}
	return nil
}

// mostReported limits the reported rows without an answer.
const mostReported = 100

// refusals reports rows without an answer.
type refusals struct {
	to                    io.Writer
	file                  string
	count, failed, silent int
}

func (r *refusals) add(row *cases.Row, answer *cases.Answer) {
	switch {
	case answer.IsRefused:
		r.count++
	case answer.IsFailed:
		r.failed++
	default:
		return
	}
	if r.count+r.failed > mostReported {
		r.silent++
		return
	}
	if fault := row.Fault(); fault != nil {
		fmt.Fprintf(r.to, "%s:%v\n", r.file, fault)
		return
	}
	fmt.Fprintf(r.to, "%s:%d: %s\n", r.file, row.Line, answer.Fault)
}

// end reports how many rows have no answer, and returns the status.
func (r *refusals) end() error {
	if r.count+r.failed == 0 {
		return nil
	}
	if r.silent > 0 {
		fmt.Fprintf(r.to, "%s: %d more rows have no answer\n", r.file, r.silent)
	}
	if r.failed > 0 {
		return ended(statusFault)
	}
	return ended(statusRefused)
}
