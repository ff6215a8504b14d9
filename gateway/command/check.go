package command

import (
	"bytes"
	"encoding/json"
	"fmt"

	"github.com/spf13/cobra"

	"gateway/engine"
	"gateway/profile"
	"gateway/tell"
)

func checkCommand() *cobra.Command {
	c := &cobra.Command{
		Use:   "check [OPTIONS] [MODEL.json|FILE.dmn..|-]",
		Short: "Says whether a model is valid, and otherwise where it is wrong",
		Long: `Reads one model in JSON of any layout, up to 64 MiB: the model itself, or {"model":M} as in a line of serve. A file of DMN
is imported first, and places are those of that file. Without a file it reads standard input.

For a valid model it lists the inputs, the decisions with their kinds, and the services with their parameters; then
warnings, at most 100 of each kind. With --requests the model is the first line, and lines of requests follow as in
serve: it lists what is odd in the first 1,000 of them. For any other model it names the first fault, and the places of
this and of later faults, at most 100 of each. For a text it says where its reading stops and, if known, what to write:

  expression: a text has no reading
  expression: 1 place
    decisions[3] "discount", rule 9, input 3 "age": no unary tests: ">= 5 and < 7"
      stops at "and" (character 6): "," or the end is due
      write [5..7)

With --tables it also lists, for each decision table, values that no rule covers, rules that overlap where that makes
the result null, rules that never apply and rules that never decide: at most 100 of each kind. With --strict the status
is then 4 if a table has one of these, or if that can't be decided. A gap counts among values of the kinds that the
column's tests ask for, and where no output has a default. With domains, gaps and overlaps are those of what can come.

With --gives each decision and service has what it can give, for inputs within their domains: unary tests of constants,
in the line of the model, for inputs and for their components. Of a file of DMN they are its declared types and values.

  {"model":M,"domains":{"age":"[0..120]","kind":"\"new\", \"used\"","applicant.income":">= 0"}}

With --strict-null the status is 4 if a service can give null or break a limit.

Decisions, services and inputs of the model are numbered from 0, as in JSON; rules, columns, members, values and needs
from 1. docs/MODEL.md explains each fault, docs/LINES.md the lines of --json. --format sarif writes SARIF 2.1.0, and
--format github the annotations of GitHub's workflows.`,
		Example: `  desk check examples/loan.json
  desk check --tables --strict examples/dmn/dish.dmn
  desk check --gives examples/dmn/parcel.dmn
  desk check --requests < examples/clients.jsonl`,
		ValidArgsFunction: completeFiles("json", "dmn"),
	}
	var options tell.CheckOptions
	flags := c.Flags()
	format := flags.String("format", string(tell.Text), "Report in this `FORMAT`: text, json, sarif or github")
	isJSON := flags.Bool("json", false, "Report in lines of JSON: --format json")
	flags.BoolVar(&options.Requests, "requests", false, "Requests follow the model, which is the first line")
	flags.BoolVar(&options.Tables, "tables", false, "Say of each decision table whether it covers every case")
	flags.BoolVar(&options.Strict, "strict", false, "With --tables: status 4 if one does not")
	flags.BoolVar(&options.Gives, "gives", false, "Say what each decision and service can give")
	flags.BoolVar(&options.StrictNull, "strict-null", false, "The same, with status 4 if a service can give null or break a limit")
	_ = c.RegisterFlagCompletionFunc("format", completeFormats)
	c.RunE = func(c *cobra.Command, files []string) error {
		if options.Strict && !options.Tables {
			return wrong("--strict needs --tables")
		}
		err := setFormat(c, &options, *format, *isJSON)
		if err != nil {
			return err
		}
		model, err := openModel(c, files, &options)
		if err != nil {
			return err
		}
		defer model.Close()
		path, err := engine.Path()
		if err != nil {
			return err
		}
		shown := readProgress(c.ErrOrStderr(), c.OutOrStdout(), c.Name(), model)
		status, err := tell.Check(c.Context(), path, options, model, c.OutOrStdout(), c.ErrOrStderr())
		shown.stop()
		if err != nil {
			return engine.NotStarted(path, err)
		}
		return ended(status)
	}
	return c
}

// openModel opens the command line's model: one JSON file, standard input, or DMN files, which it imports.
func openModel(c *cobra.Command, files []string, options *tell.CheckOptions) (*source, error) {
	if len(files) == 0 {
		files = []string{dash}
	}
	isImport := true
	for _, path := range files {
		isImport = isImport && isDMN(path, nil)
	}
	switch {
	case isImport && options.Requests:
		return nil, wrong("--requests reads a file of lines: desk import --line %s > FILE, and requests after it", files[0])
	case isImport:
		return importModel(c, files, options)
	case len(files) > 1:
		return nil, wrong("one model is read: %q is one too many", files[1])
	}
	if files[0] != dash {
		options.Name = files[0]
	}
	return open(c, files[0])
}

func completeFormats(*cobra.Command, []string, string) (names []string, _ cobra.ShellCompDirective) {
	for _, format := range tell.Formats {
		names = append(names, string(format))
	}
	return names, cobra.ShellCompDirectiveNoFileComp
}

// setFormat sets the requested format.
func setFormat(c *cobra.Command, options *tell.CheckOptions, name string, isJSON bool) (err error) {
	if options.Format, err = tell.FormatOf(name); err != nil {
		return wrong("--format: %v", err)
	}
	if isJSON && c.Flags().Changed("format") && options.Format != tell.JSON {
		return wrong("--json and --format %s ask for two formats", name)
	}
	if isJSON {
		options.Format = tell.JSON
	}
	options.Version = version
	return nil
}

// importModel imports DMN files to a model, and sets the origins in the options. Findings are reported on standard error, and
// as notices if the format has them.
func importModel(c *cobra.Command, paths []string, options *tell.CheckOptions) (*source, error) {
	read, faults, err := readFiles(c, paths)
	if err != nil {
		return nil, writeRefusals(c, options, faults, err)
	}
	report := profile.Run(read, profile.Options{})
	if !reportImport(c.ErrOrStderr(), report) {
		return nil, writeRefusals(c, options, report.Refusals, ended(statusRefused))
	}
	options.Imported = noticesOf(report.Result.Notes, tell.ImportNote, tell.Note)
	options.Origins = map[string]tell.Spot{}
	for pointer, origin := range report.Result.Origins {
		options.Origins[pointer] = tell.Spot{File: origin.File, Line: origin.Line, Column: origin.Column}
	}
	line, err := withDomains(report.Result)
	if err != nil {
		return nil, refused(err)
	}
	return &source{Reader: bytes.NewReader(line), name: paths[0]}, nil
}

// withDomains returns the line of an imported model with its inputs' domains.
func withDomains(result *profile.Result) ([]byte, error) {
	line, err := profile.Line(&result.Model)
	if err != nil || len(result.Domains) == 0 {
		return line, err
	}
	text, err := json.Marshal(result.Domains)
	if err != nil {
		return nil, fmt.Errorf("writing the domains: %w", err)
	}
	return append(append(append(bytes.TrimSuffix(line, []byte("}")), `,"domains":`...), text...), '}'), nil
}

// writeRefusals writes the places that an import refuses as notices, if the format has them. It returns the error that ended
// the import.
func writeRefusals(c *cobra.Command, options *tell.CheckOptions, refusals []profile.Refusal, ended error) error {
	if !options.Format.HasNotices() || len(refusals) == 0 {
		return ended
	}
	notices := noticesOf(refusals, tell.ImportRefused, tell.Error)
	text, err := tell.WriteNotices(options.Format, notices, options.Version)
	if err != nil {
		return err
	}
	if _, err := c.OutOrStdout().Write(text); err != nil {
		return fmt.Errorf("writing what the import refuses: %w", err)
	}
	return ended
}

// noticesOf returns an import's reports as notices.
func noticesOf(refusals []profile.Refusal, kind string, level tell.Level) []tell.Notice {
	var notices []tell.Notice
	for _, it := range refusals {
		spot := tell.Spot{File: it.File, Line: it.Line, Column: it.Column}
		notices = append(notices, tell.Notice{Kind: kind, Level: level, Spot: spot, Said: it.Sentence()})
	}
	return notices
}
