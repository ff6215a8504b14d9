package command

import (
	"bufio"
	"bytes"
	"encoding/json"
	"fmt"
	"io"
	"runtime/debug"

	"github.com/spf13/cobra"

	"gateway/dmn"
	"gateway/model"
	"gateway/profile"
)

// An import is short, so garbage is collected rarely, up to a heap size from which collection is normal.
const (
	importGarbage = 400
	importMemory  = 400 << 20
)

// importOptions are the options of import.
type importOptions struct {
	line    bool
	reading profile.Options
}

func importCommand() *cobra.Command {
	var options importOptions
	c := &cobra.Command{
		Use:   "import [OPTIONS] FILE.dmn|-.. > MODEL.json",
		Short: "Translates files of DMN 1.1 to 1.5 to a model",
		Long: `Several files are imported to one model. Each place that is not supported is reported on standard error, with what to
write instead; the status is 3 then. docs/DMN.md has each construct.

The model comes with what each input and component may be by the declared types and values, and which ones callers must
give.`,
		Example: `  desk import --line examples/dmn/dish.dmn > dish.jsonl
  desk import - < examples/dmn/dish.dmn`,
		ValidArgsFunction: completeFiles("dmn"),
		RunE: func(c *cobra.Command, paths []string) error {
			if len(paths) == 0 {
				return wrong("at least one file is due: %s", usageOf(c))
			}
			return runImport(c, paths, options)
		},
	}
	c.Flags().BoolVar(&options.line, "line", false, "Write one line with the model alone, as serve reads it")
	readingFlags(c.Flags(), &options.reading)
	return c
}

// runImport reads and translates the files, and writes the model, or what is not supported.
func runImport(c *cobra.Command, paths []string, options importOptions) error {
	if err := oneStdin(paths); err != nil {
		return err
	}
	debug.SetGCPercent(importGarbage)
	debug.SetMemoryLimit(importMemory)
	read, _, err := readFiles(c, paths)
	if err != nil {
		return err
	}
	report := profile.Run(read, options.reading)
	if !reportImport(c.ErrOrStderr(), report) {
		return ended(statusRefused)
	}
	if err := report.Result.UnknownNullable(); err != nil {
		return wrong("%w", err)
	}
	return writeImported(c.OutOrStdout(), report.Result, options.line)
}

// reportImport reports the places and notes of an import, one a line. It returns whether there is a result.
func reportImport(errs io.Writer, report *profile.Report) bool {
	messages := bufio.NewWriter(errs)
	defer messages.Flush()
	for _, refusal := range report.Refusals {
		fmt.Fprintln(messages, refusal)
	}
	if summary := report.Summary(); summary != "" {
		fmt.Fprintln(messages, "desk import: "+summary)
	}
	result := report.Result
	if result == nil {
		return false
	}
	for _, note := range result.Notes {
		fmt.Fprintf(messages, "note: %s\n", note)
	}
	for _, name := range result.LeftOut {
		fmt.Fprintf(messages, "desk import: the decision %q has no service of its own: the model would be longer than a line; "+
			"--service picks it\n", name)
	}
	return true
}

// writeImported writes the model with what its files say about it, or just its line.
func writeImported(out io.Writer, result *profile.Result, lineAlone bool) error {
	line, err := profile.Line(&result.Model)
	if err != nil {
		return err
	}
	if !lineAlone {
		line, err = wholeImport(result)
		if err != nil {
			return fmt.Errorf("writing the model: %w", err)
		}
	}
	if _, err = out.Write(append(line, '\n')); err != nil {
		return fmt.Errorf("writing the model: %w", err)
	}
	return nil
}

func wholeImport(result *profile.Result) ([]byte, error) {
	var text bytes.Buffer
	encoder := json.NewEncoder(&text)
	encoder.SetEscapeHTML(false)
	err := encoder.Encode(struct {
		Model    *model.Model               `json:"model"`
		Names    map[string]string          `json:"names"`
		Locals   map[string]string          `json:"locals,omitempty"`
		Types    map[string]json.RawMessage `json:"types"`
		Domains  map[string]string          `json:"domains,omitempty"`
		Required []string                   `json:"required,omitempty"`
		Places   map[string]profile.Place   `json:"places"`
		// Diagram is where the file draws each input and decision.
		Diagram  map[string]dmn.Box `json:"diagram,omitempty"`
		Language string             `json:"language,omitempty"`
	}{&result.Model, result.Names, result.Locals, result.Types, result.Domains, result.Required, result.Places, result.Diagram, result.Language})
	return bytes.TrimRight(text.Bytes(), "\n"), err
}
