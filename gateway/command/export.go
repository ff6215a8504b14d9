package command

import (
	"bytes"
	"errors"
	"fmt"
	"io"
	"path/filepath"
	"sort"
	"strings"

	"github.com/spf13/cobra"

	"gateway/dmn"
	"gateway/engine"
	"gateway/export"
	"gateway/model"
	"gateway/profile"
)

func exportCommand() *cobra.Command {
	return &cobra.Command{
		Use:   "export MODEL.json|- > FILE.dmn",
		Short: "Writes a model as a file of DMN 1.3, with a diagram",
		Long: `The model is one in JSON, or what import wrote: with that, the file has the names and types of the first one. A model that
is not valid, or has a place that DMN can't express, is reported on standard error; the status is 3 then.`,
		Example:           "  desk export examples/loan.json > loan.dmn",
		ValidArgsFunction: completeFiles("json"),
		RunE: func(c *cobra.Command, words []string) error {
			if len(words) != 1 {
				return wrong("one model is due: %s", usageOf(c))
			}
			return runExport(c, words[0])
		},
	}
}

// runExport writes a model as a DMN file on standard output.
func runExport(c *cobra.Command, path string) error {
	data, err := readAll(c, path)
	if err != nil {
		return err
	}
	source, err := export.Read(data)
	if err != nil {
		return refused(fmt.Errorf("%s: %w", shownAs(path), err))
	}
	source.Title = "model"
	if path != dash {
		source.Title = strings.TrimSuffix(filepath.Base(path), filepath.Ext(path))
	}
	if err := checkModel(c, source); err != nil {
		return err
	}
	file, refusals := fileOf(source, c.ErrOrStderr())
	for _, refusal := range refusals {
		fmt.Fprintf(c.ErrOrStderr(), "%s: %s\n", shownAs(path), refusal)
	}
	if len(refusals) > 0 {
		return ended(statusRefused)
	}
	if _, err := c.OutOrStdout().Write(file); err != nil {
		return fmt.Errorf("writing the file: %w", err)
	}
	return nil
}

// fileOf writes a model's file. An imported model is written so that importing it again gives the same model: with its file's
// texts, names and types, or else with fewer of them, for example where names would run together. If that isn't possible it is
// reported.
func fileOf(source export.Source, faults io.Writer) ([]byte, []export.Refusal) {
	if source.IsWritten {
		file, err := writtenFile(source)
		if err == nil {
			return file, nil
		}
		fmt.Fprintf(faults, "desk export: note: the decimals of the first file can't be written back: %v\n", err)
		source.IsWritten = false
	}
	if len(source.Counted) > 0 {
		fmt.Fprintf(faults, "desk export: note: the file has the model's whole numbers, which count units of the first file: of %s\n",
			strings.Join(source.CountedNames(), ", "))
	}
	return wholeFile(source, faults)
}

// wholeFile returns a model's file with its own numbers.
func wholeFile(source export.Source, faults io.Writer) ([]byte, []export.Refusal) {
	file, refused := export.File(source)
	if !source.Imported {
		return file, refused
	}
	names := source.Names
	for _, way := range []struct{ typed, named bool }{{true, true}, {false, true}, {true, false}, {false, false}} {
		source.Typed, source.Names = way.typed, nil
		if way.named {
			source.Names = names
		}
		again, fine := sameAgain(source)
		if !fine {
			continue
		}
		if !way.named {
			again = withNames(&source, names, again)
			reportDropped(source, names, faults)
		}
		return again, nil
	}
	if len(refused) == 0 {
		fmt.Fprintln(faults, "desk export: note: imported again, the file gives another model, or is refused")
	}
	return file, refused
}

// writtenFile returns a model's file with its first file's texts, and with the known types where allowed. An error says why
// importing it doesn't give the same model.
func writtenFile(source export.Source) (file []byte, err error) {
	decimals := profile.NoDecimals()
	decimals.Named = source.Decimals()
	for _, source.Typed = range []bool{true, false} {
		var refusals []export.Refusal
		if file, refusals = export.File(source); len(refusals) > 0 {
			return nil, errors.New(refusals[0].String())
		}
		if err = importedTo(file, source, profile.Options{Decimals: &decimals}); err == nil {
			return file, nil
		}
	}
	return nil, err
}

// errOtherModel means that a file gives another model.
var errOtherModel = errors.New("imported again, the file gives another model")

// importedTo returns why a file isn't imported to a source's model. Words that only a translation has may differ.
func importedTo(file []byte, source export.Source, options profile.Options) error {
	read, err := dmn.Read("exported.dmn", bytes.NewReader(file))
	if err != nil {
		return err
	}
	result, refusals := profile.Import([]*dmn.File{read}, options)
	if len(refusals) > 0 {
		return errors.New(refusals[0].String())
	}
	got, err := model.Anonymous(&result.Model, model.Spelling{Names: result.Names, Locals: result.Locals}).JSON()
	if err != nil {
		return err
	}
	due, err := model.Anonymous(source.Model, source.File).JSON()
	if err == nil && !bytes.Equal(got, due) {
		err = errOtherModel
	}
	return err
}

// sameAgain writes a source's file, and reports whether importing it gives the same model.
func sameAgain(source export.Source) (file []byte, fine bool) {
	file, refusals := export.File(source)
	return file, len(refusals) == 0 && importsTo(file, source.Model)
}

// mostTrials limits the imports that look for usable names.
const mostTrials = 64

// withNames gives a source, whose file without names is imported to the same model, as many names as possible without changing
// that.
func withNames(source *export.Source, names map[string]string, file []byte) []byte {
	words := make([]string, 0, len(names))
	for word, name := range names {
		if word != name {
			words = append(words, word)
		}
	}
	sort.Strings(words)
	source.Names = map[string]string{}
	trials := 0
	var add func(words []string)
	add = func(words []string) {
		if len(words) == 0 || trials == mostTrials {
			return
		}
		trials++
		tried := *source
		tried.Names = make(map[string]string, len(source.Names)+len(words))
		for word, name := range source.Names {
			tried.Names[word] = name
		}
		for _, word := range words {
			tried.Names[word] = names[word]
		}
		if again, fine := sameAgain(tried); fine {
			source.Names, file = tried.Names, again
		} else if len(words) > 1 {
			add(words[:len(words)/2])
			add(words[len(words)/2:])
		}
	}
	add(words)
	return file
}

// reportDropped reports the names that could not be written, in order.
func reportDropped(source export.Source, names map[string]string, faults io.Writer) {
	var dropped []string
	for word, name := range names {
		if source.Names[word] != name && word != name {
			dropped = append(dropped, fmt.Sprintf("%q is written as %s", name, word))
		}
	}
	sort.Strings(dropped)
	for _, line := range dropped {
		fmt.Fprintf(faults, "desk export: note: %s: beside the other names it would be read otherwise\n", line)
	}
}

// importsTo reports whether a file is imported to a model.
func importsTo(file []byte, due *model.Model) bool {
	read, err := dmn.Read("exported.dmn", bytes.NewReader(file))
	if err != nil {
		return false
	}
	result, refusals := profile.Import([]*dmn.File{read}, profile.Options{})
	if len(refusals) > 0 {
		return false
	}
	got, err := result.Model.JSON()
	if err != nil {
		return false
	}
	want, err := due.JSON()
	return err == nil && bytes.Equal(got, want)
}

// checkModel asks the engine whether the model is valid, and reports its faults.
func checkModel(c *cobra.Command, source export.Source) error {
	text, err := source.Model.JSON()
	if err != nil {
		return err
	}
	said, status, err := engine.Once(c.Context(), text, "check")
	if err != nil || status == statusDone {
		return err
	}
	fmt.Fprintf(c.ErrOrStderr(), "%s", said)
	return ended(statusRefused)
}
