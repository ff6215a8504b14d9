package tell

import (
	"bytes"
	"context"
	"errors"
	"fmt"
	"io"
	"os/exec"
	"runtime/debug"
)

// Exit statuses of `desk check` and `desk explain`.
const (
	// StatusFault means that reading, writing or memory failed.
	StatusFault = 1
	// statusModel means that the model has a fault. statusRefused means that --strict refuses one of its tables, or
	// --strict-null what a service can give.
	statusModel   = 3
	statusRefused = 4
)

// mostBytes limits the model and requests that check reads.
const mostBytes = 64 << 20

// CheckOptions holds the options of `desk check`.
type CheckOptions struct {
	// Format is the output format; empty means text.
	Format Format
	// Name is the file's path as notices show it; empty for standard input. Version is the program's version.
	Name, Version string
	// Origins maps JSON Pointers of an imported model to places in its files. It is nil if the model was read directly.
	Origins map[string]Spot
	// Imported holds notices that go before those of the model.
	Imported []Notice
	// Requests means that the model is the first line and request lines follow.
	Requests bool
	// Tables asks for findings about decision tables. Strict also sets the status if there are any.
	Tables, Strict bool
	// Gives asks what services and decisions can give. StrictNull also sets the status if a service can give null or break a
	// limit.
	Gives, StrictNull bool
	// isRefused means that Strict or StrictNull refuses the model.
	isRefused bool
}

func (o CheckOptions) words() []string {
	words := []string{"check", "--json"}
	for _, option := range []struct {
		is   bool
		word string
	}{{o.Requests, "--requests"}, {o.Tables, "--tables"}, {o.Strict, "--strict"}, {o.Gives, "--gives"},
		{o.StrictNull, "--strict-null"}} {
		if option.is {
			words = append(words, option.word)
		}
	}
	return words
}

// Check runs the engine on the model in in and writes the findings to out, in words. It returns the engine's status. It returns
// an error if the engine could not be run; other failures are reported on errOut.
func Check(ctx context.Context, path string, options CheckOptions, in io.Reader, out, errOut io.Writer) (status int, err error) {
	text := bytes.NewBuffer(make([]byte, 0, mostLine+bytes.MinRead))
	if _, err := text.ReadFrom(io.LimitReader(in, mostBytes+1)); err != nil {
		fmt.Fprintln(errOut, "read")
		return StatusFault, nil
	}
	input := text.Bytes()
	defer collectLess(len(input))()
	output, status, err := run(ctx, path, input, errOut, options.words()...)
	if err != nil {
		return 0, err
	}
	if status != 0 && status != statusModel && status != statusRefused {
		return status, nil
	}
	options.isRefused = status == statusRefused
	reported, err := Told(options, input, output)
	if err != nil && options.Format.HasNotices() {
		fmt.Fprintf(errOut, "desk: what was found could not be written as %s: %v\n", options.Format, err)
		return StatusFault, nil
	}
	if err != nil {
		fmt.Fprintf(errOut, "desk: what was found could not be worded: %v\n", err)
		reported = output
	}
	if _, err := out.Write(reported); err != nil {
		fmt.Fprintln(errOut, "write")
		return StatusFault, nil
	}
	return status, nil
}

const (
	// smallText is the largest text checked without garbage collection, up to this much memory.
	smallText   = 2 << 20
	uncollected = 128 << 20
)

// collectLess turns garbage collection down while a text of this size is checked, as a small text needs little memory anyway.
// Call end to turn it up again.
func collectLess(size int) (end func()) {
	if size > smallText {
		return func() {}
	}
	percent, limit := debug.SetGCPercent(-1), debug.SetMemoryLimit(-1)
	if limit > uncollected {
		debug.SetMemoryLimit(uncollected)
	}
	return func() {
		debug.SetMemoryLimit(limit)
		debug.SetGCPercent(percent)
	}
}

// run runs the engine to its end.
func run(ctx context.Context, engine string, input []byte, errOut io.Writer, words ...string) (output []byte, status int, err error) {
	command := exec.CommandContext(ctx, engine, words...)
	command.Stdin, command.Stderr = bytes.NewReader(input), errOut
	output, err = command.Output()
	var exit *exec.ExitError
	if errors.As(err, &exit) && exit.Exited() {
		return output, exit.ExitCode(), nil
	}
	if err != nil {
		return nil, 0, fmt.Errorf("running the engine %s: %w", engine, err)
	}
	return output, 0, nil
}

// Told words the engine's findings about a model. output holds the engine's lines, input what it read.
func Told(options CheckOptions, input, output []byte) (reported []byte, err error) {
	defer recovered(&err)
	facts, err := readFacts(output)
	if err != nil {
		return nil, err
	}
	r := &report{format: options.Format, name: options.Name, isRefused: options.isRefused && options.Strict, isStrictNull: options.StrictNull,
		facts: facts, text: input}
	if options.Requests {
		r.text, r.requests, _ = bytes.Cut(input, []byte("\n"))
	}
	r.file, r.lines = newFile(r.text), &lineIndex{text: r.text}
	if r.file != nil {
		r.file.origins, r.file.isSpread = options.Origins, isSpread(options.Origins)
	}
	if facts.IsLawful {
		err = r.valid()
	} else {
		r.faulty()
	}
	if err == nil && r.format.HasNotices() {
		return WriteNotices(r.format, append(options.Imported, r.notices...), options.Version)
	}
	return r.out.Bytes(), err
}

// recovered turns a panic into an error.
func recovered(err *error) {
	if cause := recover(); cause != nil {
		*err = fmt.Errorf("a fault of the program: %v", cause)
	}
}
