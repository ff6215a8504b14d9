package tell

import (
	"bufio"
	"bytes"
	"context"
	"errors"
	"fmt"
	"io"
	"os/exec"
	"strconv"
)

// ExplainOptions holds the options of `desk explain`.
type ExplainOptions struct {
	// Clients limits the clients with a lane: 1 to 64, or 0 for the engine's default.
	Clients int
	// Misses asks for each rule that missed, Text for text instead of JSON.
	Misses, Text bool
}

func (o ExplainOptions) words() []string {
	words := []string{"explain"}
	if o.Clients > 0 {
		words = append(words, "--clients", strconv.Itoa(o.Clients))
	}
	if o.Misses {
		words = append(words, "--misses")
	}
	return words
}

// Explain has the engine answer the lines in in, and writes to out how each answer came about. It returns the engine's status.
// It returns an error if the engine could not be run; other failures are reported on errOut.
func Explain(ctx context.Context, engine string, options ExplainOptions, in io.Reader, out, errOut io.Writer) (status int, err error) {
	command := exec.CommandContext(ctx, engine, options.words()...)
	command.Stdin, command.Stdout, command.Stderr = in, out, errOut
	var written chan error
	if options.Text {
		command.Stdout = nil
		lines, err := command.StdoutPipe()
		if err != nil {
			return 0, fmt.Errorf("running the engine %s: %w", engine, err)
		}
		written = make(chan error, 1)
		defer lines.Close()
		if err := command.Start(); err != nil {
			return 0, fmt.Errorf("running the engine %s: %w", engine, err)
		}
		go func() { written <- writeTexts(lines, out, errOut) }()
	} else if err := command.Start(); err != nil {
		return 0, fmt.Errorf("running the engine %s: %w", engine, err)
	}
	if written != nil && <-written != nil {
		fmt.Fprintln(errOut, "write")
		_ = command.Process.Kill()
		_ = command.Wait()
		return StatusFault, nil
	}
	err = command.Wait()
	var exit *exec.ExitError
	switch {
	case errors.As(err, &exit) && exit.Exited():
		return exit.ExitCode(), nil
	case err != nil:
		return 0, fmt.Errorf("running the engine %s: %w", engine, err)
	}
	return 0, nil
}

// writeTexts writes a text for each line. It writes what it has before it waits for more.
func writeTexts(from io.Reader, out, errOut io.Writer) error {
	in, to := lineReader{from: bufio.NewReaderSize(from, 64<<10)}, bufio.NewWriterSize(out, 64<<10)
	var e explainer
	for {
		line, err := in.next()
		if len(line) > 0 {
			if fault := e.worded(line, to); fault != nil {
				fmt.Fprintf(errOut, "desk: an answer could not be worded: %v\n", fault)
				fmt.Fprintf(to, "%s\n", line)
			}
		}
		if err != nil || in.from.Buffered() == 0 {
			if fault := to.Flush(); fault != nil || err != nil {
				return fault
			}
		}
	}
}

// worded writes the text of a line.
func (e *explainer) worded(line []byte, out io.Writer) (err error) {
	defer recovered(&err)
	e.write(line, out)
	return nil
}

const (
	// A line of up to usualLine bytes grows its buffer bit by bit. A longer one gets longestLine at once, enough for an
	// explanation of the most decisions. Unused room takes no memory.
	usualLine, longestLine = 1 << 20, 72 << 20
)

// A lineReader reads lines of any length, reusing the buffer of the last.
type lineReader struct {
	from *bufio.Reader
	room []byte
}

// next returns the next line without its newline, valid until the next call. With an error it returns what is left.
func (r *lineReader) next() ([]byte, error) {
	r.room = r.room[:0]
	for {
		piece, err := r.from.ReadSlice('\n')
		if total := len(r.room) + len(piece); total > usualLine && cap(r.room) < longestLine {
			r.room = append(make([]byte, 0, longestLine), r.room...)
		}
		r.room = append(r.room, piece...)
		if err != bufio.ErrBufferFull {
			return bytes.TrimSuffix(r.room, []byte("\n")), err
		}
	}
}
