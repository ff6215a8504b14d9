package engine

import (
	"bufio"
	"bytes"
	"context"
	"encoding/json"
	"errors"
	"fmt"
	"os/exec"
	"strings"
	"time"
)

// checkPatience is how long the check of a model may take.
const checkPatience = 60 * time.Second

// A Place is a line of the engine's check about one place of a model: a fault, or how many more there are.
type Place = json.RawMessage

// A Lawful is the check's description of a valid model.
type Lawful struct {
	Inputs    []string `json:"inputs"`
	Decisions []struct {
		Name string `json:"name"`
		Kind string `json:"kind"`
	} `json:"decisions"`
	Services []ServiceForm `json:"services"`
}

// A ServiceForm is a service and the names of its parameters.
type ServiceForm struct {
	Name       string   `json:"name"`
	Parameters []string `json:"parameters"`
}

// A FaultyModel is the error of a model with a fault, and all its places.
type FaultyModel struct {
	// Fault is the word of its first fault.
	Fault  string
	Places []Place
}

func (f *FaultyModel) Error() string {
	return "the model has a fault: " + f.Fault
}

// Check asks the engine about a model. If it has a fault the error is a *FaultyModel.
func Check(ctx context.Context, path string, memory uint64, text []byte) (*Lawful, []Place, error) {
	ctx, stop := context.WithTimeout(ctx, checkPatience)
	defer stop()
	lines, err := askLines(ctx, path, memory, text, "check", "--json")
	if err != nil {
		return nil, nil, fmt.Errorf("checking the model: %w", ended(err))
	}
	if len(lines) == 0 {
		return nil, nil, errors.New("checking the model: the engine said nothing")
	}
	form := &Lawful{}
	if err := readFirst(lines, form); err != nil {
		return nil, nil, err
	}
	return form, lines[1:], nil
}

// readFirst reads the first line of a check. If the model has a fault the error is a *FaultyModel.
func readFirst(lines []Place, form *Lawful) error {
	var first struct {
		*Lawful
		IsLawful bool   `json:"lawful"`
		Fault    string `json:"fault"`
	}
	first.Lawful = form
	if err := json.Unmarshal(lines[0], &first); err != nil {
		return fmt.Errorf("checking the model: %w", err)
	}
	if !first.IsLawful {
		return &FaultyModel{Fault: first.Fault, Places: lines[1:]}
	}
	return nil
}

// tablesOption asks the check for what is found of decision tables: gaps, overlaps, and rules that never decide. givesOption asks for
// what services and decisions can give.
const (
	tablesOption = "--tables"
	givesOption  = "--gives"
)

// A Known is what an engine's check knows: tablesOption and givesOption.
type Known struct{ Tables, Gives bool }

// Knows reports what the engine's check knows, by its help.
func Knows(ctx context.Context, path string) (known Known) {
	ctx, stop := context.WithTimeout(ctx, checkPatience)
	defer stop()
	lines, err := askLines(ctx, path, 0, nil, "help", "check")
	if err != nil {
		return known
	}
	help := ""
	for _, line := range lines {
		help += strings.TrimSpace(string(line)) + " "
	}
	return Known{Tables: strings.Contains(help, tablesOption), Gives: strings.Contains(help, givesOption)}
}

// Gives asks what the services of a valid model and their decisions can give: a line for each. The text may have domains.
func Gives(ctx context.Context, path string, memory uint64, text []byte) (found []Place, err error) {
	ctx, stop := context.WithTimeout(ctx, checkPatience)
	defer stop()
	lines, err := askLines(ctx, path, memory, text, "check", "--json", givesOption)
	if err != nil {
		return nil, fmt.Errorf("checking what is given: %w", ended(err))
	}
	for _, line := range lines {
		if bytes.HasPrefix(line, []byte(`{"service":`)) || bytes.HasPrefix(line, []byte(`{"decision":`)) {
			found = append(found, line)
		}
	}
	return found, nil
}

// Tables asks what is found about the tables of a valid model: a line for each table and each finding. The text may have domains; if
// they can't be taken the error is a *FaultyModel.
func Tables(ctx context.Context, path string, memory uint64, text []byte) (found []Place, err error) {
	ctx, stop := context.WithTimeout(ctx, checkPatience)
	defer stop()
	lines, err := askLines(ctx, path, memory, text, "check", "--json", tablesOption)
	if err != nil {
		return nil, fmt.Errorf("checking the tables: %w", ended(err))
	}
	if len(lines) > 0 {
		if err := readFirst(lines, &Lawful{}); err != nil {
			return nil, err
		}
	}
	for _, line := range lines {
		if bytes.HasPrefix(line, []byte(`{"table":`)) || bytes.HasPrefix(line, []byte(`{"finding":`)) {
			found = append(found, line)
		}
	}
	return found, nil
}

// ErrEnded means that the engine ended while it read a model, perhaps for want of memory.
var ErrEnded = errors.New("the engine ended at the model")

// ended makes ErrEnded from the exit status of an engine that was given a model.
func ended(err error) error {
	var exit *exec.ExitError
	if errors.As(err, &exit) {
		return fmt.Errorf("%w: %v", ErrEnded, err)
	}
	return err
}

// askLines is ask, and returns the engine's lines.
func askLines(ctx context.Context, path string, memory uint64, input []byte, words ...string) (lines []Place, err error) {
	err = ask(ctx, path, memory, input, func(line []byte, _ bool) error {
		lines = append(lines, append(Place(nil), line...))
		return nil
	}, words...)
	return lines, err
}

// ask runs the engine with these arguments on an input, and passes each line that it writes to take. Of a line over
// MaxAnswer bytes it passes the beginning, and that it was cut. The bytes are valid until take returns.
func ask(ctx context.Context, path string, memory uint64, input []byte, take func(line []byte, cut bool) error, words ...string) error {
	p, err := begin(path, memory, words...)
	if err != nil {
		return err
	}
	p.widen()
	go func() {
		_, _ = p.in.Write(input)
		_ = p.in.Close()
	}()
	taken := make(chan error, 1)
	go func() {
		taken <- takeLines(p, take)
	}()
	select {
	case fault := <-taken:
		err = p.wait()
		var exit *exec.ExitError
		// Status 3 means that the model has a fault.
		if errors.As(err, &exit) && exit.ExitCode() == 3 {
			err = nil
		}
		if err == nil {
			err = fault
		}
		return err
	case <-ctx.Done():
		p.kill()
		<-taken
		_ = p.wait()
		return ctx.Err()
	}
}

// takeLines reads to the end, even after take fails, since the engine waits for a reader.
func takeLines(p *process, take func(line []byte, cut bool) error) (fault error) {
	from := bufio.NewReaderSize(p.out, 64<<10)
	for {
		text, cut, err := readLine(from)
		if err != nil {
			return fault
		}
		if fault == nil {
			fault = take(text, cut)
		}
	}
}

// Try gives a model to a new engine, and returns why it refuses it.
func Try(ctx context.Context, path string, memory uint64, model *Model) error {
	ctx, stop := context.WithTimeout(ctx, checkPatience)
	defer stop()
	lines, err := askLines(ctx, path, memory, model.AppendLine(nil), "serve")
	if err != nil {
		return fmt.Errorf("trying the model: %w", ended(err))
	}
	if len(lines) != 1 || !bytes.Equal(lines[0], []byte(`{"line":1,"model":true}`)) {
		return fmt.Errorf("trying the model: the engine said %q", lines)
	}
	return nil
}

// Version returns the engine's version, such as "0.9.0".
func Version(ctx context.Context, path string) (string, error) {
	ctx, stop := context.WithTimeout(ctx, checkPatience)
	defer stop()
	lines, err := askLines(ctx, path, 0, nil, "--version")
	if err != nil {
		return "", fmt.Errorf("asking for the engine's version: %w", err)
	}
	if len(lines) == 0 || !strings.HasPrefix(string(lines[0]), "desk ") {
		return "", errors.New("asking for the engine's version: it has none")
	}
	return strings.TrimSpace(strings.TrimPrefix(string(lines[0]), "desk ")), nil
}
