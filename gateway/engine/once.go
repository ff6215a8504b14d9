package engine

import (
	"bytes"
	"context"
	"errors"
	"fmt"
	"os/exec"
)

// Once runs the engine with these arguments on an input, to its end, and returns what it wrote and its status. An error
// means that it could not be run, or was ended by a signal.
func Once(ctx context.Context, input []byte, words ...string) (output []byte, status int, err error) {
	path, err := Path()
	if err != nil {
		return nil, 0, err
	}
	run := exec.CommandContext(ctx, path, words...)
	run.Stdin = bytes.NewReader(input)
	output, err = run.Output()
	var exit *exec.ExitError
	switch {
	case errors.As(err, &exit) && exit.Exited():
		return output, exit.ExitCode(), nil
	case errors.As(err, &exit):
		return nil, 0, fmt.Errorf("running the engine: %w", err)
	case err != nil:
		return nil, 0, NotStarted(path, err)
	}
	return output, 0, nil
}
