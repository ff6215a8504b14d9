package command

import (
	"errors"
	"fmt"
	"io/fs"

	"gateway/engine"
)

// Exit statuses, the same for every command. replay and serve end with the engine's, which are the first three.
const (
	statusDone = iota
	statusFault
	statusUsage
	statusRefused
	statusStrict
	statusUnopened
)

// statusHelp describes the statuses for users.
const statusHelp = `Status:
  0  done
  1  a fault ended the run, a test failed, or two things differ
  2  the command line is wrong
  3  a model, a file of test cases or a line of requests has faults
  4  check --tables --strict refuses a table, or --strict-null what a service can give
  5  a file can't be opened, or the engine`

// A failure ends a command with a status.
type failure struct {
	status int
	// err is nil if everything has been reported.
	err error
}

func (f *failure) Error() string {
	if f.err == nil {
		return fmt.Sprintf("status %d", f.status)
	}
	return f.err.Error()
}

func (f *failure) Unwrap() error { return f.err }

// ended returns the failure of a command that has reported why.
func ended(status int) error {
	if status == statusDone {
		return nil
	}
	return &failure{status: status}
}

// wrong returns the failure of a wrong command line.
func wrong(form string, words ...any) error {
	return &failure{statusUsage, fmt.Errorf(form, words...)}
}

// refused returns the failure of a faulty model or other file.
func refused(err error) error { return &failure{statusRefused, err} }

// statusOf returns the exit status of an error.
func statusOf(err error) int {
	var known *failure
	switch {
	case err == nil:
		return statusDone
	case errors.As(err, &known):
		return known.status
	case errors.Is(err, engine.ErrNoEngine), isUnopened(err):
		return statusUnopened
	}
	return statusFault
}

// isUnopened reports whether an error means that a file or folder could not be opened.
func isUnopened(err error) bool {
	var path *fs.PathError
	if !errors.As(err, &path) {
		return false
	}
	switch path.Op {
	case "open", "mkdir", "stat", "lstat", "readdirent":
		return true
	}
	return false
}
