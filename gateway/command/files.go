package command

import (
	"bytes"
	"errors"
	"fmt"
	"io"
	"os"
	"path/filepath"
	"strings"
	"sync/atomic"
	"syscall"

	"github.com/spf13/cobra"
	"golang.org/x/sys/unix"

	"gateway/dmn"
	"gateway/profile"
)

// dash is the file name for standard input, stdinName its name in messages.
const (
	dash      = "-"
	stdinName = "<stdin>"
)

// A source is an open file of the command line.
type source struct {
	// Reader is an *os.File if the engine may read it itself.
	io.Reader
	// name is its name in messages.
	name string
	file *os.File
}

func (s *source) Close() error {
	if s.file == nil {
		return nil
	}
	return s.file.Close()
}

// open opens a file, or standard input for a dash. It refuses folders.
func open(c *cobra.Command, path string) (*source, error) {
	if path == dash {
		return &source{Reader: c.InOrStdin(), name: stdinName}, nil
	}
	file, err := os.Open(path)
	if err != nil {
		return nil, err
	}
	if about, err := file.Stat(); err == nil && about.IsDir() {
		file.Close()
		return nil, &os.PathError{Op: "open", Path: path, Err: syscall.EISDIR}
	}
	return &source{Reader: file, name: path, file: file}, nil
}

// readAll reads a whole file.
func readAll(c *cobra.Command, path string) ([]byte, error) {
	from, err := open(c, path)
	if err != nil {
		return nil, err
	}
	defer from.Close()
	text, err := io.ReadAll(from)
	if err != nil {
		return nil, fmt.Errorf("reading %s: %w", from.name, err)
	}
	return text, nil
}

// isDMN reports whether a file is DMN, by its name or because it begins like XML.
func isDMN(path string, text []byte) bool {
	if path != dash {
		return strings.EqualFold(filepath.Ext(path), ".dmn")
	}
	text = bytes.TrimPrefix(text, []byte("\xef\xbb\xbf"))
	return bytes.HasPrefix(bytes.TrimLeft(text, " \t\r\n"), []byte("<"))
}

// oneStdin refuses a command line with standard input twice.
func oneStdin(paths []string) error {
	count := 0
	for _, path := range paths {
		if path == dash {
			count++
		}
	}
	if count > 1 {
		return wrong("standard input can be read once: - stands for one file")
	}
	return nil
}

// readFile reads a DMN file.
func readFile(c *cobra.Command, path string) (*dmn.File, error) {
	from, err := open(c, path)
	if err != nil {
		return nil, err
	}
	defer from.Close()
	return dmn.Read(from.name, from)
}

// readFiles reads each file. It reports all that aren't DMN, and returns them as faults.
func readFiles(c *cobra.Command, paths []string) (all []*dmn.File, faults []profile.Refusal, err error) {
	var done atomic.Int64
	shown := showProgress(c.ErrOrStderr(), "reading", files, int64(len(paths)), done.Load)
	defer shown.stop()
	for _, path := range paths {
		done.Add(1)
		file, fault := readFile(c, path)
		var noDMN *dmn.Fault
		switch {
		case errors.As(fault, &noDMN):
			refusal := profile.RefusalOf(shownAs(path), noDMN)
			fmt.Fprintln(c.ErrOrStderr(), refusal)
			faults = append(faults, refusal)
			err = ended(statusRefused)
		case fault != nil:
			return nil, nil, fault
		default:
			all = append(all, file)
		}
	}
	return all, faults, err
}

func shownAs(path string) string {
	if path == dash {
		return stdinName
	}
	return path
}

// openStandardFiles opens closed standard streams, so that no other file gets their numbers. Reading and writing them fails as
// before.
func openStandardFiles() {
	for descriptor, mode := range []int{unix.O_WRONLY, unix.O_RDONLY, unix.O_RDONLY} {
		if _, err := unix.FcntlInt(uintptr(descriptor), unix.F_GETFD, 0); errors.Is(err, unix.EBADF) {
			// The lowest free number is this one.
			_, _ = unix.Open(os.DevNull, mode, 0)
		}
	}
}
