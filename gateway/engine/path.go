package engine

import (
	"debug/elf"
	"errors"
	"fmt"
	"io/fs"
	"os"
	"os/exec"
	"path/filepath"
	"strings"

	"golang.org/x/sys/unix"
)

// PathVariable is the environment variable that names the engine's file.
const PathVariable = "DESK_ENGINE"

// installed is the engine of an installed program, relative to the program's folder.
const installed = "../libexec/colkuzai/desk"

// ErrNoEngine means that the engine is missing, or can't be run.
var ErrNoEngine = errors.New("the engine, the program that evaluates, can't be run")

// Path returns the engine's file: the one that PathVariable names; else the one installed with this program; else the
// file desk next to this program. The error wraps ErrNoEngine and lists the places.
func Path() (string, error) {
	if path := os.Getenv(PathVariable); path != "" {
		if err := runnable(path); err != nil {
			return "", fmt.Errorf("%w: %s is %s: %v", ErrNoEngine, PathVariable, path, err)
		}
		return path, nil
	}
	own, err := ownFile()
	if err != nil {
		return "", fmt.Errorf("%w: finding this program: %v; set %s to its file", ErrNoEngine, err, PathVariable)
	}
	var tried []string
	for _, candidate := range []string{installed, "desk"} {
		path := filepath.Join(filepath.Dir(own), candidate)
		if path == own {
			continue
		}
		if err = runnable(path); err == nil {
			return path, nil
		}
		tried = append(tried, fmt.Sprintf("%s: %v", path, err))
	}
	return "", fmt.Errorf("%w: %s; set %s to its file", ErrNoEngine, strings.Join(tried, "; "), PathVariable)
}

// ownFile returns the file of this program, without links; without /proc, the name that the caller ran it by.
func ownFile() (string, error) {
	own, err := os.Executable()
	if err != nil {
		if own, err = exec.LookPath(os.Args[0]); err == nil {
			own, err = filepath.Abs(own)
		}
	}
	if err != nil {
		return "", err
	}
	return filepath.EvalSymlinks(own)
}

// runnable reports why a file can't be run, without trying.
func runnable(path string) error {
	about, err := os.Stat(path)
	var fault *fs.PathError
	switch {
	case errors.As(err, &fault):
		return fault.Err
	case err != nil:
		return err
	case about.IsDir():
		return errors.New("it is a folder")
	}
	if err := unix.Access(path, unix.X_OK); err != nil {
		return errors.New("it is not executable")
	}
	return nil
}

// NotStarted returns the error of an engine that the system didn't start. The kernel reports a missing loader as if the
// engine itself were missing.
func NotStarted(path string, err error) error {
	if !errors.Is(err, fs.ErrNotExist) {
		return fmt.Errorf("%w: %s: %v", ErrNoEngine, path, err)
	}
	if loader := loaderOf(path); loader != "" {
		return fmt.Errorf("%w: %s needs glibc 2.34 or later, and its loader %s is missing here", ErrNoEngine, path, loader)
	}
	return fmt.Errorf("%w: %s: %v", ErrNoEngine, path, err)
}

// loaderOf returns the loader that an ELF program asks for; empty if it asks for none, or the loader is there.
func loaderOf(path string) string {
	program, err := elf.Open(path)
	if err != nil {
		return ""
	}
	defer program.Close()
	for _, segment := range program.Progs {
		if segment.Type != elf.PT_INTERP {
			continue
		}
		name := make([]byte, segment.Filesz)
		if _, err := segment.ReadAt(name, 0); err != nil {
			return ""
		}
		loader := strings.TrimRight(string(name), "\x00")
		if _, err := os.Stat(loader); errors.Is(err, fs.ErrNotExist) {
			return loader
		}
	}
	return ""
}
